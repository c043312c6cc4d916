"""Greatest flows and least cuts of networks of lif, in which each link carries one symbol."""
from __future__ import annotations

from collections import deque
from dataclasses import dataclass
from typing import Collection, Iterable, Mapping

from lif_tools.formats import Network


def reachable(start: Iterable[int], ways: Mapping[int, Iterable[int]]) -> set[int]:
    """The nodes that are reached from some, by the nodes that each leads to."""
    found = set(start)
    queue = list(found)
    while queue:
        for node in ways.get(queue.pop(), ()):
            if node not in found:
                found.add(node)
                queue.append(node)
    return found


@dataclass(frozen=True)
class Certificate:
    """What shows how much one sink can get: paths without a common link, and a side that as many links leave.

    The side is the least one: the nodes that the source still reaches beside the flow.
    """

    side: tuple[int, ...]
    cross: tuple[int, ...]
    paths: tuple[tuple[int, ...], ...]

    @property
    def value(self) -> int:
        return len(self.cross)


class _Flow:
    """A flow from the source, in which each link is used or free; failed links are neither."""

    def __init__(self, network: Network, failed: Collection[int]):
        self.network = network
        self.used = [False] * len(network.links)
        self.failed = set(failed)
        self.out = network.links_by(lambda link: link.tail)
        self.into = network.links_by(lambda link: link.head)

    def ways_on(self, node: int) -> list[tuple[int, int]]:
        """The links by which a node reaches others, free ones forward and used ones back, with the node reached."""
        links = self.network.links
        return [
            (link, links[link].head) for link in self.out[node] if not self.used[link] and link not in self.failed
        ] + [(link, links[link].tail) for link in self.into[node] if self.used[link]]

    def search(self, sink: int) -> dict[int, tuple[int, int]]:
        """For each node that the source reaches before the sink, breadth first, the link and the node by which it does."""
        source = self.network.source
        came = {source: (-1, -1)}
        queue = deque([source])
        while queue and sink not in came:
            node = queue.popleft()
            for link, reached in self.ways_on(node):
                if reached not in came:
                    came[reached] = (link, node)
                    queue.append(reached)
        return came

    def augment(self, came: dict[int, tuple[int, int]], sink: int) -> None:
        """Turns the links of the way to the sink."""
        node = sink
        while node != self.network.source:
            link, node = came[node]
            self.used[link] = not self.used[link]

    def paths(self, sink: int) -> tuple[tuple[int, ...], ...]:
        """The paths that the flow is made of, at each node by the least used link that is left."""
        left = [[link for link in links if self.used[link]] for links in self.out]
        found = []
        while left[self.network.source]:
            node, path = self.network.source, []
            while node != sink:
                path.append(left[node].pop(0))
                node = self.network.links[path[-1]].head
            found.append(tuple(path))
        return tuple(found)


def certificate(network: Network, sink: int, failed: Collection[int]) -> Certificate:
    """The greatest flow and the least cut of the sink at a node where links fail."""
    flow = _Flow(network, failed)
    came = flow.search(sink)
    while sink in came:
        flow.augment(came, sink)
        came = flow.search(sink)
    return Certificate(tuple(sorted(came)), cross_of(network, came, flow.failed), flow.paths(sink))


def cross_of(network: Network, side: Collection[int], failed: Collection[int]) -> tuple[int, ...]:
    """The links that leave a side and haven't failed."""
    return tuple(
        number
        for number, link in enumerate(network.links)
        if link.tail in side and link.head not in side and number not in failed
    )


def fault_of(network: Network, sink: int, failed: Collection[int], found: Certificate) -> str | None:
    """Why a certificate doesn't show the least cut of the sink at a node where links fail; none where it does."""
    used: set[int] = set(failed)
    for path in found.paths:
        nodes = [network.source] + [network.links[link].head for link in path]
        if [network.links[link].tail for link in path] != nodes[:-1] or nodes[-1] != sink:
            return "a path doesn't lead from the source to the sink"
        if used.intersection(path) or len(set(path)) < len(path):
            return "a link stands on two paths, or fails"
        used.update(path)
    if network.source not in found.side or sink in found.side:
        return "the side doesn't part the sink from the source"
    if found.cross != cross_of(network, found.side, failed):
        return "the cut isn't the links that leave the side"
    return None if len(found.paths) == len(found.cross) else "there aren't as many paths as links in the cut"


def rate_under(network: Network, failed: Collection[int]) -> int:
    """The least of all sinks' least cuts where links fail."""
    return min(certificate(network, sink, failed).value for sink in network.sinks)
