"""Directions for links without a cycle: an order of nodes, by which each link leads from its earlier end to the later one.

A flow to one sink can do without cycles, but flows to several sinks may want a link in both directions. What an order
keeps for a sink is its greatest flow along the order; the greatest flow over both directions is the most that any order
keeps. The search is for an order that keeps as much for the sink that has least:

- For an order, each sink gets a flow of the size that is tried, of which as little as possible goes against the order.
- For flows, single nodes are moved in the order while less of the flows goes against it.

Both are done in turn. What still goes against the order gets dearer each time, which leads out of orders that no single
step betters. There is no chance in it: the same graph has the same order.
"""
from __future__ import annotations

import heapq
from collections import deque
from dataclasses import dataclass
from fractions import Fraction
from typing import Iterable, Iterator, Mapping, Sequence

# How often flows and order are found in turn from where a search begins, and how many ways are looked at in all: some 20
# seconds.
MOST_TURNS = 250
MOST_STEPS = 60_000_000


@dataclass(frozen=True)
class Way:
    """What two nodes carry between them: most from the first to the second, and most back."""

    tail: int
    head: int
    ahead: int
    back: int


@dataclass(frozen=True)
class Kept:
    """An order of nodes, for each sink the greatest flow along it and that over both directions, and a bound.

    No order gives each sink more than the bound.
    """

    order: tuple[int, ...]
    along: tuple[int, ...]
    greatest: tuple[int, ...]
    bound: int


# Orders


def ways_of(links: Iterable[tuple[int, int, int]], directed: bool) -> list[Way]:
    """The ways of links, each with its ends and what it carries; links between the same nodes are one way."""
    ahead: dict[tuple[int, int], int] = {}
    for tail, head, capacity in links:
        if tail != head:
            ahead[tail, head] = ahead.get((tail, head), 0) + capacity
            ahead.setdefault((head, tail), 0)
    return [
        Way(tail, head, most, ahead[head, tail]) if directed else Way(tail, head, *[most + ahead[head, tail]] * 2)
        for (tail, head), most in ahead.items()
        if tail < head
    ]


def distances(links: Iterable[tuple[int, int, Fraction]], source: int, directed: bool) -> dict[int, Fraction]:
    """For each node that the source reaches how far it is, by links with their ends and lengths."""
    ways: dict[int, list[tuple[int, Fraction]]] = {}
    for tail, head, length in links:
        ways.setdefault(tail, []).append((head, length))
        if not directed:
            ways.setdefault(head, []).append((tail, length))
    found: dict[int, Fraction] = {}
    queue = [(Fraction(0), source)]
    while queue:
        far, node = heapq.heappop(queue)
        if node in found:
            continue
        found[node] = far
        for other, length in ways.get(node, ()):
            if other not in found:
                heapq.heappush(queue, (far + length, other))
    return found


def settled(nodes: Sequence[int], links: Iterable[tuple[int, int]]) -> list[int]:
    """The nodes in their order, but for what links without a cycle need to lead from earlier nodes to later ones."""
    place = {node: number for number, node in enumerate(nodes)}
    after: dict[int, list[int]] = {node: [] for node in nodes}
    waits = dict.fromkeys(nodes, 0)
    for tail, head in links:
        after[tail].append(head)
        waits[head] += 1
    free = [place[node] for node in nodes if not waits[node]]
    order = []
    while free:
        order.append(nodes[heapq.heappop(free)])
        for head in after[order[-1]]:
            waits[head] -= 1
            if not waits[head]:
                heapq.heappush(free, place[head])
    return order


def depth_first(starts: Sequence[int], links: Iterable[tuple[int, int]]) -> list[int]:
    """The nodes that directed links reach from some, in an order that no link goes against but one that closes a cycle."""
    ways: dict[int, list[int]] = {}
    for tail, head in links:
        ways.setdefault(tail, []).append(head)
    seen: set[int] = set()
    finished: list[int] = []
    for start in reversed(starts):
        path = [(start, iter(ways.get(start, ())))] if start not in seen else []
        seen.add(start)
        while path:
            node, heads = path[-1]
            head = next((one for one in heads if one not in seen), -1)
            if head < 0:
                finished.append(node)
                path.pop()
            else:
                seen.add(head)
                path.append((head, iter(ways.get(head, ()))))
    return finished[::-1]


# Flows


class _Flows:
    """The flows of a network. A flow has a number for each way, which is below 0 where it leads back."""

    def __init__(self, count: int, ways: Sequence[Way], source: int, sinks: Sequence[int]):
        self.ways, self.source, self.sinks = ways, source, sinks
        # For each node its ways, with the node at the other end, and whether they lead there ahead.
        self.around: list[list[tuple[int, int, bool]]] = [[] for _ in range(count)]
        for number, way in enumerate(ways):
            self.around[way.tail].append((way.head, number, True))
            self.around[way.head].append((way.tail, number, False))
        # How many ways were looked at.
        self.steps = 0

    def most_at(self, node: int, leave: bool) -> int:
        """What all ways of a node carry away from it, or to it."""
        return sum(
            self.ways[number].ahead if forward == leave else self.ways[number].back
            for _, number, forward in self.around[node]
        )

    def greatest(self, sink: int) -> int:
        """The greatest flow over both directions."""
        most = min(self.most_at(self.source, True), self.most_at(sink, False))
        return self.along([-way.back for way in self.ways], [way.ahead for way in self.ways], sink, most)[0]

    def within(self, rank: Sequence[int]) -> tuple[list[int], list[int]]:
        """The bounds of flows along an order, in which each node has a rank."""
        leads = [rank[way.tail] < rank[way.head] for way in self.ways]
        low = [0 if ahead else -way.back for ahead, way in zip(leads, self.ways)]
        return low, [way.ahead if ahead else 0 for ahead, way in zip(leads, self.ways)]

    def along(self, low: Sequence[int], high: Sequence[int], sink: int, most: int) -> tuple[int, list[int]]:
        """A greatest flow within bounds, which is no more than is asked for, and its size."""
        flow, size = [0] * len(self.ways), 0
        while size < most:
            came = self.search(low, high, flow, sink)
            if sink not in came:
                break
            size += self.augment(came, low, high, flow, sink, most - size)
        return size, flow

    def search(
        self, low: Sequence[int], high: Sequence[int], flow: Sequence[int], sink: int
    ) -> dict[int, tuple[int, int, bool]]:
        """For each node that more flow reaches before the sink, breadth first, the node, the way and the side it comes from."""
        came = {self.source: (-1, -1, True)}
        queue = deque([self.source])
        while queue and sink not in came:
            node = queue.popleft()
            self.steps += len(self.around[node])
            for other, number, forward in self.around[node]:
                if other not in came and (flow[number] < high[number] if forward else flow[number] > low[number]):
                    came[other] = (node, number, forward)
                    queue.append(other)
        return came

    def path(self, came: Mapping[int, tuple[int, int, bool]], sink: int) -> list[tuple[int, bool]]:
        """The ways by which the sink was reached."""
        path, node = [], sink
        while node != self.source:
            node, number, forward = came[node]
            path.append((number, forward))
        return path

    def augment(
        self,
        came: Mapping[int, tuple[int, int, bool]],
        low: Sequence[int],
        high: Sequence[int],
        flow: list[int],
        sink: int,
        most: int,
    ) -> int:
        """Adds to a flow what its path can carry, and no more than is asked for; how much that is."""
        path = self.path(came, sink)
        room = (high[number] - flow[number] if forward else flow[number] - low[number] for number, forward in path)
        more = min(most, *room)
        for number, forward in path:
            flow[number] += more if forward else -more
        return more

    def complete(
        self, rank: Sequence[int], prices: Sequence[Sequence[int]], flow: list[int], sink: int, size: int, most: int
    ) -> None:
        """Adds to a greatest flow along an order what it lacks, where going against the order costs least."""
        while size < most:
            came = self.cheapest(rank, prices, flow)
            if sink not in came:
                return
            # Only so much that no price changes on the path.
            ways = self.ways
            low = [0 if carried > 0 else -way.back for way, carried in zip(ways, flow)]
            high = [0 if carried < 0 else way.ahead for way, carried in zip(ways, flow)]
            size += self.augment(came, low, high, flow, sink, most - size)

    def cheapest(
        self, rank: Sequence[int], prices: Sequence[Sequence[int]], flow: Sequence[int]
    ) -> dict[int, tuple[int, int, bool]]:
        """The same as a search, over all ways that more flow can take, by which each node is reached at the least price."""
        came = {self.source: (-1, -1, True)}
        price = {self.source: 0}
        queue, queued = deque([self.source]), {self.source}
        while queue:
            node = queue.popleft()
            queued.discard(node)
            self.steps += len(self.around[node])
            for other, number, forward in self.around[node]:
                carried, way = (flow[number], self.ways[number].ahead) if forward else (-flow[number], self.ways[number].back)
                if carried >= way or other == self.source:
                    continue
                against = rank[node] > rank[other]
                if carried < 0:
                    # What flows towards the node is taken back.
                    step = 0 if against else -prices[number][forward]
                else:
                    step = prices[number][not forward] if against else 0
                if price[node] + step < price.get(other, price[node] + step + 1):
                    price[other] = price[node] + step
                    came[other] = (node, number, forward)
                    if other not in queued:
                        queued.add(other)
                        if queue and price[other] < price[queue[0]]:
                            queue.appendleft(other)
                        else:
                            queue.append(other)
        return came

    def bound(self, most: int, most_steps: int) -> int:
        """What no order is above for the sink that has least, and no more than what is given.

        Of any set of sinks the first one in an order gets nothing by way of the others. So no order is above the
        greatest of the flows that do without all other sinks of the set. The sets are those of the sinks that have less
        than the bound found so far.
        """
        waiting = set(self.sinks)
        while waiting and self.steps <= most_steps:
            low = [0 if way.head in waiting else -way.back for way in self.ways]
            high = [0 if way.tail in waiting else way.ahead for way in self.ways]
            sizes = {sink: self.along(low, high, sink, most)[0] for sink in sorted(waiting)}
            most = min(most, max(sizes.values()))
            waiting -= {sink for sink, size in sizes.items() if size >= most}
        return most

    # The search for an order

    def reorder(self, order: list[int], rank: list[int], weights: Sequence[Sequence[int]]) -> None:
        """Moves nodes, but not the source, while the weight of what goes against the order falls."""
        for _ in range(20):
            moved = False
            for node in list(order):
                here, place = rank[node], self.best_place(node, rank, weights)
                if node != self.source and place is not None:
                    del order[here]
                    order.insert(place, node)
                    for number in range(min(here, place), max(here, place) + 1):
                        rank[order[number]] = number
                    moved = True
            if not moved:
                return

    def best_place(self, node: int, rank: Sequence[int], weights: Sequence[Sequence[int]]) -> int | None:
        """The place in an order at which a node has least weight against it, if that is less than where it is."""
        here = rank[node]
        # The places of the nodes around, with the weight that leads from the node to each, and to the node.
        beside = sorted(
            (rank[other], weights[number][not ahead], weights[number][ahead]) for other, number, ahead in self.around[node]
        )
        self.steps += len(beside)
        now = sum(leaves if place < here else enters for place, leaves, enters in beside)
        best, found = now, None
        weight = sum(enters for _, _, enters in beside)
        if weight < best:
            best, found = weight, max(beside[0][0], 1)
        for place, leaves, enters in beside:
            weight += leaves - enters
            if weight < best:
                best, found = weight, place + (place < here)
        return found

    def agree(self, start: Sequence[int], size: int, most_steps: int) -> tuple[list[int], int]:
        """The best order that is found where each sink is to have a flow of a size, and the least of the flows.

        The search begins with an order, and where it fails anew with that in which sinks are last, and with both backwards.
        """
        first, rest = start[0], start[1:]
        later = [node for node in rest if node not in self.sinks] + [node for node in rest if node in self.sinks]
        best, found = (-1, -1), list(start)
        for begin in (rest, later, rest[::-1], later[::-1]):
            for sizes, order in self.turns([first, *begin], size):
                if (min(sizes), sum(sizes)) > best:
                    best, found = (min(sizes), sum(sizes)), order
                if min(sizes) == size or self.steps > most_steps:
                    return found, best[0]
        return found, best[0]

    def turns(self, order: list[int], size: int) -> Iterator[tuple[list[int], list[int]]]:
        """Orders from one on, each with the flows along it."""
        prices = [[1, 1] for _ in self.ways]
        rank = ranks(order, len(self.around))
        for _ in range(MOST_TURNS):
            low, high = self.within(rank)
            sizes, weights = [], [[0, 0] for _ in self.ways]
            for sink in self.sinks:
                along, flow = self.along(low, high, sink, size)
                sizes.append(along)
                self.complete(rank, prices, flow, sink, along, size)
                for number, carried in enumerate(flow):
                    if carried:
                        weights[number][carried < 0] += abs(carried) * prices[number][carried < 0]
            yield sizes, list(order)
            for way, price, weight in zip(self.ways, prices, weights):
                against = rank[way.tail] > rank[way.head]
                price[not against] += 1 if weight[not against] else 0
            self.reorder(order, rank, weights)


def ranks(order: Sequence[int], count: int) -> list[int]:
    """The place of each node in an order; of one that isn't in it, that behind all."""
    rank = [len(order)] * count
    for place, node in enumerate(order):
        rank[node] = place
    return rank


def order_for_flow(
    count: int, ways: Sequence[Way], source: int, sinks: Sequence[int], start: Sequence[int], most_steps: int = MOST_STEPS
) -> Kept:
    """An order of the nodes of another one, which begins with the source, in which the sink that has least gets most.

    It is the order that is given, but for what the flows need.
    """
    flows = _Flows(count, ways, source, sinks)
    greatest = tuple(flows.greatest(sink) for sink in sinks)

    def along(order: Sequence[int], sizes: Sequence[int]) -> list[tuple[int, list[int]]]:
        low, high = flows.within(ranks(order, count))
        return [flows.along(low, high, sink, size) for sink, size in zip(sinks, sizes)]

    order, bound = list(start), flows.bound(min(greatest), most_steps)
    least, most = min(size for size, _ in along(order, greatest)), bound
    while least < most and flows.steps < most_steps:
        size = (least + most + 1) // 2 if most - least > 2 else most
        found, reached = flows.agree(order, size, most_steps)
        if reached > least:
            order, least = found, reached
        if reached < size:
            most = size - 1
    needed = {
        (way.tail, way.head) if carried > 0 else (way.head, way.tail)
        for _, flow in along(order, [least] * len(sinks))
        for way, carried in zip(ways, flow)
        if carried
    }
    order = settled(start, sorted(needed))
    return Kept(tuple(order), tuple(size for size, _ in along(order, greatest)), greatest, bound)
