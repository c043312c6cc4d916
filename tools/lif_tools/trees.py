"""Trees from the source to all sinks in networks without a cycle: a cheapest one, and ones that share no link.

All is in whole numbers, and each search goes through all trees: none is left out but where another one is as good.
"""
from __future__ import annotations

import heapq
import itertools
import time
from dataclasses import dataclass
from functools import cache, cached_property
from typing import Any, Collection, Iterator, Sequence

from lif_tools.common import module
from lif_tools.flows import certificate, reachable
from lif_tools.formats import Network

# More than any tree costs; twice as much is still a whole number of 64 bits.
FAR = 1 << 61

# Nodes that may come next are compared, but at most so many.
MOST_COMPARED = 64

# The split of sinks between two nodes is looked at for so many nodes at a time.
SPLITS_A_STEP = 64

# A choice of trees at a node counts as so many steps, and the time is looked at each so many choices.
STEPS_A_CHOICE = 20
CHOICES_A_LOOK = 512


class TooDear(Exception):
    """A search would take more steps, or more time, than it may."""


class Effort:
    """What a search may take: so many steps, and the time until a deadline."""

    def __init__(self, most: int, deadline: float):
        self.most = most
        self.deadline = deadline

    def seconds(self) -> float:
        """How much time is left."""
        return self.deadline - time.monotonic()

    def late(self) -> bool:
        return self.seconds() <= 0

    def look(self) -> None:
        """Ends a search where the time is over."""
        if self.late():
            raise TooDear


# Problems


@dataclass(frozen=True)
class Arc:
    """All links from one node to another, and how many they are."""

    tail: int
    head: int
    room: int


@dataclass(frozen=True)
class Problem:
    """The arcs over which the sinks are reached where some links fail.

    Nodes are numbered in an order of those of the network: the source is 0, and each arc leads to a higher number. The
    cut has as many links as each sink can get symbols, and each tree has an arc of it.
    """

    order: tuple[int, ...]
    sinks: tuple[int, ...]
    arcs: tuple[Arc, ...]
    cut: tuple[int, ...]

    @property
    def nodes(self) -> int:
        return len(self.order)

    @property
    def rate(self) -> int:
        return sum(self.arcs[number].room for number in self.cut)

    @cached_property
    def into(self) -> list[list[int]]:
        """For each node the arcs into it."""
        found: list[list[int]] = [[] for _ in range(self.nodes)]
        for number, arc in enumerate(self.arcs):
            found[arc.head].append(number)
        return found

    @cached_property
    def out(self) -> list[list[int]]:
        """For each node the arcs out of it."""
        found: list[list[int]] = [[] for _ in range(self.nodes)]
        for number, arc in enumerate(self.arcs):
            found[arc.tail].append(number)
        return found

    @cached_property
    def done(self) -> list[int]:
        """For each node the nodes, as bits, out of which no arc leads beyond it."""
        found = [0] * self.nodes
        for node in range(self.nodes):
            found[max([node] + [self.arcs[number].head for number in self.out[node]])] |= 1 << node
        return found

    @cached_property
    def steps_by_nodes(self) -> int:
        """About how many steps it takes to find a cheapest tree node by node."""
        steps, open_nodes, sinks = 0, 1, sum(1 << sink for sink in self.sinks)
        for node in range(1, self.nodes):
            steps += (1 + len(self.into[node])) << min((open_nodes & ~sinks & ~1).bit_count(), 64)
            open_nodes = (open_nodes | 1 << node) & ~self.done[node]
        return steps

    @cached_property
    def steps_by_sinks(self) -> int:
        """About how many steps it takes to find a cheapest tree for each set of sinks."""
        sets, splits = 2, 3
        for _ in self.sinks[1:]:
            sets, splits = 2 * sets, 3 * splits
        return splits * self.nodes // (2 * SPLITS_A_STEP) + sets * (len(self.arcs) + SPLITS_A_STEP)


def problem_of(network: Network, failed: Collection[int]) -> Problem:
    """The links that haven't failed and lie on a way from the source to a sink, parallel ones together."""
    rooms: dict[tuple[int, int], int] = {}
    for number, link in enumerate(network.links):
        if number not in failed:
            rooms[link.tail, link.head] = rooms.get((link.tail, link.head), 0) + 1
    ahead: dict[int, list[int]] = {}
    back: dict[int, list[int]] = {}
    for tail, head in rooms:
        ahead.setdefault(tail, []).append(head)
        back.setdefault(head, []).append(tail)
    useful = reachable((network.source,), ahead) & reachable(network.sinks, back)
    ends = [(tail, head) for tail, head in rooms if tail in useful and head in useful]
    order = tuple(narrow_order(network.source, ends))
    number_of = {node: number for number, node in enumerate(order)}
    least = min((certificate(network, sink, failed) for sink in network.sinks), key=lambda found: found.value)
    side = set(least.side)
    return Problem(
        order,
        tuple(sorted(number_of[sink] for sink in network.sinks if sink in number_of)),
        tuple(Arc(number_of[tail], number_of[head], rooms[tail, head]) for tail, head in ends),
        tuple(number for number, (tail, head) in enumerate(ends) if tail in side and head not in side),
    )


def narrow_order(source: int, ends: Collection[tuple[int, int]]) -> list[int]:
    """An order of the nodes in which each comes after those of which an arc leads to it, and few wait at a time.

    A node waits from its own place until that of the last node to which an arc leads from it.
    """
    ahead: dict[int, list[int]] = {}
    back: dict[int, list[int]] = {}
    for tail, head in ends:
        ahead.setdefault(tail, []).append(head)
        back.setdefault(head, []).append(tail)
    missing = {node: len(tails) for node, tails in back.items()}
    left = {node: len(heads) for node, heads in ahead.items()}
    ready, order = [source], []
    while ready:
        node = min(
            ready[:MOST_COMPARED],
            key=lambda one: (one in ahead) - sum(left[tail] == 1 for tail in back.get(one, ())),
        )
        ready.remove(node)
        order.append(node)
        for tail in back.get(node, ()):
            left[tail] -= 1
        for head in ahead.get(node, ()):
            missing[head] -= 1
            if missing[head] == 0:
                ready.append(head)
    return order


# Trees


Tree = frozenset[int]
Prices = Sequence[int]


def is_tree(problem: Problem, arcs: Collection[int]) -> bool:
    """Whether each arc leads on from the source or another arc, to a node of its own, and all sinks are reached."""
    reached = {0}
    for number in sorted(arcs, key=lambda number: problem.arcs[number].head):
        arc = problem.arcs[number]
        if arc.tail not in reached or arc.head in reached:
            return False
        reached.add(arc.head)
    return reached.issuperset(problem.sinks)


def price_of(prices: Prices, tree: Collection[int]) -> int:
    return sum(prices[number] for number in tree)


def tree_within(problem: Problem, arcs: Collection[int]) -> Tree:
    """A tree of some arcs that reach all sinks: one arc to each node, and none that leads to no sink."""
    reached, into = {0}, {}
    for number in sorted(arcs, key=lambda number: (problem.arcs[number].head, number)):
        arc = problem.arcs[number]
        if arc.tail in reached and arc.head not in reached:
            reached.add(arc.head)
            into[arc.head] = number
    wanted, tree = set(problem.sinks), set()
    for node in sorted(into, reverse=True):
        if node in wanted:
            tree.add(into[node])
            wanted.add(problem.arcs[into[node]].tail)
    return frozenset(tree)


def joined_tree(problem: Problem, prices: Prices, closed: Collection[int] = ()) -> Tree | None:
    """A tree without the closed arcs that costs little: each time the nearest sink is joined to it."""
    nodes, arcs, missing = {0}, set(), set(problem.sinks)
    while missing:
        queue = [(0, node, -1) for node in nodes]
        heapq.heapify(queue)
        came: dict[int, int] = {}
        while queue:
            cost, node, by = heapq.heappop(queue)
            if node in came:
                continue
            came[node] = by
            if node in missing:
                break
            for number in problem.out[node]:
                if number not in closed:
                    heapq.heappush(queue, (cost + prices[number], problem.arcs[number].head, number))
        else:
            return None
        while came[node] >= 0:
            arcs.add(came[node])
            nodes.add(node)
            node = problem.arcs[came[node]].tail
        missing -= nodes
    return frozenset(arcs)


def cheapest_tree(problem: Problem, prices: Prices, effort: Effort) -> tuple[int, Tree]:
    """What the cheapest tree costs, and that tree."""
    if min(problem.steps_by_nodes, problem.steps_by_sinks) > effort.most:
        raise TooDear
    if problem.steps_by_nodes <= problem.steps_by_sinks:
        return cheapest_by_nodes(problem, prices, effort)
    return cheapest_by_sinks(problem, prices, effort)


# What a set of nodes costs, and the arcs that lead to them, one behind the other.
Chosen = tuple[int, Any]


def cheapest_by_nodes(problem: Problem, prices: Prices, effort: Effort) -> tuple[int, Tree]:
    """A cheapest tree: node by node it is chosen which ones a tree has.

    Each but the source has the cheapest arc from one that was chosen. Of the choices that agree in the nodes from which
    arcs lead on, only the cheapest is kept.
    """
    sinks = set(problem.sinks)
    most = price_of(prices, joined_tree(problem, prices) or ())
    found: dict[int, Chosen] = {1: (0, None)}
    for node in range(1, problem.nodes):
        effort.look()
        into = sorted((prices[number], 1 << problem.arcs[number].tail, number) for number in problem.into[node])
        keep, own = ~problem.done[node], 1 << node
        after: dict[int, Chosen] = {}
        for nodes, chosen in found.items():
            if node not in sinks:
                offer(after, nodes & keep, chosen)
            for price, tail, number in into:
                if nodes & tail:
                    if chosen[0] + price <= most:
                        offer(after, (nodes | own) & keep, (chosen[0] + price, (number, chosen[1])))
                    break
        found = after
    price, chain = found[0]
    arcs = []
    while chain is not None:
        number, chain = chain
        arcs.append(number)
    return price, tree_within(problem, arcs)


def offer(found: dict[int, Chosen], nodes: int, chosen: Chosen) -> None:
    """Keeps a choice where it is the first one for its nodes, or cheaper than that before."""
    before = found.get(nodes)
    if before is None or chosen[0] < before[0]:
        found[nodes] = chosen


def cheapest_by_sinks(problem: Problem, prices: Prices, effort: Effort) -> tuple[int, Tree]:
    """A cheapest tree: for each set of sinks and each node it is found what the cheapest tree from there costs.

    Such a tree splits the sinks into two sets at the node, or leads on over one arc, or has the node as a sink of its
    own.
    """
    numpy = module("numpy", "python3-scipy")
    bits = {sink: 1 << place for place, sink in enumerate(problem.sinks)}
    whole = (1 << len(bits)) - 1
    costs = numpy.full((whole + 1, problem.nodes), FAR, dtype=numpy.int64)
    costs[0] = 0
    ways = [[(prices[number], problem.arcs[number].head) for number in numbers] for numbers in problem.out]
    for sinks in range(1, whole + 1):
        effort.look()
        parts = parts_of(sinks)
        row = (costs[parts] + costs[sinks ^ parts]).min(axis=0, initial=FAR).tolist()
        for node in range(problem.nodes - 1, -1, -1):
            best = row[node]
            if bits.get(node, 0) & sinks:
                best = min(best, int(costs[sinks ^ bits[node], node]))
            for price, head in ways[node]:
                if price + row[head] < best:
                    best = price + row[head]
            row[node] = best
        costs[sinks] = row
    arcs: set[int] = set()
    left = [(0, whole)]
    while left:
        node, sinks = left.pop()
        own = bits.get(node, 0) & sinks
        if own and costs[sinks ^ own, node] == costs[sinks, node]:
            left.append((node, sinks ^ own))
            continue
        if not sinks:
            continue
        for number in problem.out[node]:
            head = problem.arcs[number].head
            if prices[number] + costs[sinks, head] == costs[sinks, node]:
                arcs.add(number)
                left.append((head, sinks))
                break
        else:
            parts = parts_of(sinks)
            fits = costs[parts, node] + costs[sinks ^ parts, node] == costs[sinks, node]
            part = int(parts[fits][0])
            left += [(node, part), (node, sinks ^ part)]
    return int(costs[whole, 0]), tree_within(problem, arcs)


def parts_of(sinks: int) -> Any:
    """The sets, as bits, of some but not all of the sinks, with the first of them."""
    return some_of(sinks)[:-1]


@cache
def some_of(sinks: int) -> Any:
    """The sets, as bits, of some or all of the sinks, with the first of them."""
    first = sinks & -sinks
    if sinks == first:
        return module("numpy", "python3-scipy").array([sinks])
    last = 1 << sinks.bit_length() - 1
    parts = some_of(sinks ^ last)
    return module("numpy", "python3-scipy").concatenate([parts, parts | last])


# Trees without a common link


Way = tuple[tuple[int, int], ...]


class Disjoint:
    """A search for so many trees that share no link.

    Node by node it is chosen which trees reach it: each link into a node serves one tree that has its tail. As links
    serve no other node, only sets to which no further tree can be added are tried. A choice is left out where one that
    leaves the same was tried before, but for the names of the trees.
    """

    def __init__(self, problem: Problem, count: int, effort: Effort):
        self.problem = problem
        self.count = count
        self.effort = effort
        self.looked = 0
        self.sinks = set(problem.sinks)
        self.tried: set[tuple[int, tuple[int, ...]]] = set()
        self.hopes: dict[tuple[int, int], bool] = {}
        self.last = max(problem.sinks)
        self.reached = self.sinks_reached()

    def sinks_reached(self) -> list[list[tuple[int, int]]]:
        """For each node its heads, rising, each with the sinks, as bits, to which ways lead over it and higher ones."""
        problem = self.problem
        all_of = [0] * problem.nodes
        found: list[list[tuple[int, int]]] = [[] for _ in range(problem.nodes)]
        for node in range(problem.nodes - 1, -1, -1):
            reached = 0
            for head in sorted({problem.arcs[number].head for number in problem.out[node]}, reverse=True):
                reached |= all_of[head]
                found[node].append((head, reached))
            all_of[node] = reached | (1 << node if node in self.sinks else 0)
        return found

    def find(self) -> list[Tree] | None:
        """The trees, or none where there aren't so many."""
        stack = [self.choices(1, (1,) * self.count)]
        ways: list[Way] = []
        while stack:
            chosen = next(stack[-1], None)
            if chosen is None:
                stack.pop()
                if ways:
                    ways.pop()
                continue
            way, masks = chosen
            node = len(stack) + 1
            ways.append(way)
            if node > self.last:
                return [
                    tree_within(self.problem, [arc for way in ways for one, arc in way if one == tree])
                    for tree in range(self.count)
                ]
            stack.append(self.choices(node, masks))
        return None

    def choices(self, node: int, masks: tuple[int, ...]) -> Iterator[tuple[Way, tuple[int, ...]]]:
        """The ways to serve a node: which tree comes over which arc, and the nodes that each tree has then."""
        tails = [(number, 1 << self.problem.arcs[number].tail) for number in self.problem.into[node]]
        able = [tree for tree in range(self.count) if any(masks[tree] & tail for _, tail in tails)]
        most = len(self.served(able, tails, masks, partly=True) or ())
        if node in self.sinks and most < self.count:
            return
        for trees in itertools.combinations(able, most):
            self.count_choice()
            after = list(masks)
            for tree in trees:
                after[tree] |= 1 << node
            after = [mask & ~self.problem.done[node] for mask in after]
            key = (node, tuple(sorted(after)))
            if key in self.tried:
                continue
            way = self.served(trees, tails, masks, partly=False)
            if way is None:
                continue
            self.tried.add(key)
            if all(self.hopeful(node, mask) for mask in set(after)):
                yield way, tuple(after)

    def served(
        self, trees: Sequence[int], tails: Sequence[tuple[int, int]], masks: tuple[int, ...], partly: bool
    ) -> Way | None:
        """An arc for each of the trees, or for as many as can be; none where not all can be served, but are to be."""
        users: dict[int, list[int]] = {number: [] for number, _ in tails}

        def place(tree: int, tried: set[int]) -> bool:
            for number, tail in tails:
                if masks[tree] & tail and number not in tried:
                    tried.add(number)
                    if len(users[number]) < self.problem.arcs[number].room:
                        users[number].append(tree)
                        return True
                    for place_of, other in enumerate(users[number]):
                        if place(other, tried):
                            users[number][place_of] = tree
                            return True
            return False

        for tree in trees:
            if not place(tree, set()) and not partly:
                return None
        return tuple((tree, number) for number, ones in users.items() for tree in ones)

    def hopeful(self, node: int, mask: int) -> bool:
        """Whether a tree with these nodes may still reach all sinks that come behind a node."""
        if (node, mask) not in self.hopes:
            reached, left = 0, mask
            while left:
                low = left & -left
                left ^= low
                heads = self.reached[low.bit_length() - 1]
                reached |= next((sinks for head, sinks in reversed(heads) if head > node), 0)
            self.hopes[node, mask] = all(reached >> sink & 1 for sink in self.problem.sinks if sink > node)
        return self.hopes[node, mask]

    def count_choice(self) -> None:
        """Ends the search where there were too many choices, or the time is over."""
        self.looked += 1
        if self.looked * STEPS_A_CHOICE > self.effort.most:
            raise TooDear
        if self.looked % CHOICES_A_LOOK == 0:
            self.effort.look()
