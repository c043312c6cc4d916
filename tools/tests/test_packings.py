"""Packings of trees: beside a count over all trees, and each of the searches beside the other."""
from __future__ import annotations

import itertools
import math
import random
import time
from fractions import Fraction
from typing import Iterator, Sequence

import pytest

from support import combination_text, layers_text, network_of
from lif_tools.formats import Network, read_network
from lif_tools.packings import Bound, Packing, Programs, Range, Search, packings
from lif_tools.trees import (
    FAR,
    Disjoint,
    Effort,
    Problem,
    Tree,
    cheapest_by_nodes,
    cheapest_by_sinks,
    is_tree,
    price_of,
    problem_of,
)

pytest.importorskip("scipy.optimize")

Ends = tuple[int, int]


def effort(most: int = 10_000_000, seconds: float = 60) -> Effort:
    return Effort(most, time.monotonic() + seconds)


def layered(chance: random.Random) -> Network:
    """A network by chance, in which most links lead from a layer to the next one."""
    widths = [1] + [chance.randrange(2, 4) for _ in range(chance.randrange(2, 4))]
    ends: list[Ends] = []
    start = 0
    for before, width in zip(widths, widths[1:]):
        for head in range(start + before, start + before + width):
            tails = range(start, start + before) if chance.random() < 0.8 else range(start + before)
            ends += [(chance.choice(tails), head) for _ in range(chance.randrange(1, 4))]
        start += before
    return network_of(0, tuple(range(start, start + widths[-1])), ends)


def forward(chance: random.Random, nodes: int) -> Ends:
    """Two of so many nodes by chance, the lower one first."""
    low, high = sorted(chance.sample(range(nodes), 2))
    return low, high


def behind(chance: random.Random) -> Network:
    """A network in which each sink has links from as many of the middle nodes, and maybe one of these from another."""
    middles, size = chance.choice(((3, 2), (3, 2), (4, 2), (4, 3)))
    sets = list(itertools.combinations(range(1, middles + 1), size))
    first, sinks = middles + 1, chance.randrange(2, 4)
    ends = [(0, middle) for middle in range(1, middles + 1)]
    ends += [(middle, first + sink) for sink, ones in enumerate(chance.sample(sets, sinks)) for middle in ones]
    ends += [forward(chance, first + sinks) for _ in range(chance.randrange(3))]
    return network_of(0, tuple(range(first, first + sinks)), ends)


def butterfly(chance: random.Random) -> Network:
    """A butterfly, of which a link may be missing, with some links more."""
    ends = [(0, 1), (0, 2), (1, 5), (2, 6), (1, 3), (2, 3), (3, 4), (4, 5), (4, 6)]
    more = [forward(chance, 7) for _ in range(chance.randrange(4))]
    return network_of(0, (5, 6), chance.sample(ends, 8 + (chance.random() < 0.7)) + more)


def plain_trees(network: Network) -> list[frozenset[Ends]]:
    """All trees from the source to all sinks: to each other node one link or none, each from a node that is reached.

    Trees are alike where they differ in which of some parallel links they have.
    """
    others = [node for node in range(len(network.nodes)) if node != network.source]
    ways: list[list[Ends | None]] = []
    for node in others:
        into = sorted({(link.tail, link.head) for link in network.links if link.head == node})
        ways.append([*into] if node in network.sinks else [*into, None])
    found = []
    for chosen in itertools.product(*ways):
        tree = frozenset(ends for ends in chosen if ends is not None)
        reached = {network.source, *(head for _, head in tree)}
        if all(tail in reached for tail, _ in tree):
            found.append(tree)
    return found


def plain_rooms(network: Network) -> dict[Ends, int]:
    rooms: dict[Ends, int] = {}
    for link in network.links:
        rooms[link.tail, link.head] = rooms.get((link.tail, link.head), 0) + 1
    return rooms


def most_disjoint(trees: list[frozenset[Ends]], rooms: dict[Ends, int]) -> int:
    """The greatest number of trees that share no link, by trying each with those behind it."""
    most = 0
    for place, tree in enumerate(trees):
        if all(rooms[ends] for ends in tree):
            left = {ends: room - (ends in tree) for ends, room in rooms.items()}
            most = max(most, 1 + most_disjoint(trees[place:], left))
    return most


def all_ends(problem: Problem) -> list[Ends]:
    """The nodes of the network between which each arc leads."""
    return [(problem.order[arc.tail], problem.order[arc.head]) for arc in problem.arcs]


def ends_of(problem: Problem, tree: frozenset[int]) -> frozenset[Ends]:
    ends = all_ends(problem)
    return frozenset(ends[number] for number in tree)


def assert_packing(problem: Problem, packing: Packing, trees: list[frozenset[Ends]], rooms: dict[Ends, int]) -> None:
    loads = dict.fromkeys(rooms, Fraction(0))
    for tree, share in packing.shares:
        assert share > 0 and ends_of(problem, tree) in trees
        for ends in ends_of(problem, tree):
            loads[ends] += share
    assert all(load <= rooms[ends] for ends, load in loads.items())


def assert_bound(problem: Problem, bound: Bound, trees: list[frozenset[Ends]], rooms: dict[Ends, int]) -> Fraction:
    """What the prices show to be the most, by the cheapest of all trees."""
    prices = dict.fromkeys(rooms, 0)
    prices.update(zip(all_ends(problem), bound.prices))
    least = min(sum(prices[ends] for ends in tree) for tree in trees)
    assert least >= bound.tree
    return Fraction(sum(rooms[ends] * price for ends, price in prices.items()), least)


def networks(count: int, seed: int) -> Iterator[tuple[Network, list[frozenset[Ends]]]]:
    """So many networks by chance in which every sink is reached, each with all its trees."""
    chance = random.Random(seed)
    while count:
        network = chance.choice((layered, behind, butterfly))(chance)
        trees = plain_trees(network)
        if trees:
            count -= 1
            yield network, trees


def test_packings_are_the_greatest() -> None:
    """Of 2,000 networks the numbers are those that all trees show, and the trees and prices show them."""
    gains = 0
    for network, trees in networks(2000, 4):
        rooms = plain_rooms(network)
        problem = problem_of(network, ())
        found = packings(problem, effort())
        assert_packing(problem, found.packing, trees, rooms)
        assert_packing(problem, found.disjoint, trees, rooms)
        most = assert_bound(problem, found.bound, trees, rooms)
        assert found.shared == Range(most, most) and found.packing.size == most
        assert all(share.denominator == 1 for _, share in found.disjoint.shares)
        whole = found.disjoint.size
        assert found.whole == Range(whole, whole)
        assert whole == math.floor(most) or whole == most_disjoint(trees, rooms)
        gains += most < problem.rate
    assert gains > 250


def test_an_effort_that_is_too_small_leaves_bounds() -> None:
    bounds = 0
    for network, _ in networks(100, 5):
        problem = problem_of(network, ())
        exact = packings(problem, effort())
        for little in (effort(most=0), effort(seconds=0)):
            found = packings(problem, little)
            for some, one in ((found.shared, exact.shared), (found.whole, exact.whole)):
                assert some.least <= one.least <= some.most
                bounds += not some.exact
    assert bounds > 20


@pytest.mark.parametrize("share, price", [(1.0, 0.0), (0.0, 1.0), (1 / 3, 1e-9), (-1.0, 0.3), (1e9, 1e9)])
def test_nothing_is_believed_of_what_is_proposed(monkeypatch: pytest.MonkeyPatch, share: float, price: float) -> None:
    """Whatever shares, prices and trees the solver gives, the numbers are bounds of the true ones."""
    shown = [(network, packings(problem_of(network, ()), effort())) for network, _ in networks(40, 6)]

    class Liar(Programs):
        def shares(self, trees: Sequence[Tree]) -> tuple[list[float], list[float]]:
            return [share] * len(trees), [price] * len(self.rooms)

        def whole(self, trees: Sequence[Tree]) -> list[Tree]:
            return list(trees) * 2

    monkeypatch.setattr("lif_tools.packings.Programs", Liar)
    bounds = 0
    for network, exact in shown:
        problem = problem_of(network, ())
        found = packings(problem, effort())
        for some, one in ((found.shared, exact.shared), (found.whole, exact.whole)):
            assert some.least <= one.least <= some.most
            bounds += not some.exact
    assert bounds > 0


def test_shares_that_do_not_fit_are_made_less() -> None:
    """Three trees of the butterfly with 0.6 each are too much, and a half of each is what fits."""
    ends = [(0, 1), (0, 2), (1, 5), (2, 6), (1, 3), (2, 3), (3, 4), (4, 5), (4, 6)]
    problem = problem_of(network_of(0, (5, 6), ends), ())
    search = Search(problem, effort())
    search.trees = dict.fromkeys(tree for tree, _ in packings(problem, effort()).packing.shares)
    search.confirm_shares([0.6] * len(search.trees))
    assert search.packing.size == Fraction(3, 2) and search.packing.stands(problem)


def test_cheapest_trees_are_the_cheapest() -> None:
    """Both searches find what the cheapest of all trees costs, and such a tree."""
    chance = random.Random(7)
    for network, trees in networks(200, 7):
        problem = problem_of(network, ())
        prices = [chance.choice((0, 0, 1, 2, 3, 10**9)) for _ in problem.arcs]
        price_at = dict(zip(all_ends(problem), prices))
        least = min(sum(price_at.get(ends, FAR) for ends in tree) for tree in trees)
        for search in (cheapest_by_nodes, cheapest_by_sinks):
            price, tree = search(problem, prices, effort())
            assert price == least == price_of(prices, tree) and is_tree(problem, tree)


def test_trees_that_share_no_link_are_found_where_they_are() -> None:
    for network, trees in networks(150, 8):
        problem = problem_of(network, ())
        most = most_disjoint(trees, plain_rooms(network))
        assert Disjoint(problem, most + 1, effort()).find() is None
        found = Disjoint(problem, most, effort()).find()
        assert found is not None
        counts = {tree: Fraction(found.count(tree)) for tree in found}
        assert_packing(problem, Packing(tuple(counts.items())), trees, plain_rooms(network))


def test_nodes_are_in_an_order_of_links() -> None:
    for network, _ in networks(100, 9):
        problem = problem_of(network, ())
        assert problem.order[0] == network.source
        assert all(arc.tail < arc.head for arc in problem.arcs)
        assert {problem.order[sink] for sink in problem.sinks} == set(network.sinks)
        rooms = plain_rooms(network)
        assert all(rooms[ends] == arc.room for ends, arc in zip(all_ends(problem), problem.arcs))


def test_the_projective_plane_of_seven_lines() -> None:
    """A tree needs middle nodes that meet every line: a line's own three do, and of two such sets one isn't enough."""
    lines = [(point % 7, (point + 1) % 7, (point + 3) % 7) for point in range(7)]
    ends = [(0, 1 + point) for point in range(7)]
    ends += [(1 + point, 8 + line) for line, points in enumerate(lines) for point in points]
    problem = problem_of(network_of(0, tuple(range(8, 15)), ends), ())
    found = packings(problem, effort())
    assert (problem.rate, str(found.shared), str(found.whole)) == (3, "7/3", "1")
    assert found.packing.size == found.bound.size(problem) and found.packing.stands(problem)


def test_twenty_sinks_and_thirty_two() -> None:
    """Where few nodes are open at a time, many sinks are no hindrance; else both bounds are known."""
    problem = problem_of(read_network(combination_text(6, 3).encode()), ())
    found = packings(problem, effort(most=problem.steps_by_nodes))
    assert (len(problem.sinks), str(found.shared), str(found.whole)) == (20, "3/2", "1")
    found = packings(problem, effort(most=problem.steps_by_nodes - 1))
    assert (str(found.shared), str(found.whole)) == ("3/2..3", "1")
    chance = random.Random(1)
    ends = [(0, middle) for middle in range(1, 21)]
    ends += [(middle, sink) for sink in range(21, 53) for middle in chance.sample(range(1, 21), 4)]
    problem = problem_of(network_of(0, tuple(range(21, 53)), ends), ())
    found = packings(problem, effort(most=10_000))
    assert found.packing.stands(problem) and 1 < found.shared.least < found.shared.most == problem.rate == 4


def test_layers_whose_links_all_carry_have_as_many_trees() -> None:
    found = packings(problem_of(read_network(layers_text(4, 12).encode()), ()), effort())
    assert (str(found.shared), str(found.whole)) == ("12", "12")


def test_what_is_no_tree_and_no_packing() -> None:
    problem = problem_of(network_of(0, (3,), [(0, 1), (0, 2), (1, 2), (1, 3), (2, 3)]), ())
    by_ends = {ends: number for number, ends in enumerate(all_ends(problem))}

    def tree(*ends: Ends) -> frozenset[int]:
        return frozenset(by_ends[one] for one in ends)

    ways = [tree((0, 1), (1, 3)), tree((0, 2), (2, 3)), tree((0, 1), (1, 2), (2, 3)), tree((0, 1), (0, 2), (1, 3))]
    assert all(is_tree(problem, way) for way in ways)
    for way in (tree((0, 1)), tree((1, 3)), tree((0, 1), (0, 2), (1, 2), (1, 3)), tree((0, 1), (0, 2), (1, 3), (2, 3))):
        assert not is_tree(problem, way)
        assert not Packing(((way, Fraction(1)),)).stands(problem)
    assert Packing(((ways[0], Fraction(1)), (ways[1], Fraction(1)))).stands(problem)
    assert Packing(((ways[0], Fraction(1, 2)), (ways[2], Fraction(1, 2)))).stands(problem)
    assert not Packing(((ways[0], Fraction(1, 2)), (ways[2], Fraction(2, 3)))).stands(problem)
    assert not Packing(((ways[0], Fraction(-1)),)).stands(problem)


def test_numbers_and_bounds_are_said() -> None:
    assert str(Range(Fraction(5, 2), Fraction(5, 2))) == "5/2"
    assert str(Range(Fraction(5, 2), Fraction(3))) == "5/2..3"
    assert Range(Fraction(5, 2), Fraction(3)).gain(3) == "1..6/5"
    assert str(Range(Fraction(7001, 3001), Fraction(7003, 3001))) == "2.332..2.334"
    assert str(Range(Fraction(1234, 5001), Fraction(1))) == "0.246..1"
    assert Range(Fraction(0), Fraction(0)).gain(0) == "-"
