"""Packings of multicast trees in networks of lif: trees from the source to all sinks, in shares of the time and whole.

HiGHS (over SciPy) proposes trees with shares and prices of links. What is said is confirmed without it, in whole
numbers: from below by trees whose shares fit into each link, and from above by a price for each link and a search
that shows that no tree is cheaper than it is said, or by a search that shows that no more trees share no link.
"""
from __future__ import annotations

from dataclasses import dataclass
from fractions import Fraction
from math import floor, lcm
from typing import Any, Callable, Iterable, Sequence

from lif_tools.common import module
from lif_tools.trees import (
    Disjoint,
    Effort,
    Prices,
    Problem,
    TooDear,
    Tree,
    cheapest_tree,
    is_tree,
    joined_tree,
    price_of,
)

# Prices in whole numbers are so many times those that HiGHS gives, where no smaller numbers fit.
SCALE = 10**6

# The largest denominators with which numbers of HiGHS are read as fractions, one after the other.
DENOMINATORS = (60, 1000, 50_000)

# Prices in whole numbers are at most so many times those that HiGHS gives, so that sums of them fit into 64 bits.
MOST_SCALE = 10**12

# Shares add up to a bound where they are by no more than this below it.
SLACK = 1e-7

# So many steps are gone for trees that share no link before shares are looked for.
FIRST_STEPS = 20_000

# Bounds with larger denominators are said in decimals.
MOST_SAID = 1000


@dataclass(frozen=True)
class Range:
    """What is known of a number: it isn't below the one, nor above the other."""

    least: Fraction
    most: Fraction

    @property
    def exact(self) -> bool:
        return self.least == self.most

    def __str__(self) -> str:
        if self.exact:
            return str(self.least)
        return f"{bound_text(self.least, up=False)}..{bound_text(self.most, up=True)}"

    def gain(self, coding: int) -> str:
        """The gain of coding over the number."""
        if self.most == 0:
            return "-"
        return str(Range(coding / self.most, coding / self.least))


def bound_text(bound: Fraction, up: bool) -> str:
    """A bound as a fraction, or else in thousandths that it isn't beyond."""
    if bound.denominator <= MOST_SAID:
        return str(bound)
    thousandths = -floor(-bound * 1000) if up else floor(bound * 1000)
    return f"{thousandths // 1000}.{thousandths % 1000:03}"


@dataclass(frozen=True)
class Packing:
    """Trees, each with its share of the time."""

    shares: tuple[tuple[Tree, Fraction], ...]

    @property
    def size(self) -> Fraction:
        return sum((share for _, share in self.shares), Fraction(0))

    def loads(self, problem: Problem) -> list[Fraction]:
        """How much of each arc the trees use."""
        found = [Fraction(0)] * len(problem.arcs)
        for tree, share in self.shares:
            for number in tree:
                found[number] += share
        return found

    def stands(self, problem: Problem) -> bool:
        """Whether each is a tree with a share above 0, and all of them fit into each arc."""
        return all(is_tree(problem, tree) and share > 0 for tree, share in self.shares) and all(
            load <= arc.room for load, arc in zip(self.loads(problem), problem.arcs)
        )


@dataclass(frozen=True)
class Bound:
    """A price for each arc, in whole numbers, and one that no tree is below.

    A packing uses at most all room, and pays at least the price of a tree for each.
    """

    prices: tuple[int, ...]
    tree: int

    def size(self, problem: Problem) -> Fraction:
        return Fraction(sum(arc.room * price for arc, price in zip(problem.arcs, self.prices)), self.tree)


@dataclass(frozen=True)
class Found:
    """What is known of the packings of a problem: what shows it, and the numbers."""

    packing: Packing
    bound: Bound
    disjoint: Packing
    shared: Range
    whole: Range


def packings(problem: Problem, effort: Effort) -> Found:
    """What is known of the greatest packings of trees, in shares and whole, after so much effort."""
    # Half of the time is left for trees that share no link.
    search = Search(problem, Effort(effort.most, effort.deadline - effort.seconds() / 2))
    search.disjoin(greedy_trees(problem))
    search.disjoin_more(Effort(min(effort.most, FIRST_STEPS), effort.deadline))
    try:
        search.share()
    except TooDear:
        pass
    search.disjoin_more(effort)
    return search.found()


def greedy_trees(problem: Problem) -> list[Tree]:
    """Trees that share no link, each of few scarce links beside those before."""
    rooms = [arc.room for arc in problem.arcs]
    trees: list[Tree] = []
    while True:
        closed = {number for number, room in enumerate(rooms) if room == 0}
        tree = joined_tree(problem, [problem.rate // max(room, 1) + 1 for room in rooms], closed)
        if tree is None:
            return trees
        trees.append(tree)
        for number in tree:
            rooms[number] -= 1


class Search:
    """The search for the greatest packings of a problem, with what it has confirmed."""

    def __init__(self, problem: Problem, effort: Effort):
        self.problem = problem
        self.effort = effort
        self.packing = self.disjoint = Packing(())
        # Each tree has an arc of the cut.
        self.bound = Bound(tuple(int(number in problem.cut) for number in range(len(problem.arcs))), 1)
        self.most_whole = problem.rate
        self.trees: dict[Tree, None] = {}

    def found(self) -> Found:
        most = self.bound.size(self.problem)
        return Found(
            self.packing,
            self.bound,
            self.disjoint,
            Range(self.packing.size, most),
            Range(self.disjoint.size, Fraction(self.most_whole)),
        )

    def pack(self, packing: Packing) -> None:
        """Keeps a packing that stands and is the greatest so far."""
        if packing.size > self.packing.size and packing.stands(self.problem):
            self.packing = packing

    def disjoin(self, trees: Iterable[Tree]) -> None:
        """Keeps trees that share no link, where they are more than before."""
        counts: dict[Tree, int] = {}
        for tree in trees:
            counts[tree] = counts.get(tree, 0) + 1
        self.trees.update(dict.fromkeys(counts))
        packing = Packing(tuple((tree, Fraction(count)) for tree, count in counts.items()))
        if packing.size > self.disjoint.size and packing.stands(self.problem):
            self.disjoint = packing
            self.pack(packing)

    def price(self, prices: Prices) -> Tree:
        """The cheapest tree by prices, of which the bound is kept where it is the least."""
        price, tree = cheapest_tree(self.problem, prices, self.effort)
        if price > 0:
            bound = Bound(tuple(prices), price)
            if bound.size(self.problem) < self.bound.size(self.problem):
                self.bound = bound
        return tree

    def exact(self) -> bool:
        return self.packing.size == self.bound.size(self.problem)

    def share(self) -> None:
        """Packs trees in shares: those that are cheap by the prices of the packing before are added, until none is."""
        if self.exact() or self.effort.late():
            return
        programs = Programs(self.problem, self.effort)
        shares: list[float] = []
        try:
            while not self.effort.late():
                shares, values = programs.shares(list(self.trees))
                added = self.lacking([round(value * SCALE) for value in values], shares)
                if not added:
                    self.confirm_shares(shares)
                    self.confirm_prices(values)
                    break
                self.trees.update(dict.fromkeys(added))
        finally:
            if not self.exact():
                self.confirm_shares(shares)
            self.most_whole = min(self.most_whole, floor(self.bound.size(self.problem)))
            if self.disjoint.size < self.most_whole:
                self.disjoin(programs.whole(list(self.trees)))

    def met(self, shares: Sequence[float]) -> bool:
        """Whether shares seem to add up to the bound."""
        return sum(shares) >= self.bound.size(self.problem) - SLACK

    def lacking(self, prices: Prices, shares: Sequence[float]) -> list[Tree]:
        """Trees that a packing of these prices and shares lacks; none where there are none, or it meets the bound.

        Where joining nearest sinks finds none, it is a cheapest one: by prices in the middle between those and the
        bound's, which make better bounds, or else by those.
        """
        middle = [(price + SCALE * other // self.bound.tree) // 2 for price, other in zip(prices, self.bound.prices)]
        looks: list[Callable[[], list[Tree]]] = [
            lambda: cheap_trees(self.problem, prices, SCALE),
            lambda: [self.price(middle)],
            lambda: [self.price(prices)],
        ]
        for look in looks:
            if self.met(shares):
                break
            found = [tree for tree in look() if price_of(prices, tree) < SCALE and tree not in self.trees]
            if found:
                return found
        return []

    def confirm_shares(self, shares: Sequence[float]) -> None:
        """Reads shares as fractions, which are made less where they don't fit, and keeps the greatest packing."""
        for most in DENOMINATORS:
            parts = [(tree, fraction(share, most)) for tree, share in zip(self.trees, shares)]
            packing = Packing(tuple((tree, part) for tree, part in parts if part > 0))
            over = max(
                (load / arc.room for load, arc in zip(packing.loads(self.problem), self.problem.arcs)),
                default=Fraction(1),
            )
            if over > 1:
                packing = Packing(tuple((tree, part / over) for tree, part in packing.shares))
            self.pack(packing)

    def confirm_prices(self, values: Sequence[float]) -> None:
        """Reads prices as fractions, and keeps the least bound of what the cheapest tree costs by them."""
        tried = set()
        for most in DENOMINATORS:
            parts = [fraction(value, most) for value in values]
            scale = lcm(*(part.denominator for part in parts))
            prices = tuple(int(part * scale) for part in parts)
            if not self.exact() and scale <= MOST_SCALE and prices not in tried:
                tried.add(prices)
                self.price(prices)

    def disjoin_more(self, effort: Effort) -> None:
        """Finds whether there are more trees that share no link."""
        for count in range(self.most_whole, int(self.disjoint.size), -1):
            try:
                trees = Disjoint(self.problem, count, effort).find()
            except TooDear:
                continue
            if trees is not None:
                self.disjoin(trees)
                break
            self.most_whole = count - 1


def fraction(value: float, most: int) -> Fraction:
    """The fraction with at most such a denominator that is next to a number of HiGHS, which isn't below 0."""
    return Fraction(max(value, 0.0)).limit_denominator(most)


def cheap_trees(problem: Problem, prices: Prices, below: int) -> list[Tree]:
    """Trees below a price that share no link, as far as joining nearest sinks finds them."""
    rooms = [arc.room for arc in problem.arcs]
    # Of trees that cost as much, one of few arcs.
    costs = [price * len(prices) + 1 for price in prices]
    trees: list[Tree] = []
    while True:
        closed = {number for number, room in enumerate(rooms) if room == 0}
        tree = joined_tree(problem, costs, closed)
        if tree is None or price_of(prices, tree) >= below:
            return trees
        trees.append(tree)
        for number in tree:
            rooms[number] -= 1


class Programs:
    """The programs of HiGHS, of which every answer is only a proposal."""

    def __init__(self, problem: Problem, effort: Effort):
        self.rooms = [arc.room for arc in problem.arcs]
        self.effort = effort
        self.optimize = module("scipy.optimize", "python3-scipy")
        self.sparse = module("scipy.sparse", "python3-scipy")

    def seconds(self) -> float:
        """How much time a program may take."""
        return max(self.effort.seconds(), 0.1)

    def uses(self, trees: Sequence[Tree]) -> Any:
        """For each arc and tree 1 where the tree has the arc."""
        arcs = [number for tree in trees for number in tree]
        columns = [column for column, tree in enumerate(trees) for _ in tree]
        shape = (len(self.rooms), len(trees))
        return self.sparse.csc_matrix(([1.0] * len(arcs), (arcs, columns)), shape=shape)

    def shares(self, trees: Sequence[Tree]) -> tuple[list[float], list[float]]:
        """The greatest packing of some trees: the share of each, and a price for each arc, in which a tree costs 1."""
        answer = self.optimize.linprog(
            [-1.0] * len(trees),
            A_ub=self.uses(trees),
            b_ub=self.rooms,
            method="highs-ds",
            options={"time_limit": self.seconds()},
        )
        if answer.x is None:
            raise TooDear
        return list(answer.x), [max(-float(value), 0.0) for value in answer.ineqlin.marginals]

    def whole(self, trees: Sequence[Tree]) -> list[Tree]:
        """Some of the trees, each as often as it is taken, that share no link."""
        answer = self.optimize.milp(
            [-1.0] * len(trees),
            integrality=[1] * len(trees),
            constraints=[self.optimize.LinearConstraint(self.uses(trees), ub=self.rooms)],
            options={"time_limit": self.seconds()},
        )
        shares = [0.0] * len(trees) if answer.x is None else answer.x
        return [tree for tree, share in zip(trees, shares) for _ in range(round(share))]
