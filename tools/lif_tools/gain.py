"""Says what coding gains in a network of lif: its rate beside what forwarding alone can reach.

For each pattern of failed links there is a line. `coding` is the least cut, the rate that a code has. `forwarding`
is the greatest packing of multicast trees, each from the source to all sinks, where trees may be used for parts of
the time; `whole` is the greatest number of trees without a common link. Each `gain` is `coding` over the number before
it.

A number is said where it is confirmed in whole numbers from both sides: by trees that fit into the links, and by a
price for each link and a search for the cheapest tree, or a search for one tree more. Where a search would take more
steps than --most, or the time runs out, both bounds are said, as `3/2..2`: the number is not below the one, nor above
the other. A bound with a large denominator is said in thousandths that it isn't beyond.

Where the text wants a rate, no more than that is brought: no number of the rates is above it, and a last line says so.

The line `all` has the least of each column. That of coding is the rate of the code that `lif compile` makes, with
which nodes do the same under each pattern; forwarding may take other trees under each. At a terminal each pattern is
named on standard error as its search begins.
"""
from __future__ import annotations

import argparse
import dataclasses
import sys
import time
from dataclasses import dataclass
from fractions import Fraction
from typing import Any, Callable, Iterable, Sequence

from lif_tools.common import ToolError, listed, load_network, pattern_number, print_json, words_parser
from lif_tools.flows import certificate
from lif_tools.formats import MOST_RATE, Link, Network, why_unjoined
from lif_tools.packings import Range, packings
from lif_tools.trees import Effort, problem_of


@dataclass(frozen=True)
class Row:
    """What is known of one pattern."""

    pattern: str
    coding: int
    forwarding: Range
    whole: Range

    def cells(self) -> tuple[str, ...]:
        return (
            self.pattern,
            str(self.coding),
            str(self.forwarding),
            self.forwarding.gain(self.coding),
            str(self.whole),
            self.whole.gain(self.coding),
        )

    def facts(self) -> dict[str, object]:
        """The row, for JSON."""
        return {
            "pattern": self.pattern,
            "coding": self.coding,
            "forwarding": range_facts(self.forwarding, self.coding),
            "whole": range_facts(self.whole, self.coding),
        }


def range_facts(known: Range, coding: int) -> dict[str, object]:
    """What is known of a number, and of the gain of coding over it, where it isn't 0."""
    gain = {"least": coding / known.most, "most": coding / known.least} if known.most else None
    return {"least": known.least, "most": known.most, "gain": gain}


def row_of(network: Network, pattern: int, seconds: float, most: int) -> Row:
    """What coding gains where a pattern's links fail, with no rate above the one that is wanted."""
    problem = problem_of(network, set(network.patterns[pattern].links))
    shared = whole = Range(Fraction(0), Fraction(0))
    if problem.rate > 0:
        found = packings(problem, Effort(most, time.monotonic() + seconds))
        shared, whole = found.shared, found.whole
    wanted = problem.rate if network.rate is None else min(network.rate, problem.rate)
    return Row(network.patterns[pattern].name, wanted, bounded(shared, wanted), bounded(whole, wanted))


def bounded(known: Range, wanted: int) -> Range:
    """What is known of a number, or of a wanted one where that is less."""
    return Range(min(known.least, Fraction(wanted)), min(known.most, Fraction(wanted)))


def rows_of(network: Network, patterns: Sequence[int], seconds: float, most: int) -> list[Row]:
    """What coding gains under each of some patterns, which are named at a terminal as they are looked at."""
    rows = []
    for place, pattern in enumerate(patterns, start=1):
        said = f"pattern {place} of {len(patterns)}: {network.patterns[pattern].name}"
        if sys.stderr.isatty():
            print(said, end="\r", file=sys.stderr, flush=True)
        rows.append(row_of(network, pattern, seconds, most))
        if sys.stderr.isatty():
            print(" " * len(said), end="\r", file=sys.stderr, flush=True)
    return rows


def least_row(rows: Sequence[Row]) -> Row:
    """The least of each column."""

    def least(ranges: Iterable[Range]) -> Range:
        known = list(ranges)
        return Range(min(one.least for one in known), min(one.most for one in known))

    return Row(
        "all", min(row.coding for row in rows), least(row.forwarding for row in rows), least(row.whole for row in rows)
    )


def table(rows: Sequence[Row]) -> str:
    return aligned([("pattern", "coding", "forwarding", "gain", "whole", "gain"), *(row.cells() for row in rows)])


def aligned(lines: Sequence[Sequence[str]]) -> str:
    """The lines, each column as wide as it needs."""
    widths = [max(map(len, column)) for column in zip(*lines)]
    return "".join("  ".join(cell.ljust(width) for cell, width in zip(line, widths)).rstrip() + "\n" for line in lines)


def notes(rows: Sequence[Row], wanted: int | None) -> str:
    """What is said of bounds, where some number isn't known, and of a rate that is wanted."""
    lines = []
    if not all(known.exact for row in rows for known in (row.forwarding, row.whole)):
        lines.append("a..b: the number isn't below a nor above b; no search showed which one it is")
    if wanted is not None:
        below = [row.pattern for row in rows if row.coding < wanted]
        unmet = f", which the least cut of {below[0]} doesn't meet; lif compile makes no code" if below else ""
        lines.append(f"rate {wanted} is wanted{unmet or ', and no number of the rates is above it'}")
    return "".join(f"{line}\n" for line in lines)


# Two sources


@dataclass(frozen=True)
class Cuts:
    """The least cuts of a demand from the source, from the second node and from both; none where the sink is that node."""

    sink: str
    pattern: str
    source: int
    second: int | None
    both: int | None

    def cells(self) -> tuple[str, ...]:
        cuts = (self.source, self.second, self.both)
        return (self.sink, self.pattern, *("-" if cut is None else str(cut) for cut in cuts))

    def facts(self) -> dict[str, object]:
        """The row, for JSON."""
        names = {"from_source": self.source, "from_second": self.second, "from_both": self.both}
        return {"sink": self.sink, "pattern": self.pattern, **names}


def node_number(path: str, network: Network, name: str) -> int:
    """The number of a node of a file's network."""
    if name not in network.nodes:
        raise ToolError(f"{path}: unknown node: {name}; its nodes: {listed(network.nodes)}")
    return network.nodes.index(name)


def fed(network: Network, nodes: Iterable[int]) -> Network:
    """The network with a source before some nodes, which brings each as much as can leave it. Its links come last."""
    source, heads = len(network.nodes), set(nodes)
    more = [Link("", source, link.tail) for link in network.links if link.tail in heads]
    return dataclasses.replace(network, nodes=(*network.nodes, ""), links=(*network.links, *more), source=source)


def cuts_of(network: Network, second: int, patterns: Sequence[int]) -> list[Cuts]:
    """The cuts of each sink under some patterns."""
    other, both = dataclasses.replace(network, source=second), fed(network, (network.source, second))
    rows = []
    for sink in network.sinks:
        for pattern in patterns:
            named, failed = network.patterns[pattern].name, network.patterns[pattern].links
            first = certificate(network, sink, failed).value
            beside = [None if sink == second else certificate(it, sink, failed).value for it in (other, both)]
            rows.append(Cuts(network.nodes[sink], named, first, *beside))
    return rows


def least_cuts(rows: Sequence[Cuts]) -> Cuts:
    """The least of each column."""

    def least(cuts: Iterable[int | None]) -> int | None:
        return min((cut for cut in cuts if cut is not None), default=None)

    return Cuts(
        "all", "", min(row.source for row in rows), least(row.second for row in rows), least(row.both for row in rows)
    )


@dataclass(frozen=True)
class Splits:
    """The greatest R1, R2, and sum of both that are met, and all pairs that are."""

    r1: int
    r2: int
    both: int

    def met(self) -> list[tuple[int, int]]:
        rates = range(1, MOST_RATE)
        return [(r1, r2) for r1 in rates for r2 in rates if r1 <= self.r1 and r2 <= self.r2 and r1 + r2 <= self.both]

    def greatest(self) -> int:
        """The greatest sum of a pair that is met; 0 where none is."""
        return max((r1 + r2 for r1, r2 in self.met()), default=0)


def splits_of(least: Cuts) -> Splits:
    """The pairs of rates that the least cuts meet."""

    def bounded_by(cut: int | None, most: int) -> int:
        return most if cut is None else min(cut, most)

    alone = MOST_RATE - 1
    return Splits(bounded_by(least.source, alone), bounded_by(least.second, alone), bounded_by(least.both, MOST_RATE))


def pairs_text(pairs: Iterable[tuple[int, int]]) -> str:
    return ", ".join(f"{r1} {r2}" for r1, r2 in pairs)


def refused_pairs(network: Network, second: str, splits: Splits) -> dict[str, list[tuple[int, int]]]:
    """The pairs that the cuts meet, and for which `lif twin` joins no two sources, by the reason that it says."""
    found: dict[str, list[tuple[int, int]]] = {}
    for pair in splits.met():
        why = why_unjoined(network, second, *pair)
        if why is not None:
            found.setdefault(why, []).append(pair)
    return found


def splits_text(network: Network, second: str, splits: Splits) -> str:
    """What is said of the pairs that are met."""
    most = splits.greatest()
    if not most:
        return "no rates are met, from 1 on; lif twin makes no code\n"
    text = f"met where R1 is at most {splits.r1}, R2 at most {splits.r2}, and R1 + R2 at most {splits.both}\n"
    text += f"greatest R1 + R2 {most}, as R1 R2: {pairs_text(pair for pair in splits.met() if sum(pair) == most)}\n"
    for why, pairs in refused_pairs(network, second, splits).items():
        text += f"lif twin refuses, for {why}: {pairs_text(pairs)}\n"
    return text


def say_two_sources(words: argparse.Namespace, network: Network, patterns: Sequence[int]) -> None:
    """What the source of a network and a second node can bring."""
    second = node_number(words.network, network, words.second)
    rows = cuts_of(network, second, patterns)
    least = least_cuts(rows)
    splits = splits_of(least)
    if words.json:
        facts = {
            "network": words.network,
            "source": network.nodes[network.source],
            "second": words.second,
            "demands": [row.facts() for row in rows],
            "r1": splits.r1,
            "r2": splits.r2,
            "both": splits.both,
            "greatest": splits.greatest(),
            "splits": splits.met(),
            "refused": refused_pairs(network, words.second, splits),
        }
        print_json("lif-gain", facts)
        return
    head = ("sink", "pattern", network.nodes[network.source], words.second, "both")
    shown = rows + [least] if len(rows) > 1 else rows
    print(aligned([head, *(row.cells() for row in shown)]) + splits_text(network, words.second, splits), end="")


def number_from(least: float, kind: Callable[[str], Any]) -> Callable[[str], Any]:
    """Reads a number that isn't below another."""

    def read(text: str) -> Any:
        try:
            number = kind(text)
        except ValueError:
            raise argparse.ArgumentTypeError(f"{text!r} is no number") from None
        if not least <= number < float("inf"):
            raise argparse.ArgumentTypeError(f"{text} is below {least} or no number")
        return number

    return read


def words_of(arguments: Sequence[str]) -> argparse.Namespace:
    parser = words_parser("lif-gain", __doc__)
    parser.add_argument("network", metavar="NET", help="a network text")
    parser.add_argument("--pattern", metavar="P", help="this pattern alone")
    parser.add_argument("--second", metavar="NODE", help="what this node brings as a second source, and which rates are met")
    parser.add_argument(
        "--seconds", type=number_from(0, float), default=60, metavar="N", help="the time for each pattern, else 60"
    )
    parser.add_argument(
        "--most",
        type=number_from(0, int),
        default=5_000_000,
        metavar="N",
        help="no search of more steps than this, else 5000000",
    )
    return parser.parse_args(arguments)


def main(arguments: Sequence[str]) -> None:
    words = words_of(arguments)
    network = load_network(words.network)
    chosen = list(range(len(network.patterns)))
    if words.pattern is not None:
        chosen = [pattern_number(words.network, network, words.pattern)]
    if words.second is not None:
        say_two_sources(words, network, chosen)
        return
    rows = rows_of(network, chosen, words.seconds, words.most)
    if words.json:
        facts = {"network": words.network, "wanted_rate": network.rate, "patterns": [row.facts() for row in rows]}
        print_json("lif-gain", facts | {"all": least_row(rows).facts()})
        return
    print(table(rows + [least_row(rows)] if len(rows) > 1 else rows) + notes(rows, network.rate), end="")
