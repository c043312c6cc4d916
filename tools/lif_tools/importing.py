"""Makes a network text of lif from a graph in GraphML, GML, DOT or node-link JSON.

A link of the graph becomes one link of the text, or with --capacity a bundle of as many parallel ones as whole units
fit.
Names that a text can't have are made valid, no two alike; a table in comments says which. A directed graph must have
no cycle. With --orient the links of a directed or an undirected graph are led by an order of the nodes: by their
distance from the source, and of nodes as far by the graph's order, so that each link of an undirected graph is taken;
or with --orient=flow by what flows to the sinks need. What is left out is listed.

Patterns of links that fail together come from --fail-by and --fail-each. Each sink with each pattern is a demand, the
pattern `none` counted: 256 at most in the field of 256 elements, 65,536 in that of 65,536.

What is said of the text, as its sizes, goes to standard output, and where the text goes there to standard error.
"""
from __future__ import annotations

import argparse
import itertools
import json
import re
import unicodedata
from collections import Counter, deque
from dataclasses import dataclass
from fractions import Fraction
from pathlib import Path
from typing import Callable, Collection, Iterable, Mapping, Sequence

from lif_tools.common import MOST_LISTED, ToolError, listed, notice, print_json, printable, words_parser, write_text
from lif_tools.flows import reachable
from lif_tools.formats import (
    DEMANDS_SERVED,
    MOST_LINKS,
    MOST_MEMBERS,
    MOST_NODES,
    MOST_PATTERNS,
    MOST_RATE,
    MOST_TEXT_BYTES,
    NONE,
    Link,
    Network,
    cycle_of,
)
from lif_tools.graphfiles import FORMATS, read_graph
from lif_tools.graphs import Edge, Graph, Node, decimal, groups_of, lacking, number_of, text_of
from lif_tools.orientation import Kept, depth_first, distances, order_for_flow, ranks, ways_of

MOST_LETTERS = 32

# How --orient orders nodes.
DISTANCE, FLOW = "distance", "flow"


# Which links are taken


@dataclass(frozen=True)
class Wide:
    """A link as it is taken, and as how many parallel ones."""

    edge: Edge
    units: int


@dataclass(frozen=True)
class LeftOut:
    """A link that isn't taken, and why."""

    edge: Edge
    reason: str


@dataclass(frozen=True)
class Taken:
    """The links that are taken, in the graph's order, those that aren't, and what the order of --orient=flow keeps."""

    wide: tuple[Wide, ...]
    left: tuple[LeftOut, ...]
    kept: Kept | None


def taken_links(graph: Graph, source: int, sinks: Sequence[int], words: argparse.Namespace) -> Taken:
    wide, left = wide_links(graph, words)
    if words.orient is None:
        refuse_undirected(graph)
        refuse_cycle(graph, wide)
        return Taken(tuple(wide), tuple(left), None)
    lengths = [number_of(graph, edge, words.distance) if words.distance else Fraction(1) for edge in graph.edges]
    links = [(edge.tail, edge.head, length) for edge, length in zip(graph.edges, lengths)]
    far = distances(links, source, graph.directed)
    kept = None
    if words.orient == FLOW:
        kept = kept_by_flow(graph, wide, source, sinks, far)
        order: Sequence[int] = kept.order
    else:
        order = nearest_first(graph, far)
    led, against = led_by(graph, wide, order, far, words.orient)
    return Taken(tuple(led), tuple(left + against), kept)


def wide_links(graph: Graph, words: argparse.Namespace) -> tuple[list[Wide], list[LeftOut]]:
    """The links that carry a unit, and those that don't."""
    wide, left = [], []
    for edge in graph.edges:
        units = number_of(graph, edge, words.capacity, words.default) // words.unit if words.capacity else 1
        if units:
            wide.append(Wide(edge, units))
        else:
            left.append(LeftOut(edge, f"its {words.capacity} is below the unit"))
    return wide, left


def refuse_undirected(graph: Graph) -> None:
    if not graph.directed:
        raise ToolError(f"{graph.path}: its links have no direction; --orient leads them away from the source")


def refuse_cycle(graph: Graph, wide: Sequence[Wide]) -> None:
    """Refuses links with a cycle, which is named."""
    links = tuple(Link("", one.edge.tail, one.edge.head) for one in wide)
    cycle = cycle_of(Network(graph.names, links, 0, (), ()))
    if cycle is not None:
        nodes = [graph.names[links[link].tail] for link in cycle]
        way = " -> ".join(nodes + nodes[:1]) if len(nodes) <= MOST_LISTED else f"{' -> '.join(nodes[:MOST_LISTED])} -> .."
        raise ToolError(f"{graph.path}: cycle {way}; with --orient the links away from the source are taken")


def nearest_first(graph: Graph, far: Mapping[int, Fraction]) -> list[int]:
    """The nodes by their distances. Those as far stand as the graph has them; of a directed one, as its links lead."""
    nodes = sorted(far)
    if graph.directed:
        ends = [(edge.tail, edge.head) for edge in graph.edges if edge.tail in far]
        nodes = depth_first(nodes, [(tail, head) for tail, head in ends if far[tail] == far[head]])
    return sorted(nodes, key=lambda node: far[node])


def kept_by_flow(
    graph: Graph, wide: Sequence[Wide], source: int, sinks: Sequence[int], far: Mapping[int, Fraction]
) -> Kept:
    """The order that flows to the sinks need, and else that of the distances, or of a directed graph's links."""
    ends = [(edge.tail, edge.head) for edge in graph.edges]
    start = depth_first([source], ends) if graph.directed else nearest_first(graph, far)
    ways = ways_of([(one.edge.tail, one.edge.head, one.units) for one in wide], graph.directed)
    return order_for_flow(len(graph.names), ways, source, sinks, start)


def led_by(
    graph: Graph, wide: Sequence[Wide], order: Sequence[int], far: Mapping[int, Fraction], how: str
) -> tuple[list[Wide], list[LeftOut]]:
    """The links as an order of the nodes leads them, and those that it can't lead."""
    rank = ranks(order, len(graph.names))
    led, left = [], []
    for one in wide:
        edge = one.edge
        if edge.tail not in far or edge.head not in far:
            left.append(LeftOut(edge, "the source doesn't reach it"))
        elif edge.tail == edge.head:
            left.append(LeftOut(edge, "it leads to the node that it leaves"))
        elif rank[edge.tail] < rank[edge.head]:
            led.append(one)
        elif graph.directed and how == FLOW:
            left.append(LeftOut(edge, "it leads against the order of the nodes"))
        elif graph.directed:
            towards = far[edge.head] < far[edge.tail]
            left.append(LeftOut(edge, "it leads towards the source" if towards else "it would close a cycle"))
        else:
            led.append(Wide(edge.turned(), one.units))
    return led, left


def refuse_unreached(graph: Graph, wide: Sequence[Wide], source: int, sinks: Sequence[int]) -> None:
    found = reachable([source], ways_on(one.edge for one in wide))
    for sink in sinks:
        if sink not in found:
            raise ToolError(f"{graph.path}: no way leads from {graph.names[source]} to the sink {graph.names[sink]}")


def ways_on(edges: Iterable[Edge]) -> dict[int, list[int]]:
    """The nodes that each node leads to."""
    ways: dict[int, list[int]] = {}
    for edge in edges:
        ways.setdefault(edge.tail, []).append(edge.head)
    return ways


# Names


class Names:
    """Valid names, each given once."""

    def __init__(self, *taken: str):
        self.taken = set(taken)
        self.counts: Counter[str] = Counter()

    def take(self, text: str, units: int = 1) -> str:
        """A valid name like the text, which wasn't given before. That of a bundle of several units leaves room for the names
        of its links, and none of those was given before either."""
        plain = unicodedata.normalize("NFKD", text).encode("ascii", "ignore").decode()
        base = re.sub(r"[^A-Za-z0-9_.-]+", "-", plain).strip("-") or "x"
        room = MOST_LETTERS - (len(f".{units}") if units > 1 else 0)
        while True:
            self.counts[base] += 1
            end = f".{self.counts[base]}" if self.counts[base] > 1 else ""
            name = base[: room - len(end)] + end
            made = [f"{name}.{number}" for number in range(1, units + 1)] if units > 1 else []
            if self.taken.isdisjoint([name, *made]):
                self.taken.update([name, *made])
                return name


def quoted(text: str) -> str:
    """A text on one line of a comment."""
    return json.dumps(text, ensure_ascii=False)


# The network text


@dataclass(frozen=True)
class Bundle:
    """A link of the graph as it is taken: its name in the text, and as how many parallel links."""

    edge: Edge
    name: str
    units: int


@dataclass(frozen=True)
class Failure:
    """What fails together, by places of bundles, and the sinks that no way leads to then."""

    wanted: str
    single: bool
    bundles: tuple[int, ...]
    parted: tuple[int, ...]


@dataclass(frozen=True)
class Made:
    """What the text is made of."""

    graph: Graph
    field: int | None
    rate: int | None
    nodes: dict[int, str]
    source: int
    sinks: tuple[int, ...]
    bundles: tuple[Bundle, ...]
    patterns: dict[str, Failure]
    # Whether the single failures are those of `fail-each`.
    fail_each: bool
    skipped: tuple[Failure, ...]
    taken: Taken
    renamed: tuple[tuple[str, str, str], ...]
    lacks: tuple[str, ...]

    def links(self) -> int:
        return sum(bundle.units for bundle in self.bundles)

    def listed(self) -> dict[str, Failure]:
        """The failures that have a line each."""
        return {name: one for name, one in self.patterns.items() if not (self.fail_each and one.single)}

    def members(self) -> int:
        """How many links these have together, with bundles written out."""
        return sum(self.bundles[place].units for one in self.listed().values() for place in one.bundles)

    def demands(self) -> int:
        return len(self.sinks) * (len(self.patterns) + 1)

    def used_field(self) -> int:
        """The field that is asked for, or the smallest that serves the demands."""
        return self.field or (8 if self.demands() <= DEMANDS_SERVED[8] else 16)

    def names_of(self, sinks: Sequence[int]) -> str:
        """Sinks in a message."""
        return listed([self.nodes[sink] for sink in sinks])


def make(graph: Graph, words: argparse.Namespace) -> Made:
    """Takes links, names and patterns from a graph."""
    lacks = lacks_of(graph, words)
    source = graph.node(words.source)
    sinks = chosen_sinks(graph, words.sinks, source)
    taken = taken_links(graph, source, sinks, words)
    refuse_unreached(graph, taken.wide, source, sinks)
    ends = itertools.chain((source,), sinks, *((one.edge.tail, one.edge.head) for one in taken.wide))
    node_names = Names()
    nodes = {node: node_names.take(graph.names[node]) for node in sorted(set(ends))}
    bundles, renamed_links = named_links(graph, taken.wide, nodes, words.link_name)
    failures = wanted_failures(bundles, source, sinks, words)
    skipped = [bool(words.skip_cut and one.single and one.parted) for one in failures]
    patterns, fail_each = named_patterns(bundles, [one for one, skip in zip(failures, skipped) if not skip])
    renamed_patterns = [
        ("pattern", one.wanted, name)
        for name, one in patterns.items()
        if name != one.wanted and not (fail_each and one.single)
    ]
    renamed = [("node", graph.names[node], name) for node, name in nodes.items() if graph.names[node] != name]
    return Made(
        graph,
        words.field,
        words.rate,
        nodes,
        source,
        sinks,
        bundles,
        patterns,
        fail_each,
        tuple(itertools.compress(failures, skipped)),
        taken,
        tuple(renamed + renamed_links + renamed_patterns),
        lacks,
    )


def lacks_of(graph: Graph, words: argparse.Namespace) -> tuple[str, ...]:
    """How many nodes and links lack the attributes that are named; one that none has is refused."""
    named: list[tuple[str, Sequence[Node] | Sequence[Edge], str | None]] = [("node", graph.nodes, words.name)]
    for attribute in (words.link_name, words.capacity, words.distance, words.fail_by):
        named.append(("link", graph.edges, attribute))
    lines = []
    for kind, items, attribute in named:
        count = lacking(graph.path, kind, items, attribute) if attribute else 0
        if count:
            default = f", and get {words.default}" if attribute == words.capacity and words.default else ""
            lines.append(f"{count:,} of {len(items):,} {kind}s have no {attribute}{default}")
    return tuple(dict.fromkeys(lines))


def chosen_sinks(graph: Graph, names: Sequence[str], source: int) -> tuple[int, ...]:
    sinks = tuple(graph.node(name) for name in names)
    for place, sink in enumerate(sinks):
        if sink == source:
            raise ToolError(f"{graph.path}: node {graph.names[sink]} is the source and a sink")
        if sink in sinks[:place]:
            raise ToolError(f"{graph.path}: node {graph.names[sink]} is a sink twice")
    return sinks


def named_links(
    graph: Graph, wide: Sequence[Wide], nodes: Mapping[int, str], attribute: str | None
) -> tuple[tuple[Bundle, ...], list[tuple[str, str, str]]]:
    """The links with their names, and which weren't as they were to be."""
    total = sum(one.units for one in wide)
    if total > MOST_LINKS:
        raise ToolError(f"{graph.path}: {total:,} links; a network text has at most {MOST_LINKS:,}")
    names, bundles, renamed = Names(), [], []
    for one in wide:
        given = text_of(one.edge.values, attribute) if attribute else None
        wanted = given or f"{nodes[one.edge.tail]}-{nodes[one.edge.head]}"
        name = names.take(wanted, one.units)
        if name != wanted:
            renamed.append(("link", wanted, name))
        bundles.append(Bundle(one.edge, name, one.units))
    return tuple(bundles), renamed


def wanted_failures(
    bundles: Sequence[Bundle], source: int, sinks: Sequence[int], words: argparse.Namespace
) -> list[Failure]:
    """The failures of shared risks, then the single ones, each set of links once."""
    wanted: list[tuple[str, bool, tuple[int, ...]]] = []
    if words.fail_by:
        risks: dict[str, list[int]] = {}
        for place, bundle in enumerate(bundles):
            for group in groups_of(bundle.edge, words.fail_by):
                risks.setdefault(group, []).append(place)
        wanted += [(group, False, tuple(places)) for group, places in risks.items()]
    if words.fail_each:
        wanted += [(f"fail-{bundle.name}", True, (place,)) for place, bundle in enumerate(bundles)]
    once: dict[tuple[int, ...], tuple[str, bool]] = {}
    for text, single, places in wanted:
        once.setdefault(places, (text, single))
    reach = Reach([bundle.edge for bundle in bundles], source, sinks)
    return [Failure(text, single, places, reach.parted(places)) for places, (text, single) in once.items()]


class Reach:
    """Which sinks no way leads to where links fail."""

    def __init__(self, edges: Sequence[Edge], source: int, sinks: Sequence[int]):
        self.edges, self.rank = edges, {sink: place for place, sink in enumerate(sinks)}
        self.leaving: dict[int, list[int]] = {}
        self.entering: dict[int, list[int]] = {}
        for place, edge in enumerate(edges):
            self.leaving.setdefault(edge.tail, []).append(place)
            self.entering.setdefault(edge.head, []).append(place)
        # One way to each node that is reached: the link into it, and the nodes that are reached by way of it.
        self.came = {source: -1}
        self.beyond: dict[int, list[int]] = {}
        queue = deque([source])
        while queue:
            node = queue.popleft()
            for place in self.leaving.get(node, ()):
                head = edges[place].head
                if head not in self.came:
                    self.came[head] = place
                    self.beyond.setdefault(node, []).append(head)
                    queue.append(head)

    def parted(self, failed: Collection[int]) -> tuple[int, ...]:
        """The sinks that no way leads to without the failed links, by their places."""
        heads = [self.edges[place].head for place in failed]
        lost = reachable([head for head, place in zip(heads, failed) if self.came.get(head) == place], self.beyond)
        # From nodes that keep their way others lead to some of these, and on from them.
        queue = [
            node
            for node in lost
            for place in self.entering[node]
            if place not in failed and self.edges[place].tail in self.came and self.edges[place].tail not in lost
        ]
        while queue:
            node = queue.pop()
            if node in lost:
                lost.discard(node)
                queue += [self.edges[place].head for place in self.leaving.get(node, ()) if place not in failed]
        return tuple(sorted(self.rank.keys() & lost, key=self.rank.__getitem__))


def named_patterns(bundles: Sequence[Bundle], failures: Sequence[Failure]) -> tuple[dict[str, Failure], bool]:
    """The failures by the names of their patterns, and whether the single ones are those of `fail-each`.

    They are where each link of the graph is one of the text and fails alone, and no other pattern has a link's name.
    """
    shared, single = ([one for one in failures if one.single is kind] for kind in (False, True))
    names, links = Names(NONE), [bundle.name for bundle in bundles]
    patterns = {names.take(one.wanted): one for one in shared}
    fail_each = (
        [one.bundles for one in single] == [(place,) for place in range(len(bundles))]
        and all(bundle.units == 1 for bundle in bundles)
        and names.taken.isdisjoint(links)
    )
    alone = zip(links, single) if fail_each else ((names.take(one.wanted), one) for one in single)
    return patterns | dict(alone), fail_each


def limits_of(made: Made) -> list[tuple[str, int, int]]:
    """What has a limit: its name, how much there is, and the limit."""
    return [
        ("nodes", len(made.nodes), MOST_NODES),
        ("links", made.links(), MOST_LINKS),
        ("listed patterns", len(made.patterns), MOST_PATTERNS),
        ("demands", made.demands(), DEMANDS_SERVED[made.field or 16]),
        ("links of listed patterns", made.members(), MOST_MEMBERS),
    ]


def demands_line(made: Made) -> str:
    """How many demands there are, and which field serves them."""
    field = made.used_field()
    return (
        f"demands {made.demands():,}: sinks {len(made.sinks):,} times patterns {len(made.patterns) + 1:,} with none; "
        f"field {field} serves at most {DEMANDS_SERVED[field]:,}"
    )


def refuse_limits(made: Made) -> None:
    over = [
        f"{count:,} {kind}, of which there may be at most {most:,}"
        for kind, count, most in limits_of(made)
        if count > most
    ]
    if over:
        raise ToolError(f"{made.graph.path}: {'; '.join(over)}; {demands_line(made)}")


def link_line(made: Made, bundle: Bundle) -> str:
    """The line of a link of the graph."""
    ends = f"{made.nodes[bundle.edge.tail]} {made.nodes[bundle.edge.head]}"
    return f"link {bundle.name} {ends}" + (f" x{bundle.units}" if bundle.units > 1 else "")


def pattern_line(made: Made, name: str, failure: Failure) -> str:
    """The line of a pattern."""
    return " ".join(["pattern", name, *(made.bundles[place].name for place in failure.bundles)])


def left_out(made: Made, shown: Callable[[str], str]) -> list[str]:
    """What isn't in the text, and why, with the names of links as they are to be shown."""
    graph = made.graph
    lines = [f"{shown(graph.shown(one.edge))}: {one.reason}" for one in made.taken.left]
    for one in made.skipped:
        link = graph.shown(made.bundles[one.bundles[0]].edge)
        lines.append(f"the failure of {shown(link)}: it leaves no way to {made.names_of(one.parted)}")
    return [printable(line) for line in lines]


def text_of_network(made: Made) -> str:
    """The network text."""
    lines = [f"# {printable(Path(made.graph.path).name)}, by lif-import"]
    lines += [f"# {kind} {name} is {quoted(text)}" for kind, text, name in made.renamed]
    lines += [f"# left out: {line}" for line in left_out(made, quoted)]
    if made.field:
        lines.append(f"field {made.field}")
    if made.rate:
        lines.append(f"rate {made.rate}")
    lines.append(f"source {made.nodes[made.source]}")
    lines += [f"sink {made.nodes[sink]}" for sink in made.sinks]
    lines += [link_line(made, bundle) for bundle in made.bundles]
    lines += [pattern_line(made, name, failure) for name, failure in made.listed().items()]
    if made.fail_each:
        lines.append("fail-each")
    return "\n".join(lines) + "\n"


def summary(made: Made) -> list[str]:
    """What is said of the text: its sizes, what an order keeps, what lacks or was left out, and what has no rate."""
    lines = [f"{kind} {count:,}, at most {most:,}" for kind, count, most in limits_of(made)[:3]]
    lines.append(demands_line(made))
    if made.taken.kept:
        lines += kept_lines(made, made.taken.kept)
    lines += made.lacks
    lines += [f"left out {line}" for line in left_out(made, str)]
    lines += [
        f"rate 0: pattern {name} leaves no way to {made.names_of(failure.parted)}"
        for name, failure in made.patterns.items()
        if failure.parted
    ]
    if any(failure.single and failure.parted for failure in made.patterns.values()):
        lines.append("at rate 0 lif compile makes no code; --skip-cut leaves such single failures out")
    return [printable(line) for line in lines]


def kept_lines(made: Made, kept: Kept) -> list[str]:
    """What each sink gets, and what it would by links that lead both ways."""
    lines = [f"rate {min(kept.along)}, at most {kept.bound} by any order of the nodes"]
    for sink, along, greatest in zip(made.sinks, kept.along, kept.greatest):
        lines.append(f"flow to {made.nodes[sink]} {along}, at most {greatest} with links in both directions")
    return lines


def facts_of(made: Made, output: str) -> dict[str, object]:
    """The facts of the summary and of the comments, for JSON."""
    graph, kept = made.graph, made.taken.kept

    def names(sinks: Iterable[int]) -> list[str]:
        return [made.nodes[sink] for sink in sinks]

    facts: dict[str, object] = {"graph": graph.path, "network": output, "source": made.nodes[made.source]}
    facts |= {"sinks": names(made.sinks), "field": made.used_field(), "wanted_rate": made.rate}
    facts |= {kind.replace(" ", "_"): {"count": count, "most": most} for kind, count, most in limits_of(made)}
    if kept:
        flows = zip(made.sinks, kept.along, kept.greatest)
        facts |= {"rate": min(kept.along), "bound": kept.bound}
        facts["flows"] = [{"sink": made.nodes[sink], "rate": along, "greatest": most} for sink, along, most in flows]
    facts["renamed"] = [{"kind": kind, "text": text, "name": name} for kind, text, name in made.renamed]
    facts["lacking"] = list(made.lacks)
    facts["left_out"] = [{"link": graph.shown(one.edge), "reason": one.reason} for one in made.taken.left]
    facts["skipped"] = [
        {"link": graph.shown(made.bundles[one.bundles[0]].edge), "parted": names(one.parted)} for one in made.skipped
    ]
    facts["rate_0"] = [{"pattern": name, "parted": names(one.parted)} for name, one in made.patterns.items() if one.parted]
    return facts


# The words


def positive(text: str) -> Fraction:
    number = decimal(text)
    if number is None:
        raise argparse.ArgumentTypeError(f"{text!r} is no number")
    if number <= 0:
        raise argparse.ArgumentTypeError(f"{text!r} isn't above 0")
    return number


def words_of(arguments: Sequence[str]) -> argparse.Namespace:
    parser = words_parser("lif-import", __doc__)
    add = parser.add_argument
    add("graph", metavar="GRAPH", help="the graph's file")
    add("--source", required=True, metavar="S", help="the source, by its name or its identifier in the graph")
    add(
        "--sinks",
        action="extend",
        default=[],
        metavar="A,B,..",
        type=lambda text: text.split(","),
        help="the sinks, likewise",
    )
    add("--sink", dest="sinks", action="append", metavar="T", help="one more sink, whose name may have commas")
    add("-o", dest="output", required=True, metavar="NET", help="the network text to be written, - for standard output")
    add("--format", choices=sorted(set(FORMATS.values())), help="the graph's format, else by the end of its name")
    add(
        "--name",
        metavar="ATTR",
        help="the attribute that names nodes, else the label in GML and the identifier elsewhere",
    )
    add("--link-name", metavar="ATTR", help="the attribute that names links, else the names of both ends")
    add("--capacity", metavar="ATTR", help="the attribute that is a link's capacity")
    add("--unit", type=positive, metavar="U", help="the capacity of one link of the text")
    add("--default", type=positive, metavar="C", help="the capacity of links that lack the attribute")
    add(
        "--orient",
        nargs="?",
        choices=[DISTANCE, FLOW],
        metavar=f"={FLOW}",
        help="lead the links away from the source, by the number of links to it, or as flows to the sinks need it",
    )
    add("--distance", metavar="ATTR", help="with --orient, by the sum of this attribute")
    add(
        "--fail-by",
        metavar="ATTR",
        help="a pattern for each value of the attribute; semicolons part several values of a link",
    )
    add("--fail-each", action="store_true", help="a pattern for each link of the graph, with all its parallel links")
    add("--skip-cut", action="store_true", help="with --fail-each, none for a link without which a sink gets nothing")
    add("--field", type=int, choices=sorted(DEMANDS_SERVED), help="the field to be used, else the program chooses")
    add(
        "--rate",
        type=int,
        choices=range(1, MOST_RATE + 1),
        metavar="R",
        help="the rate that is wanted of the code, else the greatest one",
    )
    # Without = no word behind it is its own.
    words = parser.parse_args([f"--orient={DISTANCE}" if word == "--orient" else word for word in arguments])
    if not words.sinks:
        parser.error("--sinks or --sink is needed")
    if words.output == "-" and words.json:
        parser.error("-o - and --json both write to standard output")
    if (words.capacity is None) != (words.unit is None):
        parser.error("--capacity and --unit go together")
    if words.default and not words.capacity:
        parser.error("--default goes with --capacity")
    if words.distance and words.orient != DISTANCE:
        parser.error("--distance goes with --orient")
    if words.skip_cut and not words.fail_each:
        parser.error("--skip-cut goes with --fail-each")
    if words.format is None:
        words.format = FORMATS.get(Path(words.graph).suffix.lower())
    if words.format is None:
        parser.error(f"{words.graph}: no format has this end; give --format")
    return words


def main(arguments: Sequence[str]) -> None:
    words = words_of(arguments)
    made = make(read_graph(words.graph, words.format, words.name), words)
    refuse_limits(made)
    text = text_of_network(made)
    length = len(text.encode(errors="backslashreplace"))
    if length > MOST_TEXT_BYTES:
        raise ToolError(f"{words.graph}: a text of {length:,} bytes, of which there may be at most {MOST_TEXT_BYTES:,}")
    write_text(words.output, text, words.graph)
    if words.json:
        print_json("lif-import", facts_of(made, words.output))
    else:
        for line in summary(made):
            if words.output == "-":
                notice(line)
            else:
                print(line)
