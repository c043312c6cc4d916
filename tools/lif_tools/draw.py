"""Draws a network of lif: the flow of a demand, its cut and its side, and what a code does.

The demand is that of the first sink, or of --sink, with the pattern `none`, or --pattern. Its flow and cut are those of
--report, the report of `lif cuts` or `lif compile`, which is checked; without one they are found anew, and may take
other paths.

  coloured       the paths of the flow, each in a colour of its own
  filled         the side: the nodes that the cut closes off with the source
  thick, marked  the cut: the links that leave the side and haven't failed
  dashed         links that fail (red), and links that carry nothing then (grey)
  x0 + 29 x1     what a link carries of the source's rows, with coefficients in the code's field

By --failed any links fail, which needs no pattern, and no demand is drawn. Each sink is filled by the rank of what comes
to it: those are whole whose rank is the code's rate, and `lif blind` writes their files alone. The code may decode or not.

With a code of `lif twin` for the network the node `super` and its links are drawn too. It is no node of the network, and
has a dashed frame; both sources have roofs.

A legend below the drawing says so too. The drawing is SVG, PNG or PDF, by the ending of FILE. A drawing of more than
some hundred links can't be read: --live draws the links alone that carry something, by the code, or else those of the
flow.
"""
from __future__ import annotations

import argparse
import functools
import html
import os
import re
import subprocess
from dataclasses import dataclass
from pathlib import Path
from typing import Collection, Iterable, Iterator, Sequence

from lif_tools.common import (
    ToolError,
    listed,
    load_code,
    load_network,
    notice,
    pattern_number,
    print_json,
    program,
    read_bytes,
    sink_number,
    words_parser,
    write_bytes,
)
from lif_tools.flows import Certificate, certificate, fault_of
from lif_tools.formats import (
    INTO_SECOND,
    INTO_SOURCE,
    NONE,
    SUPER,
    Code,
    Network,
    Vector,
    check_failure,
    join_sources,
    live_links,
    live_where,
    ranks_where,
    super_links,
    vectors_of,
    vectors_where,
    why_unjoined,
)

PATH_COLOURS = ("#1f6fb4", "#c2610c", "#2e8540", "#6b3fa0", "#a3195b", "#0f7b7b", "#7a6a00", "#444444")
FAILED_COLOUR, DEAD_COLOUR, PLAIN_COLOUR = "#c0272d", "#9a9a9a", "#555555"
SIDE_FILL, NODE_FILL = "#fde9c9", "#ffffff"
WHOLE_FILL, OTHER_FILL = "#cde6cd", "#f2c9c9"

# A sum of more terms than this, and the decoder of a higher rate, are told by their size alone.
MOST_TERMS, MOST_DECODED = 6, 4

# A drawing of more links can't be read. From so many on graphviz looks less long for the best places.
MOST_READABLE, MOST_PLACED = 500, 150

# What graphviz makes, by the ending of a file's name.
FORMATS = {"": "svg", ".svg": "svg", ".png": "png", ".pdf": "pdf"}


# Reports


def read_report(path: str, network: Network, sink: int, pattern: int) -> Certificate:
    """The certificate of a demand in a report of the network."""
    content = read_bytes(path).decode("ascii", "replace")
    wanted = f"demand {network.nodes[network.sinks[sink]]} {network.patterns[pattern].name} cut "
    lines = list(enumerate(content.split("\n"), start=1))
    starts = [place for place, (_, line) in enumerate(lines) if line.startswith(wanted)]
    if not starts:
        raise ToolError(f"{path}: no line `{wanted}..`; the report is that of another network")
    found: dict[str, list[tuple[int, ...]]] = {"side": [], "cross": [], "path": []}
    names = {"side": {name: place for place, name in enumerate(network.nodes)}}
    names["cross"] = names["path"] = {link.name: place for place, link in enumerate(network.links)}
    for number, line in lines[starts[0] + 1 :]:
        kind, *words = line.split(" ")
        if kind not in found:
            break
        unknown = [word for word in words if word not in names[kind]]
        if unknown:
            raise ToolError(f"{path}: line {number}: {unknown[0]} isn't in the network")
        found[kind].append(tuple(names[kind][word] for word in words))
    if len(found["side"]) != 1 or len(found["cross"]) != 1:
        raise ToolError(f"{path}: line {lines[starts[0]][0]}: a demand has one line `side` and one line `cross`")
    read = Certificate(found["side"][0], found["cross"][0], tuple(found["path"]))
    fault = fault_of(network, network.sinks[sink], network.patterns[pattern].links, read)
    if fault is not None:
        raise ToolError(f"{path}: line {lines[starts[0]][0]}: {fault}")
    return read


# Codes


@dataclass(frozen=True)
class Carried:
    """What a code does where links fail, by the names of links: what each carries, and which carry nothing. There is the number
    of the pattern by which they fail, or else there are the ranks of the sinks, in order."""

    code: Code
    vectors: dict[str, Vector]
    live: dict[str, bool]
    pattern: int | None = None
    ranks: tuple[int, ...] = ()

    def is_whole(self, sink: int) -> bool:
        return self.ranks[sink] == self.code.rate

    def told(self, sink: int) -> list[str]:
        """What is said of the sink of a number: its rank, or a line for each row of the source that it decodes."""
        if self.pattern is None:
            return [f"rank {self.ranks[sink]}{' whole' if self.is_whole(sink) else ''}"]
        decoder = self.code.decoders[self.code.network.demand(sink, self.pattern)]
        names = [self.code.network.links[link].name for link in decoder.links]
        rate = self.code.rate
        if rate > MOST_DECODED:
            return [f"x0 .. x{rate - 1} of {len(names)} links"]
        return [f"x{row} = {sum_text(decoder.entries[row * rate:(row + 1) * rate], names)}" for row in range(rate)]


def carried_by(path: str, code: Code, network: Network, pattern: str) -> Carried:
    """What the code of a file does with a pattern; it has to be an accepted code of the network."""
    refuse_other(path, code.network, network)
    failure = check_failure(code)
    if failure is not None:
        raise ToolError(f"{path}: check failed: {failure}")
    number = pattern_number(path, code.network, pattern)
    names = [link.name for link in code.network.links]
    return Carried(code, dict(zip(names, vectors_of(code, number))), dict(zip(names, live_links(code, number))), number)


def carried_where(path: str, code: Code, network: Network, failing: Collection[str]) -> Carried:
    """What the code of a file does where these links fail; it has to be a code of the network, accepted or not."""
    refuse_other(path, code.network, network)
    names = [link.name for link in code.network.links]
    failed = [number for number, name in enumerate(names) if name in failing]
    vectors, live = vectors_where(code, failed), live_where(code, failed)
    return Carried(code, dict(zip(names, vectors)), dict(zip(names, live)), ranks=tuple(ranks_where(code, failed)))


def joined_as(network: Network, coded: Network) -> Network:
    """The network, or where the one of a code joins its source and a second node as `lif twin` does, that one."""
    ends = [(link.name, coded.nodes[link.head]) for link in coded.links if link.tail == coded.source]
    r1 = sum(name.startswith(f"{INTO_SOURCE}.") for name, _ in ends)
    second = next((head for name, head in ends if name == f"{INTO_SECOND}.1"), None)
    if coded.nodes[coded.source] != SUPER or second is None or why_unjoined(network, second, r1, len(ends) - r1) is not None:
        return network
    return join_sources(network, second, r1, len(ends) - r1)


@dataclass(frozen=True)
class Joined:
    """The two nodes that `super` feeds, by their numbers, and how many rows each gets."""

    nodes: tuple[int, int]
    rates: tuple[int, int]


def joined_in(network: Network) -> Joined | None:
    """What the source of a network feeds, where it is the node that `lif twin` joins."""
    ends = {link.name: link.head for link in network.links if link.tail == network.source}
    r1 = sum(name.startswith(f"{INTO_SOURCE}.") for name in ends)
    made = super_links(r1, len(ends) - r1)
    if network.nodes[network.source] != SUPER or not 0 < r1 < len(ends) or set(ends) != set(made):
        return None
    first, second = ends[made[0]], ends[made[-1]]
    if [ends[name] for name in made] != [first] * r1 + [second] * (len(ends) - r1):
        return None
    return Joined((first, second), (r1, len(ends) - r1))


def parts_of(network: Network) -> dict[str, set[str]]:
    """What a network has, in words."""
    nodes, links = network.nodes, network.links
    return {
        "source": {nodes[network.source]},
        "sink": {nodes[sink] for sink in network.sinks},
        "link": {f"{link.name} from {nodes[link.tail]} to {nodes[link.head]}" for link in links},
        "pattern": {
            " ".join([pattern.name, *sorted(links[link].name for link in pattern.links)])
            for pattern in network.patterns
        },
    }


def refuse_other(path: str, network: Network, wanted: Network) -> None:
    """Refuses a code of another network: the first difference is named."""
    has, needs = parts_of(network), parts_of(wanted)
    for kind in needs:
        missing, more = sorted(needs[kind] - has[kind]), sorted(has[kind] - needs[kind])
        if missing:
            raise ToolError(f"{path}: the code is one of another network: it has no {kind} {missing[0]}")
        if more:
            raise ToolError(f"{path}: the code is one of another network: the text has no {kind} {more[0]}")


def sum_text(coefficients: Iterable[int], names: Sequence[str]) -> str:
    """A sum, without what has the coefficient 0."""
    terms = [name if times == 1 else f"{times} {name}" for times, name in zip(coefficients, names) if times]
    if len(terms) > MOST_TERMS:
        return f"a sum of {len(terms)}"
    return " + ".join(terms) or "0"


# The drawing


@dataclass(frozen=True)
class Demand:
    """A sink with a pattern, by their numbers, and its flow and cut."""

    sink: int
    pattern: int
    certificate: Certificate


@dataclass(frozen=True)
class Drawing:
    """All that is drawn; of the network these links and nodes alone. Without a demand the sinks are filled by their ranks."""

    network: Network
    demand: Demand | None
    failing: tuple[int, ...]
    carried: Carried | None
    links: tuple[int, ...]
    nodes: tuple[int, ...]

    def title(self) -> str:
        network, drawn = self.network, some_drawn(self, range(len(self.network.links)))
        if self.demand is not None:
            demand = f"{network.nodes[network.sinks[self.demand.sink]]} {network.patterns[self.demand.pattern].name}"
            return f"demand {demand} cut {self.demand.certificate.value}{drawn}"
        failing = listed([network.links[link].name for link in self.failing]) or "no link"
        return f"{failing} failed: {self.whole_count()} of {counted(len(network.sinks), 'sink')} whole{drawn}"

    @functools.cached_property
    def joined(self) -> Joined | None:
        return joined_in(self.network)

    def whole_count(self) -> int:
        return sum(rank == self.carried.code.rate for rank in self.carried.ranks) if self.carried else 0

    @functools.cached_property
    def failed(self) -> frozenset[int]:
        """The links drawn that fail."""
        return frozenset(self.failing).intersection(self.links)

    @functools.cached_property
    def dead(self) -> frozenset[int]:
        """The links drawn that carry nothing by the code, though they don't fail."""
        if self.carried is None:
            return frozenset()
        live = self.carried.live
        return frozenset(link for link in self.links if not live[self.network.links[link].name]) - self.failed


def live_of(network: Network, found: Certificate | None, carried: Carried | None) -> tuple[int, ...]:
    """The links that carry something: those of the flow, or by a code its live ones."""
    if carried is None:
        assert found is not None
        return tuple(sorted(link for path in found.paths for link in path))
    return tuple(number for number, link in enumerate(network.links) if carried.live[link.name])


def ends_of(network: Network, links: Iterable[int], *others: int) -> tuple[int, ...]:
    """The nodes at the ends of links, and others."""
    ends = {end for link in links for end in (network.links[link].tail, network.links[link].head)}
    return tuple(sorted(ends.union(others)))


def quoted(text: str) -> str:
    """A string of DOT."""
    return '"' + text.replace("\\", "\\\\").replace('"', '\\"') + '"'


def attributes(values: dict[str, str]) -> str:
    return " [" + ", ".join(f"{name}={value}" for name, value in values.items()) + "]"


def node_line(drawing: Drawing, node: int) -> str:
    """A node, with what it decodes, or its rank, where it is a sink."""
    network, demand = drawing.network, drawing.demand
    lines = [network.nodes[node]]
    values = {"fillcolor": quoted(SIDE_FILL if demand and node in demand.certificate.side else NODE_FILL)}
    if drawing.joined and node == network.source:
        values |= {"shape": "box", "style": quoted("filled,dashed")}
    elif node in (drawing.joined.nodes if drawing.joined else (network.source,)):
        values["shape"] = "house"
    if node in network.sinks:
        values["shape"] = "box"
        values["penwidth"] = "2.5" if demand and node == network.sinks[demand.sink] else "1"
        if drawing.carried:
            sink = code_sink(drawing, node)
            lines += drawing.carried.told(sink)
            if demand is None:
                values["fillcolor"] = quoted(WHOLE_FILL if drawing.carried.is_whole(sink) else OTHER_FILL)
    values["label"] = quoted("\n".join(lines)).replace("\n", "\\n")
    return quoted(network.nodes[node]) + attributes(values)


def code_sink(drawing: Drawing, node: int) -> int:
    """The number that a sink has in the code."""
    assert drawing.carried is not None
    code = drawing.carried.code.network
    return next(number for number, sink in enumerate(code.sinks) if code.nodes[sink] == drawing.network.nodes[node])


def link_label(drawing: Drawing, link: int) -> str:
    """The link's name, and what it carries."""
    name = drawing.network.links[link].name
    if drawing.carried is None:
        return name
    vector = drawing.carried.vectors[name]
    return f"{name}: {sum_text(vector, [f'x{row}' for row in range(len(vector))])}"


def link_line(drawing: Drawing, link: int) -> str:
    """A link, by what it is for the demand."""
    network, name = drawing.network, drawing.network.links[link].name
    values = {"label": quoted(link_label(drawing, link)), "color": quoted(PLAIN_COLOUR)}
    found = drawing.demand.certificate if drawing.demand else Certificate((), (), ())
    for number, path in enumerate(found.paths):
        if link in path:
            values |= {"color": quoted(PATH_COLOURS[number % len(PATH_COLOURS)]), "penwidth": "2"}
    if link in found.cross:
        values |= {"penwidth": "4", "arrowhead": "normalnormal"}
    if link in drawing.failed:
        values |= {"label": quoted(f"{name}: fails"), "style": "dashed", "color": quoted(FAILED_COLOUR)}
    elif link in drawing.dead:
        values |= {"label": quoted(f"{name}: nothing"), "style": "dashed", "color": quoted(DEAD_COLOUR)}
    ends = (quoted(network.nodes[end]) for end in (network.links[link].tail, network.links[link].head))
    return " -> ".join(ends) + attributes(values)


# The legend


def swatch(colour: str, height: int = 3) -> str:
    """A cell that shows a colour: a line as high as is said."""
    return f'<td width="24" height="{height}" fixedsize="true" bgcolor="{colour}"></td>'


def dashes(colour: str) -> str:
    """A cell that shows a dashed line."""
    return f'<td width="24" height="3" fixedsize="true" border="1" sides="b" style="dashed" color="{colour}"></td>'


def demand_rows(drawing: Drawing, found: Certificate) -> Iterator[tuple[list[str], str]]:
    """What the drawing has of a demand."""
    if found.paths:
        paths, used = len(found.paths), PATH_COLOURS[: len(found.paths)]
        again = f"; there are {len(used)} colours, which come again" if paths > len(used) else ""
        some = some_drawn(drawing, [link for path in found.paths for link in path])
        yield [swatch(colour) for colour in used], f"the flow: {counted(paths, 'path')}, coloured{again}{some}"
    yield [swatch(SIDE_FILL, 12)], "the side: the nodes that the cut closes off with the source"
    if found.cross:
        cut = f"{counted(len(found.cross), 'link')}{some_drawn(drawing, found.cross)}"
        yield [swatch(PLAIN_COLOUR, 5)], f"thick, with two heads: the cut, {cut}"


def rank_rows(drawing: Drawing, carried: Carried) -> Iterator[tuple[list[str], str]]:
    """What the drawing has of sinks by their ranks."""
    whole = drawing.whole_count()
    if whole:
        yield [swatch(WHOLE_FILL, 12)], f"whole sinks: their rank is the code's rate, {carried.code.rate}"
    if whole < len(carried.ranks):
        yield [swatch(OTHER_FILL, 12)], f"other sinks: their rank is below the code's rate, {carried.code.rate}"


def legend_rows(drawing: Drawing) -> Iterator[tuple[list[str], str]]:
    """What the drawing has of each kind: cells that show it, and what it is."""
    if drawing.demand:
        yield from demand_rows(drawing, drawing.demand.certificate)
    elif drawing.carried:
        yield from rank_rows(drawing, drawing.carried)
    if drawing.failed:
        yield [dashes(FAILED_COLOUR)], "links that fail"
    if drawing.dead:
        yield [dashes(DEAD_COLOUR)], "links that carry nothing"
    if drawing.joined:
        shown = '<td width="24" height="12" fixedsize="true" border="1" style="dashed"></td>'
        yield [shown], f"{SUPER}: no node of the network; it stands for both sources"
    if drawing.demand:
        roofed = set(drawing.joined.nodes if drawing.joined else ()).difference(drawing.network.sinks)
        roofs = "both sources have roofs" if len(roofed) > 1 else "the source has a roof"
        yield ['<td width="24" height="12" fixedsize="true" border="2"></td>'], f"the sink of the demand; {roofs}"
    if drawing.carried:
        yield ["<td>x0 ..</td>"], f"rows{rows_told(drawing)}, with coefficients of the code's field"


def rows_told(drawing: Drawing) -> str:
    """Whose rows there are: those of the source, or of two sources which each has."""
    if drawing.joined is None:
        return " of the source"
    (r1, r2), told = drawing.joined.rates, []
    for node, rows in zip(drawing.joined.nodes, (range(r1), range(r1, r1 + r2))):
        last = f" .. x{rows[-1]}" if len(rows) > 1 else ""
        told.append(f"x{rows[0]}{last} of {drawing.network.nodes[node]}")
    return f": {' and '.join(told)}"


def some_drawn(drawing: Drawing, links: Collection[int]) -> str:
    """What is said of links that aren't all drawn."""
    drawn = len(frozenset(links).intersection(drawing.links))
    return f"; {drawn} of {counted(len(links), 'link')} drawn" if drawn < len(links) else ""


def counted(number: int, kind: str) -> str:
    return f"{number:,} {kind}{'' if number == 1 else 's'}"


def legend(drawing: Drawing) -> str:
    """The title and the legend, as a table in the HTML of graphviz."""
    rows = [f'<tr><td colspan="2" align="left"><b>{html.escape(drawing.title())}</b></td></tr>']
    for cells, what in legend_rows(drawing):
        shown = f'<table border="0" cellborder="0" cellspacing="2" cellpadding="0"><tr>{"".join(cells)}</tr></table>'
        rows.append(f'<tr><td align="left">{shown}</td><td align="left">{html.escape(what)}</td></tr>')
    return f'<<table border="0" cellborder="0" cellspacing="0" cellpadding="2">{"".join(rows)}</table>>'


# What graphviz makes of it


def dot_lines(drawing: Drawing) -> Iterator[str]:
    """The drawing in DOT."""
    yield "digraph lif {"
    yield f'graph [rankdir=LR, label={legend(drawing)}, fontname="Helvetica", fontsize=12]'
    if len(drawing.links) > MOST_PLACED:
        yield "graph [nslimit=1, nslimit1=1, mclimit=0.5]"
    yield 'node [shape=ellipse, style=filled, fontname="Helvetica", fontsize=12]'
    yield 'edge [fontname="Helvetica", fontsize=10, arrowsize=0.7]'
    for node in drawing.nodes:
        yield node_line(drawing, node)
    for link in drawing.links:
        yield link_line(drawing, link)
    yield "}"


def picture_of(dot: str, kind: str) -> bytes:
    """The drawing in a format, without what tells graphviz's version and the time."""
    done = subprocess.run(
        [program("dot", "graphviz"), f"-T{kind}"],
        input=dot.encode(),
        capture_output=True,
        check=False,
        env={**os.environ, "TZ": "UTC"},
    )
    said = done.stderr.decode(errors="replace").strip()
    if done.returncode != 0:
        raise ToolError(f"dot: {said or done.returncode}")
    for line in said.splitlines():
        notice(f"dot: {line}")
    if kind == "svg":
        return re.sub(rb"<!--.*?-->\n?|<!DOCTYPE.*?>\n?", b"", done.stdout, flags=re.DOTALL)
    # As long as it was, since a PDF tells places by their bytes.
    return re.sub(rb"(?<=/CreationDate \(D:)\d{14}", b"19700101000000", done.stdout)


def warn(path: str, drawing: Drawing, live: int) -> None:
    """Says before a large drawing is made that it can't be read, and what to do."""
    drawn = len(drawing.links)
    if drawn <= MOST_READABLE:
        return
    what = "those of the flow" if drawing.carried is None else "those that carry something"
    instead = f"--live draws {live:,}, {what}" if live < drawn else "--json says the same without a drawing"
    notice(f"{path}: {drawn:,} links: so large a drawing can't be read, and may take graphviz minutes; {instead}")


# What is said


def facts_of(drawing: Drawing, path: str, output: str | None) -> dict[str, object]:
    """The facts of the drawing, for JSON."""
    network, names = drawing.network, [link.name for link in drawing.network.links]
    facts: dict[str, object] = {"network": path, "drawing": output}
    if drawing.demand:
        facts |= demand_facts(network, drawing.demand)
    if drawing.joined:
        pairs = zip(drawing.joined.nodes, drawing.joined.rates)
        facts["sources"] = [{"node": network.nodes[node], "rate": rate} for node, rate in pairs]
    facts |= {
        "failed": [names[link] for link in drawing.failing],
        "all_links": len(names),
        "links": [link_facts(drawing, link) for link in drawing.links],
    }
    if drawing.carried:
        facts["rate"], facts["field"] = drawing.carried.code.rate, drawing.carried.code.field
        kind, of_sink = ("decoders", decoder_facts) if drawing.demand else ("sinks", rank_facts)
        facts[kind] = {network.nodes[sink]: of_sink(drawing, sink) for sink in network.sinks}
    return facts


def demand_facts(network: Network, demand: Demand) -> dict[str, object]:
    """A demand, with its flow and its cut."""
    names, found = [link.name for link in network.links], demand.certificate
    return {
        "sink": network.nodes[network.sinks[demand.sink]],
        "pattern": network.patterns[demand.pattern].name,
        "cut": found.value,
        "side": [network.nodes[node] for node in found.side],
        "cross": [names[link] for link in found.cross],
        "paths": [[names[link] for link in path] for path in found.paths],
    }


def link_facts(drawing: Drawing, number: int) -> dict[str, object]:
    """A link, and with a code the coefficients of the source's rows in what it carries."""
    network, link = drawing.network, drawing.network.links[number]
    facts: dict[str, object] = {"name": link.name, "tail": network.nodes[link.tail], "head": network.nodes[link.head]}
    if drawing.carried:
        facts |= {"live": drawing.carried.live[link.name], "carries": list(drawing.carried.vectors[link.name])}
    return facts


def decoder_facts(drawing: Drawing, node: int) -> dict[str, object]:
    """Of which links a sink decodes, and for each row of the source their coefficients."""
    assert drawing.carried is not None and drawing.carried.pattern is not None
    code = drawing.carried.code
    decoder = code.decoders[code.network.demand(code_sink(drawing, node), drawing.carried.pattern)]
    starts = range(0, len(decoder.entries), code.rate)
    return {
        "links": [code.network.links[link].name for link in decoder.links],
        "rows": [list(decoder.entries[start : start + code.rate]) for start in starts],
    }


def rank_facts(drawing: Drawing, node: int) -> dict[str, object]:
    """The rank of a sink, and whether it is whole."""
    assert drawing.carried is not None
    sink = code_sink(drawing, node)
    return {"rank": drawing.carried.ranks[sink], "whole": drawing.carried.is_whole(sink)}


def words_of(arguments: Sequence[str]) -> argparse.Namespace:
    parser = words_parser("lif-draw", __doc__)
    add = parser.add_argument
    add("network", metavar="NET", help="a network text")
    add("--report", metavar="R", help="a report of the network")
    add("--code", metavar="C", help="a code file of the network")
    add("--pattern", metavar="P", help="the pattern of failed links, else none")
    add("--sink", metavar="T", help="the sink of the demand, else the first")
    add("--failed", metavar="A,B", help="links that fail, in place of a demand: sinks are filled by what they get by the code")
    add("--live", action="store_true", help="draw the links alone that carry something, by the code, or else those of the flow")
    add("-o", dest="output", metavar="FILE", help="the drawing, by its ending .svg, .png or .pdf; - for SVG on standard output")
    words = parser.parse_args(arguments)
    if words.output is None and not words.json:
        parser.error("-o FILE or --json is needed")
    if words.failed is not None and (words.code is None or words.pattern is not None or words.sink is not None or words.report):
        parser.error("--failed takes --code, and no --pattern, --sink or --report")
    if words.output == "-" and words.json:
        parser.error("-o - and --json both write to standard output")
    words.kind = FORMATS.get(Path(words.output or "-").suffix.lower())
    if words.kind is None:
        parser.error(f"{words.output}: a drawing has the ending {', '.join(filter(None, FORMATS))}")
    return words


def drawing_of(words: argparse.Namespace) -> tuple[Drawing, int]:
    """What is to be drawn, and how many links carry something."""
    network, code = load_network(words.network), load_code(words.code) if words.code else None
    if code is not None:
        network = joined_as(network, code.network)
    if words.failed is not None:
        assert code is not None
        return failure_of(words, network, code)
    name = words.pattern if words.pattern is not None else NONE
    pattern = pattern_number(words.network, network, name)
    sink = sink_number(words.network, network, words.sink) if words.sink is not None else 0
    if words.report:
        found = read_report(words.report, network, sink, pattern)
    else:
        found = certificate(network, network.sinks[sink], network.patterns[pattern].links)
    carried = carried_by(words.code, code, network, name) if code is not None else None
    live = live_of(network, found, carried)
    links, nodes = tuple(range(len(network.links))), tuple(range(len(network.nodes)))
    if words.live:
        links, nodes = live, ends_of(network, live, network.source, network.sinks[sink])
    return Drawing(network, Demand(sink, pattern, found), network.patterns[pattern].links, carried, links, nodes), len(live)


def failure_of(words: argparse.Namespace, network: Network, code: Code) -> tuple[Drawing, int]:
    """What is to be drawn where any links fail, and how many carry something."""
    numbers = {link.name: number for number, link in enumerate(network.links)}
    names = words.failed.split(",") if words.failed else []
    for name in names:
        if name not in numbers:
            raise ToolError(f"{words.network}: unknown link: {name}; its links: {listed(list(numbers))}")
    carried = carried_where(words.code, code, network, names)
    live = live_of(network, None, carried)
    links, nodes = tuple(range(len(network.links))), tuple(range(len(network.nodes)))
    if words.live:
        links, nodes = live, ends_of(network, live, network.source, *network.sinks)
    return Drawing(network, None, tuple(sorted({numbers[name] for name in names})), carried, links, nodes), len(live)


def main(arguments: Sequence[str]) -> None:
    words = words_of(arguments)
    drawing, live = drawing_of(words)
    if words.output is not None:
        warn(words.network, drawing, live)
        picture = picture_of("\n".join(dot_lines(drawing)), words.kind)
        write_bytes(words.output, picture, *filter(None, (words.network, words.report, words.code)))
    if words.json:
        print_json("lif-draw", facts_of(drawing, words.network, words.output))
