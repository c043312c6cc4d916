"""Networks and codes of lif: network texts, code files of both versions, drafts, the fields, what the links of a code carry,
the decoders of a draft, and networks and codes of two sources.

The formats are those of docs/FORMATS.md, with the same refusals. Nothing but the standard library is needed.
"""
from __future__ import annotations

import dataclasses
import functools
import heapq
import itertools
import re
import sys
from array import array
from dataclasses import dataclass
from typing import Callable, Collection, Iterable, Iterator, Sequence

MOST_NODES = 4096
MOST_LINKS = 8192
MOST_PATTERNS = 4095
# How many links all listed patterns of a network text may have together.
MOST_MEMBERS = 2_097_152
MOST_RATE = 32
# How much of a line its refusal shows.
MOST_SHOWN = 100
MOST_TEXT_BYTES = 4_194_304
MOST_CODE_BYTES = 268_435_456
MOST_SOURCE_BYTES = 1_099_511_627_776
# Of a source that `relay` reads, and of the streams that it or `sink` reads, together.
MOST_RELAYED_BYTES = 67_108_864
MOST_STREAM_BYTES = 268_435_456

# How many demands the field of so many bits serves, of those that a network text may ask for.
DEMANDS_SERVED = {8: 256, 16: 65_536}
# The fields that a code file of each version may have, by their marks, and the bytes of an element of each.
FIELDS = {1: (8, 16), 2: (8, 9, 16)}
ELEMENT_BYTES = {8: 1, 9: 1, 16: 2}
CODE_MARK, DRAFT_MARK = b"LIFC", b"LIFK"

ROW_BYTES = 1024
COUNT_BYTES = 4
PIECES = 8
FRAME_BYTES = 140

NAME = re.compile(rb"[A-Za-z0-9_.-]{1,32}")
NONE = "none"


@dataclass(frozen=True)
class Link:
    """A link, by its name and the numbers of the nodes that it leaves and enters."""

    name: str
    tail: int
    head: int


@dataclass(frozen=True)
class Pattern:
    """Links that fail together, by their numbers, which rise."""

    name: str
    links: tuple[int, ...]


@dataclass(frozen=True)
class Network:
    """A network. Pattern 0 is `none`; the field and the rate are those that the text asks for, if it does."""

    nodes: tuple[str, ...]
    links: tuple[Link, ...]
    source: int
    sinks: tuple[int, ...]
    patterns: tuple[Pattern, ...]
    field: int | None = None
    rate: int | None = None

    def demands(self) -> int:
        """The number of sinks times that of patterns, with `none`."""
        return len(self.sinks) * len(self.patterns)

    def demand(self, sink: int, pattern: int) -> int:
        """The number of a demand, by those of its sink and its pattern."""
        return sink * len(self.patterns) + pattern

    def links_by(self, end: Callable[[Link], int]) -> list[list[int]]:
        """For each node the links of which it is the end that is asked for, in rising order."""
        found: list[list[int]] = [[] for _ in self.nodes]
        for number, link in enumerate(self.links):
            found[end(link)].append(number)
        return found


@dataclass(frozen=True)
class Operand:
    """What a link adds up: a row of the source or a link into its tail, and the coefficient."""

    origin: int
    times: int


@dataclass(frozen=True)
class Decoder:
    """Links into a sink, and the square matrix that gives the source's rows of what they carry, row by row."""

    links: tuple[int, ...]
    entries: Sequence[int]


@dataclass(frozen=True)
class Draft:
    """A code without decoders, as its file says it, with the mark of its field."""

    network: Network
    field: int
    rate: int
    operands: tuple[tuple[Operand, ...], ...]


@dataclass(frozen=True)
class Code(Draft):
    """A code, as its file says it. Decoders are numbered as demands are: sinks outside, patterns inside."""

    decoders: tuple[Decoder, ...]


class Refused(Exception):
    """Why bytes aren't a network text, a code file or a draft's: the refusal's name, and its line or its place."""

    def __init__(self, name: str, text: str):
        super().__init__(text)
        self.name = name


# Network texts


@dataclass
class _Begun:
    """The part of a network that the lines so far say. `named` has the links of each name of a link or of a bundle."""

    nodes: dict[bytes, int] = dataclasses.field(default_factory=dict)
    links: list[Link] = dataclasses.field(default_factory=list)
    named: dict[bytes, range] = dataclasses.field(default_factory=dict)
    patterns: dict[bytes, Pattern] = dataclasses.field(default_factory=lambda: {NONE.encode(): Pattern(NONE, ())})
    members: int = 0
    sinks: dict[int, None] = dataclasses.field(default_factory=dict)
    source: int | None = None
    field: int | None = None
    rate: int | None = None
    fail_each: bool = False


# Refusals, each with whether it holds.
_Faults = Iterator[tuple[bool, str]]


def read_network(text: bytes) -> Network:
    """The network of a text, or the refusal of the first line that isn't good."""
    begun = _Begun()
    for number, line in enumerate(text.split(b"\n"), start=1):
        if line:
            _read_line(begun, number, line)
    return _whole(begun)


def _read_line(begun: _Begun, number: int, line: bytes) -> None:
    rest = line.removesuffix(b"\r").split(b"#", 1)[0]
    # Of what is no text nothing but its bytes is looked at, so the words stand between spaces and tabs.
    words = rest.split()
    for holds, name in _line_faults(begun, rest, words):
        if holds:
            shown = rest.decode("ascii", "backslashreplace").strip()
            if len(shown) > MOST_SHOWN:
                shown = f"{shown[:MOST_SHOWN]}.."
            raise Refused(name, f"line {number}: {name}: {shown}")
    if words:
        _add(begun, words)


def _line_faults(begun: _Begun, rest: bytes, words: list[bytes]) -> _Faults:
    """The refusals of a line in their order; one is asked for only where none before it holds."""
    yield re.fullmatch(rb"[\t -~]*", rest) is None, "BadByte"
    if not words:
        return
    yield not _has_form(words), "BadLine"
    yield from _FAULTS[words[0]](begun, words[1:])


def _has_form(words: list[bytes]) -> bool:
    kind, count = words[0], len(words)
    if kind == b"field":
        return words[1:] in ([b"8"], [b"16"])
    if kind == b"rate":
        return count == 2 and _number(words[1], MOST_RATE) is not None
    if kind == b"link":
        return count == 4 or (count == 5 and _bundle_count(words[4]) is not None)
    if kind == b"pattern":
        return count >= 3
    return {b"source": 2, b"sink": 2, b"fail-each": 1}.get(kind) == count


def _number(word: bytes, most: int) -> int | None:
    """The number from 1 to the most that a word is in digits, if it is one, with any zeros ahead."""
    digits = word.lstrip(b"0")
    if not re.fullmatch(rb"[0-9]+", word) or not 1 <= len(digits) <= len(str(most)):
        return None
    return int(digits) if int(digits) <= most else None


def _bundle_count(word: bytes) -> int | None:
    """How many links a bundle has, by its last word."""
    return _number(word[1:], MOST_LINKS) if word.startswith(b"x") else None


def _are_names(words: Iterable[bytes]) -> bool:
    return all(NAME.fullmatch(word) for word in set(words))


def _too_many_nodes(begun: _Begun, names: Iterable[bytes]) -> bool:
    return len(begun.nodes) + sum(name not in begun.nodes for name in set(names)) > MOST_NODES


def _field_faults(begun: _Begun, words: list[bytes]) -> _Faults:
    yield begun.field is not None, "SecondField"


def _rate_faults(begun: _Begun, words: list[bytes]) -> _Faults:
    yield begun.rate is not None, "SecondRate"


def _source_faults(begun: _Begun, names: list[bytes]) -> _Faults:
    yield not _are_names(names), "BadName"
    yield begun.source is not None, "SecondSource"
    yield _too_many_nodes(begun, names), "TooMany Nodes"


def _sink_faults(begun: _Begun, names: list[bytes]) -> _Faults:
    yield not _are_names(names), "BadName"
    yield begun.nodes.get(names[0]) in begun.sinks, "DuplicateSink"
    yield _too_many_nodes(begun, names), "TooMany Nodes"


def _link_faults(begun: _Begun, words: list[bytes]) -> _Faults:
    name, tail, head = words[:3]
    made = _link_names(words)
    # The last name that a bundle makes is its longest.
    yield not _are_names((name, tail, head, made[-1])), "BadName"
    yield not begun.named.keys().isdisjoint((name, *made)), "DuplicateLink"
    yield tail == head, "SelfLoop"
    yield _too_many_nodes(begun, (tail, head)), "TooMany Nodes"
    yield len(begun.links) + len(made) > MOST_LINKS, "TooMany Links"


def _link_names(words: list[bytes]) -> list[bytes]:
    """The names of the links of a line: its own, or those that its bundle makes."""
    count = _bundle_count(words[3]) if len(words) == 4 else None
    return [words[0]] if count is None else [b"%s.%d" % (words[0], number) for number in range(1, count + 1)]


def _pattern_faults(begun: _Begun, names: list[bytes]) -> _Faults:
    yield not _are_names(names), "BadName"
    name, links = names[0], names[1:]
    yield name in begun.patterns, "DuplicatePattern"
    yield not begun.named.keys() >= set(links), "UnknownLink"
    members = sum(len(begun.named[link]) for link in links)
    # Of more members than links one stands twice; so those that are gathered are never more.
    yield members > len(begun.links) or len(set(_members(begun, links))) < members, "RepeatedLink"
    yield len(begun.patterns) > MOST_PATTERNS, "TooMany Patterns"
    yield begun.members + members > MOST_MEMBERS, "TooMany Members"


def _members(begun: _Begun, names: list[bytes]) -> list[int]:
    """The links that the words of a pattern name, in rising order."""
    return sorted(itertools.chain.from_iterable(begun.named[name] for name in names))


def _fail_each_faults(begun: _Begun, words: list[bytes]) -> _Faults:
    yield begun.fail_each, "SecondFailEach"


_FAULTS: dict[bytes, Callable[[_Begun, list[bytes]], _Faults]] = {
    b"field": _field_faults,
    b"rate": _rate_faults,
    b"source": _source_faults,
    b"sink": _sink_faults,
    b"link": _link_faults,
    b"pattern": _pattern_faults,
    b"fail-each": _fail_each_faults,
}


def _add(begun: _Begun, words: list[bytes]) -> None:
    """Adds what a good line says."""
    kind, names = words[0], words[1:]

    def node(name: bytes) -> int:
        return begun.nodes.setdefault(name, len(begun.nodes))

    if kind == b"field":
        begun.field = int(names[0])
    elif kind == b"rate":
        begun.rate = _number(names[0], MOST_RATE)
    elif kind == b"source":
        begun.source = node(names[0])
    elif kind == b"sink":
        begun.sinks[node(names[0])] = None
    elif kind == b"link":
        _add_links(begun, names, node(names[1]), node(names[2]))
    elif kind == b"pattern":
        pattern = Pattern(names[0].decode(), tuple(_members(begun, names[1:])))
        begun.patterns[names[0]] = pattern
        begun.members += len(pattern.links)
    else:
        begun.fail_each = True


def _add_links(begun: _Begun, words: list[bytes], tail: int, head: int) -> None:
    """Adds the links of a line, and what stands for the name of their bundle."""
    names, first = _link_names(words), len(begun.links)
    begun.named[words[0]] = range(first, first + len(names))
    for number, name in enumerate(names, start=first):
        begun.named[name] = range(number, number + 1)
        begun.links.append(Link(name.decode(), tail, head))


def _whole(begun: _Begun) -> Network:
    nodes = tuple(name.decode() for name in begun.nodes)
    if begun.source is None:
        raise Refused("NoSource", "NoSource")
    if not begun.sinks:
        raise Refused("NoSink", "NoSink")
    if begun.source in begun.sinks:
        raise Refused("SinkIsSource", f"SinkIsSource {nodes[begun.source]}")
    patterns = tuple(begun.patterns.values()) + (_single_failures(begun) if begun.fail_each else ())
    return Network(nodes, tuple(begun.links), begun.source, tuple(begun.sinks), patterns, begun.field, begun.rate)


def _single_failures(begun: _Begun) -> tuple[Pattern, ...]:
    """For each link the pattern in which it fails alone, with its name."""
    for link in begun.links:
        if link.name.encode() in begun.patterns:
            raise Refused("PatternNamed", f"PatternNamed {link.name}")
    count = len(begun.patterns) - 1 + len(begun.links)
    if count > MOST_PATTERNS:
        raise Refused("TooManyPatterns", f"TooManyPatterns {count}")
    return tuple(Pattern(link.name, (number,)) for number, link in enumerate(begun.links))


def order_of(network: Network) -> list[int]:
    """The links in order, each after all links into its tail, always the least one next.

    There are fewer than all where there is a cycle.
    """
    out, into = network.links_by(lambda link: link.tail), network.links_by(lambda link: link.head)
    missing = [len(links) for links in into]
    ready = [link for node, links in enumerate(out) if missing[node] == 0 for link in links]
    heapq.heapify(ready)
    order = []
    while ready:
        order.append(heapq.heappop(ready))
        head = network.links[order[-1]].head
        missing[head] -= 1
        if missing[head] == 0:
            for link in out[head]:
                heapq.heappush(ready, link)
    return order


def in_order(network: Network) -> Network:
    """A network without a cycle as its codes have it: its links in order."""
    order = order_of(network)
    number = {link: place for place, link in enumerate(order)}
    patterns = (
        Pattern(pattern.name, tuple(sorted(number[link] for link in pattern.links))) for pattern in network.patterns
    )
    return dataclasses.replace(network, links=tuple(network.links[link] for link in order), patterns=tuple(patterns))


def cycle_of(network: Network) -> list[int] | None:
    """The links of a cycle, from its least one on, where there is a cycle."""
    left = sorted(set(range(len(network.links))) - set(order_of(network)))
    if not left:
        return None
    # Each link that is left has one that is left before it: whoever goes back long enough goes round.
    before: dict[int, int] = {}
    for link in left:
        before.setdefault(network.links[link].head, link)
    way, link = [], left[0]
    while link not in way:
        way.append(link)
        link = before[network.links[link].tail]
    cycle = way[way.index(link) :][::-1]
    least = cycle.index(min(cycle))
    return cycle[least:] + cycle[:least]


# Code files


class _Items:
    """The items of a code file, one after another."""

    def __init__(self, content: bytes):
        self.content = content
        self.at = 0
        # The place of the item that was read last.
        self.begin = 0

    def take(self, size: int) -> bytes:
        """The bytes of the next item."""
        self.begin = self.at
        self.at += size
        if self.at > len(self.content):
            raise self.refused("Truncated")
        return self.content[self.begin : self.at]

    def number(self, size: int = 2) -> int:
        return int.from_bytes(self.take(size), "big")

    def name(self, earlier: Iterable[str]) -> str:
        """A name that none of the earlier ones is."""
        length = self.number(1)
        self.at = self.begin
        name = self.take(1 + length)[1:]
        self.require(NAME.fullmatch(name) is not None and name.decode() not in earlier, "BadName")
        return name.decode()

    def refused(self, name: str, place: int | None = None) -> Refused:
        bare = name in ("BadMagic", "BadVersion", "BadField", "BadRate")
        return Refused(name, name if bare else f"{name} {self.begin if place is None else place}")

    def require(self, holds: bool, name: str, place: int | None = None) -> None:
        if not holds:
            raise self.refused(name, place)


def read_code(content: bytes) -> Code:
    """The code of a file of either version, or the refusal of the first item that isn't good."""
    items = _Items(content)
    version, draft = _read_draft_items(items, CODE_MARK, FIELDS)
    network, field, rate = draft.network, draft.field, draft.rate
    code = Code(network, field, rate, draft.operands, _DECODER_READERS[version](items, network, field, rate))
    _read_end(items)
    return code


def read_draft(content: bytes) -> Draft:
    """The draft of a file, or the refusal of the first item that isn't good."""
    items = _Items(content)
    _, draft = _read_draft_items(items, DRAFT_MARK, (2,))
    _read_end(items)
    return draft


def _read_draft_items(items: _Items, mark: bytes, versions: Collection[int]) -> tuple[int, Draft]:
    """The version, and all that stands before the decoders."""
    version, field, rate = _read_front(items, mark, versions)
    nodes = _read_nodes(items)
    links = _read_links(items, len(nodes))
    source = _read_source(items, len(nodes))
    sinks = _read_sinks(items, len(nodes), source)
    patterns = _read_patterns(items, len(links), len(sinks))
    # No text asks for field 9.
    network = Network(nodes, links, source, sinks, patterns, field if field in DEMANDS_SERVED else None)
    return version, Draft(network, field, rate, _read_operands(items, network, field, rate))


def _read_end(items: _Items) -> None:
    items.begin = items.at
    items.require(items.at == len(items.content), "TrailingBytes")


def read_sinks(content: bytes) -> list[str]:
    """The names of the sinks of a code file. What stands before its patterns is enough, which is less than a megabyte."""
    items = _Items(content)
    _read_front(items, CODE_MARK, FIELDS)
    nodes = _read_nodes(items)
    _read_links(items, len(nodes))
    return [nodes[sink] for sink in _read_sinks(items, len(nodes), _read_source(items, len(nodes)))]


def _read_front(items: _Items, mark: bytes, versions: Collection[int]) -> tuple[int, int, int]:
    """The version, the field and the rate."""
    items.require(items.take(4) == mark, "BadMagic")
    version = items.number(1)
    items.require(version in versions, "BadVersion")
    field = items.number(1)
    items.require(field in FIELDS[version], "BadField")
    rate = items.number(1)
    items.require(1 <= rate <= MOST_RATE, "BadRate")
    return version, field, rate


def _read_nodes(items: _Items) -> tuple[str, ...]:
    count = items.number()
    items.require(count <= MOST_NODES, "TooMany")
    nodes: dict[str, None] = {}
    for _ in range(count):
        nodes[items.name(nodes)] = None
    return tuple(nodes)


def _read_links(items: _Items, nodes: int) -> tuple[Link, ...]:
    count = items.number()
    items.require(count <= MOST_LINKS, "TooMany")
    links: dict[str, Link] = {}
    tails = set()
    for number in range(count):
        name = items.name(links)
        tail = items.number()
        items.require(tail < nodes, "BadIndex")
        tails.add(tail)
        head = items.number()
        items.require(head < nodes, "BadIndex")
        items.require(head not in tails, "OutOfOrder", number)
        links[name] = Link(name, tail, head)
    return tuple(links.values())


def _read_source(items: _Items, nodes: int) -> int:
    source = items.number()
    items.require(source < nodes, "BadIndex")
    return source


def _read_sinks(items: _Items, nodes: int, source: int) -> tuple[int, ...]:
    count = items.number()
    items.require(count > 0, "BadIndex")
    items.require(count <= MOST_NODES, "TooMany")
    sinks: dict[int, None] = {}
    for _ in range(count):
        node = items.number()
        items.require(node < nodes and node != source and node not in sinks, "BadIndex")
        sinks[node] = None
    return tuple(sinks)


def _read_patterns(items: _Items, links: int, sinks: int) -> tuple[Pattern, ...]:
    count = items.number()
    items.require(count <= MOST_PATTERNS and sinks * (count + 1) <= DEMANDS_SERVED[16], "TooMany")
    patterns = {NONE: Pattern(NONE, ())}
    for _ in range(count):
        name = items.name(patterns)
        size = items.number()
        items.require(size > 0, "BadIndex")
        items.require(size <= links, "TooMany")
        failed: list[int] = []
        for _ in range(size):
            link = items.number()
            items.require(link < links, "BadIndex")
            items.require(not failed or link > failed[-1], "NotRising")
            failed.append(link)
        patterns[name] = Pattern(name, tuple(failed))
    return tuple(patterns.values())


def _read_operands(items: _Items, network: Network, field: int, rate: int) -> tuple[tuple[Operand, ...], ...]:
    return tuple(_operands_of_link(items, network, field, rate, link) for link in network.links)


def _operands_of_link(items: _Items, network: Network, field: int, rate: int, link: Link) -> tuple[Operand, ...]:
    count = items.number()
    items.require(count <= MOST_LINKS, "TooMany")
    operands: list[Operand] = []
    for _ in range(count):
        origin = items.number()
        items.require(not operands or origin > operands[-1].origin, "NotRising")
        if link.tail == network.source:
            items.require(origin < rate, "BadOperand")
        else:
            items.require(origin < len(network.links) and network.links[origin].head == link.tail, "BadOperand")
        times = items.number(ELEMENT_BYTES[field])
        items.require(times != 0, "ZeroCoefficient")
        operands.append(Operand(origin, times))
    return tuple(operands)


def _read_each_decoder(items: _Items, network: Network, field: int, rate: int) -> tuple[Decoder, ...]:
    """The decoders of version 1: each demand's stands there."""
    return tuple(
        _decoder_of_sink(items, network, field, rate, sink) for sink in network.sinks for _ in network.patterns
    )


def _read_unlike_decoders(items: _Items, network: Network, field: int, rate: int) -> tuple[Decoder, ...]:
    """The decoders of version 2: each stands there once, with the first demand that has it."""
    decoders: list[Decoder] = []
    # Whether the decoder of each demand so far stands there, and the bytes of those that do.
    written: list[bool] = []
    spellings = set()
    content = memoryview(items.content)
    sinks = [sink for sink in network.sinks for _ in network.patterns]
    for number, sink in enumerate(sinks):
        same = items.number(4)
        items.require(same <= number, "BadIndex")
        written.append(same == 0)
        if same > 0:
            items.require(sinks[same - 1] == sink, "BadOperand")
            items.require(written[same - 1], "NotFirst")
            decoders.append(decoders[same - 1])
            continue
        begin = items.at
        decoders.append(_decoder_of_sink(items, network, field, rate, sink))
        spelling = content[begin : items.at]
        items.require(spelling not in spellings, "Written", items.at - ELEMENT_BYTES[field])
        spellings.add(spelling)
    return tuple(decoders)


_DECODER_READERS = {1: _read_each_decoder, 2: _read_unlike_decoders}


def _decoder_of_sink(items: _Items, network: Network, field: int, rate: int, sink: int) -> Decoder:
    links: list[int] = []
    for _ in range(rate):
        link = items.number()
        items.require(not links or link > links[-1], "NotRising")
        items.require(link < len(network.links) and network.links[link].head == sink, "BadOperand")
        links.append(link)
    return Decoder(tuple(links), _read_entries(items, ELEMENT_BYTES[field], rate * rate))


def _read_entries(items: _Items, size: int, count: int) -> Sequence[int]:
    """So many elements. Where they aren't all there, the place is that of the first one that isn't."""
    there = (len(items.content) - items.at) // size
    if there < count:
        items.take(there * size)
        items.take(size)
    content = items.take(count * size)
    if size == 1:
        return content
    return _big_endian(array("H", content))


def _big_endian(numbers: array[int]) -> array[int]:
    """Numbers of two bytes as a file has them, from those of the machine, or back."""
    if sys.byteorder == "little":
        numbers.byteswap()
    return numbers


def write_code(code: Code, version: int = 2) -> bytes:
    """The file of a code in a version. In version 1 there is none of field 9."""
    if code.field not in FIELDS[version]:
        raise ValueError(f"field {code.field} isn't one of version {version}")
    parts = _draft_items(code, CODE_MARK, version)
    spellings = (_two(*decoder.links) + _elements(code.field, decoder.entries) for decoder in code.decoders)
    return b"".join(parts + (list(spellings) if version == 1 else _unlike(spellings)))


def write_draft(draft: Draft) -> bytes:
    """The file of a draft."""
    return b"".join(_draft_items(draft, DRAFT_MARK, 2))


def _draft_items(draft: Draft, mark: bytes, version: int) -> list[bytes]:
    """All that stands before the decoders."""
    network = draft.network
    parts = [mark, bytes([version, draft.field, draft.rate]), _two(len(network.nodes)), *map(_name, network.nodes)]
    parts += [_two(len(network.links))]
    parts += [_name(link.name) + _two(link.tail, link.head) for link in network.links]
    parts += [_two(network.source, len(network.sinks), *network.sinks), _two(len(network.patterns) - 1)]
    parts += [_name(pattern.name) + _two(len(pattern.links), *pattern.links) for pattern in network.patterns[1:]]
    for operands in draft.operands:
        parts += [_two(len(operands))]
        parts += [_two(operand.origin) + _elements(draft.field, [operand.times]) for operand in operands]
    return parts


def _unlike(spellings: Iterable[bytes]) -> list[bytes]:
    """What each demand has in version 2: its decoder, or else the number of the first demand that has it, and one."""
    first: dict[bytes, int] = {}
    parts = []
    for number, spelling in enumerate(spellings):
        same = first.setdefault(spelling, number)
        parts += [bytes(4), spelling] if same == number else [(same + 1).to_bytes(4, "big")]
    return parts


def _name(text: str) -> bytes:
    return bytes([len(text)]) + text.encode()


def _two(*numbers: int) -> bytes:
    return b"".join(number.to_bytes(2, "big") for number in numbers)


def _elements(field: int, numbers: Sequence[int]) -> bytes:
    return bytes(numbers) if ELEMENT_BYTES[field] == 1 else _big_endian(array("H", numbers)).tobytes()


# Fields


# The polynomial of each field of octets and a generator of its elements but 0, by the field's mark. The first polynomial is
# x^8 + x^4 + x^3 + x^2 + 1, and the second one, x^8 + x^4 + x^3 + x + 1, is that of FIPS 197.
OCTETS = {8: (0x11D, 2), 9: (0x11B, 3)}


@functools.cache
def _octet_tables(field: int) -> tuple[list[int], list[int]]:
    """The powers of the generator of a field of 256 elements, twice round, and the logarithm of each element but 0."""
    polynomial, generator = OCTETS[field]
    powers, logarithms = [1], [0] * 256
    for power in range(1, 510):
        double = powers[-1] << 1
        if double > 255:
            double ^= polynomial
        powers.append(double ^ powers[-1] if generator == 3 else double)
    for power in range(255):
        logarithms[powers[power]] = power
    return powers, logarithms


def octet_product(one: int, other: int, field: int = 8) -> int:
    """The product in a field of 256 elements: that of polynomials, reduced by the field's own."""
    if one == 0 or other == 0:
        return 0
    powers, logarithms = _octet_tables(field)
    return powers[logarithms[one] + logarithms[other]]


def pair_product(one: int, other: int) -> int:
    """The product in the field of 65,536 elements, of pairs `low + high*y` with `y*y = y + 0x20`."""
    a, b, c, d = one & 255, one >> 8, other & 255, other >> 8
    highs = octet_product(b, d)
    low = octet_product(a, c) ^ octet_product(0x20, highs)
    high = octet_product(a, d) ^ octet_product(b, c) ^ highs
    return high << 8 | low


def product_of(field: int) -> Callable[[int, int], int]:
    """The product of a field, by its mark."""
    if field in OCTETS:
        return functools.partial(octet_product, field=field)
    return pair_product


def inverse_of(field: int, element: int) -> int:
    """The element whose product with this one, which isn't 0, is 1: its power by the number of elements less 2."""
    product, power, total = product_of(field), element, 1
    for _ in range(8 * ELEMENT_BYTES[field] - 1):
        power = product(power, power)
        total = product(total, power)
    return total


# What links carry


Vector = tuple[int, ...]


def unit_vector(rate: int, row: int) -> Vector:
    """What carries a row of the source as it is."""
    return tuple(int(column == row) for column in range(rate))


def combination(field: int, rate: int, terms: Iterable[tuple[int, Vector]]) -> Vector:
    """The sum of vectors, each times its coefficient."""
    product = product_of(field)
    total = [0] * rate
    for times, vector in terms:
        for place, element in enumerate(vector):
            total[place] ^= product(times, element)
    return tuple(total)


def live_where(code: Draft, failed: Collection[int]) -> list[bool]:
    """For each link whether it is live where these links fail.

    It is where it doesn't fail itself, and some operand is a row of the source or a live link.
    """
    network = code.network
    live: list[bool] = []
    failing = frozenset(failed)
    for number, link in enumerate(network.links):
        live.append(
            number not in failing
            and any(link.tail == network.source or live[operand.origin] for operand in code.operands[number])
        )
    return live


def live_links(code: Draft, pattern: int) -> list[bool]:
    """The same where the pattern's links fail."""
    return live_where(code, code.network.patterns[pattern].links)


def _pattern_named(network: Network, name: str) -> int:
    return [pattern.name for pattern in network.patterns].index(name)


def links_read(code: Code, pattern: str, node: str, is_sink: bool = False) -> list[str]:
    """The names of the live links into a node, or of those that the sink there decodes. An unknown name is a ValueError."""
    network, failed = code.network, _pattern_named(code.network, pattern)
    number, live = network.nodes.index(node), live_links(code, failed)
    links: Iterable[int] = (place for place, link in enumerate(network.links) if link.head == number)
    if is_sink:
        links = code.decoders[network.demand(network.sinks.index(number), failed)].links
    return [network.links[link].name for link in links if live[link]]


def links_written(code: Code, pattern: str, node: str) -> list[str]:
    """The names of the live links out of a node. An unknown name is a ValueError."""
    live, number = live_links(code, _pattern_named(code.network, pattern)), code.network.nodes.index(node)
    return [link.name for place, link in enumerate(code.network.links) if link.tail == number and live[place]]


def vectors_where(code: Draft, failed: Collection[int]) -> list[Vector]:
    """For each link the coefficients of the source's rows in what it carries where these links fail."""
    network = code.network
    vectors: list[Vector] = []
    failing = frozenset(failed)
    for number, link in enumerate(network.links):
        operands = () if number in failing else code.operands[number]
        vectors.append(
            combination(
                code.field,
                code.rate,
                (
                    (
                        operand.times,
                        unit_vector(code.rate, operand.origin)
                        if link.tail == network.source
                        else vectors[operand.origin],
                    )
                    for operand in operands
                ),
            )
        )
    return vectors


def vectors_of(code: Draft, pattern: int) -> list[Vector]:
    """The same where the pattern's links fail."""
    return vectors_where(code, code.network.patterns[pattern].links)


def rank_of(field: int, vectors: Iterable[Vector]) -> int:
    """How many of the vectors aren't sums of multiples of those before them."""
    # Those that are, each with the place of an element that is 0 in all behind it.
    kept: list[tuple[int, Vector]] = []
    for vector in vectors:
        for place, other in kept:
            if vector[place]:
                vector = combination(field, len(vector), ((other[place], vector), (vector[place], other)))
        if any(vector):
            kept.append((next(place for place, element in enumerate(vector) if element), vector))
    return len(kept)


def ranks_where(code: Draft, failed: Collection[int]) -> list[int]:
    """For each sink the rank of the vectors of the links into it where these links fail, as `lif blind` says it."""
    vectors, into = vectors_where(code, failed), code.network.links_by(lambda link: link.head)
    return [rank_of(code.field, (vectors[link] for link in into[node])) for node in code.network.sinks]


def whole_sinks(code: Draft, failed: Collection[int]) -> list[str]:
    """The names of the sinks that `lif blind` serves where these links fail: those whose rank is the code's rate."""
    network, ranks = code.network, ranks_where(code, failed)
    return [network.nodes[node] for node, rank in zip(network.sinks, ranks) if rank == code.rate]


def first_wrong_entry(code: Code, decoder: Decoder, vectors: Sequence[Vector]) -> tuple[int, int, int] | None:
    """Where a decoder's matrix times its links' vectors first differs from the identity: the row, the column, the element.

    There is none where the decoder gives back every block.
    """
    rate = code.rate
    for row in range(rate):
        entries = decoder.entries[row * rate : (row + 1) * rate]
        found = combination(code.field, rate, zip(entries, (vectors[link] for link in decoder.links)))
        for column, element in enumerate(found):
            if element != int(row == column):
                return row, column, element
    return None


def check_failure(code: Code) -> str | None:
    """The first demand that fails and its first wrong entry, as `lif check` says them; none for an accepted code."""
    network = code.network
    vectors = [vectors_of(code, pattern) for pattern in range(len(network.patterns))]
    for sink, node in enumerate(network.sinks):
        for number, pattern in enumerate(network.patterns):
            wrong = first_wrong_entry(code, code.decoders[network.demand(sink, number)], vectors[number])
            if wrong is not None:
                row, column, found = wrong
                return f"demand {network.nodes[node]} {pattern.name} row {row} column {column} found {found}"
    return None


# Decoders of drafts


@dataclass(frozen=True)
class Confusion:
    """A demand that doesn't decode, by its number, and elements that every link into its sink carries as 0: not all are 0."""

    demand: int
    block: Vector


class _Rows:
    """Rows with the same sums of multiples as those taken in so far. Each has its first element that isn't 0 within the first
    elements, as many as the width; that is 1, and 0 in the others."""

    def __init__(self, field: int, width: int):
        self.field, self.width, self.product = field, width, product_of(field)
        # Each by the place of that element.
        self.rows: dict[int, list[int]] = {}

    def _less(self, row: list[int], times: int, other: list[int]) -> list[int]:
        """The row, less so many times another one."""
        return [a ^ self.product(times, b) if b else a for a, b in zip(row, other)] if times else row

    def take_in(self, row: Sequence[int]) -> bool:
        """Whether it was no sum of multiples of those before."""
        left = list(row)
        for place, other in self.rows.items():
            left = self._less(left, left[place], other)
        first = next((place for place in range(self.width) if left[place]), None)
        if first is None:
            return False
        by = inverse_of(self.field, left[first])
        left = [self.product(by, element) for element in left]
        for place, other in self.rows.items():
            self.rows[place] = self._less(other, other[first], left)
        self.rows[first] = left
        return True

    def hidden(self) -> Vector:
        """Elements, not all 0, with which every row adds up to 0, where fewer rows are there than the width."""
        free = next(place for place in range(self.width) if place not in self.rows)
        return tuple(
            1 if place == free else self.rows[place][free] if place in self.rows else 0 for place in range(self.width)
        )


def chosen_links(draft: Draft, links: Iterable[int], vectors: Sequence[Vector]) -> list[int]:
    """Of links those whose vector isn't a sum of multiples of the vectors of earlier ones."""
    rows = _Rows(draft.field, draft.rate)
    return [link for link in links if rows.take_in(vectors[link])]


def decoder_of(draft: Draft, links: Sequence[int], vectors: Sequence[Vector]) -> Decoder:
    """The decoder with these links, as many as the rate and none a sum of multiples of others: its matrix is the inverse of
    that of their vectors."""
    rate, rows = draft.rate, _Rows(draft.field, draft.rate)
    for place, link in enumerate(links):
        rows.take_in([*vectors[link], *unit_vector(rate, place)])
    return Decoder(tuple(links), [element for place in range(rate) for element in rows.rows[place][rate:]])


def finish(draft: Draft) -> Code | Confusion:
    """The code that `lif finish` makes of a draft, or else the first demand that doesn't decode."""
    network = draft.network
    decoders: list[Decoder] = []
    into = network.links_by(lambda link: link.head)
    vectors = [vectors_of(draft, pattern) for pattern in range(len(network.patterns))]
    for node in network.sinks:
        for carried in vectors:
            links = chosen_links(draft, into[node], carried)
            if len(links) < draft.rate:
                rows = _Rows(draft.field, draft.rate)
                for link in links:
                    rows.take_in(carried[link])
                return Confusion(len(decoders), rows.hidden())
            decoders.append(decoder_of(draft, links, carried))
    return Code(network, draft.field, draft.rate, draft.operands, tuple(decoders))


def draft_of(code: Draft) -> Draft:
    """A code without its decoders."""
    return Draft(code.network, code.field, code.rate, code.operands)


# Two sources


# The node that feeds both, and the beginnings of the names of its links into the source and into the second node.
SUPER, INTO_SOURCE, INTO_SECOND = "super", "super.1", "super.2"


def super_links(r1: int, r2: int) -> list[str]:
    """The names of so many links into the source, and so many into the second node."""
    return [
        f"{front}.{number}" for front, count in ((INTO_SOURCE, r1), (INTO_SECOND, r2)) for number in range(1, count + 1)
    ]


def taken_name(network: Network, r1: int, r2: int) -> str | None:
    """The first node or link that has the name of what is made for two sources, with its kind."""
    if SUPER in network.nodes:
        return f"node {SUPER}"
    made = set(super_links(r1, r2))
    return next((f"link {link.name}" for link in network.links if link.name in made), None)


def why_unjoined(network: Network, second: str, r1: int, r2: int) -> str | None:
    """Why the source and the second node aren't joined, as `lif twin` says it; none where they are."""
    if second not in network.nodes:
        return "UnknownSecond"
    if taken_name(network, r1, r2) is not None:
        return "NameTaken"
    if len(network.nodes) >= MOST_NODES or len(network.links) + r1 + r2 > MOST_LINKS:
        return "TooMany"
    return None


def join_sources(network: Network, second: str, r1: int, r2: int) -> Network:
    """The network with a node `super` in place of its source, from which so many links lead into the source, and so many into
    the second node, and with both rates together as the one that is wanted. Those links come first, and the node last. A
    second node that can't be joined is a ValueError with the reason."""
    why = why_unjoined(network, second, r1, r2)
    if why is not None:
        raise ValueError(why)
    node, heads = len(network.nodes), [network.source] * r1 + [network.nodes.index(second)] * r2
    links = (Link(name, node, head) for name, head in zip(super_links(r1, r2), heads))
    patterns = (Pattern(it.name, tuple(r1 + r2 + link for link in it.links)) for it in network.patterns)
    return dataclasses.replace(
        network,
        nodes=(*network.nodes, SUPER),
        links=(*links, *network.links),
        source=node,
        patterns=tuple(patterns),
        rate=r1 + r2,
    )


def separate(code: Code) -> Code:
    """The code whose links out of the source, which have to be the first, as many as the rate, carry a row of the block each,
    and whose other operands stay. The matrix of each decoder is multiplied from the left by that of the vectors that these
    links had."""
    network, field, rate = code.network, code.field, code.rate
    if [number for number, link in enumerate(network.links) if link.tail == network.source] != list(range(rate)):
        raise ValueError("the links out of the source aren't the first, as many as the rate")
    units = [unit_vector(rate, row) for row in range(rate)]
    vectors = [
        combination(field, rate, ((operand.times, units[operand.origin]) for operand in operands))
        for operands in code.operands[:rate]
    ]

    def decoder(old: Decoder) -> Decoder:
        rows = [tuple(old.entries[row * rate : (row + 1) * rate]) for row in range(rate)]
        product = (combination(field, rate, zip(vector, rows)) for vector in vectors)
        return Decoder(old.links, [element for row in product for element in row])

    operands = tuple((Operand(row, 1),) for row in range(rate)) + code.operands[rate:]
    return dataclasses.replace(code, operands=operands, decoders=tuple(map(decoder, code.decoders)))


# Blocks


def capacity(rate: int) -> int:
    """How many bytes of a file a block has room for."""
    return rate * ROW_BYTES - COUNT_BYTES


def generations(rate: int, length: int) -> int:
    """How many blocks a file of so many bytes has."""
    return length // capacity(rate) + 1
