"""liblif by its calls: each wrong argument, nodes and sinks of random codes beside what links carry, and the example."""
from __future__ import annotations

import concurrent.futures
import dataclasses
import gc
import io
import itertools
import mmap
import os
import random
import re
import shutil
import sys
import weakref
from dataclasses import dataclass, field
from pathlib import Path
from typing import Any, Callable, Iterator, Sequence

import pytest

from documents import check_commands
from support import EXAMPLES, FLY, TOOLS, ended, has_liblif
from traffic import blocks_of, streams_of
from lif_tools import liblif
from lif_tools.drafting import draft_with, draw_coefficients
from lif_tools.formats import (
    FRAME_BYTES,
    MOST_CODE_BYTES,
    PIECES,
    ROW_BYTES,
    Code,
    Confusion,
    Link,
    Network,
    Pattern,
    Refused,
    capacity,
    check_failure,
    finish,
    live_links,
    read_code,
    write_code,
)
from lif_tools.liblif import Item, LifError, Node, Sink, Status, blocks, counted, cut, frame_generation, frame_link, library

pytestmark = pytest.mark.skipif(not has_liblif(), reason="there is no liblif, or no python3-cffi")
EXAMPLE = EXAMPLES / "python/butterfly.py"
# More than any number of a node, link, sink or pattern, and the greatest that a call takes.
NUMBERS = (100_000, 0xFFFFFFFF)


# Frames one behind another


def test_frames_one_behind_another() -> None:
    """They are those that come one by one, and those that are refused are told."""
    with liblif.Code(FLY) as code, Node(code, "s") as one, Node(code, "s") as all_at_once, Node(code, "a") as node:
        for source in (one, all_at_once):
            source.begin(5, 2)
            for generation in (5, 6):
                source.feed(generation, cut(bytes([generation] * 2000), 2))
        frames = [*one.frames()]
        assert [all_at_once.due(3), all_at_once.due(100), all_at_once.due(100), all_at_once.due(0)] == [
            b"".join(frames[:3]), b"".join(frames[3:]), b"", b""
        ]  # fmt: skip
        node.begin(5)
        refused = node.accept_each(b"".join(frames) + b"rest")
        taken = [frame for frame in frames if frame_link(frame) == code.link("s-a") and frame_generation(frame) == 5]
        assert len(refused) == len(frames) + 1 - len(taken) and refused[-1].status is Status.BAD_LENGTH
        assert {each.status for each in refused[:-1]} == {Status.OTHER_LINK, Status.NOT_BEGUN}
        assert not any(map(node.accept, taken)) and len([*node.frames()]) == 16


# The header


def test_numbers_and_words_are_those_of_the_header() -> None:
    header = liblif.header().read_text()
    told = {name: int(number) for name, number in re.findall(r"^\s+LIF_(\w+) = (\d+)\b", header, re.MULTILINE)}
    for kind in (Status, Item):
        assert {each.name: each.value for each in kind}.items() <= told.items()
    spoken = re.search(r"lif_says\(.*?\{(.*?)\n\}", header, re.DOTALL)
    assert spoken and re.findall(r'"(.*)",', spoken[1])[1:] == [status.words for status in Status]
    named = re.search(r"lif_item_name\(.*?\{(.*?)\n\}", header, re.DOTALL)
    names = [item.name.title().replace("_", "") for item in Item]
    assert named and re.findall(r'"(\w+)"', named[1]) == names


# Wrong arguments


class Calls:
    """Calls with handles of their own: of a code, of two nodes and of a sink of the butterfly, at work."""

    def __init__(self) -> None:
        self.ffi, self.lib = library()
        self.keep: list[Any] = []
        self.code, self.node, self.source, self.sink = (self.handle(kind) for kind in ("code", "node", "node", "sink"))
        assert self.lib.lif_code_open(self.code, FLY, len(FLY), self.new("lif_refusal *")) == 0
        code = read_code(FLY)
        self.streams = streams_of(code, 0, b"a source" * 400)
        (self.blocks, names) = blocks_of(2, b"a source" * 400), code.network.nodes
        assert self.lib.lif_node_open(self.node, self.code, 0, names.index("c")) == 0
        assert self.lib.lif_node_open(self.source, self.code, 0, names.index("s")) == 0
        assert self.lib.lif_sink_open(self.sink, self.code, 0, 0) == 0
        for begin, handle in self.began():
            assert begin(handle, 0, 2) == 0
        assert self.lib.lif_node_feed(self.source, 1, self.blocks[1], 2 * ROW_BYTES) == 0
        for link in ("a-c", "b-c"):
            self.take(self.lib.lif_node_accept, self.node, link)
        self.take(self.lib.lif_sink_accept, self.sink, "a-t1")

    def began(self) -> Iterator[tuple[Any, Any]]:
        yield self.lib.lif_node_begin, self.node
        yield self.lib.lif_node_begin, self.source
        yield self.lib.lif_sink_begin, self.sink

    def take(self, accept: Any, handle: Any, link: str) -> None:
        """Takes in the first frames of a link."""
        for place in range(3):
            assert accept(handle, self.frame(link, place), FRAME_BYTES, self.new("bool *")) == 0

    def new(self, kind: str, given: Any = None) -> Any:
        self.keep.append(self.ffi.new(kind, given))
        return self.keep[-1]

    def handle(self, kind: str) -> Any:
        """A handle that is closed."""
        return self.new(f"lif_{kind} *")

    def as_kind(self, kind: str, handle: Any) -> Any:
        """A handle by a cast."""
        return self.ffi.cast(f"lif_{kind} *", handle)

    def frame(self, link: str, place: int) -> bytes:
        return self.streams[link][place * FRAME_BYTES :][:FRAME_BYTES]

    def state(self) -> list[bytes]:
        """The bytes of all that stands behind pointers; of handles what is in use."""
        found = []
        for each in self.keep:
            kind = self.ffi.typeof(each)
            if kind.cname in ("lif_code *", "lif_node *", "lif_sink *"):
                found.append(repr((each.at, each.is_open)).encode())
            else:
                found.append(bytes(self.ffi.buffer(each)))
        return found

    def rest(self) -> list[object]:
        """What the nodes and the sink do from then on."""
        frame, block, flag = self.new("uint8_t[]", FRAME_BYTES), self.new("uint8_t[]", 2 * ROW_BYTES), self.new("bool *")
        told: list[object] = []
        for node in (self.source, self.node):
            while self.lib.lif_node_next(node, frame, FRAME_BYTES) == 0:
                told.append(bytes(self.ffi.buffer(frame)))
        for link in ("a-t1", "d-t1"):
            for place in range(2 * PIECES):
                assert self.lib.lif_sink_accept(self.sink, self.frame(link, place), FRAME_BYTES, flag) == 0
                told.append(flag[0])
        for generation in (0, 1):
            assert self.lib.lif_sink_block(self.sink, generation, block, 2 * ROW_BYTES) == 0
            told.append(bytes(self.ffi.buffer(block)))
        return told

    def close(self) -> None:
        assert self.lib.lif_code_close(self.code) == 0
        assert self.lib.lif_node_close(self.node) == self.lib.lif_node_close(self.source) == 0
        assert self.lib.lif_sink_close(self.sink) == 0


# A call with a wrong argument: its name behind `lif_`, its handle if it has one, and what else it is given.
Wrong = tuple[str, Any, Sequence[Any], Status]


def other_kinds(c: Calls) -> Iterator[Wrong]:
    """Each call of a handle that is closed, and of one that holds something else."""
    number, flag, length, name = c.new("uint32_t *", 77), c.new("bool *", 1), c.new("size_t *", 7), c.new("uint8_t[]", 40)
    frame, block = c.new("uint8_t[]", FRAME_BYTES), c.new("uint8_t[]", 2 * ROW_BYTES)
    good = c.new("uint8_t[]", c.frame("a-c", 0))
    calls: dict[str, tuple[Any, ...]] = {
        "code_close": (),
        "code_shape": (c.new("lif_shape *"),),
        "code_ends": (0, number, c.new("uint32_t *", 78)),
        "code_sink": (0, number),
        "code_node_name": (0, name, 32, length),
        "code_link_name": (0, name, 32, length),
        "code_pattern_name": (0, name, 32, length),
        "node_link_in": (0, number),
        "node_link_out": (0, number),
        "node_begin": (0, 1),
        "node_feed": (0, block, 2 * ROW_BYTES),
        "node_accept": (good, FRAME_BYTES, flag),
        "node_next": (frame, FRAME_BYTES),
        "node_close": (),
        "sink_begin": (0, 1),
        "sink_wants": (0, flag),
        "sink_accept": (good, FRAME_BYTES, flag),
        "sink_is_whole": (0, flag),
        "sink_block": (0, block, 2 * ROW_BYTES),
        "sink_close": (),
    }
    for call, given in calls.items():
        kind = call[:4]
        yield call, c.handle(kind), given, Status.CLOSED
        for other, handle in (("code", c.code), ("node", c.node), ("sink", c.sink)):
            if other != kind:
                yield call, c.as_kind(kind, handle), given, Status.OTHER_KIND
    for call in ("node_open", "sink_open"):
        kind = call[:4]
        handle = {"node": c.node, "sink": c.sink}[kind]
        yield call, handle, (c.handle("code"), 9, 99), Status.OPEN
        yield call, c.as_kind(kind, c.code), (c.handle("code"), 0, 0), Status.OPEN
        yield call, c.handle(kind), (c.handle("code"), 9, 99), Status.CLOSED
        yield call, c.handle(kind), (c.as_kind("code", handle), 9, 99), Status.OTHER_KIND


def wrong_codes(c: Calls) -> Iterator[Wrong]:
    one, other, length = c.new("uint32_t *", 77), c.new("uint32_t *", 78), c.new("size_t *", 79)
    name = c.new("uint8_t[]", 40)
    yield "code_open", c.code, (b"", 0, c.new("lif_refusal *")), Status.OPEN
    for wrong in (9, *NUMBERS):
        yield "code_ends", c.code, (wrong, one, other), Status.NO_LINK
        yield "code_sink", c.code, (wrong, one), Status.NO_SINK
        yield "code_node_name", c.code, (wrong, name, 32, length), Status.NO_NODE
        yield "code_link_name", c.code, (wrong, name, 32, length), Status.NO_LINK
        yield "code_pattern_name", c.code, (wrong, name, 32, length), Status.NO_PATTERN
        yield "code_link_name", c.code, (wrong, name, 0, length), Status.NO_LINK
    for call, longest in (("node", 1), ("link", 2), ("pattern", 3)):
        for room in range(longest):
            yield f"code_{call}_name", c.code, (0, name, room, length), Status.BAD_LENGTH


def wrong_nodes(c: Calls) -> Iterator[Wrong]:
    number, flag, frame = c.new("uint32_t *", 77), c.new("bool *", 1), c.new("uint8_t[]", FRAME_BYTES + 1)
    block = c.new("uint8_t[]", 2 * ROW_BYTES + 1)
    for wrong in (7, *NUMBERS):
        yield "node_open", c.handle("node"), (c.code, wrong, 0), Status.NO_PATTERN
        yield "node_open", c.handle("node"), (c.code, wrong, wrong), Status.NO_PATTERN
        yield "node_open", c.handle("node"), (c.code, 0, wrong), Status.NO_NODE
        yield "node_link_in", c.node, (wrong, number), Status.NO_LINK
        yield "node_link_out", c.node, (wrong, number), Status.NO_LINK
        yield "node_feed", c.node, (wrong, block, 0), Status.NOT_SOURCE
        yield "node_feed", c.source, (wrong, block, 0), Status.NOT_BEGUN
    yield "node_link_in", c.node, (2, number), Status.NO_LINK
    yield "node_link_out", c.node, (1, number), Status.NO_LINK
    yield "node_link_in", c.source, (0, number), Status.NO_LINK
    for handle in (c.node, c.source):
        for window in wrong_windows():
            yield "node_begin", handle, window, Status.BAD_WINDOW
        for length in (0, 139, 141):
            yield "node_next", handle, (frame, length), Status.BAD_LENGTH
    yield "node_feed", c.source, (2, block, 2 * ROW_BYTES), Status.NOT_BEGUN
    for generation in (0, 1):
        for length in (0, ROW_BYTES, 2 * ROW_BYTES - 1, 2 * ROW_BYTES + 1):
            yield "node_feed", c.source, (generation, block, length), Status.BAD_LENGTH
    yield "node_feed", c.source, (1, block, 2 * ROW_BYTES), Status.FED
    for content, length, status in wrong_frames(c, "a-c", "a-t1"):
        yield "node_accept", c.node, (c.new("uint8_t[]", content), length, flag), status
    yield "node_accept", c.source, (c.new("uint8_t[]", c.frame("a-c", 0)), FRAME_BYTES, flag), Status.OTHER_LINK


def wrong_sinks(c: Calls) -> Iterator[Wrong]:
    flag, block = c.new("bool *", 1), c.new("uint8_t[]", 2 * ROW_BYTES + 1)
    for wrong in (2, *NUMBERS):
        yield "sink_open", c.handle("sink"), (c.code, wrong, 0), Status.NO_PATTERN
        yield "sink_open", c.handle("sink"), (c.code, wrong, wrong), Status.NO_PATTERN
        yield "sink_open", c.handle("sink"), (c.code, 0, wrong), Status.NO_SINK
        yield "sink_is_whole", c.sink, (wrong, flag), Status.NOT_BEGUN
        yield "sink_block", c.sink, (wrong, block, 0), Status.NOT_BEGUN
    for window in wrong_windows():
        yield "sink_begin", c.sink, window, Status.BAD_WINDOW
    for length in (0, ROW_BYTES, 2 * ROW_BYTES - 1, 2 * ROW_BYTES + 1):
        yield "sink_block", c.sink, (0, block, length), Status.BAD_LENGTH
    for generation in (0, 1):
        yield "sink_block", c.sink, (generation, block, 2 * ROW_BYTES), Status.NOT_WHOLE
    for content, length, status in wrong_frames(c, "a-t1", "a-c"):
        yield "sink_accept", c.sink, (c.new("uint8_t[]", content), length, flag), status


def wrong_windows() -> list[tuple[int, int]]:
    return [(0, 0), (0, 5), (3, 0xFFFFFFFF), (0xFFFFFFFF, 0), (0xFFFFFFFF, 2), (0xFFFFFFFD, 4)]


def wrong_frames(c: Calls, link: str, other: str) -> Iterator[tuple[bytes, int, Status]]:
    """Frames with their lengths that aren't taken in, where those of a link are."""
    good, not_begun = c.frame(link, 5), bytes([0, 0, 0, 2])
    for length in (0, 139, 141, 280):
        yield good * 2, length, Status.BAD_LENGTH
    for place, byte in ((0, b"l"), (1, b"G"), (2, b"\0"), (2, b"\2"), (3, b"\x08"), (3, b"\xff")):
        yield good[:place] + byte + good[place + 1 :], FRAME_BYTES, Status.BAD_FRAME
        yield good[:place] + byte + good[place + 1 : 4] + b"\xff" * 136, FRAME_BYTES, Status.BAD_FRAME
    for number in (c.frame(other, 0)[4:8], b"\0\0\0\x09", b"\xff" * 4):
        yield good[:4] + number + good[8:], FRAME_BYTES, Status.OTHER_LINK
        yield good[:4] + number + not_begun + good[12:], FRAME_BYTES, Status.OTHER_LINK
    for generation in (not_begun, b"\xff" * 4):
        yield good[:8] + generation + good[12:], FRAME_BYTES, Status.NOT_BEGUN


@pytest.mark.parametrize("wrong", [other_kinds, wrong_codes, wrong_nodes, wrong_sinks])
def test_a_wrong_argument_has_its_status_and_changes_nothing(wrong: Callable[[Calls], Iterator[Wrong]]) -> None:
    untouched, calls = Calls(), Calls()
    for name, handle, given, status in wrong(calls):
        before = calls.state()
        assert getattr(calls.lib, f"lif_{name}")(handle, *given) == status, (name, given, status.name)
        assert calls.state() == before, (name, given)
    assert calls.rest() == untouched.rest()
    untouched.close()
    calls.close()


def test_nothing_is_due_until_something_came() -> None:
    c = Calls()
    frame = c.new("uint8_t[]", b"x" * FRAME_BYTES)
    for handle in (c.node, c.source):
        assert c.lib.lif_node_begin(handle, 0, 1) == 0
        before = c.state()
        assert c.lib.lif_node_next(handle, frame, FRAME_BYTES) == Status.NOTHING_DUE
        assert c.state() == before
    c.close()


def test_wrong_lengths_of_blocks() -> None:
    ffi, lib = library()
    room, count = ffi.new("uint8_t[]", b"x" * 33 * ROW_BYTES), ffi.new("size_t *", 7)
    piece = bytes(33 * ROW_BYTES)
    for length, size in ((0, 0), (0, 4), (0, 1023), (0, 1025), (0, 33 * 1024), (1021, 1024), (1024, 1024), (2045, 2048)):
        assert lib.lif_cut(piece, length, room, size) == Status.BAD_LENGTH
    for size in range(4):
        assert lib.lif_count(piece, size, count) == Status.BAD_LENGTH
    assert bytes(ffi.buffer(room))[: 33 * ROW_BYTES] == b"x" * 33 * ROW_BYTES and count[0] == 7


# Codes that aren't opened


def opened(content: bytes) -> str:
    """What comes of opening a code, as `lif check` says it, with the demand's number."""
    try:
        liblif.Code.open(content).close()
    except liblif.CodeRefused as refused:
        if refused.item is None:
            return f"{refused.demand} row {refused.row} column {refused.column} found {refused.found}"
        name = refused.item.name.title().replace("_", "")
        return name if name in ("BadMagic", "BadVersion", "BadField", "BadRate") else f"{name} {refused.at}"
    return "accepted"


def read(content: bytes) -> str:
    """The same by the formats."""
    try:
        code = read_code(content)
    except Refused as refused:
        return str(refused)
    network = code.network
    failure = check_failure(code)
    if failure is None:
        return "accepted"
    _, sink, pattern, *rest = failure.split(" ")
    nodes = [network.nodes[node] for node in network.sinks]
    patterns = [each.name for each in network.patterns]
    return " ".join([str(network.demand(nodes.index(sink), patterns.index(pattern))), *rest])


@pytest.mark.parametrize("version", [1, 2])
def test_codes_with_a_wrong_byte_are_refused_as_by_the_formats(version: int) -> None:
    content, chance = write_code(random_code(8, 5), version), random.Random(version)
    assert opened(content) == "accepted"
    told = set()
    for end in range(len(content)):
        assert opened(content[:end]) == read(content[:end])
    for _ in range(3000):
        wrong = bytearray(content + b"\0" * chance.randrange(0, 2))
        for _ in range(chance.randrange(1, 3)):
            wrong[chance.randrange(len(wrong))] = chance.choice([0, 1, 2, 3, 9, 255, chance.randrange(256)])
        said = read(bytes(wrong))
        assert opened(bytes(wrong)) == said
        told.add(said.split(" ")[0] if not said[0].isdigit() else "failed")
    assert {"accepted", "failed", "BadName", "BadIndex", "OutOfOrder", "BadOperand", "ZeroCoefficient"} <= told


def test_a_code_of_too_many_bytes() -> None:
    with pytest.raises(liblif.CodeRefused) as refused:
        liblif.Code(memoryview(mmap.mmap(-1, MOST_CODE_BYTES + 1)))
    assert refused.value.status is Status.TOO_LONG


# Random codes


def random_network(chance: random.Random) -> Network:
    """A network with some patterns, in which links lead from nodes to later ones."""
    count = chance.randrange(4, 9)
    ends = sorted(tuple(sorted(chance.sample(range(count), 2))) for _ in range(chance.randrange(10, 22)))
    links = tuple(Link(f"l{place}", tail, head) for place, (tail, head) in enumerate(ends))
    sinks = tuple(sorted(chance.sample(range(1, count), chance.randrange(1, 4))))
    patterns = (Pattern(f"p{at}", tuple(sorted(chance.sample(range(len(links)), chance.randrange(1, 3))))) for at in range(4))
    return Network(tuple(f"n{node}" for node in range(count)), links, 0, sinks, (Pattern("none", ()), *patterns))


def random_code(field: int, seed: int) -> Code:
    """A code of such a network, without the patterns under which it doesn't decode."""
    chance = random.Random(f"{field} {seed}")
    while True:
        network, rate = random_network(chance), chance.randrange(1, 5)
        terms = draw_coefficients(chance.randrange(1 << 30), network, field, rate)
        # Not all that a link may add up, so that some links carry nothing.
        terms = [{origin: times for origin, times in each.items() if chance.random() < 0.8} for each in terms]
        while isinstance(code := finish(draft_with(network, field, rate, terms)), Confusion):
            bad = code.demand % len(network.patterns)
            if bad == 0:
                break
            patterns = tuple(pattern for number, pattern in enumerate(network.patterns) if number != bad)
            network = dataclasses.replace(network, patterns=patterns)
        else:
            if len(network.patterns) > 1:
                return code


@dataclass
class Model:
    """A node by the rules of the formats: what came to it and what it gave, by generation, link and piece."""

    code: Code
    node: int
    live: list[bool]
    came: set[tuple[int, int, int]] = field(default_factory=set)
    given: set[tuple[int, int, int]] = field(default_factory=set)

    def due(self, window: range) -> list[tuple[int, int, int]]:
        """The frames that are due, in order."""
        network, found = self.code.network, []
        for key in itertools.product(window, range(len(network.links)), range(PIECES)):
            generation, link, piece = key
            if network.links[link].tail == self.node and self.live[link] and key not in self.given:
                origins = [operand.origin for operand in self.code.operands[link]]
                if self.node != network.source:
                    origins = [origin for origin in origins if self.live[origin]]
                if all((generation, origin, piece) in self.came for origin in origins):
                    found.append(key)
        return found


class Traffic:
    """The frames that the links of a code carry under a pattern, by generation, link and piece."""

    def __init__(self, code: Code, pattern: int, source: bytes):
        numbers = {link.name: number for number, link in enumerate(code.network.links)}
        self.frames: dict[tuple[int, int, int], bytes] = {}
        for name, stream in streams_of(code, pattern, source).items():
            for at in range(0, len(stream), FRAME_BYTES):
                frame = stream[at : at + FRAME_BYTES]
                self.frames[frame_generation(frame), numbers[name], frame[3]] = frame

    def into(self, links: Sequence[int], window: range, chance: random.Random) -> list[tuple[int, int, int]]:
        """What comes over links, in any order, and some of it again."""
        keys = [key for key in self.frames if key[0] in window and key[1] in links]
        keys += chance.choices(keys, k=len(keys) // 3) if keys else []
        chance.shuffle(keys)
        return keys


def windows_of(count: int, chance: random.Random) -> Iterator[range]:
    """All generations, by windows that may overlap."""
    first = 0
    while first < count:
        size = chance.randrange(1, 5)
        yield range(first, first + size)
        first += chance.randrange(1, size + 1)


@pytest.mark.parametrize("seed", range(5))
@pytest.mark.parametrize("field_mark", [8, 9, 16])
def test_what_nodes_give_is_the_coded_traffic(field_mark: int, seed: int) -> None:
    code, chance = random_code(field_mark, seed), random.Random(seed)
    network = code.network
    source = chance.randbytes(chance.randrange(7 * capacity(code.rate)))
    fed = blocks_of(code.rate, source)
    with liblif.Code.open(write_code(code)) as read:
        for pattern in range(len(network.patterns)):
            traffic, live = Traffic(code, pattern, source), live_links(code, pattern)
            for number in range(len(network.nodes)):
                with Node(read, number, pattern) as node:
                    assert node.links_in == [at for at, link in enumerate(network.links) if link.head == number and live[at]]
                    assert node.links_out == [at for at, link in enumerate(network.links) if link.tail == number and live[at]]
                    for window in windows_of(len(fed), chance):
                        node.begin(window.start, len(window))
                        work(node, Model(code, number, live), traffic, window, fed, chance)


def work(node: Node, model: Model, traffic: Traffic, window: range, fed: Sequence[bytes], chance: random.Random) -> None:
    """Has a node work on a window, now and then to the last frame that is due."""
    if model.node == model.code.network.source:
        for generation in chance.sample(window, len(window)):
            if generation < len(fed):
                node.feed(generation, fed[generation])
                rows = itertools.product([generation], range(model.code.rate), range(PIECES))
                model.came |= set(rows)
                give(node, model, traffic, window, chance.randrange(12))
    for key in traffic.into(node.links_in, window, chance):
        assert node.accept(traffic.frames[key]) is (key not in model.came)
        model.came.add(key)
        give(node, model, traffic, window, chance.choice([0, 0, 1, 1000]))
    give(node, model, traffic, window, 1000)
    assert node.next() is None


def give(node: Node, model: Model, traffic: Traffic, window: range, most: int) -> None:
    """Takes so many of the frames that are due."""
    for key in model.due(window)[:most] if most else []:
        assert node.next() == traffic.frames[key]
        model.given.add(key)


@pytest.mark.parametrize("seed", range(5))
@pytest.mark.parametrize("field_mark", [8, 9, 16])
def test_what_sinks_decode_is_the_block(field_mark: int, seed: int) -> None:
    code, chance = random_code(field_mark, seed), random.Random(seed)
    network = code.network
    source = chance.randbytes(chance.randrange(7 * capacity(code.rate)))
    fed = blocks_of(code.rate, source)
    with liblif.Code.open(write_code(code)) as read:
        for pattern, number in itertools.product(range(len(network.patterns)), range(len(network.sinks))):
            traffic = Traffic(code, pattern, source)
            wanted = code.decoders[network.demand(number, pattern)].links
            with Sink(read, number, pattern) as sink:
                assert [link for link in range(len(network.links)) if sink.wants(link)] == list(wanted)
                for window in windows_of(len(fed), chance):
                    sink.begin(window.start, len(window))
                    decode(sink, wanted, traffic, window, fed, chance)


def decode(
    sink: Sink, wanted: Sequence[int], traffic: Traffic, window: range, fed: Sequence[bytes], chance: random.Random
) -> None:
    """Has a sink decode a window; each generation is whole exactly where all has come."""
    came: set[tuple[int, int, int]] = set()
    left = {generation: len(wanted) * PIECES for generation in window}
    for key in traffic.into(wanted, window, chance):
        assert sink.accept(traffic.frames[key]) is (key not in came)
        left[key[0]] -= key not in came
        came.add(key)
        assert sink.is_whole(key[0]) is (left[key[0]] == 0)
        if not sink.is_whole(key[0]):
            with pytest.raises(LifError) as refused:
                sink.block(key[0])
            assert refused.value.status is Status.NOT_WHOLE
        elif chance.random() < 0.1:
            assert sink.block(key[0]) == fed[key[0]]
    for generation in window:
        if generation < len(fed):
            assert sink.block(generation) == fed[generation]
            count = int.from_bytes(fed[generation][:4], "big")
            assert sink.data(generation) == fed[generation][4 : 4 + count]


# The classes


def test_a_code_tells_of_itself() -> None:
    code = random_code(16, 3)
    network = code.network
    with liblif.Code.open(write_code(code)) as read:
        numbers = (read.rate, read.field, read.source, read.nodes, read.links, read.sinks, read.patterns, read.capacity)
        counts = (len(network.nodes), len(network.links), len(network.sinks), len(network.patterns))
        assert numbers == (code.rate, 16, network.source, *counts, capacity(code.rate))
        assert [read.ends(link) for link in range(read.links)] == [(link.tail, link.head) for link in network.links]
        assert [read.sink_node(sink) for sink in range(read.sinks)] == list(network.sinks)
        assert [read.node(name) for name in network.nodes] == list(range(read.nodes))
        assert [read.link(link.name) for link in network.links] == list(range(read.links))
        assert [read.pattern(pattern.name.encode()) for pattern in network.patterns] == list(range(read.patterns))
        assert [read.sink(network.nodes[node]) for node in network.sinks] == list(range(read.sinks))
        assert [read.node_name(node) for node in range(read.nodes)] == list(network.nodes)
        looks: list[tuple[Callable[[str | bytes], int], Status]] = [
            (read.node, Status.NO_NODE),
            (read.link, Status.NO_LINK),
            (read.sink, Status.NO_SINK),
            (read.pattern, Status.NO_PATTERN),
        ]
        names: list[str | bytes] = ["x", b"\xff", ""]
        for (look, status), name in itertools.product(looks, names):
            with pytest.raises(LifError) as refused:
                look(name)
            assert refused.value.status is status


def test_what_is_closed_is_refused_and_what_was_opened_of_it_is_not() -> None:
    code = liblif.Code.open(bytearray(FLY))
    node = Node(code, "s")
    code.close()
    code.close()
    with pytest.raises(LifError, match="the handle is closed"):
        Node(code, "s")
    with node:
        node.begin(0)
        node.feed(0, memoryview(bytes(2 * ROW_BYTES)))
        assert len(list(node.frames())) == 2 * PIECES
    with pytest.raises(LifError) as refused:
        node.next()
    assert refused.value.status is Status.CLOSED


def test_numbers_that_are_too_high() -> None:
    with liblif.Code.open(FLY) as code, Sink(code, 0) as sink:
        for number in (-1, 1 << 32):
            with pytest.raises(OverflowError):
                sink.wants(number)
            with pytest.raises(OverflowError):
                Node(code, number)
        assert not any(map(sink.wants, NUMBERS))


def test_memory_goes_back_where_nothing_refers_to_it() -> None:
    code = liblif.Code.open(FLY)
    sink = Sink(code, "t1")
    closing = weakref.ref(sink)
    closed = sink._closing
    del sink
    gc.collect()
    assert closing() is None and not closed.alive


def test_threads_share_an_object() -> None:
    with liblif.Code.open(FLY) as code, concurrent.futures.ThreadPoolExecutor(8) as threads:
        names = list(threads.map(lambda _: [code.link_name(link) for link in range(code.links)], range(200)))
    assert names == [[link.name for link in read_code(FLY).network.links]] * 200


@pytest.mark.parametrize("rate", [1, 2, 32])
def test_blocks_of_bytes_and_of_files(rate: int) -> None:
    room = capacity(rate)
    for length in (0, 1, room - 1, room, room + 1, 3 * room):
        source = random.Random(length).randbytes(length)
        wanted = blocks_of(rate, source)
        assert list(blocks(source, rate)) == wanted
        assert list(blocks(memoryview(source), rate)) == wanted
        assert list(blocks(io.BytesIO(source), rate)) == wanted
        assert list(blocks(Trickle(source), rate)) == wanted
        assert b"".join(map(counted, wanted)) == source
    for wrong in (-1, 0, 33):
        with pytest.raises(LifError):
            list(blocks(b"", wrong))
        with pytest.raises(LifError):
            cut(b"", wrong)


class Trickle(io.BytesIO):
    """A file that gives few bytes at a time."""

    def read(self, size: int | None = -1, /) -> bytes:
        return super().read(min(size or 0, 700))


def test_numbers_of_a_frame() -> None:
    frame = b"LF\1\5" + (70000).to_bytes(4, "big") + (1 << 31).to_bytes(4, "big") + bytes(128)
    assert (frame_link(frame), frame_generation(bytearray(frame))) == (70000, 1 << 31)
    for wrong in (frame[1:], b"", frame + b"x"):
        with pytest.raises(LifError):
            frame_link(wrong)


# The example


@pytest.mark.parametrize("length", [0, 1, 2043, 2044, 2045, 100000])
def test_the_example_brings_the_source_to_both_sinks(tmp_path: Path, length: int) -> None:
    source = random.Random(length).randbytes(length)
    (tmp_path / "source").write_bytes(source)
    for seed in range(3):
        done = ended([sys.executable, EXAMPLE, seed, "source", "out"], cwd=tmp_path)
        assert (done.returncode, done.stdout, done.stderr) == (0, "", "")
        assert [(tmp_path / f"out.{sink}").read_bytes() for sink in ("t1", "t2")] == [source, source]


def test_the_commands_of_its_page(tmp_path: Path) -> None:
    shutil.copytree(EXAMPLES, tmp_path / "examples")
    os.symlink(TOOLS, tmp_path / "tools")
    check_commands("examples/python/README.md", tmp_path)
