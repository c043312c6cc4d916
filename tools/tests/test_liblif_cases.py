"""The cases of `relay`, `sink` and `check`, with liblif in the place of what the program does of codes."""
from __future__ import annotations

import sys
from dataclasses import dataclass, field
from typing import Callable, Dict, Iterator, Sequence

import pytest

from support import TOP, has_liblif
from lif_tools import formats
from lif_tools.drafting import draft_with, draw_coefficients
from lif_tools.formats import (
    COUNT_BYTES,
    FRAME_BYTES,
    PIECES,
    Confusion,
    Network,
    finish,
    in_order,
    join_sources,
    read_code,
    read_network,
    separate,
    write_code,
)
from lif_tools.liblif import Code, CodeRefused, LifError, Node, Sink, Status, blocks, counted, frame_generation, frame_link

sys.path.insert(0, str(TOP / "trials"))
import caseform  # noqa: E402

CASES = TOP / "crates/worked_cases/data"
Files = Dict[bytes, bytes]
WINDOW = 4
# The statuses that come of codes, words and streams; the others come of files and paths.
DONE, CODE_REFUSED, CHECK_FAILED, UNKNOWN_PATTERN, STREAM_REFUSED, UNKNOWN_NODE, BAD_BLOCKS = 0, 7, 8, 9, 17, 18, 19
OF_LIBRARY = (DONE, CODE_REFUSED, CHECK_FAILED, UNKNOWN_PATTERN, STREAM_REFUSED, UNKNOWN_NODE, BAD_BLOCKS)

pytestmark = pytest.mark.skipif(not has_liblif(), reason="there is no liblif, or no python3-cffi")


class Ended(Exception):
    """A run that ends with a status that isn't that of `Done`, and what it says."""

    def __init__(self, status: int, said: str):
        super().__init__(said)
        self.status, self.said = status, said


@dataclass
class Store:
    """The files of a case."""

    case: caseform.Case
    files: dict[bytes, bytes] = field(default_factory=dict)
    old: dict[bytes, bytes] = field(default_factory=dict)
    # The paths of those that the case gives, and no run has made since.
    given: set[bytes] = field(default_factory=set)

    def __post_init__(self) -> None:
        self.lets: dict[str, caseform.Bytes] = dict(self.case.lets)
        folder = self.case.path.parent
        self.look = caseform.look_in(folder, self.lets, lambda name: (name in self.files, self.files.get(name)))
        self.look_before = caseform.look_in(folder, self.lets, lambda name: (name in self.old, self.old.get(name)))

    def before(self, step: caseform.Step) -> None:
        """Does what stands before a run."""
        for _, word, path, text in step.ops:
            if isinstance(path, str):
                self.lets[path] = caseform.bytes_of(text, self.look)
            elif word == "gone":
                self.files.pop(path, None)
            else:
                self.files[path] = caseform.bytes_of(text, self.look) or b""
                self.given.add(path)
        self.old = dict(self.files)

    def said(self, step: caseform.Step) -> bytes:
        """What the case says that is said."""
        if step.said:
            return caseform.bytes_of(step.said[1], self.look_before) or b""
        return b"".join(text + b"\n" for _, text in step.says)

    def after(self, step: caseform.Step) -> dict[bytes, bytes | None]:
        """What the case says of files: their bytes, or none where a file is there with whatever bytes."""
        told = {}
        for _, word, path, text in step.after:
            if word in ("file", "made"):
                told[path] = caseform.bytes_of(text, self.look_before) if word == "file" else None
        return told


# The commands


def open_code(content: bytes) -> Code:
    """The code of a file, or the end of the run."""
    try:
        return Code.open(content)
    except CodeRefused as refused:
        if refused.item is None:
            network = read_code(content).network
            sink, pattern = divmod(refused.demand, len(network.patterns))
            demand = f"{network.nodes[network.sinks[sink]]} {network.patterns[pattern].name}"
            entry = f"row {refused.row} column {refused.column} found {refused.found}"
            raise Ended(CHECK_FAILED, f"check failed: demand {demand} {entry}") from None
        name = refused.item.name.title().replace("_", "")
        bare = name in ("BadMagic", "BadVersion", "BadField", "BadRate")
        raise Ended(CODE_REFUSED, f"code refused: {name}" + ("" if bare else f" {refused.at}")) from None


def number_of(look: Callable[[bytes], int], word: bytes, status: int, what: str) -> int:
    """The number of what a word names, or the end of the run."""
    try:
        return look(word)
    except LifError:
        raise Ended(status, f"unknown {what}: {word.decode()}") from None


def whole_stream(code: Code, each: Node | Sink, link: int, content: bytes) -> dict[tuple[int, int], bytes]:
    """The frames of a stream by generation and piece, or the end of the run. Each faulty one is refused by the library too,
    or isn't new to it."""
    name = code.link_name(link)
    if len(content) % FRAME_BYTES:
        raise Ended(STREAM_REFUSED, f"stream refused: {name} BadLength {len(content)}")
    kept: dict[tuple[int, int], bytes] = {}
    for at in range(0, len(content), FRAME_BYTES):
        frame = memoryview(content)[at : at + FRAME_BYTES]
        key = (frame_generation(frame), frame[3])
        each.begin(key[0])
        if key in kept and frame_link(frame) == link:
            each.accept(kept[key])
        try:
            is_new = each.accept(frame)
        except LifError as error:
            kind = {Status.BAD_FRAME: "BadFrame", Status.OTHER_LINK: "OtherLink"}[error.status]
            raise Ended(STREAM_REFUSED, f"stream refused: {name} {kind} {at}") from None
        if frame_link(frame) != link:
            raise Ended(STREAM_REFUSED, f"stream refused: {name} OtherLink {at}")
        assert is_new is (key not in kept)
        if kept.setdefault(key, bytes(frame)) != frame:
            raise Ended(STREAM_REFUSED, f"stream refused: {name} Conflict {at}")
    return kept


def whole_streams(code: Code, each: Node | Sink, links: Sequence[int], files: Files, prefix: bytes) -> list[list[bytes]]:
    """The frames of streams by generation, in the order of the files, or the end of the run."""
    contents = {link: files[path_of(code, prefix, link)] for link in links if path_of(code, prefix, link) in files}
    # One that isn't there is read behind another that is refused.
    streams = {link: whole_stream(code, each, link, contents[link]) for link in links}
    count = max((generation for kept in streams.values() for generation, _ in kept), default=0) + 1
    for link, kept in streams.items():
        for place in range(count * PIECES):
            if divmod(place, PIECES) not in kept:
                words = f"Missing {place // PIECES} {place % PIECES}"
                raise Ended(STREAM_REFUSED, f"stream refused: {code.link_name(link)} {words}")
    found: list[list[bytes]] = [[] for _ in range(count)]
    for content in contents.values():
        for at in range(0, len(content), FRAME_BYTES):
            frame = content[at : at + FRAME_BYTES]
            found[frame_generation(frame)].append(frame)
    return found


def path_of(code: Code, prefix: bytes, link: int) -> bytes:
    return prefix + b"." + code.link_name(link).encode()


def windows(count: int) -> Iterator[range]:
    for first in range(0, count, WINDOW):
        yield range(first, min(first + WINDOW, count))


def relay(files: Files, words: Sequence[bytes]) -> tuple[str, Files]:
    """What `relay` says, and the files that it makes, by the library."""
    path, pattern, name, given, out = words
    with open_code(files[path]) as code:
        under = number_of(code.pattern, pattern, UNKNOWN_PATTERN, "pattern")
        number = number_of(code.node, name, UNKNOWN_NODE, "node")
        with Node(code, number, under) as node:
            into, links = node.links_in, node.links_out
            if number == code.source:
                source = list(blocks(files[given], code.rate))
                count = len(source)
            else:
                came = whole_streams(code, node, into, files, given) if into else []
                count = len(came)
            made: dict[int, list[bytes]] = {link: [] for link in links}
            for window in windows(count):
                node.begin(window[0], len(window))
                for generation in window:
                    if number == code.source:
                        node.feed(generation, source[generation])
                    else:
                        for frame in came[generation]:
                            node.accept(frame)
                for frame in node.frames():
                    made[frame_link(frame)].append(frame)
            frames = sum(map(len, made.values()))
            said = f"relayed {frames} frames on {len(links)} links in {count} generations\n"
            return said, {path_of(code, out, link): b"".join(each) for link, each in made.items()}


def sink(files: Files, words: Sequence[bytes]) -> tuple[str, Files]:
    """The same of `sink`."""
    path, pattern, name, given, out = words
    with open_code(files[path]) as code:
        under = number_of(code.pattern, pattern, UNKNOWN_PATTERN, "pattern")
        number = number_of(code.sink, name, UNKNOWN_NODE, "node")
        with Sink(code, number, under) as decoder:
            came = whole_streams(code, decoder, [link for link in range(code.links) if decoder.wants(link)], files, given)
            received = b""
            for window in windows(len(came)):
                decoder.begin(window[0], len(window))
                for generation in window:
                    for frame in came[generation]:
                        decoder.accept(frame)
                for generation in window:
                    block = decoder.block(generation)
                    count = int.from_bytes(block[:COUNT_BYTES], "big")
                    if count > code.capacity or (count == code.capacity) is (generation == len(came) - 1):
                        raise Ended(BAD_BLOCKS, f"bad blocks: generation {generation} count {count}")
                    received += counted(block)
            return f"received {len(received)} bytes in {len(came)} generations\n", {out: received}


def check(files: Files, words: Sequence[bytes]) -> tuple[str, Files]:
    """The same of `check`."""
    with open_code(files[words[0]]) as code:
        return f"accepted rate {code.rate} field {code.field} demands {code.sinks * code.patterns}\n", {}


# The cases


def some_code(network: Network, rate: int) -> formats.Code:
    """A code of a network, by chance."""
    for seed in range(100):
        code = finish(draft_with(network, 8, rate, draw_coefficients(seed, network, 8, rate)))
        if not isinstance(code, Confusion):
            return code
    raise AssertionError("no code")


def compiled(files: Files, words: Sequence[bytes]) -> Files:
    """The code file of `compile` or of `twin`, with any coefficients."""
    network = read_network(files[words[1]])
    if words[0] == b"compile":
        return {words[2]: write_code(some_code(in_order(network), network.rate or 2))}
    joined = in_order(join_sources(network, words[2].decode(), int(words[3]), int(words[4])))
    return {words[5]: write_code(separate(some_code(joined, int(words[3]) + int(words[4]))))}


COMMANDS = {b"relay": relay, b"sink": sink, b"check": check}


# The beginnings of runs of nodes and of sinks.
NODES = ("run relay ", "run sink ", "run $form ")


def is_of_library(step: caseform.Step, store: Store) -> bool:
    """Whether a run is one of these commands whose files and paths are good. A code that is checked has to be a given one."""
    if not step.words or step.words[0] not in COMMANDS or step.status[1] not in OF_LIBRARY:
        return False
    return step.words[0] != b"check" or step.words[1] in store.given


def cases() -> list[caseform.Case]:
    """All cases with runs of nodes and sinks, and those that check codes which no run makes."""
    found = []
    for path in sorted(CASES.glob("*.cases")):
        for case in caseform.read_cases(path)[0]:
            runs = [line.text for line in case.body if line.text.startswith("run ")]
            if any(run.startswith(NODES) for run in runs) or all(run.startswith("run check ") for run in runs):
                found.append(case)
    return found


def run_step(step: caseform.Step, store: Store, told: dict[bytes, bytes | None]) -> Files:
    """Makes a run by the library, compares it with what the case says, and gives the files."""
    made: Files = {}
    try:
        said, made = COMMANDS[step.words[0]](store.files, step.words[1:])
        status = DONE
    except Ended as ended:
        said, status = f"{ended.said}\n", ended.status
    assert (status, said.encode()) == (step.status[1], store.said(step))
    wanted: dict[bytes, bytes | None] = {**store.files, **told}
    assert made.keys() >= {path for path in told if path not in store.files}
    assert [path for path, content in made.items() if wanted.get(path, b"no file") not in (None, content)] == []
    return made


def go(case: caseform.Case, values: caseform.Values) -> int:
    """Goes through a case once, and says how many runs the library made."""
    runs = 0
    store, has_nodes = Store(case), any(line.text.startswith(NODES) for line in case.body)
    for step in caseform.steps_of(case, values):
        store.before(step)
        told = store.after(step)
        made: Files = {}
        if is_of_library(step, store):
            made = run_step(step, store, told)
            runs += 1
        elif has_nodes and step.words[:1] in ([b"compile"], [b"twin"]) and step.status[1] == DONE:
            made = compiled(store.files, step.words)
        for path, content in told.items():
            store.files[path] = made.get(path, b"") if content is None else content
            store.given.discard(path)
    return runs


@pytest.mark.parametrize("case", cases(), ids=lambda case: f"{case.path.stem}: {case.line.text}")
def test_cases_hold_of_the_library(case: caseform.Case) -> None:
    runs = [go(case, values) for values in caseform.goings(case)]
    assert any(runs) or all(step.status[1] not in OF_LIBRARY for step in all_steps(case))


def all_steps(case: caseform.Case) -> Iterator[caseform.Step]:
    for values in caseform.goings(case):
        yield from caseform.steps_of(case, values)
