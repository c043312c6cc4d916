"""Nodes and sinks of codes for Python programs that carry frames themselves: the calls of liblif, by cffi.

    with Code.read("butterfly.lif") as code, Node(code, "a") as node:
        node.begin(0)
        for frame in incoming:
            node.accept(frame)
            for out in node.frames():
                send(code.ends(frame_link(out))[1], out)

A call that the library refuses is a `LifError` with its status and words, and has changed nothing. Numbers are those of the
code file: nodes, links, sinks and patterns count from 0, and pattern 0 is `none`. A number that has no 32 bits is an
`OverflowError`. Bytes are taken from whatever has a buffer, without a copy. Threads may share an object: each call waits for
the one before. What a process has opened isn't for its forked children.

The library is what LIBLIF names, liblif.a or a shared object, or else the one that `tools/liblif out` makes, or that of the
system. Of an archive a shared object is linked once, by `cc`, and kept in the user's cache. The declarations are those of the
header, which LIF_H names, or else of the one that stands beside the library, or of the repository.
"""
from __future__ import annotations

import enum
import functools
import hashlib
import os
import re
import subprocess
import tempfile
import threading
import weakref
from pathlib import Path
from typing import Any, BinaryIO, Callable, Iterator, Sequence, TypeVar, Union

from lif_tools.formats import COUNT_BYTES, FRAME_BYTES, ROW_BYTES, capacity

TOP = Path(__file__).resolve().parent.parent.parent
# Where a library may stand with its header.
FOLDERS = (TOP / "out", Path("/usr/local"), Path("/usr"))
# How many bytes a name may have.
MOST_NAME = 32

Buffer = Union[bytes, bytearray, memoryview]
Self = TypeVar("Self", bound="_Handle")


class Status(enum.IntEnum):
    """Why a call is refused, by its number in the header, with its words."""

    words: str

    def __new__(cls, number: int, words: str = "") -> Status:
        status = int.__new__(cls, number)
        status._value_, status.words = number, words
        return status

    NO_MEMORY = 1, "there is no memory"
    NO_PATTERN = 2, "there is no such pattern"
    NO_NODE = 3, "there is no such node"
    NO_LINK = 4, "there is no such link"
    NO_SINK = 5, "there is no such sink"
    BAD_WINDOW = 6, "there is no such window"
    NOT_BEGUN = 7, "the generation wasn't begun"
    NOT_SOURCE = 8, "the node isn't the source"
    FED = 9, "the generation was fed before"
    BAD_LENGTH = 10, "the length isn't the one that is needed"
    BAD_FRAME = 11, "the bytes aren't a frame"
    OTHER_LINK = 12, "the frame is of another link"
    NOT_WHOLE = 13, "not all of the generation has come"
    NOTHING_DUE = 14, "nothing is due"
    CLOSED = 15, "the handle is closed"
    OPEN = 16, "the handle is open"
    OTHER_KIND = 17, "the handle is of another kind"
    TOO_LONG = 18, "the bytes are too many for a code file"
    BAD_CODE = 19, "the bytes aren't a code file"
    NOT_DECODING = 20, "the code doesn't decode"


class Item(enum.IntEnum):
    """What is wrong with the first item of a code file that isn't good, by its number in the header, with its words."""

    words: str

    def __new__(cls, number: int, words: str = "") -> Item:
        item = int.__new__(cls, number)
        item._value_, item.words = number, words
        return item

    BAD_MAGIC = 1, "the mark isn't that of such a file"
    BAD_VERSION = 2, "the version isn't known"
    TRUNCATED = 3, "the file ends within the item at byte {at}"
    BAD_FIELD = 4, "the field isn't known"
    BAD_RATE = 5, "the rate isn't 1 to 32"
    BAD_NAME = 6, "the name at byte {at} isn't one, or stands twice"
    BAD_INDEX = 7, "the number at byte {at} names nothing"
    OUT_OF_ORDER = 8, "link {at} leads back"
    NOT_RISING = 9, "the number at byte {at} isn't above the one before"
    ZERO_COEFFICIENT = 10, "the coefficient at byte {at} is zero"
    BAD_OPERAND = 11, "the number at byte {at} names nothing that may be read there"
    TOO_MANY = 12, "the count at byte {at} is above its limit"
    TRAILING_BYTES = 13, "bytes remain from byte {at} on"
    NOT_FIRST = 14, "the number at byte {at} doesn't name the first demand with its decoder"
    WRITTEN = 15, "the decoder that ends with the entry at byte {at} is that of an earlier demand"


class LifError(Exception):
    """A call that the library refused; it has changed nothing."""

    def __init__(self, status: Status, of: str | None = None):
        super().__init__(status.words if of is None else f"{status.words}: {of}")
        self.status = status


class CodeRefused(LifError):
    """Bytes that weren't opened as a code. With `BAD_CODE` there is the `item` that isn't good, and the byte `at` which it
    stands, or the link; with `NOT_DECODING` the `demand`, and the `row`, the `column` and the element that is `found` of the
    first entry that isn't the identity's."""

    def __init__(self, status: Status, why: Any):
        self.item = Item(why.item) if why.item else None
        self.at: int = why.at
        self.demand: int = why.demand
        self.row: int = why.row
        self.column: int = why.column
        self.found: int = why.found
        of = None
        if self.item is not None:
            of = self.item.words.format(at=self.at)
        elif status is Status.NOT_DECODING:
            of = f"demand {self.demand} row {self.row} column {self.column} found {self.found}"
        super().__init__(status, of)


# The library


def library() -> tuple[Any, Any]:
    """cffi's `ffi` with the header's declarations, and the library. They are loaded once: types of two don't mix."""
    with _LOADING:
        return _loaded()


_LOADING = threading.Lock()


@functools.cache
def _loaded() -> tuple[Any, Any]:
    import cffi

    ffi = cffi.FFI()
    ffi.cdef(_declarations(header().read_text()))
    return ffi, ffi.dlopen(str(_shared(archive())))


def archive() -> Path:
    """The library, an archive or a shared object."""
    return _named_or_found("LIBLIF", [folder / f"lib/liblif.{kind}" for folder in FOLDERS for kind in ("so", "a")])


def header() -> Path:
    """The header of the library."""
    return _named_or_found("LIF_H", [archive().resolve().parent.parent / "include/lif.h", TOP / "include/lif.h"])


def _named_or_found(variable: str, places: Sequence[Path]) -> Path:
    """The file that a variable of the environment names, or the first that is there."""
    named = os.environ.get(variable)
    if named:
        return Path(named)
    for place in places:
        if place.is_file():
            return place
    raise FileNotFoundError(f"there is no {places[-1].name}: set {variable} to its path")


def _declarations(text: str) -> str:
    """What cffi reads of a header: all but comments, lines of the preprocessor, what is for C++, and bodies of functions."""
    text = re.sub(r"/\*.*?\*/|//[^\n]*", " ", text, flags=re.DOTALL)
    for unread in (r"#ifdef __cplusplus\n.*?^#endif", r"static inline .*?^\}", r"#(?:[^\n]*\\\n)*[^\n]*"):
        text = re.sub(f"^{unread}", "", text, flags=re.DOTALL | re.MULTILINE)
    return text


def _shared(path: Path) -> Path:
    """The shared object of a library, which of an archive is linked once."""
    if path.suffix != ".a":
        return path.resolve()
    content = path.read_bytes()
    cache = Path(os.environ.get("XDG_CACHE_HOME") or Path.home() / ".cache") / "lif"
    made = cache / f"liblif-{hashlib.sha256(content).hexdigest()[:16]}.so"
    if not made.is_file():
        cache.mkdir(parents=True, exist_ok=True)
        with tempfile.TemporaryDirectory(dir=cache) as folder:
            new = Path(folder) / made.name
            whole = ["-Wl,--whole-archive", str(path.resolve()), "-Wl,--no-whole-archive"]
            subprocess.run([os.environ.get("CC") or "cc", "-shared", "-o", str(new), *whole], check=True)
            new.replace(made)
    return made


def _bytes(ffi: Any, content: Buffer) -> tuple[Any, int]:
    """Where bytes stand, and how many there are."""
    view = ffi.from_buffer("uint8_t[]", content)
    # No pointer may be null, and one to no bytes may be.
    return (view, len(view)) if len(view) else (ffi.new("uint8_t[1]"), 0)


def _see(status: int) -> None:
    if status:
        raise LifError(Status(status))


# Codes, nodes and sinks


class _Handle:
    """What a handle of the library holds until it is closed: by `close`, by the end of `with`, or as nothing refers to it."""

    def __init__(self, kind: str):
        self._ffi, self._lib = library()
        self._handle = self._ffi.new(f"lif_{kind} *")
        # A call takes out of the handle what it holds, so two at a time would each lose it.
        self._lock = threading.Lock()
        self._closing = weakref.finalize(self, getattr(self._lib, f"lif_{kind}_close"), self._handle)
        self._closing.atexit = False
        # What calls write to, under the lock.
        self._flag, self._number = self._ffi.new("bool *"), self._ffi.new("uint32_t *")

    def close(self) -> None:
        """Gives back its memory. Each further call but this one is refused."""
        with self._lock:
            self._closing()

    def __enter__(self: Self) -> Self:
        return self

    def __exit__(self, *_: object) -> None:
        self.close()

    def _do(self, call: Any, *given: Any) -> None:
        """Makes a call of the handle."""
        with self._lock:
            _see(call(self._handle, *given))

    def _told(self, call: Any, told: Any, *given: Any) -> Any:
        """Makes a call of the handle, and gives what it told."""
        with self._lock:
            _see(call(self._handle, *given, told))
            return told[0]


class Code(_Handle):
    """A code that was read from the bytes of its file, and checked. What is opened of it stays open when it is closed."""

    def __init__(self, content: Buffer):
        super().__init__("code")
        why = self._ffi.new("lif_refusal *")
        status = self._lib.lif_code_open(self._handle, *_bytes(self._ffi, content), why)
        if status:
            raise CodeRefused(Status(status), why)
        self._shape = self._ffi.new("lif_shape *")
        self._do(self._lib.lif_code_shape, self._shape)
        self._room, self._length = self._ffi.new("uint8_t[]", MOST_NAME), self._ffi.new("size_t *")

    @classmethod
    def open(cls, content: Buffer) -> Code:
        """The code of the bytes of its file."""
        return cls(content)

    @classmethod
    def read(cls, path: str | os.PathLike[str]) -> Code:
        """The code of a file."""
        return cls(Path(path).read_bytes())

    @property
    def rate(self) -> int:
        """How many rows of 1024 bytes a block has."""
        return int(self._shape.rate)

    @property
    def field(self) -> int:
        """The number of the field in code files: 8, 9 or 16."""
        return int(self._shape.field)

    @property
    def source(self) -> int:
        """The node that is the source."""
        return int(self._shape.source)

    @property
    def nodes(self) -> int:
        """How many nodes there are."""
        return int(self._shape.nodes)

    @property
    def links(self) -> int:
        """How many links there are."""
        return int(self._shape.links)

    @property
    def sinks(self) -> int:
        """How many sinks there are."""
        return int(self._shape.sinks)

    @property
    def patterns(self) -> int:
        """How many patterns there are, with `none`."""
        return int(self._shape.patterns)

    @property
    def capacity(self) -> int:
        """How many bytes of a source a block has room for."""
        return int(self._shape.capacity)

    def ends(self, link: int) -> tuple[int, int]:
        """The nodes that a link leaves and leads into."""
        ends = self._ffi.new("uint32_t[2]")
        self._do(self._lib.lif_code_ends, link, ends, ends + 1)
        return ends[0], ends[1]

    def sink_node(self, sink: int) -> int:
        """The node of a sink."""
        return int(self._told(self._lib.lif_code_sink, self._number, sink))

    def node_name(self, node: int) -> str:
        return self._name(self._lib.lif_code_node_name, node)

    def link_name(self, link: int) -> str:
        return self._name(self._lib.lif_code_link_name, link)

    def pattern_name(self, pattern: int) -> str:
        return self._name(self._lib.lif_code_pattern_name, pattern)

    def sink_name(self, sink: int) -> str:
        """The name of a sink's node."""
        return self.node_name(self.sink_node(sink))

    def _name(self, call: Any, number: int) -> str:
        with self._lock:
            _see(call(self._handle, number, self._room, MOST_NAME, self._length))
            return bytes(self._ffi.buffer(self._room, self._length[0])).decode("ascii")

    def node(self, name: str | bytes) -> int:
        """The number of the node of a name."""
        return self._number_of(name, self._node_numbers, Status.NO_NODE)

    def link(self, name: str | bytes) -> int:
        """The number of the link of a name."""
        return self._number_of(name, self._link_numbers, Status.NO_LINK)

    def pattern(self, name: str | bytes) -> int:
        """The number of the pattern of a name."""
        return self._number_of(name, self._pattern_numbers, Status.NO_PATTERN)

    def sink(self, name: str | bytes) -> int:
        """The number of the sink of a name, which is that of its node."""
        return self._number_of(name, self._sink_numbers, Status.NO_SINK)

    @staticmethod
    def _number_of(name: str | bytes, numbers: dict[str, int], lacking: Status) -> int:
        # No name has a letter that isn't of ASCII.
        text = name.decode("ascii", "backslashreplace") if isinstance(name, bytes) else name
        if text not in numbers:
            raise LifError(lacking, text)
        return numbers[text]

    @functools.cached_property
    def _node_numbers(self) -> dict[str, int]:
        return {self.node_name(number): number for number in range(self.nodes)}

    @functools.cached_property
    def _link_numbers(self) -> dict[str, int]:
        return {self.link_name(number): number for number in range(self.links)}

    @functools.cached_property
    def _pattern_numbers(self) -> dict[str, int]:
        return {self.pattern_name(number): number for number in range(self.patterns)}

    @functools.cached_property
    def _sink_numbers(self) -> dict[str, int]:
        return {self.sink_name(number): number for number in range(self.sinks)}


def _number(numbered: int | str | bytes, look: Callable[[str | bytes], int]) -> int:
    return numbered if isinstance(numbered, int) else look(numbered)


class _Opened(_Handle):
    """A node or a sink of a code under a pattern."""

    def __init__(self, kind: str, code: Code, number: int, pattern: int | str | bytes):
        super().__init__(kind)
        given = (_number(pattern, code.pattern), number)
        with code._lock:
            _see(getattr(self._lib, f"lif_{kind}_open")(self._handle, code._handle, *given))
        self._begin, self._accept = (getattr(self._lib, f"lif_{kind}_{call}") for call in ("begin", "accept"))

    def begin(self, first: int, count: int = 1) -> None:
        """Forgets what came and what was given, and begins so many generations, 1 to 4, from a first one on."""
        self._do(self._begin, first, count)

    def accept(self, frame: Buffer) -> bool:
        """Takes in a frame that came; whether its piece hadn't come before."""
        return bool(self._told(self._accept, self._flag, *_bytes(self._ffi, frame)))

    def accept_each(self, frames: Buffer) -> list[LifError]:
        """Takes in frames that stand one behind another, each as `accept` does; why some were refused."""
        refused: list[LifError] = []
        with self._lock:
            (start, length), accept, handle, flag = _bytes(self._ffi, frames), self._accept, self._handle, self._flag
            for at in range(0, length, FRAME_BYTES):
                status = accept(handle, start + at, min(FRAME_BYTES, length - at), flag)
                if status:
                    refused.append(LifError(Status(status)))
        return refused


class Node(_Opened):
    """A node of a code under a pattern, each by its number or its name, before any generation."""

    def __init__(self, code: Code, number: int | str | bytes, pattern: int | str | bytes = 0):
        super().__init__("node", code, _number(number, code.node), pattern)
        self._frame = self._ffi.new("uint8_t[]", FRAME_BYTES)

    @property
    def links_in(self) -> list[int]:
        """The live links into it, which rise."""
        return self._links(self._lib.lif_node_link_in)

    @property
    def links_out(self) -> list[int]:
        """The live links out of it, which rise."""
        return self._links(self._lib.lif_node_link_out)

    def _links(self, call: Any) -> list[int]:
        links: list[int] = []
        with self._lock:
            while (status := call(self._handle, len(links), self._number)) == 0:
                links.append(self._number[0])
        if status != Status.NO_LINK:
            _see(status)
        return links

    def feed(self, generation: int, block: Buffer) -> None:
        """Takes in the block of a generation, at the source."""
        self._do(self._lib.lif_node_feed, generation, *_bytes(self._ffi, block))

    def next(self) -> bytes | None:
        """The frame that is due next, by generation, link and piece, if there is any."""
        with self._lock:
            status = self._lib.lif_node_next(self._handle, self._frame, FRAME_BYTES)
            if status == Status.NOTHING_DUE:
                return None
            _see(status)
            return bytes(self._ffi.buffer(self._frame))

    def due(self, most: int) -> bytes:
        """So many frames that are due, or all where they are fewer, one behind another."""
        with self._lock:
            room = self._ffi.new("uint8_t[]", max(most, 1) * FRAME_BYTES)
            status, following, handle, count = 0, self._lib.lif_node_next, self._handle, 0
            while count < most and (status := following(handle, room + count * FRAME_BYTES, FRAME_BYTES)) == 0:
                count += 1
            if status != Status.NOTHING_DUE:
                _see(status)
            return bytes(self._ffi.buffer(room, count * FRAME_BYTES))

    def frames(self) -> Iterator[bytes]:
        """All frames that are due."""
        while (frame := self.next()) is not None:
            yield frame


class Sink(_Opened):
    """A sink of a code under a pattern, each by its number or its name, before any generation."""

    def __init__(self, code: Code, number: int | str | bytes, pattern: int | str | bytes = 0):
        super().__init__("sink", code, _number(number, code.sink), pattern)
        self._block = self._ffi.new("uint8_t[]", code.rate * ROW_BYTES)

    def wants(self, link: int) -> bool:
        """Whether it takes in the frames of a link."""
        return bool(self._told(self._lib.lif_sink_wants, self._flag, link))

    def is_whole(self, generation: int) -> bool:
        """Whether all of a generation has come."""
        return bool(self._told(self._lib.lif_sink_is_whole, self._flag, generation))

    def block(self, generation: int) -> bytes:
        """The block of a generation that is whole."""
        with self._lock:
            _see(self._lib.lif_sink_block(self._handle, generation, self._block, len(self._block)))
            return bytes(self._ffi.buffer(self._block))

    def data(self, generation: int) -> bytes:
        """The bytes of the source in a generation that is whole."""
        return counted(self.block(generation))


# Blocks and frames


def cut(piece: Buffer, rate: int) -> bytes:
    """The block of a piece of a source, for a code of a rate."""
    ffi, lib = library()
    block = ffi.new("uint8_t[]", max(rate, 0) * ROW_BYTES)
    _see(lib.lif_cut(*_bytes(ffi, piece), block, len(block)))
    return bytes(ffi.buffer(block))


def blocks(source: Buffer | BinaryIO, rate: int) -> Iterator[bytes]:
    """The blocks of a source, bytes or a file, for a code of a rate. Block 0 is generation 0."""
    # No rate is left that has no blocks.
    cut(b"", rate)
    for piece in _pieces(source, capacity(rate)):
        yield cut(piece, rate)


def _pieces(source: Buffer | BinaryIO, room: int) -> Iterator[Buffer]:
    """Pieces of a source of so many bytes, and a last one of fewer."""
    read = getattr(source, "read", None)
    if read is None:
        view = memoryview(source).cast("B")  # type: ignore[arg-type]
        yield from (view[at : at + room] for at in range(0, len(view) + 1, room))
        return
    length = room
    while length == room:
        piece = bytearray()
        while len(piece) < room and (more := read(room - len(piece))):
            piece += more
        length = len(piece)
        yield piece


def counted(block: Buffer) -> bytes:
    """The bytes of a source that a block counts."""
    ffi, lib = library()
    count = ffi.new("size_t *")
    _see(lib.lif_count(*_bytes(ffi, block), count))
    return bytes(memoryview(block)[COUNT_BYTES : COUNT_BYTES + count[0]])


def frame_link(frame: Buffer) -> int:
    """The number of the link that a frame is of."""
    return _frame_number(frame, 4)


def frame_generation(frame: Buffer) -> int:
    """The generation that a frame is of."""
    return _frame_number(frame, 8)


def _frame_number(frame: Buffer, at: int) -> int:
    if len(frame) != FRAME_BYTES:
        raise LifError(Status.BAD_LENGTH)
    return int.from_bytes(frame[at : at + 4], "big")
