"""The links of a node of an overlay, over ZeroMQ: messages, what waits to be acknowledged, and what came.

The head of a link listens, and its tail connects. Down the link go the state of the stream, which is repeated at each
connection, windows, each with all frames that the link carries of it, and at last that the tail knows of the end. Up the
link goes the number of the first window that isn't done at the head and behind it, and the number of one that came changed,
to have it again. The tail keeps each window until it is done, and sends all that it keeps at each connection, and from some
window on where the head asks for the rest, since it waits for it and has heard nothing for a while.
"""
from __future__ import annotations

import json
import socket
import struct
import time
import zlib
from collections import deque
from dataclasses import dataclass
from typing import Any, Callable

from lif_tools.common import ToolError, module, notice
from lif_tools.formats import FRAME_BYTES, PIECES

# What a message begins with.
STATE, WINDOW, LEAVE, DONE, AGAIN, REST = b"S", b"W", b"L", b"D", b"A", b"R"
# Marks of a window: a segment begins with it; the link can't bring it.
BEGINS, LOST = 1, 2
# The letter of a message and the checksum of all but itself.
SEAL = struct.Struct(">cI")
# Window, link, pattern, generations, marks.
HEAD = struct.Struct(">QIIBB")
NUMBER = struct.Struct(">Q")
# How often a window that came changed is asked for again.
TRIES = 3
# Seconds of silence until the rest is asked for.
SILENCE = 2.0
# Milliseconds until a peer that says nothing is taken as gone, and in which the last words may still go.
GONE, LAST = 5000, 2000


@dataclass(frozen=True)
class Stamp:
    """What the source says of a window: it is the same on all links."""

    window: int
    pattern: int
    count: int
    begins: bool


@dataclass(frozen=True)
class Message:
    """A window on a link: its frames, or none where the link can't bring it."""

    stamp: Stamp
    frames: memoryview
    lost: bool


def sealed(kind: bytes, *parts: bytes) -> bytes:
    """A message of a kind."""
    content = b"".join(parts)
    return SEAL.pack(kind, zlib.crc32(content, zlib.crc32(kind))) + content


def unsealed(message: bytes) -> tuple[bytes, memoryview]:
    """The kind of a message and what it says; no kind where it was changed on its way."""
    content = memoryview(message)[SEAL.size :]
    kind, checksum = SEAL.unpack_from(message) if len(message) >= SEAL.size else (b"", 0)
    return (kind if zlib.crc32(content, zlib.crc32(kind)) == checksum else b""), content


def packed(stamp: Stamp, link: int, frames: bytes | None) -> bytes:
    """The message of a window on a link."""
    marks = BEGINS * stamp.begins | LOST * (frames is None)
    return sealed(WINDOW, HEAD.pack(stamp.window, link, stamp.pattern, stamp.count, marks), frames or b"")


def unpacked(content: memoryview, link: int) -> Message | None:
    """The window that a message says on a link; nothing where it isn't one."""
    if len(content) < HEAD.size:
        return None
    window, number, pattern, count, marks = HEAD.unpack_from(content)
    frames, lost = content[HEAD.size :], bool(marks & LOST)
    if number != link or not 1 <= count <= 4 or len(frames) != (0 if lost else count * PIECES * FRAME_BYTES):
        return None
    return Message(Stamp(window, pattern, count, bool(marks & BEGINS)), frames, lost)


class Wire:
    """What both ends of a link have: its number, name and address, a socket, and counts."""

    def __init__(self, number: int, name: str, address: str, bound: int, kind: str):
        zmq: Any = module("zmq", "python3-zmq")
        self.zmq, self.number, self.name, self.address, self.bound = zmq, number, name, address, bound
        self.bytes, self.refused = 0, 0
        self.socket: Any = zmq.Context.instance().socket(getattr(zmq, kind))
        # A window that is asked for again goes beside those that wait, and states beside both.
        for option, value in (("SNDHWM", 2 * bound + 8), ("RCVHWM", 2 * bound + 8), ("LINGER", LAST)):
            self.socket.setsockopt(getattr(zmq, option), value)
        for option, value in (("HEARTBEAT_IVL", GONE // 5), ("HEARTBEAT_TIMEOUT", GONE), ("RECONNECT_IVL_MAX", 1000)):
            self.socket.setsockopt(getattr(zmq, option), value)

    def received(self) -> list[bytes] | None:
        """The parts of a message, if one has come."""
        try:
            parts: list[bytes] = self.socket.recv_multipart(self.zmq.NOBLOCK)
        except self.zmq.Again:
            return None
        self.bytes += sum(map(len, parts))
        return parts

    def close(self) -> None:
        self.socket.close()


class Incoming(Wire):
    """The head of a link. `came` has the windows that wait to be worked on, and `first` is the first one that the tail has yet
    to have done."""

    def __init__(self, number: int, name: str, address: str, bound: int, on_state: Callable[[Incoming, dict[str, Any]], None]):
        super().__init__(number, name, address, bound, "ROUTER")
        self.came: dict[int, Message] = {}
        self.first, self.said, self.has_left = 0, 0, False
        self.peer: bytes | None = None
        self.asked: dict[int, int] = {}
        # Whether a message came changed of which it isn't known what it was.
        self.doubts = False
        # When something came, or the rest was asked for.
        self.heard = time.monotonic()
        self.on_state = on_state
        host, port = address.rsplit(":", 1)
        try:
            self.socket.bind(f"tcp://{socket.gethostbyname(host)}:{port}")
        except (OSError, self.zmq.ZMQError) as error:
            raise ToolError(f"link {name}: can't listen at {address}: {error.strerror or error}") from None

    def receive(self, following: int) -> bool:
        """Takes in what has come; windows before the following one are known. Whether something was new."""
        is_new = False
        for _ in range(self.bound):
            parts = self.received()
            if parts is None:
                break
            self.heard = time.monotonic()
            is_new |= len(parts) == 2 and self.take(parts[0], parts[1], following)
        return is_new

    def take(self, peer: bytes, content: bytes, following: int) -> bool:
        kind, said = unsealed(content)
        if kind == STATE:
            return self.take_state(peer, bytes(said))
        if kind == LEAVE:
            self.has_left = True
            return True
        message = unpacked(said, self.number) if kind == WINDOW else None
        if message is None:
            return self.refuse(peer, content, following)
        window = message.stamp.window
        if peer != self.peer or window < following or window in self.came or len(self.came) >= 2 * self.bound:
            return False
        self.asked.pop(window, None)
        self.came[window] = message
        return True

    def take_state(self, peer: bytes, said: bytes) -> bool:
        state = json.loads(said)
        self.first = max(self.first, int(state["first"]))
        self.on_state(self, state)
        self.peer, self.said = peer, 0
        return True

    def refuse(self, peer: bytes, content: bytes, following: int) -> bool:
        """Counts a message that was changed. Its window is asked for again where it still says which one it is, and else as
        soon as it is missed."""
        self.refused += 1
        self.peer = self.peer or peer
        is_window = content[:1] == WINDOW and len(content) >= SEAL.size + HEAD.size
        window = NUMBER.unpack_from(content, SEAL.size)[0] if is_window else -1
        if following <= window < following + 2 * self.bound:
            notice(f"link {self.name}: window {window} was changed on its way")
            self.ask(window)
        else:
            notice(f"link {self.name}: a message of {len(content)} bytes was changed on its way")
            self.doubts = True
            # The state comes again with what is asked for.
            self.up(AGAIN, following)
        return False

    def ask(self, window: int) -> None:
        """Asks for a window again."""
        self.asked = {each: times for each, times in self.asked.items() if each > window - 2 * self.bound}
        self.asked[window] = self.asked.get(window, 0) + 1
        self.up(AGAIN, window)

    def ask_for_the_rest(self, window: int) -> None:
        """Asks for all from a window on, where the link is silent."""
        if time.monotonic() - self.heard > SILENCE:
            self.heard = time.monotonic()
            self.up(REST, window)

    def given_up(self, window: int) -> bool:
        """Whether a window came changed too often."""
        return self.asked.get(window, 0) > TRIES

    def up(self, kind: bytes, number: int) -> None:
        if self.peer is not None:
            try:
                self.socket.send_multipart([self.peer, sealed(kind, NUMBER.pack(number))], self.zmq.NOBLOCK)
            except self.zmq.ZMQError:
                self.said = 0

    def done(self, number: int) -> None:
        """Says up the link which window is the first that isn't done, where it wasn't said yet."""
        if number + 1 != self.said and self.peer is not None:
            self.said = number + 1
            self.up(DONE, number)


class Outgoing(Wire):
    """The tail of a link. `kept` has the messages of windows that aren't done, in order, and `unsent` which of them wait."""

    def __init__(self, number: int, name: str, address: str, bound: int, state: Callable[[Outgoing], dict[str, Any]]):
        super().__init__(number, name, address, bound, "DEALER")
        self.kept: dict[int, bytes] = {}
        self.unsent: deque[int] = deque()
        self.state, self.is_told, self.is_connected = state, False, False
        # How far the head said that it is; nothing before it was heard.
        self.head_done: int | None = None
        # Whether the head is to be told that its last word came, and was.
        self.leaves, self.has_left = False, False
        # When the head last was further than before.
        self.heard = 0.0
        self.socket.setsockopt(self.zmq.IMMEDIATE, 1)
        self.monitor: Any = self.socket.get_monitor_socket(self.zmq.EVENT_HANDSHAKE_SUCCEEDED | self.zmq.EVENT_DISCONNECTED)
        self.socket.connect(f"tcp://{address}")

    def has_room(self) -> bool:
        return len(self.kept) < self.bound

    def first(self, following: int) -> int:
        """The first window that isn't done, where the following one is yet to come."""
        return next(iter(self.kept), following)

    def put(self, stamp: Stamp, frames: bytes | None) -> None:
        """Keeps a window, and sends it as soon as it can."""
        if stamp.window >= (self.head_done or 0):
            self.kept[stamp.window] = packed(stamp, self.number, frames)
            self.unsent.append(stamp.window)

    def waits(self) -> bool:
        """Whether something is to be sent."""
        return self.is_connected and (bool(self.unsent) or not self.is_told or self.leaves > self.has_left)

    def flush(self) -> None:
        """Sends what the socket takes: the state first, where it changed."""
        try:
            if self.waits() and not self.is_told:
                self.socket.send(sealed(STATE, json.dumps(self.state(self)).encode()), self.zmq.NOBLOCK)
                self.is_told = True
            while self.is_connected and self.unsent:
                message = self.kept.get(self.unsent[0])
                if message is not None:
                    self.socket.send(message, self.zmq.NOBLOCK)
                    self.bytes += len(message)
                self.unsent.popleft()
            if self.is_connected and self.leaves > self.has_left:
                self.socket.send(sealed(LEAVE), self.zmq.NOBLOCK)
                self.has_left = True
        except self.zmq.Again:
            pass

    def watch(self) -> None:
        """Looks at connections that came and went."""
        from zmq.utils.monitor import recv_monitor_message

        while True:
            try:
                event = recv_monitor_message(self.monitor, self.zmq.NOBLOCK)["event"]
            except self.zmq.Again:
                return
            self.is_connected = event == self.zmq.EVENT_HANDSHAKE_SUCCEEDED
            if self.is_connected:
                self.is_told, self.has_left, self.unsent = False, False, deque(self.kept)

    def receive(self) -> bool:
        """Takes in what the head said. Whether something was new."""
        is_new = False
        while (parts := self.received()) is not None:
            kind, said = unsealed(parts[-1])
            number = NUMBER.unpack(said)[0] if len(said) == NUMBER.size else 0
            if kind == DONE:
                is_new |= self.is_done(number)
                continue
            # The head says again how far it is where it hears of the state.
            self.is_told = False
            if kind == AGAIN and number in self.kept:
                self.unsent.append(number)
            elif kind == REST:
                self.unsent = deque(window for window in self.kept if window >= number)
        return is_new

    def is_done(self, number: int) -> bool:
        if self.head_done is not None and number <= self.head_done:
            return False
        self.head_done, self.heard = number, time.monotonic()
        while self.kept and self.first(0) < number:
            del self.kept[self.first(0)]
        return True

    def close(self) -> None:
        self.socket.disable_monitor()
        self.monitor.close(0)
        super().close()
