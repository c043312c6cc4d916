"""What the source of an overlay sends: a file, what comes on a pipe, or the files that appear in a folder."""
from __future__ import annotations

import hashlib
import os
import secrets
import select
import stat
import time
from collections import deque
from pathlib import Path
from typing import BinaryIO

from lif_tools.common import ToolError, notice, printable
from lif_tools.formats import capacity
from lif_tools.node_ends import HEAD, Kept, named
from lif_tools.node_work import WINDOW

# The file by which a folder of the source says that no more come.
END = ".end"
# Files that tell a player of others, and so come behind them.
LISTS = (".m3u8", ".mpd")


def pieces_of(content: bytes, room: int) -> list[bytes]:
    """The blocks' pieces of the bytes of a window."""
    return [content[at : at + room] for at in range(0, len(content), room)]


class FileSource:
    """Sends a file, from any window on, or what comes on a pipe."""

    def __init__(self, path: str, rate: int):
        self.room = capacity(rate)
        try:
            self.file: BinaryIO = open(0 if path == "-" else path, "rb", buffering=0)
            facts = os.fstat(self.file.fileno())
        except OSError as error:
            raise ToolError(f"{path}: {error.strerror}") from None
        self.is_file = stat.S_ISREG(facts.st_mode)
        told = f"{facts.st_dev} {facts.st_ino} {facts.st_size} {facts.st_mtime_ns}"
        self.stream = hashlib.sha256(told.encode()).hexdigest()[:16] if self.is_file else secrets.token_hex(8)
        self.held, self.ended = bytearray(), False

    def begin_at(self, window: int) -> int:
        if window and self.is_file:
            self.file.seek(window * WINDOW * self.room)
        return window

    def window(self) -> tuple[bool, list[bytes]] | None:
        """A whole window, or at a pipe what is there where no more comes at once."""
        most = WINDOW * self.room
        while len(self.held) < most and not self.ended:
            if not self.is_file and not select.select([self.file], [], [], 0.02 if self.held else 0)[0]:
                break
            more = self.file.read(most - len(self.held))
            self.ended = not more
            self.held += more
        if not self.held:
            return None
        content, self.held = bytes(self.held), bytearray()
        return False, pieces_of(content, self.room)

    def is_at_end(self) -> bool:
        return self.ended and not self.held

    def done(self, window: int) -> None:
        """Nothing is kept of what is done."""


class FolderSource:
    """Sends the files that appear in a folder in the order of their names, playlists last, until the file `.end` is there.

    A file is sent once its time and its size have stayed the same since the last look, and again where they change. Hidden
    files, and those that end in `.tmp` or `.part`, aren't sent.
    """

    def __init__(self, path: Path, rate: int):
        self.path, self.room = path, capacity(rate)
        self.kept = Kept(path / ".lif-node")
        facts = self.kept.read()
        self.stream: str = facts.get("stream") or secrets.token_hex(8)
        self.start = int(facts.get("window", 0))
        self.sent: dict[str, list[int]] = facts.get("sent", {})
        self.seen: dict[str, list[int]] = {}
        self.looked, self.ended = 0.0, False
        # Snapshots of what was sent before a window; the newest that is done is kept.
        self.snapshots: deque[tuple[int, dict[str, list[int]]]] = deque()
        self.following = 0
        self.ready: deque[str] = deque()
        self.file: BinaryIO | None = None
        self.left, self.ahead = 0, b""

    def begin_at(self, window: int) -> int:
        self.following = self.start
        self.save(self.start, self.sent)
        return self.start

    def save(self, window: int, sent: dict[str, list[int]]) -> None:
        try:
            self.kept.replace({"stream": self.stream, "window": window, "sent": sent})
        except OSError as error:
            raise ToolError(f"{self.kept.path}: {error.strerror}") from None

    def look(self) -> None:
        """Finds files that are to be sent."""
        found: dict[str, list[int]] = {}
        for entry in os.scandir(self.path):
            if named(entry.name) and not entry.name.endswith((".tmp", ".part")) and entry.is_file():
                facts = entry.stat()
                found[entry.name] = [facts.st_mtime_ns, facts.st_size]
        new = {name: facts for name, facts in found.items() if self.sent.get(name) != facts}
        steady = [name for name, facts in new.items() if self.seen.get(name) == facts]
        self.ready.extend(sorted(steady, key=lambda name: (name.endswith(LISTS), name)))
        self.sent = {name: facts for name, facts in self.sent.items() if name in found}
        self.seen = found
        self.ended = not new and (self.path / END).exists()

    def window(self) -> tuple[bool, list[bytes]] | None:
        begins = self.file is None
        if begins and not self.open():
            return None
        assert self.file is not None
        want = min(self.left, WINDOW * self.room - len(self.ahead))
        read = self.file.read(want)
        content, self.ahead = self.ahead + read, b""
        self.left -= len(read)
        if len(read) < want:
            notice(f"{printable(self.file.name)}: it became shorter while it was sent")
        if not self.left or len(read) < want:
            self.file.close()
            self.file = None
        self.following += 1
        # A file that was cut to nothing still has its window.
        return begins, pieces_of(content, self.room) or [b""]

    def open(self) -> bool:
        """Opens the next file that is to be sent, if there is one."""
        if not self.ready and time.monotonic() - self.looked > 0.2:
            self.looked = time.monotonic()
            self.look()
        while self.ready:
            name = self.ready.popleft()
            try:
                self.file = open(self.path / name, "rb")
            except OSError as error:
                notice(f"{self.path / name}: {error.strerror}")
                continue
            facts = os.fstat(self.file.fileno())
            self.snapshots.append((self.following, dict(self.sent)))
            self.sent[name] = [facts.st_mtime_ns, facts.st_size]
            self.left = facts.st_size
            self.ahead = HEAD.pack(len(name.encode()), self.left) + name.encode()
            return True
        return False

    def is_at_end(self) -> bool:
        return self.ended and self.file is None and not self.ready

    def done(self, window: int) -> None:
        """Keeps from where on this source is to go on once it is started again."""
        newest = None
        while self.snapshots and self.snapshots[0][0] <= window:
            newest = self.snapshots.popleft()
        if newest is not None:
            self.save(*newest)
        if self.is_at_end() and window >= self.following:
            self.kept.drop()
