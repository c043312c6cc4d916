"""Where a sink of an overlay puts what it decodes: standard output, a file, or files in a folder, whole or not at all."""
from __future__ import annotations

import os
from pathlib import Path
from typing import Any, BinaryIO

from lif_tools.common import ToolError, notice, printable
from lif_tools.node_ends import HEAD, Kept, named


class PipeSink:
    """Writes what comes to standard output. What can't be had is left out."""

    def __init__(self) -> None:
        self.failed = False

    def start(self, stream: str) -> int:
        return 0

    def take(self, window: int, begins: bool, content: bytes) -> None:
        view = memoryview(content)
        while view:
            view = view[os.write(1, view) :]

    def lose(self, window: int) -> None:
        self.failed = True

    def end(self) -> None:
        """All is written."""


class FileSink:
    """Writes a file under another name, and gives it its own at the end, where all of it could be had."""

    def __init__(self, path: Path):
        self.path, self.failed = path, False
        self.part = path.with_name(f".{path.name}.part")
        self.kept = Kept(path.with_name(f".{path.name}.lif-node"))
        self.facts: dict[str, Any] = {}

    def start(self, stream: str) -> int:
        """Goes on where this stream was left; the window to go on with."""
        facts = self.kept.read()
        goes_on = facts.get("stream") == stream and self.part.is_file()
        self.facts = facts if goes_on else {"stream": stream, "window": 0, "length": 0, "failed": False}
        self.failed = bool(self.facts["failed"])
        try:
            self.file = open(self.part, "r+b" if goes_on else "w+b", buffering=0)
            self.file.truncate(self.facts["length"])
            self.file.seek(self.facts["length"])
            self.kept.write(self.facts)
        except OSError as error:
            raise ToolError(f"{self.part}: {error.strerror}") from None
        return int(self.facts["window"])

    def note(self, window: int, length: int) -> None:
        self.facts.update(window=window + 1, length=self.facts["length"] + length, failed=self.failed)
        self.kept.write(self.facts)

    def take(self, window: int, begins: bool, content: bytes) -> None:
        if not self.failed:
            self.file.write(content)
            self.note(window, len(content))

    def lose(self, window: int) -> None:
        if not self.failed:
            notice(f"{self.path}: it can't be had whole, and isn't written")
        self.failed = True
        self.note(window, 0)

    def end(self) -> None:
        self.file.close()
        self.kept.drop()
        if self.failed:
            self.part.unlink(missing_ok=True)
        else:
            self.part.replace(self.path)


class FolderSink:
    """Writes the files that come into a folder under their names, each whole or not at all."""

    def __init__(self, path: Path):
        self.path, self.failed = path, False
        self.kept = Kept(path / ".lif-node")
        self.part = path / ".lif-node.part"
        self.file: BinaryIO | None = None
        self.facts: dict[str, Any] = {}

    def start(self, stream: str) -> int:
        facts = self.kept.read()
        goes_on = facts.get("stream") == stream
        self.facts = facts if goes_on else {"stream": stream, "window": 0, "name": None, "length": 0, "left": 0}
        if self.facts["name"] is not None:
            if self.part.is_file():
                self.file = open(self.part, "r+b", buffering=0)
                self.file.truncate(self.facts["length"])
                self.file.seek(self.facts["length"])
            else:
                self.give_up()
        return int(self.facts["window"])

    def note(self, window: int) -> None:
        self.facts["window"] = window + 1
        self.kept.write(self.facts)

    def take(self, window: int, begins: bool, content: bytes) -> None:
        if begins:
            if self.file is not None:
                self.give_up()
            content = self.open(content)
        if self.file is not None:
            content = content[: self.facts["left"]]
            self.file.write(content)
            self.facts["length"] += len(content)
            self.facts["left"] -= len(content)
            if self.facts["left"] == 0:
                self.close()
        self.note(window)

    def open(self, content: bytes) -> bytes:
        """Begins a file by what stands ahead of it, and gives the rest."""
        count, length = HEAD.unpack_from(content) if len(content) >= HEAD.size else (0, 0)
        name = content[HEAD.size :][:count].decode(errors="replace")
        if not named(name):
            notice(f"a file with the name {printable(name)!r} isn't written")
            self.failed = True
            return b""
        self.file = open(self.part, "wb", buffering=0)
        self.facts.update(name=name, length=0, left=length)
        return content[HEAD.size + count :]

    def close(self) -> None:
        assert self.file is not None
        self.file.close()
        self.file = None
        self.part.replace(self.path / self.facts["name"])
        self.facts["name"] = None

    def give_up(self) -> None:
        notice(f"{self.path / self.facts['name']}: it can't be had whole, and isn't written")
        self.failed = True
        if self.file is not None:
            self.file.close()
            self.file = None
        self.part.unlink(missing_ok=True)
        self.facts["name"] = None

    def lose(self, window: int) -> None:
        self.failed = True
        if self.file is not None:
            self.give_up()
        self.note(window)

    def end(self) -> None:
        if self.file is not None:
            self.give_up()
        self.kept.drop()
