"""The ends of a stream: what a source sends, and where a sink puts what it decodes.

A stream is bytes, or files one after another. Each file begins a window of its own, with the length of its name, its own
length, and its name ahead. What an end needs to go on where it was, once it is started again, stands in a small file beside
what it reads or writes; it is removed at the end of the stream.
"""
from __future__ import annotations

import json
import os
import struct
from pathlib import Path
from typing import Any

# Lengths of a file's name and of the file, ahead of both.
HEAD = struct.Struct(">HQ")
# Of a name.
MOST_NAME = 255


def named(name: str) -> bool:
    """Whether a name is one that files may have: no path, and not hidden."""
    return 0 < len(name.encode()) <= MOST_NAME and "/" not in name and "\0" not in name and not name.startswith(".")


class Kept:
    """A few facts in a small file."""

    def __init__(self, path: Path):
        self.path, self.file, self.length = path, -1, 0

    def read(self) -> dict[str, Any]:
        try:
            facts = json.loads(self.path.read_text())
        except (FileNotFoundError, ValueError):
            return {}
        return facts if isinstance(facts, dict) else {}

    def replace(self, facts: dict[str, Any]) -> None:
        """Writes them whole or not at all, also where the machine fails."""
        new = self.path.with_name(self.path.name + ".new")
        new.write_text(json.dumps(facts))
        new.replace(self.path)

    def write(self, facts: dict[str, Any]) -> None:
        """Writes them in place, in one call, which is quicker."""
        if self.file < 0:
            self.replace(facts)
            self.file = os.open(self.path, os.O_WRONLY)
            self.length = os.fstat(self.file).st_size
        content = json.dumps(facts).encode().ljust(self.length)
        self.length = os.pwrite(self.file, content, 0)

    def drop(self) -> None:
        if self.file >= 0:
            os.close(self.file)
            self.file = -1
        self.path.unlink(missing_ok=True)
