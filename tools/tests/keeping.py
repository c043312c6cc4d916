"""Processes that are ended whatever becomes of the tests that started them.

    python3 keeping.py MARK

waits until its input ends, as that of a child does however its parent ends, and then kills all processes that have the mark in
their environment, by their numbers.
"""
from __future__ import annotations

import contextlib
import os
import secrets
import signal
import subprocess
import sys
import time
from pathlib import Path
from typing import Iterable, Iterator

NAME = "LIF_TESTS"
LOOKED_EACH = 0.1


def marked(*variables: str) -> list[int]:
    """The numbers of the processes that were started with all these variables in their environment, as NAME=VALUE."""
    wanted = {variable.encode() for variable in variables}
    numbers = []
    for path in Path("/proc").glob("[0-9]*/environ"):
        with contextlib.suppress(OSError):
            if wanted <= set(path.read_bytes().split(b"\0")):
                numbers.append(int(path.parent.name))
    return numbers


def kill(numbers: Iterable[int]) -> None:
    """Kills processes, of which some may have ended."""
    for number in numbers:
        with contextlib.suppress(ProcessLookupError):
            os.kill(number, signal.SIGKILL)


@contextlib.contextmanager
def kept() -> Iterator[dict[str, str]]:
    """An environment: what is started with it is ended with the block, and also where this process is killed."""
    value = secrets.token_hex(8)
    with subprocess.Popen([sys.executable, __file__, f"{NAME}={value}"], stdin=subprocess.PIPE, start_new_session=True):
        yield {**os.environ, NAME: value}


if __name__ == "__main__":
    sys.stdin.read()
    while left := marked(sys.argv[1]):
        kill(left)
        time.sleep(LOOKED_EACH)
