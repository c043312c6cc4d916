"""Runs a tool as a command: its words, its standard streams, its signals, and the status with which it ends."""
from __future__ import annotations

import importlib
import io
import os
import signal
import sys
from typing import NoReturn


def run(module: str) -> NoReturn:
    """Runs the tool of a module of this package, and ends with its status.

    It is 0, 1 where an error is said, and 2 where the words are no form. Ctrl-C ends it as it ends other programs.
    """
    # Python looks for signals between its own steps alone, and a linear program is one of them.
    if signal.getsignal(signal.SIGINT) is signal.default_int_handler:
        signal.signal(signal.SIGINT, signal.SIG_DFL)
    hold_streams()
    try:
        status = status_of(module)
        sys.stdout.flush()
    except OSError as error:
        # A tool names each of its files itself, so it is standard output. Where its reader has gone there is nothing to say.
        if not isinstance(error, BrokenPipeError):
            from lif_tools.common import notice

            notice(f"{error.filename or 'standard output'}: {error.strerror}")
        os.dup2(os.open(os.devnull, os.O_WRONLY), 1)
        status = 1
    sys.exit(status)


def status_of(module: str) -> int:
    """Calls the `main` of a module with the words of the command line."""
    from lif_tools.common import ToolError, notice

    try:
        importlib.import_module(f"lif_tools.{module}").main(sys.argv[1:])
    except ToolError as error:
        notice(str(error))
        return 1
    except (MemoryError, RecursionError):
        notice("there is no memory for so much")
        return 1
    except SystemExit as ended:
        return int(ended.code or 0)
    return 0


def hold_streams() -> None:
    """Takes letters that a stream can't have, and opens the streams that are closed: writing to them fails.

    Otherwise a file that is opened later would get the number of such a stream.
    """
    for number, name in enumerate(("stdin", "stdout", "stderr")):
        if getattr(sys, name) is None:
            # The least number that is free is this one.
            os.open(os.devnull, os.O_RDONLY)
            setattr(sys, name, open(number, "w" if number else "r", buffering=1, closefd=False))
    for stream in (sys.stdout, sys.stderr):
        if isinstance(stream, io.TextIOWrapper):
            stream.reconfigure(errors="backslashreplace")
