"""What the tools beside lif share: their messages, their files, and the packages that they need."""
from __future__ import annotations

import argparse
import importlib
import json
import os
import shutil
import sys
from types import ModuleType
from typing import Mapping, Sequence

from lif_tools import VERSION
from lif_tools.formats import MOST_CODE_BYTES, MOST_TEXT_BYTES, Code, Network, Refused, cycle_of, read_code, read_network


# How many names a message lists.
MOST_LISTED = 20


class ToolError(Exception):
    """What a tool can't do; its text is the line that is said."""


def words_parser(tool: str, what: str | None) -> argparse.ArgumentParser:
    """What reads the words of a tool, with those that every tool has; its own are to be added."""
    parser = argparse.ArgumentParser(
        prog=tool, description=what, formatter_class=argparse.RawDescriptionHelpFormatter, allow_abbrev=False
    )
    parser.add_argument("--version", action="version", version=f"{tool} of lif {VERSION}", help="say the version and end")
    parser.add_argument("--json", action="store_true", help="say the same facts as one object of JSON")
    return parser


def print_json(tool: str, facts: Mapping[str, object]) -> None:
    """Says facts as one object of JSON. A fraction is a text, as `3/2`, and one that is a whole number too."""
    print(json.dumps({"tool": tool, "version": VERSION, **dict(facts)}, indent=1, default=str))


def notice(text: str) -> None:
    """Says a line on standard error, where that takes it."""
    try:
        print(f"{os.path.basename(sys.argv[0])}: {printable(text)}", file=sys.stderr, flush=True)
    except OSError:
        os.dup2(os.open(os.devnull, os.O_WRONLY), 2)


def module(name: str, package: str) -> ModuleType:
    """A Python module of a Debian package, which the error names where it isn't there."""
    try:
        return importlib.import_module(name)
    except ImportError as error:
        raise ToolError(
            f"there is no Python module {error.name or name} for {sys.executable}; "
            f"on Debian: apt-get install {package}"
        ) from None


def program(name: str, package: str) -> str:
    """The path of a program of a Debian package, which the error names where it isn't there."""
    path = shutil.which(name)
    if path is None:
        raise ToolError(f"there is no program {name} in the folders of PATH; on Debian: apt-get install {package}")
    return path


def printable(text: str) -> str:
    """A text on one line, without what a terminal would act on."""
    return "".join(letter if letter.isprintable() else ascii(letter)[1:-1] for letter in text)


def listed(names: Sequence[str]) -> str:
    """Names in a message, of many the first ones."""
    return ", ".join([*names[:MOST_LISTED], ".."] if len(names) > MOST_LISTED else names)


def read_bytes(path: str, most: int | None = None) -> bytes:
    """All bytes of a file, of which there are at most so many."""
    try:
        with open(path, "rb") as file:
            content = file.read() if most is None else file.read(most + 1)
    except OSError as error:
        raise ToolError(f"{path}: {error.strerror}") from None
    if most is not None and len(content) > most:
        raise ToolError(f"{path}: too long: it has more than {most:,} bytes")
    return content


def write_text(path: str, text: str, *inputs: str) -> None:
    """Writes a text to a file that is none of the inputs, or to standard output where the path is `-`."""
    if path == "-":
        sys.stdout.write(text)
    else:
        write_bytes(path, text.encode("utf-8", "backslashreplace"), *inputs)


def write_bytes(path: str, content: bytes, *inputs: str) -> None:
    """Writes bytes to a file that is none of the inputs, or to standard output where the path is `-`."""
    if path == "-":
        sys.stdout.flush()
        sys.stdout.buffer.write(content)
        return
    try:
        for one in inputs:
            if os.path.exists(path) and os.path.exists(one) and os.path.samefile(path, one):
                raise ToolError(f"{path}: it is read, and isn't written over")
        with open(path, "wb") as file:
            file.write(content)
    except OSError as error:
        raise ToolError(f"{path}: {error.strerror}") from None


def load_network(path: str) -> Network:
    """The network of a text without a cycle."""
    try:
        network = read_network(read_bytes(path, MOST_TEXT_BYTES))
    except Refused as refused:
        raise ToolError(f"{path}: {refused}") from None
    cycle = cycle_of(network)
    if cycle is not None:
        raise ToolError(f"{path}: cycle {' '.join(network.links[link].name for link in cycle)}")
    return network


def load_code(path: str) -> Code:
    """The code of a code file, of which it isn't yet known whether it decodes."""
    try:
        return read_code(read_bytes(path, MOST_CODE_BYTES))
    except Refused as refused:
        raise ToolError(f"{path}: {refused}") from None


def pattern_number(path: str, network: Network, name: str) -> int:
    """The number of a pattern of a file's network."""
    for number, pattern in enumerate(network.patterns):
        if pattern.name == name:
            return number
    names = [pattern.name for pattern in network.patterns]
    raise ToolError(f"{path}: unknown pattern: {name}; its patterns: {listed(names)}")


def sink_number(path: str, network: Network, name: str) -> int:
    """The number of a sink of a file's network."""
    for number, node in enumerate(network.sinks):
        if network.nodes[node] == name:
            return number
    names = [network.nodes[node] for node in network.sinks]
    raise ToolError(f"{path}: unknown sink: {name}; there are {listed(names)}")
