"""What the tests share: the tools as commands, the program, and networks."""
from __future__ import annotations

import functools
import io
import itertools
import os
import subprocess
import sys
from contextlib import redirect_stderr, redirect_stdout
from pathlib import Path
from typing import Any, Callable, Sequence
from unittest import mock

import pytest

Program = Callable[..., "subprocess.CompletedProcess[str]"]

TOOLS = Path(__file__).resolve().parent.parent
TOP = TOOLS.parent
EXAMPLES = TOP / "examples"
FLY = (EXAMPLES / "butterfly/butterfly.lif").read_bytes()

sys.path.insert(0, str(TOOLS))

from lif_tools import liblif  # noqa: E402
from lif_tools.command import status_of  # noqa: E402
from lif_tools.formats import Link, Network, Pattern, Refused  # noqa: E402


# The module of each tool.
MODULES = {
    "lif-draft": "drafting",
    "lif-draw": "draw",
    "lif-estimate": "estimate",
    "lif-gain": "gain",
    "lif-import": "importing",
    "lif-node": "node",
    "lif-plan": "plan",
}


def run_tool(name: str, *words: object, **options: Any) -> subprocess.CompletedProcess[str]:
    """A tool that has ended, with what it said. It runs within the tests, which saves the time to load its modules, but for
    where there are options of a process."""
    if options:
        return run_command(name, *words, **options)
    arguments, outputs = [str(TOOLS / name), *map(str, words)], [io.BytesIO(), io.BytesIO()]
    said, told = (io.TextIOWrapper(output, "utf-8", "backslashreplace", write_through=True) for output in outputs)
    with mock.patch.object(sys, "argv", arguments), redirect_stdout(said), redirect_stderr(told):
        status = status_of(MODULES[Path(name).name])
    return subprocess.CompletedProcess(arguments, status, *(output.getvalue().decode() for output in outputs))


def run_command(name: str, *words: object, **options: Any) -> subprocess.CompletedProcess[str]:
    """A tool that has ended, with what it said, by its script."""
    return ended([TOOLS / name, *words], **options)


def ended(words: Sequence[object], **options: Any) -> subprocess.CompletedProcess[str]:
    """A program that has ended, with what it said."""
    return subprocess.run([*map(str, words)], capture_output=True, text=True, check=False, **options)


def without_packages(name: str, *words: object) -> subprocess.CompletedProcess[str]:
    """The same where Python has its standard library alone, and no folder has programs."""
    return ended([find_python(name), "-S", TOOLS / name, *words], env={"PATH": ""})


def find_python(name: str) -> str:
    """The interpreter that a tool names."""
    return (TOOLS / name).read_text().splitlines()[0].removeprefix("#!")


@functools.cache
def version_lines() -> list[str]:
    """What the script `lif` says of the program that it would run."""
    done = subprocess.run([str(TOP / "lif"), "--version"], capture_output=True, text=True, check=True)
    return done.stdout.splitlines()


def find_program() -> str | None:
    """The program: what LIF_PROGRAM names, or what the script `lif` runs, where no source is newer than that."""
    named = os.environ.get("LIF_PROGRAM")
    if named:
        return named
    program = Path(version_lines()[-1].removeprefix("program "))
    sources = max(path.stat().st_mtime for path in TOP.glob("crates/*/src/*"))
    return str(program) if program.is_absolute() and program.stat().st_mtime > sources else None


def find_proved() -> str | None:
    """The same, where it is proved, and so as fast and as small as it is meant to be."""
    is_proved = "LIF_PROGRAM" in os.environ or "proved" in version_lines()
    return find_program() if is_proved else None


def has_liblif() -> bool:
    """Whether liblif is there for Python."""
    try:
        liblif.library()
    except (FileNotFoundError, ImportError):
        return False
    return True


def network_of(
    source: int, sinks: tuple[int, ...], ends: Sequence[tuple[int, ...]], patterns: Sequence[tuple[int, ...]] = ()
) -> Network:
    """A network of links with these tails and heads."""
    count = max(max(pair) for pair in ends) + 1
    links = tuple(Link(f"l{place}", *pair) for place, pair in enumerate(ends))
    listed = tuple(Pattern(f"p{place}", failed) for place, failed in enumerate(patterns, start=1))
    return Network(tuple(f"n{node}" for node in range(count)), links, source, sinks, (Pattern("none", ()), *listed))


def text_of(network: Network) -> str:
    """The text of a network."""
    names = network.nodes
    lines = [f"source {names[network.source]}"] + [f"sink {names[sink]}" for sink in network.sinks]
    lines += [f"link {link.name} {names[link.tail]} {names[link.head]}" for link in network.links]
    lines += [
        f"pattern {pattern.name} " + " ".join(network.links[link].name for link in pattern.links)
        for pattern in network.patterns[1:]
    ]
    return "\n".join(lines) + "\n"


def combination_text(middles: int, size: int) -> str:
    """The text of the network with a sink behind each so many of the middle nodes, as `lif demo` makes it."""
    chosen = list(itertools.combinations(range(1, middles + 1), size))
    lines = ["source s"] + [f"sink t{sink}" for sink in range(1, len(chosen) + 1)]
    lines += [f"link a{node} s m{node}" for node in range(1, middles + 1)]
    lines += [f"link b{sink}-{node} m{node} t{sink}" for sink, nodes in enumerate(chosen, start=1) for node in nodes]
    return "\n".join(lines) + "\n"


def layers_text(count: int, width: int) -> str:
    """The text of a network of layers, with all links between one and the next; the last is that of the sinks."""
    lines = ["source s"] + [f"sink n{count - 1}-{sink}" for sink in range(width)]
    lines += [f"link s-{head} s n0-{head}" for head in range(width)]
    lines += [
        f"link l{layer}-{tail}-{head} n{layer}-{tail} n{layer + 1}-{head}"
        for layer in range(count - 1)
        for tail in range(width)
        for head in range(width)
    ]
    return "\n".join(lines) + "\n"


def refusal(read: Callable[[bytes], object], content: bytes) -> str:
    with pytest.raises(Refused) as refused:
        read(content)
    return str(refused.value)
