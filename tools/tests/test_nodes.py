"""What the nodes and sinks of a code write, each by itself, beside what its links carry by docs/FORMATS.md."""
from __future__ import annotations

import random
from pathlib import Path

import pytest

from support import TOP, Program
from traffic import mixed, streams_of
from lif_tools.formats import (
    Code,
    Decoder,
    Link,
    Network,
    Operand,
    Pattern,
    capacity,
    generations,
    links_written,
    product_of,
    read_code,
    write_code,
)

DATA = TOP / "crates/worked_cases/data"
NONE = Pattern("none", ())


def run_nodes(program: Program, folder: Path, code: Code, pattern: int, source: bytes) -> None:
    """Runs each node and each sink over mixed streams, and compares what they write."""
    network, wanted = code.network, streams_of(code, pattern, source)
    named = ("code", network.patterns[pattern].name)
    (folder / "code").write_bytes(write_code(code))
    (folder / "source").write_bytes(source)
    for seed, (name, stream) in enumerate(wanted.items()):
        (folder / f"in.{name}").write_bytes(mixed(stream, seed))
    for number, node in enumerate(network.nodes):
        given = "source" if number == network.source else "in"
        done = program("relay", *named, node, given, "out", cwd=folder)
        assert done.returncode == 0, (node, done.stdout)
    made = {path.name.removeprefix("out."): path.read_bytes() for path in folder.glob("out.*")}
    assert sorted(made) == sorted(wanted)
    assert sorted(made) == sorted(name for node in network.nodes for name in links_written(code, named[1], node))
    assert [name for name, stream in made.items() if stream != wanted[name]] == []
    for sink in network.sinks:
        done = program("sink", *named, network.nodes[sink], "in", "got", cwd=folder)
        assert done.stdout == f"received {len(source)} bytes in {generations(code.rate, len(source))} generations\n"
        assert (folder / "got").read_bytes() == source


@pytest.mark.parametrize(
    "name", ["butterfly", "doubled-one-link", "fan-nine", "many-rows", "two-ways", "wide-butterfly", "wide-many-rows"]
)
def test_each_node_writes_what_its_links_carry(program: Program, tmp_path: Path, name: str) -> None:
    code = read_code((DATA / f"{name}.lif").read_bytes())
    for pattern in range(len(code.network.patterns)):
        folder = tmp_path / str(pattern)
        folder.mkdir()
        length = capacity(code.rate) * 2 + 1000 - pattern
        run_nodes(program, folder, code, pattern, random.Random(pattern).randbytes(length))


def test_a_node_with_8191_links_in(program: Program, tmp_path: Path) -> None:
    """What its one link out carries is the sum of what all bring, each times its coefficient."""
    count = 8191
    links = (*(Link(f"l{number}", 0, 1) for number in range(count)), Link("z", 1, 2))
    ways = tuple(Operand(number, number % 255 + 1) for number in range(count))
    sources = tuple((Operand(0, number % 251 + 1),) for number in range(count))
    network = Network(("s", "m", "t"), links, 0, (2,), (NONE,))
    product = product_of(8)
    factor = 0
    for way, (of_source,) in zip(ways, sources):
        factor ^= product(way.times, of_source.times)
    inverse = next(element for element in range(256) if product(element, factor) == 1)
    code = Code(network, 8, 1, (*sources, ways), (Decoder((count,), [inverse]),))
    run_nodes(program, tmp_path, code, 0, b"over each of 8,191 links" * 50)
