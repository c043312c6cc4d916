"""lif-estimate: the numbers of codes that are counted by hand, and of what the program sends."""
from __future__ import annotations

import dataclasses
import json
from pathlib import Path

from support import EXAMPLES, Program, run_tool, without_packages
from lif_tools.formats import Code, Decoder, Link, Network, Operand, Pattern, octet_product, read_code, read_network, write_code

CODE = EXAMPLES / "butterfly/butterfly.lif"

FAILING = b"source s\nsink t\nlink u s a\nlink w s c\nlink v a c\nlink z c t\npattern f u\n"


def said(path: Path, *words: object) -> list[str]:
    done = run_tool("lif-estimate", path, *words)
    assert (done.returncode, done.stderr) == (0, "")
    return done.stdout.splitlines()


def fan(rate: int, middles: int, sinks: int) -> Code:
    """A link from the source to each middle node carries the sum of all rows, and each sink has links from as many middle
    nodes as the rate. The decoders don't decode."""
    nodes = ("s", *(f"m{node}" for node in range(middles)), *(f"t{node}" for node in range(sinks)))
    first = tuple(Link(f"a{node}", 0, 1 + node) for node in range(middles))
    second = tuple(
        Link(f"b{sink}-{node}", 1 + (sink + node) % middles, 1 + middles + sink)
        for sink in range(sinks)
        for node in range(rate)
    )
    network = Network(nodes, first + second, 0, tuple(range(1 + middles, 1 + middles + sinks)), (Pattern("none", ()),))
    operands = [tuple(Operand(row, 1) for row in range(rate)) for _ in first]
    operands += [(Operand(link.tail - 1, 1),) for link in second]
    decoders = tuple(
        Decoder(tuple(range(middles + sink * rate, middles + (sink + 1) * rate)), [1] * rate * rate)
        for sink in range(sinks)
    )
    return Code(network, 8, rate, tuple(operands), decoders)


def test_the_butterfly() -> None:
    assert said(CODE) == [
        "code rate 2 field 8 demands 2",
        "pattern none live 9 of 9 links",
        "products a byte 9: links 5, sinks 4",
        "frames a generation 72, for at most 2044 bytes of the source",
    ]
    lines = said(CODE, "--bytes", 67_108_864)
    assert lines[4] == ("source 67108864 bytes: generations 32833, frames 2363976, bytes on all links 330956640")
    assert lines[6:15] == [f"link {name} 36772960" for name in "s-a s-b a-t1 b-t2 a-c b-c c-d d-t1 d-t2".split()]
    assert lines[15:] == [
        "node s reads 67108864 bytes, writes 73545920, holds about 65536",
        "node t1 reads 73545920 bytes, writes 0, holds about 110318880",
        "node t2 reads 73545920 bytes, writes 0, holds about 110318880",
        "node a reads 36772960 bytes, writes 73545920, holds about 73545920",
        "node b reads 36772960 bytes, writes 73545920, holds about 73545920",
        "node c reads 73545920 bytes, writes 36772960, holds about 110318880",
        "node d reads 36772960 bytes, writes 73545920, holds about 73545920",
    ]


def test_what_a_node_may_read_stands_where_it_reads_more() -> None:
    lines = said(CODE, "--bytes", 67_108_865)
    assert lines[15].startswith("node s reads 67108865 bytes and may read 67108864, writes ")
    assert not any("may read" in line for line in lines[16:])
    lines = said(CODE, "--bytes", 300_000_000)
    assert lines[16].startswith("node t1 reads 328769280 bytes and may read 268435456, writes ")
    assert [line.split()[1] for line in lines if "may read" in line] == ["s", "t1", "t2", "c"]


def test_names_alone() -> None:
    assert said(CODE, "--nodes") == "s t1 t2 a b c d".split()
    assert said(CODE, "--sinks") == ["t1", "t2"]
    assert said(CODE, "--links") == ["s-a", "s-b", "a-t1", "b-t2", "a-c", "b-c", "c-d", "d-t1", "d-t2"]
    assert said(CODE, "--patterns") == ["none"]


def test_the_longest_source() -> None:
    one = EXAMPLES / "one-link/one.lif"
    assert said(one, "--bytes", 67_108_865)[4].startswith("source 67108865 bytes: generations 65794, ")
    assert said(one, "--bytes", 1_099_511_627_776)[4] == (
        "source 1099511627776 bytes: generations 1077952577, frames 8623620616, bytes on all links 1207306886240"
    )


def test_a_code_costs_the_same_in_both_versions(tmp_path: Path) -> None:
    """Each demand has its decoder in memory, though that stands in a file of version 2 once."""
    code = read_code(CODE.read_bytes())
    patterns = (*code.network.patterns, *(Pattern(f"p{number}", (8,)) for number in range(100)))
    network = dataclasses.replace(code.network, patterns=patterns)
    decoders = tuple(decoder for decoder in code.decoders for _ in patterns)
    many = Code(network, 8, 2, code.operands, decoders)
    found = []
    for version in (1, 2):
        path = tmp_path / f"{version}.lif"
        path.write_bytes(write_code(many, version))
        facts = json.loads(run_tool("lif-estimate", path, "--bytes", 1000, "--json").stdout)
        found.append({**facts["memory"], "file": 0, "total": 0})
    assert found[0] == found[1]
    assert (tmp_path / "2.lif").stat().st_size < (tmp_path / "1.lif").stat().st_size


def test_the_fan_of_the_measurements(tmp_path: Path) -> None:
    path = tmp_path / "fan.lif"
    path.write_bytes(write_code(fan(8, 16, 16)))
    assert said(path)[2:] == [
        "products a byte 160: links 32, sinks 128",
        "frames a generation 1152, for at most 8188 bytes of the source",
    ]
    assert "frames 9442944," in said(path, "--bytes", 67_108_864)[4]


def test_a_pattern_leaves_links_and_operands_out(tmp_path: Path) -> None:
    path = tmp_path / "one.lif"
    operands = ((Operand(0, 1),), (Operand(0, 1),), (Operand(0, 1),), (Operand(1, 1), Operand(2, 2)))
    assert octet_product(3, 0xF4) == 1
    path.write_bytes(
        write_code(Code(read_network(FAILING), 8, 1, operands, (Decoder((3,), (0xF4,)), Decoder((3,), (1,)))))
    )
    assert said(path)[1:3] == ["pattern none live 4 of 4 links", "products a byte 6: links 5, sinks 1"]
    lines = said(path, "--pattern", "f", "--bytes", 0)
    assert lines[1:3] == ["pattern f live 2 of 4 links", "products a byte 3: links 2, sinks 1"]
    assert lines[-8:-4] == ["link u 0", "link w 1120", "link v 0", "link z 1120"]
    assert lines[-4:] == [
        "node s reads 0 bytes, writes 1120, holds about 65536",
        "node t reads 1120 bytes, writes 0, holds about 2240",
        "node a reads 0 bytes, writes 0, holds about 0",
        "node c reads 1120 bytes, writes 1120, holds about 2240",
    ]
    assert said(path, "--patterns") == ["none", "f"]


def test_rates_that_do_not_divide_have_two_decimals(tmp_path: Path) -> None:
    path = tmp_path / "fan.lif"
    path.write_bytes(write_code(fan(3, 4, 1)))
    assert said(path)[2] == "products a byte 8: links 5, sinks 3"
    path.write_bytes(write_code(fan(3, 5, 2)))
    assert said(path)[2] == "products a byte 13: links 7, sinks 6"
    code = fan(3, 3, 1)
    operands = (code.operands[0][:2], *code.operands[1:])
    path.write_bytes(write_code(Code(code.network, 8, 3, operands, code.decoders)))
    assert said(path)[2] == "products a byte 6.67: links 3.67, sinks 3"


def test_what_the_program_sends(program: Program, tmp_path: Path) -> None:
    """Generations and frames are those of `demo`, of which the code is made in the program alone."""
    lines = dict(line.split(" ", 1) for line in program("demo", 4, 2, 100_000).stdout.splitlines())
    path = tmp_path / "fan.lif"
    code = fan(2, 4, 6)
    path.write_bytes(write_code(code))
    found = said(path, "--bytes", 100_000)
    assert f"generations {lines['generations']}, frames {lines['frames']}," in found[4]


def test_misuse_and_unknown_patterns(tmp_path: Path) -> None:
    for words in ((), (CODE, "--bytes", "-1"), (CODE, "--bytes", 1_099_511_627_777), (CODE, "--bytes", "many")):
        done = run_tool("lif-estimate", *words)
        assert done.returncode == 2 and "Traceback" not in done.stderr
    done = run_tool("lif-estimate", CODE, "--pattern", "f")
    assert done.stderr == f"lif-estimate: {CODE}: unknown pattern: f; its patterns: none\n"
    assert run_tool("lif-estimate", tmp_path).stderr == f"lif-estimate: {tmp_path}: Is a directory\n"


def test_no_package_is_needed() -> None:
    assert without_packages("lif-estimate", CODE).stdout.startswith("code rate 2 field 8 demands 2\n")
