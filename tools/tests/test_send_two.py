"""What `lif sendtwo` brings of two sources to the sinks of a code, beside what its links and decoders do by
docs/FORMATS.md; what leaves each of two sources; and refusals in their order.
"""
from __future__ import annotations

import dataclasses
import random
from pathlib import Path
from typing import Sequence

import pytest

from support import TOP, Program
from lif_tools.formats import (
    COUNT_BYTES,
    ROW_BYTES,
    Code,
    Confusion,
    capacity,
    check_failure,
    finish,
    generations,
    live_links,
    read_code,
    separate,
    write_code,
)
from traffic import blocks_of, sum_of, times
from test_twin import code_by_hand, drawn

DATA = TOP / "crates/worked_cases/data"
NAMES = ["butterfly", "fan-nine", "many-rows", "wide-butterfly", "wide-many-rows"]

# The sources of a code, each with the rate that it has there.
Parts = Sequence[tuple[int, bytes]]


# What comes of sources


def rows_in(block: bytes) -> list[bytes]:
    return [block[at : at + ROW_BYTES] for at in range(0, len(block), ROW_BYTES)]


def blocks_of_parts(parts: Parts) -> list[bytes]:
    """The blocks of sources: each has the rows of one after another, and zeros in the place of those of one that has ended."""
    cut, count = [blocks_of(*part) for part in parts], max(generations(rate, len(source)) for rate, source in parts)
    for (rate, _), blocks in zip(parts, cut):
        blocks += [bytes(rate * ROW_BYTES)] * (count - len(blocks))
    return [b"".join(of_each) for of_each in zip(*cut)]


def carried(code: Code, pattern: int, block: bytes) -> list[bytes]:
    """The row that each link carries of a block, one link after another; a dead link counts as zeros."""
    network, live, found = code.network, live_links(code, pattern), list[bytes]()
    for number, link in enumerate(network.links):
        inputs = rows_in(block) if link.tail == network.source else found
        sums = [times(code.field, operand.times, inputs[operand.origin]) for operand in code.operands[number]]
        found.append(sum_of(sums) if live[number] else bytes(ROW_BYTES))
    return found


def decoded(code: Code, demand: int, rows: Sequence[bytes]) -> bytes:
    """The block that a demand's decoder makes of what the links carry."""
    decoder, rate = code.decoders[demand], code.rate
    places = range(0, rate * rate, rate)
    inputs = [rows[link] for link in decoder.links]
    return b"".join(
        sum_of([times(code.field, *pair) for pair in zip(decoder.entries[at : at + rate], inputs)]) for at in places
    )


def counted(part: bytes) -> bytes:
    """The bytes that rows count, as far as they have them."""
    return part[COUNT_BYTES:][: int.from_bytes(part[:COUNT_BYTES], "big")]


def received(code: Code, pattern: int, parts: Parts) -> dict[str, bytes]:
    """What each sink gets of each source, by the sink's name and the place of the source."""
    network, found = code.network, dict[str, bytes]()
    for block in blocks_of_parts(parts):
        rows = carried(code, pattern, block)
        for sink, node in enumerate(network.sinks):
            came, at = decoded(code, network.demand(sink, pattern), rows), 0
            for place, (rate, _) in enumerate(parts, 1):
                name = f"{network.nodes[node]}.{place}"
                found[name] = found.get(name, b"") + counted(came[at : at + rate * ROW_BYTES])
                at += rate * ROW_BYTES
    return found


def test_blocks_of_two_sources_by_hand() -> None:
    one, two = b"\0\0\0\1A".ljust(ROW_BYTES, b"\0"), b"\0\0\0\2BB".ljust(ROW_BYTES, b"\0")
    assert blocks_of_parts([(1, b"A"), (1, b"BB")]) == [one + two]
    assert len(blocks_of_parts([(1, b""), (1, bytes(2040))])) == 3
    (_, second) = blocks_of_parts([(1, bytes(1020)), (2, b"x")])
    # Behind the end of the second source there are zeros, and the first counts no byte any more.
    assert second == bytes(3 * ROW_BYTES)
    assert counted(bytes(8)) == b"" and counted(b"\0\0\0\x09abcd") == b"abcd"


def test_what_is_received_by_hand() -> None:
    for code in (code_by_hand(), separate(code_by_hand())):
        found = received(code, 0, [(1, b"A"), (1, b"BB")])
        assert found == {"t1.1": b"A", "t1.2": b"BB", "t2.1": b"A", "t2.2": b"BB"}
        # A code with a wrong entry brings something else.
        first = code.decoders[0]
        wrong = dataclasses.replace(first, entries=[*first.entries[:3], first.entries[3] ^ 7])
        found = received(dataclasses.replace(code, decoders=(wrong, code.decoders[1])), 0, [(1, b"A"), (1, b"BB")])
        assert found["t1.2"] != b"BB" and found["t2.2"] == b"BB"


def test_what_leaves_each_source_is_its_own() -> None:
    """Through a separated code the first links carry the rows of the one source, and the next those of the other."""
    chance, tried = random.Random(5), 0
    while tried < 4:
        code = finish(drawn(chance))
        if isinstance(code, Confusion):
            continue
        tried += 1
        code = separate(code)
        first_rate = sum(link.name.startswith("super.1.") for link in code.network.links[: code.rate])
        parts = [(first_rate, chance.randbytes(900)), (code.rate - first_rate, chance.randbytes(4000))]
        for generation, block in enumerate(blocks_of_parts(parts)):
            rows = carried(code, 0, block)[: code.rate]
            own = [(blocks_of(*part) + [bytes(part[0] * ROW_BYTES)] * generation)[generation] for part in parts]
            assert rows == rows_in(own[0]) + rows_in(own[1])
        for pattern in range(len(code.network.patterns)):
            found = received(code, pattern, parts)
            assert all(source == parts[int(name[-1]) - 1][1] for name, source in found.items())


# The command


def send_both(program: Program, folder: Path, code: Code, pattern: int, seed: int, parts: Parts) -> None:
    """Sends two sources, and compares both files of each sink and the line."""
    (folder / "code").write_bytes(write_code(code))
    for place, (_, source) in enumerate(parts, 1):
        (folder / f"src{place}").write_bytes(source)
    (first_rate, one), (second_rate, two) = parts
    words = ("code", code.network.patterns[pattern].name, seed, first_rate, "src1", "src2", "got")
    done = program("sendtwo", *words, cwd=folder)
    count = max(generations(first_rate, len(one)), generations(second_rate, len(two)))
    said = f"sent {len(one)} and {len(two)} bytes in {count} generations to {len(code.network.sinks)} sinks\n"
    assert (done.returncode, done.stdout) == (0, said)
    wanted = received(code, pattern, parts)
    assert {path.name.removeprefix("got."): path.read_bytes() for path in folder.glob("got.*")} == wanted
    assert all(found == parts[int(name[-1]) - 1][1] for name, found in wanted.items())


def lengths_about(rate: int) -> list[int]:
    return [0, 1, capacity(rate) - 1, capacity(rate), capacity(rate) + 1, 5 * capacity(rate), 5 * capacity(rate) + 7]


@pytest.mark.parametrize("whole", [False, True])
def test_sources_about_the_room_of_a_block(tmp_path: Path, program: Program, whole: bool) -> None:
    code, chance = code_by_hand(), random.Random(1)
    code = separate(code) if whole else code
    for one in lengths_about(1):
        parts = [(1, chance.randbytes(one)), (1, chance.randbytes(chance.choice(lengths_about(1))))]
        send_both(program, tmp_path, code, 0, one, parts)
        send_both(program, tmp_path, code, 0, one + 1, parts[::-1])


@pytest.mark.parametrize("name", NAMES)
def test_codes_and_shares(tmp_path: Path, program: Program, name: str) -> None:
    code, chance = read_code((DATA / f"{name}.lif").read_bytes()), random.Random(name)
    assert code.rate > 1 and check_failure(code) is None
    for pattern in range(len(code.network.patterns)):
        first_rate = chance.randint(1, code.rate - 1)
        rates = (first_rate, code.rate - first_rate)
        parts = [(rate, chance.randbytes(chance.choice([0, 100, capacity(rate) + 9]))) for rate in rates]
        send_both(program, tmp_path, code, pattern, pattern, parts)


def test_codes_by_chance(tmp_path: Path, program: Program) -> None:
    chance, tried = random.Random(3), 0
    while tried < 12:
        code = finish(drawn(chance))
        if isinstance(code, Confusion):
            continue
        tried += 1
        first_rate = chance.randint(1, code.rate - 1)
        parts = [(rate, chance.randbytes(chance.randint(0, 6000))) for rate in (first_rate, code.rate - first_rate)]
        send_both(program, tmp_path, separate(code), chance.randrange(2), tried, parts)


def test_one_file_may_be_both_sources(tmp_path: Path, program: Program) -> None:
    (tmp_path / "code").write_bytes(write_code(code_by_hand()))
    (tmp_path / "src").write_bytes(bytes(range(256)) * 10)
    done = program("sendtwo", "code", "none", 1, 1, "src", "src", "got", cwd=tmp_path)
    assert done.stdout == "sent 2560 and 2560 bytes in 3 generations to 2 sinks\n"
    # And so may be the file of the code.
    assert program("sendtwo", "code", "none", 1, 1, "code", "src", "more", cwd=tmp_path).returncode == 0
    assert {path.read_bytes() for path in tmp_path.glob("got.*")} == {(tmp_path / "src").read_bytes()}
    assert (tmp_path / "more.t2.1").read_bytes() == (tmp_path / "code").read_bytes()


# Words behind the code, the status, and what is said.
REFUSED = [
    (("none", 1, 1, "src1", "src2"), 2, "usage: lif order NET"),
    (("none", 1, 1, "src1", "src2", "got", "more"), 2, "usage: lif order NET"),
    (("none", "x", 1, "src1", "src2", "got"), 2, "usage: lif order NET"),
    (("none", 1, "-1", "src1", "src2", "got"), 2, "usage: lif order NET"),
    (("none", 1, 2**64, "src1", "src2", "got"), 2, "usage: lif order NET"),
    (("storm", 1, 0, "src1", "src2", "got"), 9, "unknown pattern: storm\n"),
    (("none", 1, 0, "src1", "src2", "src1"), 23, "bad split: rate 2\n"),
    (("none", 1, 2, "missing", "src2", "got"), 23, "bad split: rate 2\n"),
    (("none", 1, "0003", "src1", "src2", "got"), 23, "bad split: rate 2\n"),
    (("none", 1, 2**32 + 1, "src1", "src2", "got"), 23, "bad split: rate 2\n"),
    (("none", 1, 2**64 - 1, "src1", "src2", "got"), 23, "bad split: rate 2\n"),
    (("none", 1, 1, "missing", "got.t1.2", "got"), 14, "same path: got.t1.2\n"),
    (("none", 1, 1, "got.t2.2", "got.t2.1", "got"), 14, "same path: got.t2.1\n"),
]


@pytest.mark.parametrize("words, status, said", REFUSED)
def test_refusals(tmp_path: Path, program: Program, words: tuple[object, ...], status: int, said: str) -> None:
    (tmp_path / "code").write_bytes(write_code(code_by_hand()))
    for name in ("src1", "src2"):
        (tmp_path / name).write_bytes(b"kept")
    done = program("sendtwo", "code", *words, cwd=tmp_path)
    assert done.returncode == status and done.stdout.startswith(said)
    assert sorted(path.name for path in tmp_path.iterdir()) == ["code", "src1", "src2"]
    assert {(tmp_path / name).read_bytes() for name in ("src1", "src2")} == {b"kept"}


def test_a_source_that_cannot_be_read(tmp_path: Path, program: Program) -> None:
    """What was full of the other source is carried; the window that wasn't isn't."""
    (tmp_path / "code").write_bytes(write_code(code_by_hand()))
    (tmp_path / "src").write_bytes(bytes(9000))
    for sources in (("src", "missing"), ("missing", "src")):
        done = program("sendtwo", "code", "none", 1, 1, *sources, "got", cwd=tmp_path)
        assert (done.returncode, done.stdout) == (10, "read fault\n")
        assert sorted(path.name for path in tmp_path.glob("got.*")) == ["got.t1.1", "got.t1.2", "got.t2.1", "got.t2.2"]
        assert {path.read_bytes() for path in tmp_path.glob("got.*")} == {b""}
