"""Which sinks `lif blind` serves where any links fail, beside what headed frames bring by docs/FORMATS.md."""
from __future__ import annotations

import functools
import itertools
import random
from pathlib import Path
from typing import Iterator, Sequence

import pytest

from support import EXAMPLES, TOP, Program
from lif_tools.formats import (
    ELEMENT_BYTES,
    FRAME_BYTES,
    PIECES,
    ROW_BYTES,
    Code,
    Decoder,
    Link,
    Network,
    Operand,
    Pattern,
    Vector,
    capacity,
    check_failure,
    generations,
    live_where,
    product_of,
    rank_of,
    ranks_where,
    read_code,
    unit_vector,
    vectors_where,
    whole_sinks,
    write_code,
)
from traffic import sum_of, times

DATA = TOP / "crates/worked_cases/data"
FLY = read_code((EXAMPLES / "butterfly/butterfly.lif").read_bytes())
LINKS = [link.name for link in FLY.network.links]
NAMES = ["butterfly", "doubled-one-link", "fan-nine", "many-rows", "two-ways", "wide-butterfly", "wide-many-rows"]
PIECE_BYTES = ROW_BYTES // PIECES


def code_of(name: str) -> Code:
    return read_code((DATA / f"{name}.lif").read_bytes())


def sets_of(code: Code, most: int) -> Iterator[tuple[int, ...]]:
    """The sets of so many links and fewer."""
    for count in range(most + 1):
        yield from itertools.combinations(range(len(code.network.links)), count)


# Ranks, counted in another way


def determinant(field: int, rows: Sequence[Vector]) -> int:
    """That of a square matrix, along its first row; in these fields no sign matters."""
    if not rows:
        return 1
    product, total = product_of(field), 0
    for column, element in enumerate(rows[0]):
        if element:
            total ^= product(element, determinant(field, [row[:column] + row[column + 1 :] for row in rows[1:]]))
    return total


def rank_by_minors(field: int, vectors: Sequence[Vector]) -> int:
    """The size of the largest square part of which the determinant isn't 0."""
    columns = range(len(vectors[0]) if vectors else 0)
    for size in range(min(len(vectors), len(columns)), 0, -1):
        for rows in itertools.combinations(vectors, size):
            for places in itertools.combinations(columns, size):
                if determinant(field, [tuple(row[place] for place in places) for row in rows]):
                    return size
    return 0


@pytest.mark.parametrize("field", [8, 9, 16])
def test_a_rank_is_the_size_of_the_largest_minor(field: int) -> None:
    chance = random.Random(field)
    product, most = product_of(field), 256 ** ELEMENT_BYTES[field] - 1
    found = set()
    for _ in range(400):
        width, few = chance.randint(1, 4), [0, 1, chance.randint(0, most), chance.randint(0, most)]
        vectors = [tuple(chance.choice(few) for _ in range(width)) for _ in range(chance.randint(0, 5))]
        if len(vectors) > 1:
            # One that is a sum of multiples of two others.
            one, two = chance.sample(vectors, 2)
            by = [chance.randint(0, most) for _ in range(2)]
            vectors.append(tuple(product(by[0], a) ^ product(by[1], b) for a, b in zip(one, two)))
        found.add(rank_of(field, vectors))
        assert rank_of(field, vectors) == rank_by_minors(field, vectors)
    assert found == {0, 1, 2, 3, 4}


def ranked(*failed: str) -> list[int]:
    return ranks_where(FLY, [LINKS.index(name) for name in failed])


def test_ranks_of_the_butterfly_by_hand() -> None:
    assert ranked() == [2, 2]
    assert ranked("a-t1") == ranked("a-t1", "a-t1") == [1, 2]
    assert ranked("s-a") == ranked("c-d") == [1, 1]
    assert ranked("s-a", "s-b") == [0, 0]
    assert ranked("s-a", "b-c") == [0, 1]
    assert whole_sinks(FLY, [LINKS.index("a-t1")]) == ["t2"] and whole_sinks(FLY, [0]) == []


@pytest.mark.parametrize("name", NAMES)
def test_each_sink_of_an_accepted_code_is_whole_under_its_patterns(name: str) -> None:
    code = code_of(name)
    assert check_failure(code) is None
    for pattern in code.network.patterns:
        assert whole_sinks(code, pattern.links) == [code.network.nodes[sink] for sink in code.network.sinks]


# Headed frames


def headed_frames(code: Code, failed: Sequence[int], generation: int, block: bytes) -> list[list[bytes]]:
    """For each link its eight headed frames of a block; none where it isn't live."""
    live, vectors, size = live_where(code, failed), vectors_where(code, failed), ELEMENT_BYTES[code.field]
    rows = [block[at : at + ROW_BYTES] for at in range(0, len(block), ROW_BYTES)]
    found: list[list[bytes]] = []
    for link, vector in enumerate(vectors):
        carried = sum_of([times(code.field, *pair) for pair in zip(vector, rows)])
        head = link.to_bytes(4, "big") + generation.to_bytes(4, "big")
        head += b"".join(element.to_bytes(size, "big") for element in vector)
        places = range(0, ROW_BYTES if live[link] else 0, PIECE_BYTES)
        found.append(
            [b"LF\2" + bytes([piece]) + head + carried[at:][:PIECE_BYTES] for piece, at in enumerate(places)]
        )
    return found


@functools.cache
def inverse(field: int, element: int) -> int:
    product = product_of(field)
    return next(other for other in range(1, 256 ** ELEMENT_BYTES[field]) if product(element, other) == 1)


class Blind:
    """What a sink that knows no code makes of headed frames: for each piece rows of a vector with its payload, each with the
    place of an element that is 1 in it and 0 in the others."""

    def __init__(self, field: int, rate: int):
        self.field, self.width = field, rate * ELEMENT_BYTES[field]
        self.kept: list[dict[int, bytes]] = [{} for _ in range(PIECES)]

    def element(self, row: bytes, place: int) -> int:
        size = ELEMENT_BYTES[self.field]
        return int.from_bytes(row[place * size : (place + 1) * size], "big")

    def cleared(self, row: bytes, place: int, by: bytes) -> bytes:
        return sum_of([row, times(self.field, self.element(row, place), by)])

    def accept(self, frame: bytes) -> bool:
        """Whether a frame's vector is new."""
        assert frame[:3] == b"LF\2" and len(frame) == FRAME_BYTES + self.width
        kept, row = self.kept[frame[3]], frame[12:]
        for place, other in kept.items():
            row = self.cleared(row, place, other)
        if not any(row[: self.width]):
            return False
        new = next(place for place in range(self.width) if self.element(row, place))
        row = times(self.field, inverse(self.field, self.element(row, new)), row)
        for place, other in kept.items():
            kept[place] = self.cleared(other, new, row)
        kept[new] = row
        return True

    def block(self, rate: int) -> bytes | None:
        """The block, where each piece has as many rows as the rate."""
        if any(len(kept) < rate for kept in self.kept):
            return None
        return b"".join(kept[row][self.width :] for row in range(rate) for kept in self.kept)


def received(code: Code, failed: Sequence[int], sink: int, block: bytes) -> tuple[int, bytes | None]:
    """The rank to which a sink comes by the frames of a block, in an order by chance and some twice, and the block."""
    chance = random.Random(len(failed) + sink)
    frames = headed_frames(code, failed, 7, block)
    given = [frame for link, told in zip(code.network.links, frames) if link.head == sink for frame in told]
    given += chance.choices(given, k=len(given) // 2) if given else []
    chance.shuffle(given)
    blind = Blind(code.field, code.rate)
    raised = sum(blind.accept(frame) for frame in given)
    assert raised % PIECES == 0
    return raised // PIECES, blind.block(code.rate)


def test_the_bytes_of_headed_frames() -> None:
    frames = headed_frames(FLY, [], 3, bytes(1024) + b"\1" * 1024)
    assert len(frames[6]) == 8 and all(len(frame) == 142 for link in frames for frame in link)
    assert frames[6][5] == bytes.fromhex("4c4602 05 00000006 00000003 01 01") + b"\1" * 128
    assert frames[0][0] == bytes.fromhex("4c4602 00 00000000 00000003 01 00") + bytes(128)
    assert headed_frames(FLY, [0], 3, bytes(2048))[2] == []


@pytest.mark.parametrize("name, most", [("butterfly", 3), ("doubled-one-link", 1), ("two-ways", 2), ("wide-butterfly", 1)])
def test_whole_sinks_decode_by_vectors_alone(name: str, most: int) -> None:
    code = code_of(name)
    block = random.Random(name).randbytes(code.rate * ROW_BYTES)
    wholes = set()
    for failed in sets_of(code, most):
        ranks = ranks_where(code, failed)
        for sink, rank in zip(code.network.sinks, ranks):
            found, decoded = received(code, failed, sink, block)
            assert (found, decoded) == (rank, block if rank == code.rate else None)
            wholes.add(rank == code.rate)
    assert wholes == {True, False}


# The program


def check_blind(program: Program, folder: Path, code: Code, failed: Sequence[int], source: bytes) -> None:
    """Runs `blind`, with the words of the links in an order by chance and one of them twice, and compares all that comes."""
    network, ranks = code.network, ranks_where(code, failed)
    chance = random.Random(len(source))
    words = [network.links[link].name for link in failed]
    words += words[:1]
    chance.shuffle(words)
    folder.mkdir()
    (folder / "code").write_bytes(write_code(code))
    (folder / "src").write_bytes(source)
    done = program("blind", "code", "src", "out", *words, cwd=folder)
    names = [network.nodes[sink] for sink in network.sinks]
    whole = [name for name, rank in zip(names, ranks) if rank == code.rate]
    lines = [f"{name} rank {rank}{' whole' if rank == code.rate else ''}" for name, rank in zip(names, ranks)]
    sent = f"sent {len(source)} bytes in {generations(code.rate, len(source))} generations to {len(whole)} sinks"
    assert (done.stdout.splitlines(), done.returncode, done.stderr) == ([*lines, sent], 0, ""), words
    assert {path.name for path in folder.iterdir()} == {"code", "src", *(f"out.{name}" for name in whole)}
    assert all((folder / f"out.{name}").read_bytes() == source for name in whole)


@pytest.mark.parametrize("name", NAMES)
def test_the_program_serves_whole_sinks_alone(program: Program, tmp_path: Path, name: str) -> None:
    code = code_of(name)
    chance = random.Random(name)
    sets = list(sets_of(code, 3 if len(code.network.links) < 10 else 1))
    for number, failed in enumerate(sets if len(sets) <= 130 else chance.sample(sets, 130)):
        source = chance.randbytes(chance.choice([0, 1, capacity(code.rate) - 1, capacity(code.rate), 3000]))
        check_blind(program, tmp_path / str(number), code, failed, source)


def drafted(chance: random.Random) -> Code:
    """A code by chance, which seldom is accepted: its decoders are nothing but links into the sinks and zeros."""
    field, rate, count = chance.choice([8, 9, 16]), chance.randint(1, 4), chance.randint(3, 7)
    most = 256 ** ELEMENT_BYTES[field] - 1
    sinks = chance.sample(range(1, count), chance.randint(1, min(3, count - 1)))
    ends = [(tail, head) for tail in range(count) for head in range(tail + 1, count) if chance.random() < 0.7]
    # Each sink has as many links in as its decoder names.
    ends += [(chance.randrange(sink), sink) for sink in sinks for _ in range(rate)]
    ends.sort()
    links = tuple(Link(f"l{place}", *pair) for place, pair in enumerate(ends))
    operands = []
    for link in links:
        origins = range(rate) if link.tail == 0 else [at for at, other in enumerate(links) if other.head == link.tail]
        chosen = [origin for origin in origins if chance.random() < 0.8]
        operands.append(tuple(Operand(origin, chance.choice([1, chance.randint(1, most)])) for origin in chosen))
    into = [[at for at, link in enumerate(links) if link.head == sink] for sink in sinks]
    # In version 2 decoders of one sink differ, and there is one for each.
    decoders = tuple(
        Decoder(tuple(places[:rate]), [element for row in range(rate) for element in unit_vector(rate, row)])
        for places in into
    )
    network = Network(tuple(f"n{node}" for node in range(count)), links, 0, tuple(sinks), (Pattern("none", ()),))
    return Code(network, field, rate, tuple(operands), decoders)


def test_drafts_are_codes_with_sinks_of_every_rank() -> None:
    chance, found = random.Random(1), set()
    for _ in range(300):
        code = drafted(chance)
        assert write_code(read_code(write_code(code))) == write_code(code)
        count = len(code.network.links)
        failed = sorted(chance.sample(range(count), chance.randint(0, min(2, count))))
        found |= {(code.rate, rank) for rank in ranks_where(code, failed)}
    assert found >= {(rate, rank) for rate in range(1, 5) for rank in range(1, rate + 1)}


def test_the_program_serves_drafts_by_chance(program: Program, tmp_path: Path) -> None:
    """A thousand codes, few of which are accepted, each where links by chance fail."""
    chance = random.Random(2)
    for number in range(1000):
        code = drafted(chance)
        count = len(code.network.links)
        failed = sorted(chance.sample(range(count), chance.randint(0, min(3, count))))
        check_blind(program, tmp_path / str(number), code, failed, chance.randbytes(chance.randint(0, 3 * capacity(code.rate))))


def test_the_program_names_the_first_unknown_link(program: Program, tmp_path: Path) -> None:
    (tmp_path / "code").write_bytes(write_code(FLY))
    (tmp_path / "src").write_bytes(b"kept")
    for words, said in ((["zz"], "zz"), (["a-t1", "yy", "s-a", "zz"], "yy"), ([""], "")):
        done = program("blind", "code", "src", "out", *words, cwd=tmp_path)
        assert (done.returncode, done.stdout) == (20, f"unknown link: {said}\n")
    # An unknown link comes before a shared path, and that of a sink that isn't whole is shared too.
    (tmp_path / "out.t1").write_bytes((tmp_path / "code").read_bytes())
    done = program("blind", "out.t1", "src", "out", "zz", cwd=tmp_path)
    assert (done.returncode, done.stdout) == (20, "unknown link: zz\n")
    done = program("blind", "out.t1", "src", "out", "a-t1", cwd=tmp_path)
    assert (done.returncode, done.stdout) == (14, "same path: out.t1\n")
    assert {path.name for path in tmp_path.iterdir()} == {"code", "src", "out.t1"}
