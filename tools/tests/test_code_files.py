"""Code files of both versions and the fields: what is read, written and refused, and that the program says the same."""
from __future__ import annotations

import dataclasses
import itertools
import random
from dataclasses import dataclass
from pathlib import Path
from typing import Sequence

import pytest

from support import EXAMPLES, FLY, Program, refusal
from lif_tools.formats import (
    Code,
    Decoder,
    Operand,
    Pattern,
    Refused,
    check_failure,
    live_links,
    octet_product,
    pair_product,
    product_of,
    read_code,
    read_network,
    vectors_of,
    write_code,
)

ONE = "source s\nsink t\nlink l s t\n"
# The same codes in version 2, in which four bytes stand before each decoder.
FLY_TWO = FLY[:4] + b"\2" + FLY[5:161] + bytes(4) + FLY[161:169] + bytes(4) + FLY[169:]
ONE_FILE = (EXAMPLES / "one-link/one.lif").read_bytes()
ONE_TWO = ONE_FILE[:4] + b"\2" + ONE_FILE[5:34] + bytes(4) + ONE_FILE[34:]

# A place of the butterfly's file, the byte that is put there, and the refusal.
CHANGED_BYTES = [
    (0, 0, "BadMagic"),
    (4, 3, "BadVersion"),
    (5, 9, "BadField"),
    (6, 0, "BadRate"),
    (6, 33, "BadRate"),
    (7, 255, "TooMany 7"),
    (9, 0, "BadName 9"),
    (9, 40, "BadName 9"),
    (10, 0x2F, "BadName 9"),
    (16, 0x31, "BadName 14"),
    (32, 9, "BadIndex 31"),
    (34, 9, "BadIndex 33"),
    (34, 0, "OutOfOrder 0"),
    (117, 0, "ZeroCoefficient 117"),
    (116, 2, "BadOperand 115"),
    (149, 4, "NotRising 148"),
    (149, 6, "BadOperand 148"),
    (164, 2, "NotRising 163"),
    (164, 3, "BadOperand 163"),
]

# The same of the file of version 2.
CHANGED_BYTES_TWO = [
    (4, 3, "BadVersion"),
    (5, 10, "BadField"),
    (164, 1, "BadIndex 161"),
    (161, 255, "BadIndex 161"),
    (176, 1, "BadOperand 173"),
    (176, 2, "BadIndex 173"),
    (168, 2, "NotRising 167"),
    (180, 3, "NotRising 179"),
]


@pytest.mark.parametrize("place, byte, said", CHANGED_BYTES)
def test_a_code_file_is_refused(place: int, byte: int, said: str) -> None:
    assert refusal(read_code, FLY[:place] + bytes([byte]) + FLY[place + 1 :]) == said


def test_every_beginning_of_a_code_file_is_truncated() -> None:
    assert {refusal(read_code, FLY[:length]).split()[0] for length in range(len(FLY))} == {"Truncated"}
    assert refusal(read_code, FLY[:11]) == "Truncated 11"
    assert refusal(read_code, FLY[:12]) == "Truncated 11"
    assert refusal(read_code, FLY[:-2]) == "Truncated 175"
    assert refusal(read_code, FLY + b"\0") == f"TrailingBytes {len(FLY)}"


@pytest.mark.parametrize("place, byte, said", CHANGED_BYTES_TWO)
def test_a_code_file_of_version_2_is_refused(place: int, byte: int, said: str) -> None:
    assert refusal(read_code, FLY_TWO[:place] + bytes([byte]) + FLY_TWO[place + 1 :]) == said


def test_every_beginning_of_a_file_of_version_2_is_truncated() -> None:
    found = [refusal(read_code, ONE_TWO[:length]) for length in range(33, len(ONE_TWO))]
    assert found == ["Truncated 33"] + 4 * ["Truncated 34"] + 2 * ["Truncated 38"] + ["Truncated 40"]
    assert refusal(read_code, ONE_TWO + b"\0") == "TrailingBytes 41"
    assert {refusal(read_code, FLY_TWO[:length]).split()[0] for length in range(len(FLY_TWO))} == {"Truncated"}


# A code of two sinks and three patterns, whose decoders are A A B and C C C.


def parted_code(field: int, rate: int) -> Code:
    """A link for each row, and one more for the first row, lead to one sink, and a link for each row to the other one. The
    first link fails in the last pattern, in which the first sink takes the one that is more."""
    rows = range(rate)
    names = [*(f"k{row}" for row in rows), "l", *(f"m{row}" for row in rows)]
    links = [f"link {name} s {'u' if name.startswith('m') else 't'}" for name in names]
    text = "\n".join(["source s", "sink t", "sink u", *links, "link x s a", "pattern f x", "pattern g k0"])
    network = read_network(text.encode())
    operands = tuple((Operand(row, 1),) for row in (*rows, 0, *rows, 0))
    whole = tuple(int(row == column) for row in rows for column in rows)
    # The link that is more has the last place.
    turned = tuple(int((row - 1) % rate == column) for row in rows for column in rows)
    first, second = Decoder(tuple(rows), whole), Decoder(tuple(range(1, rate + 1)), turned)
    other = Decoder(tuple(range(rate + 1, 2 * rate + 1)), whole)
    return Code(network, field, rate, operands, (first, first, second, other, other, other))


KINDS = [(8, 1), (8, 3), (9, 1), (9, 2), (16, 1), (16, 3)]
EACH_KIND = pytest.mark.parametrize("field, rate", KINDS)


@dataclass(frozen=True)
class Spelled:
    """A file of version 2 that is put together by hand, with the place of each demand's first item."""

    content: bytes
    places: list[int]


def spelled(code: Code, sames: Sequence[int]) -> Spelled:
    """The file with these items `same`; behind a 0 the demand's decoder stands, and nothing behind the others."""
    size = 2 if code.field == 16 else 1
    content = write_code(Code(code.network, code.field, code.rate, code.operands, ()))
    places = []
    for same, decoder in zip(sames, code.decoders):
        places.append(len(content))
        content += same.to_bytes(4, "big")
        if same == 0:
            content += b"".join(link.to_bytes(2, "big") for link in decoder.links)
            content += b"".join(entry.to_bytes(size, "big") for entry in decoder.entries)
    return Spelled(content, places)


@EACH_KIND
def test_each_decoder_stands_once(field: int, rate: int) -> None:
    code = parted_code(field, rate)
    assert check_failure(code) is None
    assert write_code(code) == spelled(code, [0, 1, 0, 0, 4, 4]).content
    assert check_failure(read_code(write_code(code))) is None


# Items `same` of that code, the refusal, and the demand at whose item it is, or at whose last entry where it is Written.
REFUSED_SAMES = [
    ([1, 0, 0, 0, 4, 4], "BadIndex", 0),
    ([0, 2, 0, 0, 4, 4], "BadIndex", 1),
    ([0, 1, 3, 0, 4, 4], "BadIndex", 2),
    ([0, 1, 0, 4, 4, 4], "BadIndex", 3),
    ([0, 1, 0, 0, 5, 4], "BadIndex", 4),
    ([0, 1, 0, 0, 4, 6], "BadIndex", 5),
    ([2**32 - 1, 1, 0, 0, 4, 4], "BadIndex", 0),
    ([0, 1, 0, 0, 4, 2**32 - 1], "BadIndex", 5),
    ([0, 1, 0, 1, 4, 4], "BadOperand", 3),
    ([0, 1, 0, 0, 3, 4], "BadOperand", 4),
    ([0, 1, 0, 0, 4, 1], "BadOperand", 5),
    # The demand that is named has another sink, and an item that isn't 0.
    ([0, 1, 0, 2, 4, 4], "BadOperand", 3),
    ([0, 1, 2, 0, 4, 4], "NotFirst", 2),
    ([0, 1, 0, 0, 4, 5], "NotFirst", 5),
    ([0, 0, 0, 0, 4, 4], "Written", 1),
    ([0, 1, 0, 0, 0, 4], "Written", 4),
    ([0, 1, 0, 0, 4, 0], "Written", 5),
]


@EACH_KIND
@pytest.mark.parametrize("sames, name, demand", REFUSED_SAMES)
def test_what_a_demand_says_of_earlier_ones(sames: list[int], name: str, demand: int, field: int, rate: int) -> None:
    code = parted_code(field, rate)
    found = spelled(code, sames)
    size = 2 if field == 16 else 1
    place = found.places[demand]
    if name == "Written":
        place += 4 + 2 * rate + size * (rate * rate - 1)
        # All bytes of the entry have to be there.
        assert refusal(read_code, found.content[: place + size - 1]) == f"Truncated {place}"
    assert refusal(read_code, found.content) == f"{name} {place}"


@EACH_KIND
def test_a_decoder_is_another_by_any_of_its_parts(field: int, rate: int) -> None:
    """One entry that differs, or one link, makes it another decoder, which stands there too; with neither it is Written."""
    code = parted_code(field, rate)
    first = code.decoders[0]
    most = 65535 if field == 16 else 255
    others = [Decoder(first.links, (*first.entries[:place], most, *first.entries[place + 1 :])) for place in range(rate * rate)]
    others.append(Decoder((*first.links[:-1], rate), first.entries))
    for other in others:
        changed = dataclasses.replace(code, decoders=(first, other, first, *code.decoders[3:]))
        assert spelled(changed, [0, 0, 1, 0, 4, 4]).content == write_code(changed)
        assert list(read_code(write_code(changed)).decoders[1].entries) == list(other.entries)
        again = spelled(changed, [0, 0, 0, 0, 4, 4])
        assert refusal(read_code, again.content) == f"Written {again.places[3] - (2 if field == 16 else 1)}"


def plainly_refused(sinks: Sequence[int], sames: Sequence[int], decoders: Sequence[object]) -> tuple[str, int] | None:
    """The first demand with whose items something is wrong, by what is asked of them, one after another."""
    for demand, same in enumerate(sames):
        if same > demand:
            return "BadIndex", demand
        if same > 0 and sinks[same - 1] != sinks[demand]:
            return "BadOperand", demand
        if same > 0 and sames[same - 1] != 0:
            return "NotFirst", demand
        if same == 0 and any(sames[one] == 0 and decoders[one] == decoders[demand] for one in range(demand)):
            return "Written", demand
    return None


def test_a_code_has_one_file_of_version_2() -> None:
    """Of all items of two sinks under two patterns those are read which are written, and others are refused at their place."""
    code = parted_code(8, 1)
    network = dataclasses.replace(code.network, patterns=code.network.patterns[:2])
    choices = [[code.decoders[0], code.decoders[2]]] * 2 + [[code.decoders[3], Decoder((2,), (7,))]] * 2
    read = set()
    for decoders in itertools.product(*choices):
        made = dataclasses.replace(code, network=network, decoders=decoders)
        for sames in itertools.product(range(6), repeat=4):
            found, wanted = spelled(made, sames), plainly_refused([0, 0, 1, 1], sames, decoders)
            if wanted is None:
                assert write_code(read_code(found.content)) == found.content
                read.add(found.content)
            else:
                name, demand = wanted
                place = found.places[demand] + (6 if name == "Written" else 0)
                assert refusal(read_code, found.content) == f"{name} {place}"
    # Each sink has one decoder for both patterns, of two, or else two different ones.
    assert len(read) == 4 * 4


@EACH_KIND
def test_a_code_is_the_same_in_both_versions(field: int, rate: int) -> None:
    code = parted_code(field, rate)
    two = read_code(write_code(code))
    assert [(one.links, list(one.entries)) for one in two.decoders] == [
        (one.links, list(one.entries)) for one in code.decoders
    ]
    assert (two.network.field, two.field) == (None if field == 9 else field, field)
    if field == 9:
        with pytest.raises(ValueError, match="field 9 isn't one of version 1"):
            write_code(code, 1)
        changed = write_code(code)
        assert refusal(read_code, changed[:4] + b"\1" + changed[5:]) == "BadField"
        return
    one = write_code(two, 1)
    assert read_code(one) == two
    assert write_code(read_code(write_code(read_code(one))), 1) == one
    size = 2 * rate + (2 if field == 16 else 1) * rate * rate
    assert len(one) - len(write_code(two)) == 3 * size - 6 * 4


@pytest.mark.parametrize("path", sorted(EXAMPLES.glob("*/*.lif")), ids=lambda path: str(path.name))
def test_examples_are_the_same_in_both_versions(path: Path) -> None:
    content = path.read_bytes()
    code = read_code(content)
    assert write_code(code, content[4]) == content
    for version in (1, 2):
        assert read_code(write_code(code, version)) == code


def test_files_of_version_2_are_those_that_are_written_out() -> None:
    assert (write_code(read_code(FLY)), write_code(read_code(ONE_FILE))) == (FLY_TWO, ONE_TWO)
    assert (write_code(read_code(FLY_TWO), 1), len(FLY_TWO), len(ONE_TWO)) == (FLY, 185, 41)


def test_a_short_file_may_stand_for_many_decoders() -> None:
    code = parted_code(16, 3)
    patterns = tuple(Pattern(f"p{number}", (0,)) for number in range(4095))
    network = dataclasses.replace(code.network, patterns=(Pattern("none", ()), *patterns))
    many = dataclasses.replace(code, network=network, decoders=tuple(one for one in code.decoders[::3] for _ in range(4096)))
    content = write_code(many)
    assert len(content) < 4096 * 18 and len(read_code(content).decoders) == 8192


def test_the_butterfly_is_read_and_accepted() -> None:
    code = read_code(FLY)
    assert write_code(code, 1) == FLY
    assert check_failure(code) is None
    names = [link.name for link in code.network.links]
    vectors = dict(zip(names, vectors_of(code, 0)))
    assert (vectors["a-t1"], vectors["b-t2"], vectors["d-t1"]) == ((1, 0), (0, 1), (1, 1))
    assert all(live_links(code, 0))


def test_a_wrong_decoder_is_found() -> None:
    code = read_code(FLY[:-1] + b"\1")
    assert check_failure(code) == "demand t2 none row 1 column 0 found 1"


def test_failed_links_and_those_behind_them_carry_nothing() -> None:
    network = read_network(b"source s\nsink t\nlink u s a\nlink w s c\nlink v a c\nlink z c t\npattern f u\n")
    operands = ((Operand(0, 1),), (Operand(0, 1),), (Operand(0, 1),), (Operand(1, 1), Operand(2, 2)))
    decoders = (Decoder((3,), (0xF4,)), Decoder((3,), (1,)))
    code = read_code(write_code(Code(network, 8, 1, operands, decoders)))
    assert live_links(code, 1) == [False, True, False, True]
    assert (vectors_of(code, 0)[3], vectors_of(code, 1)[3]) == ((3,), (1,))
    assert check_failure(code) is None


def test_the_fields_have_inverses() -> None:
    assert (octet_product(0x80, 2), octet_product(0x20, 0x6C), octet_product(3, 0xF4)) == (0x1D, 1, 1)
    assert pair_product(0x100, 0x100) == 0x120
    chance = random.Random(1)
    for _ in range(500):
        one, two, three = (chance.randrange(65536) for _ in range(3))
        assert pair_product(one, pair_product(two, three)) == pair_product(pair_product(one, two), three)
        assert pair_product(one, two ^ three) == pair_product(one, two) ^ pair_product(one, three)


def shifted_product(one: int, other: int, polynomial: int) -> int:
    """The product of polynomials, by shifts."""
    total = 0
    for bit in range(8):
        total ^= (one << bit) * (other >> bit & 1)
    for bit in range(14, 7, -1):
        total ^= (polynomial << (bit - 8)) * (total >> bit & 1)
    return total


@pytest.mark.parametrize("field, polynomial", [(8, 0x11D), (9, 0x11B)])
def test_the_products_of_octets(field: int, polynomial: int) -> None:
    product = product_of(field)
    for one in range(256):
        assert [product(one, other) for other in range(256)] == [
            shifted_product(one, other, polynomial) for other in range(256)
        ]
        assert one == 0 or sum(product(one, other) == 1 for other in range(256)) == 1


def test_the_field_of_fips_197() -> None:
    product = product_of(9)
    assert (product(0x80, 2), product(2, 0x8D), product(3, 0xF6)) == (0x1B, 1, 1)
    # The products of the standard's own examples.
    assert (product(0x57, 0x83), product(0x57, 0x13)) == (0xC1, 0xFE)
    content = bytearray(ONE_TWO)
    content[5], content[33], content[40] = 9, 2, 0x8D
    assert check_line(bytes(content)) == "accepted rate 1 field 9 demands 1\n"
    content[5] = 8
    assert check_line(bytes(content)).startswith("check failed: demand t none row 0 column 0 found ")


def test_the_field_of_pairs_is_read() -> None:
    network = read_network(ONE.encode())
    for times, entry in ((0x100, None), (0x1234, None), (1, 1)):
        entry = entry or next(one for one in range(65536) if pair_product(times, one) == 1)
        code = Code(network, 16, 1, ((Operand(0, times),),), (Decoder((0,), (entry,)),))
        for version in (1, 2):
            assert check_failure(read_code(write_code(code, version))) is None


def check_line(content: bytes) -> str:
    """What `check` says of a file, by the tools."""
    try:
        code = read_code(content)
    except Refused as refused:
        return f"code refused: {refused}\n"
    failure = check_failure(code)
    if failure:
        return f"check failed: {failure}\n"
    return f"accepted rate {code.rate} field {code.field} demands {code.network.demands()}\n"


def test_the_program_says_the_same_of_changed_code_files(program: Program, tmp_path: Path) -> None:
    path = tmp_path / "one.lif"
    contents = []
    for file in (FLY, FLY_TWO):
        contents += [file[:length] for length in range(0, len(file), 3)] + [file + b"\0"]
        for place in range(len(file)):
            contents += [file[:place] + bytes([byte]) + file[place + 1 :] for byte in (0, 1, 5, 255)]
    contents += [spelled(parted_code(*kind), sames).content for kind in KINDS for sames, _, _ in REFUSED_SAMES]
    contents += [write_code(parted_code(*kind)) for kind in KINDS]
    for content in contents:
        path.write_bytes(content)
        assert program("check", path).stdout == check_line(content), content


def migrated(content: bytes) -> tuple[str, bytes | None]:
    """What `migrate` says of a file, and what it writes, by the tools."""
    try:
        code = read_code(content)
    except Refused as refused:
        return f"code refused: {refused}\n", None
    said = f"migrated rate {code.rate} field {code.field} demands {code.network.demands()}\n"
    return said, write_code(code)


def test_the_program_migrates_codes(program: Program, tmp_path: Path) -> None:
    """Accepted or not, of either version; what is no code file makes none."""
    old, new = tmp_path / "old.lif", tmp_path / "new.lif"
    codes = [parted_code(*kind) for kind in KINDS]
    files = [FLY, FLY_TWO, FLY[:-1] + b"\1", FLY[:-1], ONE_FILE, ONE_TWO]
    files += [write_code(code) for code in codes] + [write_code(code, 1) for code in codes if code.field != 9]
    files += [path.read_bytes() for path in sorted(EXAMPLES.glob("*/*.lif"))]
    for file in files:
        old.write_bytes(file)
        new.unlink(missing_ok=True)
        said, content = migrated(file)
        assert program("migrate", old, new).stdout == said
        assert (new.read_bytes() if new.exists() else None) == content
    assert program("migrate", new, new).stdout == f"same path: {new}\n"


def test_what_the_program_compiles_is_accepted(program: Program, tmp_path: Path) -> None:
    net = EXAMPLES / "regional/regional.net"
    assert program("compile", net, tmp_path / "made.lif", tmp_path / "made.txt").returncode == 0
    content = (tmp_path / "made.lif").read_bytes()
    code = read_code(content)
    assert (content[4], write_code(code)) == (2, content)
    assert (check_failure(code), code.rate, len(code.network.patterns)) == (None, 2, 3)
