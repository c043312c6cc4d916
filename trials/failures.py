"""The cases of `blind` that follow a rule: all sets of up to three failed links of two networks, and codes of powers, of which it is
known without any counting which links give all rows. Code files are written as docs/FORMATS.md says.
"""
from __future__ import annotations

import dataclasses
import functools
import itertools
import sys
from pathlib import Path
from typing import Iterable, Iterator, Sequence

TOP = Path(__file__).resolve().parent.parent
sys.path.insert(0, str(TOP / "tools"))

# pylint: disable=wrong-import-position
from lif_tools.formats import (  # noqa: E402
    ELEMENT_BYTES,
    Code,
    Decoder,
    Link,
    Network,
    Operand,
    Pattern,
    Vector,
    capacity,
    check_failure,
    live_links,
    product_of,
    read_code,
    read_network,
    vectors_of,
    write_code,
)

DATA = TOP / "crates/worked_cases/data"
# So many links fail at most.
MOST_FAILED = 3


def determinant(field: int, rows: Sequence[Sequence[int]]) -> int:
    """That of a square, by its first row."""
    if not rows:
        return 1
    product, total = product_of(field), 0
    for column, element in enumerate(rows[0]):
        total ^= product(element, determinant(field, [[*row[:column], *row[column + 1 :]] for row in rows[1:]]))
    return total


@functools.cache
def rank_of(field: int, vectors: tuple[Vector, ...]) -> int:
    """The greatest size of a square of vectors and columns whose determinant isn't zero, of all that can be chosen."""
    columns = range(len(vectors[0]) if vectors else 0)
    for size in range(min(len(vectors), len(columns)), 0, -1):
        for rows in itertools.combinations(vectors, size):
            for chosen in itertools.combinations(columns, size):
                if determinant(field, [[row[column] for column in chosen] for row in rows]) != 0:
                    return size
    return 0


def failing(code: Code, links: Iterable[int]) -> Code:
    """The code with these failed links as pattern 1."""
    patterns = (Pattern("none", ()), Pattern("failed", tuple(sorted(links))))
    return dataclasses.replace(code, network=dataclasses.replace(code.network, patterns=patterns))


def ranks(code: Code, links: Iterable[int]) -> list[int]:
    """The rank of each sink where these links fail."""
    listed = failing(code, links)
    live, vectors = live_links(listed, 1), vectors_of(listed, 1)
    into = [
        [vectors[number] for number, link in enumerate(code.network.links) if link.head == sink and live[number]]
        for sink in code.network.sinks
    ]
    return [rank_of(code.field, tuple(found)) for found in into]


def in_hex(content: bytes) -> str:
    return f"<{content.hex()}>"


# The codes


def inverse(field: int, element: int) -> int:
    """The element whose product with this one is 1."""
    product = product_of(field)
    return next(other for other in range(1, 256 ** ELEMENT_BYTES[field]) if product(element, other) == 1)


def two_row_decoder(code: Code, sink: int, vectors: Sequence[Vector]) -> Decoder:
    """A decoder of two rows: the inverse of the vectors of the first two links into the sink that have one."""
    product = product_of(code.field)
    into = [number for number, link in enumerate(code.network.links) if link.head == sink]
    for one, other in itertools.combinations(into, 2):
        (a, b), (c, d) = vectors[one], vectors[other]
        if whole := product(a, d) ^ product(b, c):
            by = inverse(code.field, whole)
            return Decoder((one, other), [product(entry, by) for entry in (d, b, c, a)])
    raise ValueError(f"no two links into node {sink} have an inverse")


@functools.cache
def regional() -> Code:
    """A code of the regional network, of two rows over the field of 256 elements. The coefficients are 1, 2, 3 and so on."""
    network = read_network((TOP / "examples/regional/regional.net").read_bytes())
    count, operands = itertools.count(1), []
    for link in network.links:
        into = [number for number, other in enumerate(network.links) if other.head == link.tail]
        operands.append(tuple(Operand(origin, next(count)) for origin in (into or range(2))))
    code = Code(network, 8, 2, tuple(operands), ())
    vectors = [vectors_of(code, pattern) for pattern in range(len(network.patterns))]
    decoders = tuple(two_row_decoder(code, sink, found) for sink in network.sinks for found in vectors)
    code = dataclasses.replace(code, decoders=decoders)
    if wrong := check_failure(code):
        raise ValueError(wrong)
    return code


def powers(field: int, rate: int) -> Code:
    """Two more links to the first sink than there are rows, each with the powers of an element of its own, so that as many of
    them as there are rows have an inverse. As many links lead on to the second sink. The decoders are zeros."""
    product = product_of(field)
    links = [Link(f"l{number}", 0, 1) for number in range(rate + 2)] + [Link(f"m{number}", 1, 2) for number in range(rate)]
    operands = []
    for number in range(rate + 2):
        element, times = number + 1 if field < 16 else 257 * number + 258, [1]
        while len(times) < rate:
            times.append(product(times[-1], element))
        operands.append(tuple(Operand(row, one) for row, one in enumerate(times)))
    operands += [(Operand(number, number + 1),) for number in range(rate)]
    decoders = tuple(Decoder(tuple(range(first, first + rate)), [0] * rate**2) for first in (0, rate + 2))
    network = Network(("s", "t1", "t2"), tuple(links), 0, (1, 2), (Pattern("none", ()),))
    return Code(network, field, rate, tuple(operands), decoders)


def power_ranks(rate: int, failed: Sequence[str]) -> list[int]:
    """The ranks of the sinks of a code of powers."""
    first = sum(f"l{number}" not in failed for number in range(rate + 2))
    second = sum(f"l{number}" not in failed and f"m{number}" not in failed for number in range(rate))
    return [min(first, rate), second]


def power_bytes(code: Code) -> str:
    """The bytes of a code of powers, as a case says them."""
    content = write_code(code)
    zeros = ELEMENT_BYTES[code.field] * code.rate**2
    length = 4 + 2 * code.rate + zeros
    front, one, other = content[: -2 * length], content[-2 * length : -length], content[-length:]
    return f"{in_hex(front + one[:-zeros])} + <00> * {zeros} + {in_hex(other[:-zeros])} + <00> * {zeros}"


# The cases

HEAD = """\
# `blind` where any links of a network fail: which sinks are whole, the ranks of the others, and what is in their files.

let butterfly-nine = butterfly.lif[4 := <02 09>][..161] + <00 00 00 00> + butterfly.lif[161..169] + <00 00 00 00> + butterfly.lif[169..]
"""

ACCEPTED = """
case the code of the regional network
given code = regional.lif
run check code
status 0
says accepted rate 2 field 8 demands 12
"""

FAILED = """
case {network}, {whole}
for code in {codes}
for {names}
{rows}
given code = $code
given src = demo 3000
run blind code src $links
status 0
{said}
says sent 3000 bytes in 2 generations to {count} sinks
{files}
"""

POWERS_HEAD = """\
# `blind` of codes in which each link to the first sink has the powers of an element of its own, from 1 on: of as many of them as
# there are rows no one is a sum of multiples of the others. There are two links more than rows, and as many as rows lead on to
# the second sink. All decoders are zeros.

"""

# For each rate the lengths are those of no byte and of one, of a block that is full but for a byte, or full, or has a byte too
# many, and of three blocks and some bytes.
POWERS = """
case as many links as rows have all rows, {whole}
for blocks more
  0 1
  0 2
  1 0
  1 1
  1 2
  3 6
for code rate room {names}
{rows}
given code = $code
given src = demo ${{room * blocks + more - 1}}
run blind code src $links
status 0
{said}
says sent ${{room * blocks + more - 1}} bytes in ${{room * blocks + more - 1 / room + 1}} generations to {count} sinks
{files}
"""

MANY_SINKS = """
case {what}
given code = {file}
given src = demo {bytes}
run blind code src out {links}
status 0
said = {said} + "sent {bytes} bytes in {generations} generations to {count} sinks\\n"
{files}
calls create {count}
calls append {appends}
"""


def name_of_group(sinks: Sequence[str], whole: Sequence[bool]) -> str:
    """Which sinks are whole, in words."""
    found = [sink for sink, is_whole in zip(sinks, whole) if is_whole]
    if len(found) in (0, len(sinks)):
        return "of which all sinks are whole" if found else "of which no sink is whole"
    return f"of which {' and '.join(found)} {'are' if len(found) > 1 else 'is'} whole"


def parts_of(sinks: Sequence[str], whole: Sequence[bool], rate: str) -> dict[str, str]:
    """The names, what is said and the files of a case with these whole sinks."""
    columns = [f"rank{place + 1}" for place, is_whole in enumerate(whole) if not is_whole]
    said = [
        f"says {sink} rank {rate} whole" if is_whole else f"says {sink} rank $rank{place + 1}"
        for place, (sink, is_whole) in enumerate(zip(sinks, whole))
    ]
    files = [f"file out.{sink} = src" if is_whole else f"none out.{sink}" for sink, is_whole in zip(sinks, whole)]
    return {
        "whole": name_of_group(sinks, whole),
        "names": " ".join([*columns, "links"]),
        "said": "\n".join(said),
        "count": str(sum(whole)),
        "files": "\n".join(files),
    }


Group = dict[tuple[bool, ...], list[str]]


def add_row(groups: Group, front: Sequence[str], found: Sequence[int], rate: int, failed: Sequence[str]) -> None:
    """A row of a set of failed links, with what its sinks that aren't whole have, among those with the same whole sinks."""
    lacking = [str(rank) for rank in found if rank < rate]
    row = " ".join([*front, *lacking, "out", *failed])
    groups.setdefault(tuple(rank == rate for rank in found), []).append(f"  {row}")


def failed_sets(codes: Sequence[Code]) -> Iterator[tuple[tuple[int, ...], list[int]]]:
    """All sets of up to three links, with the ranks of the sinks, which are the same of all codes."""
    for size in range(MOST_FAILED + 1):
        for links in itertools.combinations(range(len(codes[0].network.links)), size):
            found = [ranks(code, links) for code in codes]
            if any(other != found[0] for other in found):
                raise ValueError(f"codes with other ranks where {links} fail")
            yield links, found[0]


def failed_cases(network: str, codes: dict[str, Code]) -> str:
    """The cases of all sets of up to three links of a network."""
    groups: Group = {}
    first = next(iter(codes.values()))
    for links, found in failed_sets(list(codes.values())):
        add_row(groups, [], found, first.rate, [first.network.links[link].name for link in links])
    sinks = [first.network.nodes[sink] for sink in first.network.sinks]
    text = ""
    for whole, rows in groups.items():
        parts = parts_of(sinks, whole, str(first.rate))
        text += FAILED.format(network=network, codes=" ".join(codes), rows="\n".join(rows), **parts)
    return text


def power_sets(rate: int) -> Iterator[list[str]]:
    """Sets of failed links of a code of powers."""
    first = [f"l{number}" for number in range(rate + 2)]
    second = [f"m{number}" for number in range(rate)]
    yield from ([], first[rate:], first[rate:][::-1], first[:1], second[:1], second[-1:] + first[:1], first[:1] + first[rate:])
    yield from ([first[rate // 2], second[rate // 2], *first[rate:]], first[:rate], second, first, [*second, *first, *second])


def power_cases() -> bytes:
    """The cases of codes of powers, at the least rates and the greatest, over each field."""
    text, groups = POWERS_HEAD, {}
    for rate in (1, 2, 31, 32):
        for field in (8, 9, 16):
            code = f"powers-{field}-{rate}"
            text += f"let {code} = {power_bytes(powers(field, rate))}\n"
            for failed in power_sets(rate):
                front = [code, str(rate), str(capacity(rate))]
                add_row(groups, front, power_ranks(rate, failed), rate, failed)
    for whole, rows in groups.items():
        text += POWERS.format(rows="\n".join(rows), **parts_of(["t1", "t2"], whole, "$rate"))
    return text.encode()


def pair_ranks(failed: Sequence[int]) -> list[int]:
    """The ranks of sinks behind each two of 23 middle nodes, where the links to these fail: any two that are left have all rows."""
    return [sum(middle not in failed for middle in pair) for pair in itertools.combinations(range(1, 24), 2)]


def many_sinks_case(what: str, file: str, rate: int, found: Sequence[int], links: Sequence[str]) -> str:
    """A case of a code with many sinks, `t1`, `t2` and so on, of these ranks."""
    said, at = [], 1
    for rank, same in itertools.groupby(found):
        end = at + len(list(same))
        said.append(f'each {at}..{end - 1} "t# rank {rank}{" whole" if rank == rate else ""}\\n"')
        at = end
    length = 2 * capacity(rate) + 5
    whole = [sink for sink, rank in enumerate(found, 1) if rank == rate]
    return MANY_SINKS.format(
        what=what,
        file=file,
        links=" ".join(links),
        bytes=length,
        generations=3,
        said=" + ".join(said),
        count=len(whole),
        appends=3 * len(whole),
        files="\n".join(f"file out.t{sink} = src" for sink in whole),
    )


def many_sinks_cases() -> str:
    text = ""
    for failed in ([1], [23, 5, 12], list(range(1, 22)), list(range(23, 0, -1))):
        what = f"a sink behind each two of 23 nodes, with failed links to these: {len(failed)}"
        text += many_sinks_case(what, "253-sinks.lif", 2, pair_ranks(failed), [f"a{middle}" for middle in failed])
    for failed in ([1, 300], list(range(2, 300))):
        what = f"300 sinks with a link each, of which these fail: {len(failed)}"
        found = [int(sink not in failed) for sink in range(1, 301)]
        text += many_sinks_case(what, "300-demands.lif", 1, found, [f"l{sink}" for sink in failed])
    return text


def failed_links_cases() -> bytes:
    """The cases of links that fail."""
    fly = read_code((DATA / "butterfly.lif").read_bytes())
    wide = read_code((DATA / "wide-butterfly.lif").read_bytes())
    nine = dataclasses.replace(fly, field=9)
    text = HEAD
    text += failed_cases("the butterfly", {"butterfly.lif": fly, "butterfly-nine": nine, "wide-butterfly.lif": wide})
    text += ACCEPTED + failed_cases("the regional network", {"regional.lif": regional()})
    return (text + many_sinks_cases()).encode()


FILES = {
    "regional.lif": lambda: write_code(regional()),
    "failed-links.cases": failed_links_cases,
    "powers.cases": power_cases,
}
