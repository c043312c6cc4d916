"""lif-draft and `lif finish`: drafts of codes and of coefficients, refusals by their lines, and decoders found in two ways."""
from __future__ import annotations

import dataclasses
import itertools
import json
import random
import re
from pathlib import Path
from typing import Iterator, Sequence

import pytest

from support import EXAMPLES, TOOLS, TOP, Program, run_tool
from lif_tools.common import load_network
from lif_tools.drafting import draft_with, draw_coefficients
from lif_tools.formats import (
    ELEMENT_BYTES,
    FIELDS,
    NONE,
    Code,
    Confusion,
    Draft,
    Link,
    Network,
    Operand,
    Pattern,
    Refused,
    Vector,
    check_failure,
    draft_of,
    finish,
    in_order,
    inverse_of,
    product_of,
    rank_of,
    read_code,
    read_draft,
    vectors_of,
    write_code,
    write_draft,
)
from test_blind import determinant

DATA = TOP / "crates/worked_cases/data"
FLY = read_code((EXAMPLES / "butterfly/butterfly.lif").read_bytes())
ONE = read_code((EXAMPLES / "one-link/one.lif").read_bytes())
REGIONAL = EXAMPLES / "regional/regional.net"


def codes() -> Iterator[tuple[str, Code]]:
    """The codes of the cases but for those with the most links and demands."""
    for path in sorted(DATA.glob("*.lif")):
        code = read_code(path.read_bytes())
        if len(code.network.links) < 1000 and code.network.demands() < 100:
            yield path.stem, code


# Files of drafts


def test_the_bytes_of_the_least_draft() -> None:
    content = bytes.fromhex("4c49464b 02 08 01 0002 0173 0174 0001 016c 0000 0001 0000 0001 0001 0000 0001 0000 01")
    assert write_draft(draft_of(ONE)) == content and len(content) == 34
    assert read_draft(content) == draft_of(ONE)
    assert write_code(ONE)[5:34] == content[5:]


def refusal(content: bytes) -> str:
    with pytest.raises(Refused) as refused:
        read_draft(content)
    return str(refused.value)


def test_faults_of_drafts() -> None:
    content = write_draft(draft_of(FLY))
    assert refusal(write_code(FLY)) == "BadMagic"
    with pytest.raises(Refused, match="BadMagic"):
        read_code(content)
    for version in (0, 1, 3):
        assert refusal(content[:4] + bytes([version]) + content[5:]) == "BadVersion"
    assert refusal(content + b"\0") == "TrailingBytes 161"
    assert refusal(content[:117] + b"\0" + content[118:]) == "ZeroCoefficient 117"
    # Each beginning is refused for the item that isn't whole, as it is in a code file.
    for length in range(len(content)):
        with pytest.raises(Refused) as refused:
            read_code(b"LIFC" + content[4:length] if length > 3 else b"LIFC"[:length])
        assert refusal(content[:length]) == str(refused.value)


def test_drafts_of_all_fields_are_read_and_written_back() -> None:
    for _, code in codes():
        for field in FIELDS[2]:
            if ELEMENT_BYTES[field] == ELEMENT_BYTES[code.field]:
                draft = dataclasses.replace(draft_of(code), field=field)
                named = dataclasses.replace(code.network, field=field if field != 9 else None)
                assert read_draft(write_draft(draft)) == dataclasses.replace(draft, network=named)


# Decoders, found in another way


@pytest.mark.parametrize("field", FIELDS[2])
def test_inverses(field: int) -> None:
    chance, product = random.Random(field), product_of(field)
    for element in [1, *chance.sample(range(1, 256 ** ELEMENT_BYTES[field]), 200)]:
        assert product(element, inverse_of(field, element)) == 1


def adjugate(field: int, rows: Sequence[Vector]) -> list[int]:
    """The inverse of a square matrix by its minors, row by row."""
    product = product_of(field)
    by = inverse_of(field, determinant(field, rows))
    size = range(len(rows))
    return [
        product(by, determinant(field, [row[:i] + row[i + 1 :] for at, row in enumerate(rows) if at != j]))
        for i in size
        for j in size
    ]


def decoders_by_minors(draft: Draft) -> tuple[list[tuple[list[int], list[int]]], int | None]:
    """The links and the entries of each demand's decoder, up to the first demand that doesn't decode, and its number."""
    found: list[tuple[list[int], list[int]]] = []
    into = draft.network.links_by(lambda link: link.head)
    vectors = [vectors_of(draft, pattern) for pattern in range(len(draft.network.patterns))]
    for sink, pattern in itertools.product(draft.network.sinks, range(len(vectors))):
        links: list[int] = []
        for link in into[sink]:
            earlier = [vectors[pattern][other] for other in into[sink] if other < link]
            if rank_of(draft.field, [*earlier, vectors[pattern][link]]) > rank_of(draft.field, earlier):
                links.append(link)
        if len(links) < draft.rate:
            return found, len(found)
        found.append((links, adjugate(draft.field, [vectors[pattern][link] for link in links])))
    return found, None


def block_on_links(draft: Draft, confusion: Confusion) -> list[int]:
    """What the links into a demand's sink carry of a block of one element for each row."""
    sink, pattern = divmod(confusion.demand, len(draft.network.patterns))
    vectors, product, carried = vectors_of(draft, pattern), product_of(draft.field), []
    for number, link in enumerate(draft.network.links):
        if link.head == draft.network.sinks[sink]:
            total = 0
            for times, element in zip(vectors[number], confusion.block):
                total ^= product(times, element)
            carried.append(total)
    return carried


def check_finished(draft: Draft) -> bool:
    """Compares what comes of a draft with what is found by minors, and says whether it decodes."""
    made = finish(draft)
    decoders, failed = decoders_by_minors(draft)
    if isinstance(made, Confusion):
        assert made.demand == failed
        assert len(made.block) == draft.rate and any(made.block)
        assert not any(block_on_links(draft, made))
        return False
    assert failed is None and draft_of(made) == draft and check_failure(made) is None
    assert [(list(one.links), list(one.entries)) for one in made.decoders] == decoders
    assert write_code(read_code(write_code(made))) == write_code(made)
    return True


def drawn(chance: random.Random) -> Draft:
    """A draft by chance, of rate 1 to 4, with links that carry nothing, or what another one does."""
    field, rate, nodes = chance.choice(FIELDS[2]), chance.randint(1, 4), chance.randint(2, 5)
    sinks = chance.sample(range(1, nodes), chance.randint(1, min(3, nodes - 1)))
    ends = [pair for pair in itertools.combinations(range(nodes), 2) if chance.random() < 0.6]
    ends += [(chance.randrange(sink), sink) for sink in sinks for _ in range(chance.randint(0, rate + 1))]
    links = tuple(Link(f"l{place}", *pair) for place, pair in enumerate(sorted(ends)))
    most, operands = 256 ** ELEMENT_BYTES[field] - 1, []
    for link in links:
        origins = range(rate) if link.tail == 0 else [at for at, other in enumerate(links) if other.head == link.tail]
        share = chance.choice([1, 0.8, 0.3])
        taken = [origin for origin in origins if chance.random() < share]
        operands.append(tuple(Operand(origin, chance.choice([1, 2, chance.randint(1, most)])) for origin in taken))
    patterns = [Pattern(NONE, ())]
    for number in range(chance.randint(0, 2) if links else 0):
        failed = chance.sample(range(len(links)), chance.randint(1, min(2, len(links))))
        patterns.append(Pattern(f"p{number}", tuple(sorted(failed))))
    names = tuple(f"n{node}" for node in range(nodes))
    network = Network(names, links, 0, tuple(sinks), tuple(patterns), field if field != 9 else None)
    return Draft(network, field, rate, tuple(operands))


def test_decoders_of_drafts_by_chance() -> None:
    chance = random.Random(19)
    found = [check_finished(drawn(chance)) for _ in range(600)]
    assert 100 < sum(found) < 500


def test_decoders_of_codes_are_found_anew() -> None:
    """An accepted code decodes, and so does its draft; the codes of these names have the links that come first."""
    for name, code in codes():
        made = finish(draft_of(code))
        if check_failure(code) is None:
            assert isinstance(made, Code) and write_code(made) == write_code(code), name
        if code.rate < 8:
            assert check_finished(draft_of(code)) == isinstance(made, Code)


# lif-draft


def test_a_code_without_its_decoders(tmp_path: Path) -> None:
    done = run_tool("lif-draft", EXAMPLES / "butterfly/butterfly.lif", "-o", tmp_path / "draft")
    assert (done.returncode, done.stdout, done.stderr) == (0, "drafted rate 2 field 8 demands 2\n", "")
    assert (tmp_path / "draft").read_bytes() == write_draft(draft_of(FLY))


COEFFICIENTS = """\
# The butterfly, whose shared link adds up twice one row and thrice the other.
s-a row 0 1
s-b row 1 1
a-t1 s-a 1

a-c s-a 1 # the same
b-c s-b 1
b-t2 s-b 1
c-d b-c 3
c-d a-c 2
d-t1 c-d 1
d-t2 c-d 255
"""


def with_coefficients(folder: Path, text: str, *words: object, network: Path | None = None) -> tuple[int, str, str]:
    (folder / "given").write_text(text)
    network = EXAMPLES / "butterfly/butterfly.net" if network is None else network
    done = run_tool("lif-draft", network, "--coefficients", folder / "given", *words, "-o", folder / "draft")
    return done.returncode, done.stdout, done.stderr


def test_given_coefficients(tmp_path: Path) -> None:
    assert with_coefficients(tmp_path, COEFFICIENTS, "--rate", 2) == (0, "drafted rate 2 field 8 demands 2\n", "")
    draft = read_draft((tmp_path / "draft").read_bytes())
    assert (draft.network, draft.field, draft.rate) == (FLY.network, 8, 2)
    assert draft.operands[6] == (Operand(4, 2), Operand(5, 3)) and draft.operands[8] == (Operand(6, 255),)
    assert check_finished(draft)
    # Lines may come in any order.
    lines = COEFFICIENTS.splitlines()
    random.Random(1).shuffle(lines)
    content = (tmp_path / "draft").read_bytes()
    assert with_coefficients(tmp_path, "\n".join(lines), "--rate", 2, "--field", 8)[0] == 0
    assert (tmp_path / "draft").read_bytes() == content
    # A link without a line carries nothing; the field may be another one.
    said = with_coefficients(tmp_path, "s-a row 31 65535\n", "--rate", 32, "--field", 16)[1]
    assert said == "drafted rate 32 field 16 demands 2\n"
    draft = read_draft((tmp_path / "draft").read_bytes())
    assert draft.operands == ((Operand(31, 65535),), *[()] * 8)


FAULTS = [
    ("s-a row 1", "link s-a leaves the source, so it adds up rows: row I"),
    ("s-a 1", "neither LINK FROM TIMES nor LINK row I TIMES"),
    ("s-a row 0 1 1", "neither LINK FROM TIMES nor LINK row I TIMES"),
    ("s-a line 0 1", "neither LINK FROM TIMES nor LINK row I TIMES"),
    ("s-x row 0 1", "unknown link: s-x"),
    ("s-a row 2 1", "no row from 0 to 1: 2"),
    ("s-a row -1 1", "no row from 0 to 1: -1"),
    ("s-a row x 1", "no row from 0 to 1: x"),
    ("s-a s-b 1", "link s-a leaves the source, so it adds up rows: row I"),
    ("a-c row 0 1", "link a-c doesn't leave the source, so it adds up links into a"),
    ("a-c zz 1", "unknown link: zz"),
    ("a-c s-b 1", "link s-b doesn't lead into a, which link a-c leaves"),
    ("s-a row 0 0", "no coefficient from 1 to 255: 0"),
    ("s-a row 0 256", "no coefficient from 1 to 255: 256"),
    ("s-a row 0 1x", "no coefficient from 1 to 255: 1x"),
    ("s-a row 0 \u00b2", "no coefficient from 1 to 255: \u00b2"),
    ("s-a row 0 1\ns-a row 00 2", "link s-a has row 00 already"),
    ("c-d a-c 1\nc-d a-c 1", "link c-d has a-c already"),
]


@pytest.mark.parametrize("line, fault", FAULTS)
def test_each_fault_names_its_line(tmp_path: Path, line: str, fault: str) -> None:
    number = 2 + line.count("\n") + 1
    status, said, told = with_coefficients(tmp_path, f"# first\ns-b row 1 1\n{line}\n", "--rate", 2)
    assert (status, said) == (1, "") and told == f"lif-draft: {tmp_path / 'given'}: line {number}: {fault}\n"
    assert not (tmp_path / "draft").exists()


def test_rates_and_fields(tmp_path: Path) -> None:
    status, _, told = with_coefficients(tmp_path, COEFFICIENTS)
    assert status == 1 and told.endswith("butterfly.net: no rate: --rate R says it, or a line `rate R` of the text\n")
    text = (EXAMPLES / "butterfly/butterfly.net").read_text()
    (tmp_path / "net").write_text(text + "rate 2\nfield 16\n")
    assert with_coefficients(tmp_path, COEFFICIENTS, network=tmp_path / "net")[1] == "drafted rate 2 field 16 demands 2\n"
    assert read_draft((tmp_path / "draft").read_bytes()).network.rate is None
    said = with_coefficients(tmp_path, COEFFICIENTS, "--rate", 3, "--field", 9, network=tmp_path / "net")[1]
    assert said == "drafted rate 3 field 9 demands 2\n"
    # With more demands than the field of 256 elements serves, the compiler takes the other one.
    listed = "".join(f"link e{at} s x\npattern p{at} e{at}\n" for at in range(128))
    for text_of, field in ((text + listed.replace("pattern p127 e127\n", ""), 8), (text + listed, 16)):
        (tmp_path / "net").write_text(text_of)
        status, said, _ = with_coefficients(tmp_path, COEFFICIENTS, "--rate", 2, network=tmp_path / "net")
        assert (status, said.split()[4]) == (0, str(field))


def test_words_that_are_no_form(tmp_path: Path) -> None:
    code, network = EXAMPLES / "butterfly/butterfly.lif", EXAMPLES / "butterfly/butterfly.net"
    out = ("-o", tmp_path / "draft")
    for words in (
        (code,),
        (*out,),
        (code, "--rate", 2, *out),
        (code, "--field", 8, *out),
        (network, "--rate", 0, "--random", 1, *out),
        (network, "--rate", 33, "--random", 1, *out),
        (network, "--rate", 2, "--field", 7, "--random", 1, *out),
        (network, "--rate", 2, "--random", -1, *out),
        (network, "--rate", 2, "--random", 1, "--coefficients", network, *out),
    ):
        assert run_tool("lif-draft", *words).returncode == 2
    assert not (tmp_path / "draft").exists()


def test_drawn_coefficients(tmp_path: Path) -> None:
    def content(seed: int, *words: object) -> bytes:
        done = run_tool("lif-draft", REGIONAL, "--rate", 2, "--random", seed, *words, "-o", tmp_path / "draft")
        assert done.returncode == 0
        return (tmp_path / "draft").read_bytes()

    assert content(1) == content(1) != content(2)
    draft = read_draft(content(3, "--field", 16))
    assert [len(operands) for operands in draft.operands] == [
        2 if link.tail == draft.network.source else sum(other.head == link.tail for other in draft.network.links)
        for link in draft.network.links
    ]
    # Of elements by chance some are 0, and their operands are left out.
    counts = {sum(map(len, read_draft(content(seed)).operands)) for seed in range(60)}
    assert len(counts) > 1


@pytest.mark.slow
def test_how_many_drawn_drafts_decode() -> None:
    """The numbers of the table in README.md, of which each stands for 1,000 drafts."""
    rows = re.findall(r"`(examples/[^`]+)` \| (\d+) \| (\d+) \| (\d+) \| (\d+) \|", (TOOLS / "README.md").read_text())
    assert len(rows) == 3
    for folder, *cells in rows:
        rate, demands, *counts = map(int, cells)
        network = in_order(load_network(str(next((TOP / folder).glob("*.net")))))
        assert network.demands() == demands
        for field, count in zip((8, 16), counts):
            terms = (draw_coefficients(seed, network, field, rate) for seed in range(1000))
            made = (finish(draft_with(network, field, rate, of)) for of in terms)
            assert sum(isinstance(one, Code) for one in made) == count


def test_facts_as_json(tmp_path: Path) -> None:
    out = tmp_path / "draft"
    done = run_tool("lif-draft", EXAMPLES / "butterfly/butterfly.lif", "--json", "-o", out)
    facts = json.loads(done.stdout)
    assert facts["draft"] == str(out) and facts["input"].endswith("butterfly.lif")
    assert [facts[name] for name in ("rate", "field", "demands", "links", "operands")] == [2, 8, 2, 9, 10]


def test_what_a_draft_cannot_have(tmp_path: Path) -> None:
    (tmp_path / "cycle").write_text("source s\nsink t\nlink l s t\nlink m t u\nlink n u t\n")
    sinks = "".join(f"sink t{at}\nlink l{at} s t{at}\n" for at in range(33))
    (tmp_path / "many").write_text("source s\n" + sinks + "".join(f"link e{at} s x\n" for at in range(1990)) + "fail-each\n")
    for name, fault in (("cycle", "cycle m n"), ("many", "too many demands: 66,792; a draft has at most 65,536")):
        done = run_tool("lif-draft", tmp_path / name, "--rate", 1, "--random", 1, "-o", tmp_path / "draft")
        assert (done.returncode, done.stderr) == (1, f"lif-draft: {tmp_path / name}: {fault}\n")


# The program


def check_program(program: Program, folder: Path, draft: Draft) -> bool:
    """Runs `finish` on a draft, compares all that comes, and says whether it decodes."""
    folder.mkdir()
    network, made = draft.network, finish(draft)
    (folder / "draft").write_bytes(write_draft(draft))
    done = program("finish", "draft", "code", cwd=folder)
    if isinstance(made, Code):
        said = f"rate {made.rate} field {made.field} demands {network.demands()}\n"
        assert (done.returncode, done.stdout, done.stderr) == (0, f"finished {said}", "")
        assert (folder / "code").read_bytes() == write_code(made)
        assert program("check", "code", cwd=folder).stdout == f"accepted {said}"
        return True
    sink, pattern = divmod(made.demand, len(network.patterns))
    front = f"not decoding: demand {network.nodes[network.sinks[sink]]} {network.patterns[pattern].name} block "
    assert (done.returncode, done.stderr) == (21, "") and done.stdout.startswith(front)
    block = tuple(map(int, done.stdout.removeprefix(front).split()))
    assert len(block) == draft.rate and any(block) and not any(block_on_links(draft, Confusion(made.demand, block)))
    assert {path.name for path in folder.iterdir()} == {"draft"}
    return False


def test_the_program_finishes_drafts_by_chance(program: Program, tmp_path: Path) -> None:
    chance = random.Random(23)
    found = [check_program(program, tmp_path / str(number), drawn(chance)) for number in range(200)]
    assert 30 < sum(found) < 170


def test_the_program_finishes_the_drafts_of_codes(program: Program, tmp_path: Path) -> None:
    for name, code in codes():
        assert check_program(program, tmp_path / name, draft_of(code)) or check_failure(code) is not None


@pytest.mark.parametrize("path", sorted(EXAMPLES.glob("*/*.net")), ids=lambda path: str(path.stem))
def test_compiled_codes_without_their_decoders(program: Program, tmp_path: Path, path: Path) -> None:
    """Their drafts are finished, and files are sent under each pattern by what comes of them."""
    assert program("compile", path, "code", "report", cwd=tmp_path).returncode == 0
    code = read_code((tmp_path / "code").read_bytes())
    # The network of a text comes as the compiler has it.
    lines = []
    for link, operands in zip(code.network.links, code.operands):
        for operand in operands:
            is_row = link.tail == code.network.source
            origin = f"row {operand.origin}" if is_row else code.network.links[operand.origin].name
            lines.append(f"{link.name} {origin} {operand.times}\n")
    words = ("--rate", code.rate, "--field", code.field)
    assert with_coefficients(tmp_path, "".join(lines), *words, network=path)[0] == 0
    draft = read_draft((tmp_path / "draft").read_bytes())
    assert draft == draft_of(code)
    assert check_program(program, tmp_path / "run", draft)
    (tmp_path / "src").write_bytes(path.read_bytes())
    for pattern in code.network.patterns:
        assert program("send", "run/code", pattern.name, 5, "src", "out", cwd=tmp_path).returncode == 0
        for sink in code.network.sinks:
            assert (tmp_path / f"out.{code.network.nodes[sink]}").read_bytes() == path.read_bytes()


def test_the_program_and_what_is_no_draft(program: Program, tmp_path: Path) -> None:
    content = write_draft(draft_of(FLY))
    (tmp_path / "code").write_bytes(b"older")
    faults = {content[:99]: "Truncated 99", content + b"\0": "TrailingBytes 161", write_code(FLY): "BadMagic"}
    for faulty, fault in faults.items():
        assert refusal(faulty) == fault
        (tmp_path / "draft").write_bytes(faulty)
        done = program("finish", "draft", "code", cwd=tmp_path)
        assert (done.returncode, done.stdout) == (7, f"code refused: {fault}\n")
    assert program("finish", "none", "none", cwd=tmp_path).stdout == "same path: none\n"
    assert (tmp_path / "code").read_bytes() == b"older"
