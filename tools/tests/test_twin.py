"""Networks and codes of two sources, and `lif twin`: what is joined, what is separated, and refusals in their order; what
lif-gain says of two sources, and how lif-draw draws them.
"""
from __future__ import annotations

import dataclasses
import itertools
import json
import random
import shutil
from pathlib import Path
from xml.etree import ElementTree

import pytest

from support import Program, run_tool, text_of, without_packages
from test_draw import SVG, texts
from lif_tools.flows import certificate
from lif_tools.formats import (
    ELEMENT_BYTES,
    FIELDS,
    MOST_LINKS,
    MOST_NODES,
    Code,
    Confusion,
    Decoder,
    Draft,
    Link,
    Network,
    Operand,
    Pattern,
    capacity,
    check_failure,
    draft_of,
    finish,
    in_order,
    join_sources,
    read_code,
    read_network,
    separate,
    super_links,
    taken_name,
    unit_vector,
    vectors_of,
    why_unjoined,
    write_code,
)

# The butterfly with a source at the head of each branch.
FLY = """source a
sink t1
sink t2
link a-t1 a t1
link a-c a c
link b-c b c
link b-t2 b t2
link c-d c d
link d-t1 d t1
link d-t2 d t2
"""


def fly(more: str = "") -> Network:
    return read_network((FLY + more).encode())


# Networks


def test_the_butterfly_is_joined_by_hand() -> None:
    joined = join_sources(fly("pattern f a-c d-t1\nfield 16\nrate 5\n"), "b", 2, 1)
    assert joined.nodes == ("a", "t1", "t2", "c", "b", "d", "super")
    assert joined.links[:3] == (Link("super.1.1", 6, 0), Link("super.1.2", 6, 0), Link("super.2.1", 6, 4))
    assert joined.links[3:] == fly().links and joined.source == 6 and joined.sinks == (1, 2)
    assert joined.patterns == (Pattern("none", ()), Pattern("f", (4, 8)))
    assert (joined.field, joined.rate) == (16, 3)


def test_links_in_order_stand_behind_those_that_are_made() -> None:
    network = read_network(b"source a\nsink t\nlink m-t m t x2\nlink a-m a m x2\nlink b-t b t\nfail-each\n")
    joined, ordered = join_sources(network, "b", 2, 2), in_order(network)
    assert in_order(joined) == join_sources(ordered, "b", 2, 2)
    assert [link.name for link in in_order(joined).links[4:]] == ["a-m.1", "a-m.2", "m-t.1", "m-t.2", "b-t"]
    assert [pattern.links for pattern in in_order(joined).patterns] == [(), (6,), (7,), (4,), (5,), (8,)]


def test_links_that_are_made() -> None:
    assert super_links(1, 1) == ["super.1.1", "super.2.1"]
    assert super_links(3, 2) == ["super.1.1", "super.1.2", "super.1.3", "super.2.1", "super.2.2"]
    assert len(super_links(1, 31)) == 32 and super_links(1, 31)[-1] == "super.2.31"


# A line beside the butterfly's, the rates, and the name that is taken by it.
NAMES = [
    ("link x super t1", 1, 1, "node super"),
    ("sink super", 1, 1, "node super"),
    ("link super.1.1 a t1", 1, 1, "link super.1.1"),
    ("link super.2.1 a t1", 1, 1, "link super.2.1"),
    ("link super.2.2 a t1", 1, 2, "link super.2.2"),
    ("link super.2.2 a t1", 2, 1, None),
    ("link super.1 a t1 x2", 1, 1, "link super.1.1"),
    ("link super.1.1 a t1 x2", 1, 1, None),
    ("link super.1.10 a t1", 9, 1, None),
    ("link super.1.10 a t1", 10, 1, "link super.1.10"),
    ("link super.1.01 a t1", 1, 1, None),
    ("link super a t1", 1, 1, None),
    ("link super.1 a super.2", 1, 1, None),
]


@pytest.mark.parametrize("line, r1, r2, taken", NAMES)
def test_names_that_are_taken(line: str, r1: int, r2: int, taken: str | None) -> None:
    network = fly(line + "\n")
    assert taken_name(network, r1, r2) == taken
    assert why_unjoined(network, "b", r1, r2) == (None if taken is None else "NameTaken")
    assert why_unjoined(network, "zz", r1, r2) == "UnknownSecond"


def wide(nodes: int, links: int, more: str = "") -> Network:
    """A network of so many nodes and links."""
    spare = "".join(f"link n{node} a n{node}\n" for node in range(nodes - 3))
    text = f"source a\nsink t\nlink l b t\n{spare}link k a t x{links - nodes + 2}\n{more}"
    return read_network(text.encode())


def test_limits() -> None:
    most = wide(MOST_NODES - 1, MOST_LINKS - 5)
    assert (len(most.nodes), len(most.links)) == (MOST_NODES - 1, MOST_LINKS - 5)
    assert why_unjoined(most, "b", 4, 1) is None
    assert (len(join_sources(most, "b", 4, 1).nodes), len(join_sources(most, "b", 4, 1).links)) == (MOST_NODES, MOST_LINKS)
    assert why_unjoined(most, "b", 5, 1) == why_unjoined(most, "b", 4, 2) == "TooMany"
    assert why_unjoined(wide(MOST_NODES, 6000), "b", 1, 1) == "TooMany"
    assert why_unjoined(wide(MOST_NODES - 1, 6000, "link x a super\n"), "b", 1, 1) == "NameTaken"
    assert why_unjoined(wide(MOST_NODES, 6000), "zz", 1, 1) == "UnknownSecond"
    with pytest.raises(ValueError, match="TooMany"):
        join_sources(most, "b", 5, 1)


# Codes


def code_by_hand() -> Code:
    """A code of the joined butterfly whose first link carries the sum of both rows."""
    network = in_order(join_sources(fly(), "b", 1, 1))
    terms = [[(0, 1), (1, 1)], [(1, 1)], [(0, 1)], [(0, 1)], [(1, 1)], [(1, 1)], [(3, 1), (4, 1)], [(6, 1)], [(6, 1)]]
    operands = tuple(tuple(Operand(*pair) for pair in of) for of in terms)
    # `a-t1` brings both rows in a sum and `d-t1` the first; `b-t2` brings the second, and `d-t2` the first.
    decoders = (Decoder((2, 7), (0, 1, 1, 1)), Decoder((5, 8), (0, 1, 1, 0)))
    return Code(network, 8, 2, operands, decoders)


def test_a_code_is_separated_by_hand() -> None:
    code = code_by_hand()
    assert check_failure(code) is None
    new = separate(code)
    assert new.operands[:2] == ((Operand(0, 1),), (Operand(1, 1),)) and new.operands[2:] == code.operands[2:]
    # Then `a-t1` brings the first row and `d-t1` both in a sum; `b-t2` brings the second, and `d-t2` both.
    assert [(one.links, list(one.entries)) for one in new.decoders] == [((2, 7), [1, 0, 1, 1]), ((5, 8), [1, 1, 1, 0])]
    assert check_failure(new) is None
    assert (new.network, new.field, new.rate) == (code.network, 8, 2)
    assert separate(new) == dataclasses.replace(new, decoders=tuple(map(decoder_of_lists, new.decoders)))


def decoder_of_lists(decoder: Decoder) -> Decoder:
    return Decoder(decoder.links, list(decoder.entries))


def test_other_codes_are_not_separated() -> None:
    code = code_by_hand()
    for rate in (1, 3):
        with pytest.raises(ValueError, match="first"):
            separate(dataclasses.replace(code, rate=rate))
    links = code.network.links
    other = dataclasses.replace(code.network, links=(links[0], links[5], *links[1:5], *links[6:]))
    with pytest.raises(ValueError, match="first"):
        separate(dataclasses.replace(code, network=other))


def drawn(chance: random.Random) -> Draft:
    """A draft by chance of a network of two sources, whose links carry something of all that they may."""
    field, r1, r2 = chance.choice(FIELDS[2]), chance.randint(1, 3), chance.randint(1, 3)
    pairs = [*itertools.product("ab", "cdt"), ("c", "d"), ("c", "t"), ("d", "t"), ("d", "u"), ("t", "u")]
    ends = [pair for pair in pairs for _ in range(chance.randint(1, 4))]
    chance.shuffle(ends)
    text = "source a\nsink t\nsink u\n" + "".join(f"link l{at} {tail} {head}\n" for at, (tail, head) in enumerate(ends))
    network = in_order(join_sources(read_network(f"{text}pattern p l0\n".encode()), "b", r1, r2))
    most, operands = 256 ** ELEMENT_BYTES[field] - 1, []
    for link in network.links:
        origins = [at for at, other in enumerate(network.links) if other.head == link.tail]
        if link.tail == network.source:
            origins = list(range(r1 + r2))
        operands.append(tuple(Operand(origin, chance.randint(1, most)) for origin in origins if chance.random() < 0.9))
    return Draft(network, field, r1 + r2, tuple(operands))


def test_codes_by_chance_are_those_of_separated_drafts() -> None:
    """A separated code is the one that is found anew for its own operands."""
    chance, found = random.Random(7), 0
    for _ in range(300):
        draft = drawn(chance)
        code, rows = finish(draft), tuple((Operand(row, 1),) for row in range(draft.rate))
        if isinstance(code, Confusion):
            continue
        found += 1
        new = separate(code)
        assert vectors_of(new, 0)[: draft.rate] == [unit_vector(draft.rate, row) for row in range(draft.rate)]
        assert new == finish(dataclasses.replace(draft, operands=rows + draft.operands[draft.rate :]))
        assert check_failure(new) is None and draft_of(new).operands[draft.rate :] == draft.operands[draft.rate :]
    assert found > 100


# The command


def whole_code(folder: Path, program: Program, joined: Network, demands: int) -> tuple[Code, str]:
    """The code that is compiled of the text of a joined network, with that network, and the report."""
    (folder / "joined.net").write_text(f"{text_of(joined)}rate {joined.rate}\n")
    done = program("compile", "joined.net", "whole.lif", "whole.txt", cwd=folder)
    assert done.stdout == f"compiled rate {joined.rate} field 8 demands {demands}\n"
    code, ordered = read_code((folder / "whole.lif").read_bytes()), in_order(joined)
    assert [link.name for link in code.network.links] == [link.name for link in ordered.links]
    # No operand and no decoder has the number of a node.
    return dataclasses.replace(code, network=ordered), (folder / "whole.txt").read_text()


BUNDLES = """source a
sink t1
sink t2
link a-t1 a t1 x3
link a-c a c x3
link b-c b c x3
link b-t2 b t2 x3
link c-d c d x4
link d-t1 d t1 x4
link d-t2 d t2 x4
pattern duct a-t1.1 b-t2.3
pattern core c-d.1 d-t1.4
"""


@pytest.mark.parametrize("text, r1, r2", [(FLY, 1, 1), *((BUNDLES, r1, r2) for r1 in (1, 2) for r2 in (1, 2))])
def test_the_joined_code_is_separated(tmp_path: Path, program: Program, text: str, r1: int, r2: int) -> None:
    network = read_network(text.encode())
    (tmp_path / "two.net").write_text(text)
    done = program("twin", "two.net", "b", r1, r2, "two.lif", "two.txt", cwd=tmp_path)
    assert (done.returncode, done.stdout) == (0, f"twinned rate {r1} {r2} field 8 demands {network.demands()}\n")
    whole, report = whole_code(tmp_path, program, join_sources(network, "b", r1, r2), network.demands())
    content = (tmp_path / "two.lif").read_bytes()
    assert content == write_code(separate(whole)) and (tmp_path / "two.txt").read_text() == report
    assert check_failure(read_code(content)) is None
    source = random.Random(3).randbytes(2 * capacity(r1 + r2) + 9)
    (tmp_path / "src").write_bytes(source)
    for pattern in network.patterns:
        assert program("send", "two.lif", pattern.name, 1, "src", "out", cwd=tmp_path).returncode == 0
        for sink in ("t1", "t2"):
            assert (tmp_path / f"out.{sink}").read_bytes() == source


# Words, what is appended to the butterfly, the status, and what is said.
REFUSED = [
    (("b", 0, 1, "two.net", "two.net"), "", 2, "usage: lif order NET"),
    (("b", 16, 17, "two.net", "two.net"), "", 2, "usage: lif order NET"),
    (("zz", 1, 1, "two.lif", "two.lif"), "sink a\n", 14, "same path: two.lif\n"),
    (("zz", 1, 1, "two.lif", "two.txt"), "sink a\n", 3, "net refused: SinkIsSource a\n"),
    (("zz", 1, 1, "two.lif", "two.txt"), "link x d c\n", 3, "net refused: cycle c-d x\n"),
    (("zz", 1, 1, "two.lif", "two.txt"), "sink super\n", 22, "twin refused: UnknownSecond\n"),
    (("b", 1, 1, "two.lif", "two.txt"), "sink super\n", 22, "twin refused: NameTaken\n"),
    (("b", 1, 1, "two.lif", "two.txt"), "link k a t1 x8184\n", 22, "twin refused: TooMany\n"),
    (("b", 2, 1, "two.lif", "two.txt"), "sink u\n", 4, "rate 0: demand u none side a t1 t2 c b d super\n"),
    (("b", 2, 1, "two.lif", "two.txt"), "", 16, "rate 3 unmet: demand t1 none cut 2 side a t2 c b super\n"),
]


@pytest.mark.parametrize("words, more, status, said", REFUSED)
def test_refusals(tmp_path: Path, program: Program, words: tuple[object, ...], more: str, status: int, said: str) -> None:
    (tmp_path / "two.net").write_text(FLY + more)
    done = program("twin", "two.net", *words, cwd=tmp_path)
    assert done.returncode == status and done.stdout.startswith(said)
    assert [path.name for path in tmp_path.iterdir()] == ["two.net"]


# What two sources bring


def gained(folder: Path, text: str, *words: object) -> list[str]:
    """The lines that lif-gain says of a network."""
    (folder / "two.net").write_text(text)
    done = run_tool("lif-gain", folder / "two.net", *words)
    assert (done.returncode, done.stderr) == (0, "")
    return done.stdout.splitlines()


def test_cuts_and_splits_by_hand(tmp_path: Path) -> None:
    assert gained(tmp_path, FLY, "--second", "b") == [
        "sink  pattern  a  b  both",
        "t1    none     2  1  2",
        "t2    none     1  2  2",
        "all            1  1  2",
        "met where R1 is at most 1, R2 at most 1, and R1 + R2 at most 2",
        "greatest R1 + R2 2, as R1 R2: 1 1",
    ]
    pairs = "source a\nsink t\nlink k a t x3\nlink l b t x4\nlink m a b\npattern f l\n"
    assert gained(tmp_path, pairs, "--second", "b") == [
        "sink  pattern  a  b  both",
        "t     none     4  4  7",
        "t     f        3  0  3",
        "all            3  0  3",
        "no rates are met, from 1 on; lif twin makes no code",
    ]
    assert gained(tmp_path, pairs, "--second", "b", "--pattern", "none") == [
        "sink  pattern  a  b  both",
        "t     none     4  4  7",
        "met where R1 is at most 4, R2 at most 4, and R1 + R2 at most 7",
        "greatest R1 + R2 7, as R1 R2: 3 4, 4 3",
    ]


def test_sources_that_are_sinks_or_one(tmp_path: Path) -> None:
    text = "source a\nsink t\nlink k a t x3\n"
    assert gained(tmp_path, text, "--second", "t") == [
        "sink  pattern  a  t  both",
        "t     none     3  -  -",
        "met where R1 is at most 3, R2 at most 31, and R1 + R2 at most 32",
        "greatest R1 + R2 32, as R1 R2: 1 31, 2 30, 3 29",
    ]
    assert gained(tmp_path, text, "--second", "a") == [
        "sink  pattern  a  a  both",
        "t     none     3  3  3",
        "met where R1 is at most 3, R2 at most 3, and R1 + R2 at most 3",
        "greatest R1 + R2 3, as R1 R2: 1 2, 2 1",
    ]


def test_names_in_the_way_are_told(tmp_path: Path) -> None:
    text = "source a\nsink t\nlink k a t x2\nlink super.2.2 b t\nlink l b t\n"
    assert gained(tmp_path, text, "--second", "b")[-2:] == [
        "greatest R1 + R2 4, as R1 R2: 2 2",
        "lif twin refuses, for NameTaken: 1 2, 2 2",
    ]
    said = json.loads(run_tool("lif-gain", tmp_path / "two.net", "--second", "b", "--json").stdout)
    assert said["refused"] == {"NameTaken": [[1, 2], [2, 2]]} and said["splits"] == [[1, 1], [1, 2], [2, 1], [2, 2]]


def test_a_second_node_that_is_not_there(tmp_path: Path) -> None:
    (tmp_path / "two.net").write_text(FLY)
    done = without_packages("lif-gain", tmp_path / "two.net", "--second", "zz")
    said = f"lif-gain: {tmp_path}/two.net: unknown node: zz; its nodes: a, t1, t2, c, b, d\n"
    assert (done.returncode, done.stdout, done.stderr) == (1, "", said)


def test_splits_are_those_that_the_joined_network_meets(tmp_path: Path) -> None:
    """Of networks by chance each pair of rates is tried, by the cuts of the network that joins the two nodes for it."""
    chance, found = random.Random(11), []
    for _ in range(60):
        nodes = "abcdt"
        ends = [pair for pair in itertools.combinations(nodes, 2) if chance.random() < 0.6]
        second = chance.choice("bbbcat")
        sinks = chance.sample([node for node in "cdt"], chance.randint(1, 2))
        lines = [f"link l{at} {tail} {head} x{chance.randint(1, 3)}" for at, (tail, head) in enumerate(ends)]
        lines += [f"pattern p l{chance.randrange(len(ends))}.1"] if chance.random() < 0.5 and ends else []
        text = "\n".join(["source a", *(f"sink {sink}" for sink in sinks), *lines]) + "\n"
        network = read_network(text.encode())
        if second not in network.nodes:
            continue
        (tmp_path / "two.net").write_text(text)
        said = json.loads(run_tool("lif-gain", tmp_path / "two.net", "--second", second, "--json").stdout)
        # No cut is above 12 but where the second node is a sink; then the rates are tried up to there.
        rates = itertools.product(range(1, 14), repeat=2)
        met = [pair for pair in rates if is_met(join_sources(network, second, *pair))]
        assert [tuple(pair) for pair in said["splits"] if max(pair) < 14] == met
        assert said["greatest"] == max(map(sum, said["splits"]), default=0)
        found.append(bool(met))
    assert 15 < sum(found) < len(found) - 15


def is_met(joined: Network) -> bool:
    """Whether each demand of a network has as great a cut as the rate that is wanted."""
    demands = itertools.product(joined.sinks, joined.patterns)
    return all(certificate(joined, sink, pattern.links).value == joined.rate for sink, pattern in demands)


# Drawings


def drawn_by(folder: Path, *words: object) -> str:
    """What lif-draw draws of the butterfly with the code by hand."""
    if shutil.which("dot") is None:
        pytest.skip("there is no program dot; on Debian: apt-get install graphviz")
    (folder / "two.net").write_text(FLY)
    (folder / "two.lif").write_bytes(write_code(separate(code_by_hand())))
    done = run_tool("lif-draw", folder / "two.net", "--code", folder / "two.lif", *words, "-o", "-")
    assert (done.returncode, done.stderr) == (0, "")
    return done.stdout


def test_the_node_before_both_is_drawn_apart(tmp_path: Path) -> None:
    svg = drawn_by(tmp_path)
    said = texts(svg)
    assert {"super", "super.1.1: x0", "super.2.1: x1", "c-d: x0 + x1", "demand t1 none cut 2"} <= set(said)
    assert "super: no node of the network; it stands for both sources" in said
    assert "the sink of the demand; both sources have roofs" in said
    assert "rows: x0 of a and x1 of b, with coefficients of the code's field" in said
    shapes = {
        group.findtext(f"{SVG}title"): group.find(f"{SVG}polygon")
        for group in ElementTree.fromstring(svg).iter(f"{SVG}g")
        if group.get("class") == "node"
    }
    dashed = {name for name, shape in shapes.items() if shape is not None and "stroke-dasharray" in shape.attrib}
    # A roof has five corners, and the outline ends where it begins.
    roofed = {name for name, shape in shapes.items() if shape is not None and len(shape.attrib["points"].split()) == 6}
    assert (dashed, roofed) == ({"super"}, {"a", "b"})


def test_any_links_may_fail_in_a_drawing_of_two_sources(tmp_path: Path) -> None:
    said = texts(drawn_by(tmp_path, "--failed", "super.1.1"))
    assert {"super.1.1: fails", "a-c: nothing", "super.1.1 failed: 0 of 2 sinks whole"} <= set(said)
    assert "super: no node of the network; it stands for both sources" in said


def test_a_drawing_of_two_sources_as_json(tmp_path: Path) -> None:
    (tmp_path / "two.net").write_text(FLY)
    (tmp_path / "two.lif").write_bytes(write_code(code_by_hand()))
    facts = json.loads(run_tool("lif-draw", tmp_path / "two.net", "--code", tmp_path / "two.lif", "--json").stdout)
    assert facts["sources"] == [{"node": "a", "rate": 1}, {"node": "b", "rate": 1}]
    assert (facts["side"], facts["cross"], facts["all_links"]) == (["super"], ["super.1.1", "super.2.1"], 9)
    # The code is that of a code of another network where one of its parts isn't.
    for text, said in (
        (FLY.replace("link b-t2 b t2\n", ""), "the text has no link b-t2 from b to t2"),
        (FLY.replace("sink t2\n", ""), "the text has no sink t2"),
        (FLY.replace("source a", "source b"), "it has no link super.1.1 from super to b"),
        (FLY + "link x super a\n", "it has no source a"),
        (FLY.replace(" b", " e"), "it has no source a"),
    ):
        (tmp_path / "two.net").write_text(text)
        done = run_tool("lif-draw", tmp_path / "two.net", "--code", tmp_path / "two.lif", "--json")
        assert done.returncode == 1 and done.stderr.endswith(f"the code is one of another network: {said}\n")


def test_a_text_with_the_node_is_drawn_so_too(tmp_path: Path) -> None:
    (tmp_path / "joined.net").write_text(text_of(join_sources(fly(), "b", 2, 1)))
    facts = json.loads(run_tool("lif-draw", tmp_path / "joined.net", "--json").stdout)
    assert facts["sources"] == [{"node": "a", "rate": 2}, {"node": "b", "rate": 1}]
    for line in ("link super.3.1 super c\n", "link super.1.3 super b\n"):
        (tmp_path / "other.net").write_text((tmp_path / "joined.net").read_text() + line)
        assert "sources" not in json.loads(run_tool("lif-draw", tmp_path / "other.net", "--json").stdout)
