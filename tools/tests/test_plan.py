"""lif-plan: plans that are written out, those of all examples beside another count, and places."""
from __future__ import annotations

import dataclasses
import hashlib
import json
from pathlib import Path
from typing import Any

import pytest

from support import EXAMPLES, Program, combination_text, run_tool, without_packages
from lif_tools.formats import Code, Decoder, Operand, read_code, read_network, write_code

BUTTERFLY, ONE = EXAMPLES / "butterfly/butterfly.lif", EXAMPLES / "one-link/one.lif"

# The link `z` adds up `w` and twice `v`. Where `u` fails nothing comes over `v`, and nothing ever does over `e`.
FAILING = b"source s\nsink t\nlink u s a\nlink w s c\nlink v a c\nlink e a b\nlink z c t\npattern f u\n"


def failing_code() -> Code:
    operands = ((Operand(0, 1),), (Operand(0, 1),), (Operand(0, 1),), (), (Operand(1, 1), Operand(2, 2)))
    return Code(read_network(FAILING), 8, 1, operands, (Decoder((4,), (0xF4,)), Decoder((4,), (1,))))


@pytest.fixture
def failing(tmp_path: Path) -> Path:
    path = tmp_path / "failing.lif"
    path.write_bytes(write_code(failing_code()))
    return path


def planned(path: Path, *words: object) -> dict[str, Any]:
    done = run_tool("lif-plan", path, *words)
    assert (done.returncode, done.stderr) == (0, "")
    said: dict[str, Any] = json.loads(done.stdout)
    assert (said.pop("tool"), said.pop("code")) == ("lif-plan", str(path))
    del said["version"]
    return said


def refused(path: Path, *words: object) -> str:
    done = run_tool("lif-plan", path, *words)
    assert (done.returncode, done.stdout) == (1, "")
    return done.stderr.removeprefix("lif-plan: ")


def links(*ends: str) -> list[dict[str, str]]:
    return [dict(zip(("name", "tail", "head"), words.split())) for words in ends]


def test_one_link() -> None:
    assert planned(ONE) == {
        "pattern": "none",
        "source": "s",
        "links": links("l s t"),
        "nodes": [{"name": "s", "in": [], "out": ["l"]}],
        "sinks": [{"name": "t", "links": ["l"]}],
    }


def test_the_butterfly() -> None:
    assert planned(BUTTERFLY, "--json") == {
        "pattern": "none",
        "source": "s",
        "links": links(
            "s-a s a", "s-b s b", "a-t1 a t1", "b-t2 b t2", "a-c a c", "b-c b c", "c-d c d", "d-t1 d t1", "d-t2 d t2"
        ),
        "nodes": [
            {"name": "s", "in": [], "out": ["s-a", "s-b"]},
            {"name": "a", "in": ["s-a"], "out": ["a-t1", "a-c"]},
            {"name": "b", "in": ["s-b"], "out": ["b-t2", "b-c"]},
            {"name": "c", "in": ["a-c", "b-c"], "out": ["c-d"]},
            {"name": "d", "in": ["c-d"], "out": ["d-t1", "d-t2"]},
        ],
        "sinks": [{"name": "t1", "links": ["a-t1", "d-t1"]}, {"name": "t2", "links": ["b-t2", "d-t2"]}],
    }


def test_what_fails_and_what_carries_nothing_does_not_stand_there(failing: Path) -> None:
    sinks = [{"name": "t", "links": ["z"]}]
    assert planned(failing) == {
        "pattern": "none",
        "source": "s",
        "links": links("u s a", "w s c", "v a c", "z c t"),
        "nodes": [
            {"name": "s", "in": [], "out": ["u", "w"]},
            {"name": "a", "in": ["u"], "out": ["v"]},
            {"name": "c", "in": ["w", "v"], "out": ["z"]},
        ],
        "sinks": sinks,
    }
    assert planned(failing, "--pattern", "f") == {
        "pattern": "f",
        "source": "s",
        "links": links("w s c", "z c t"),
        "nodes": [{"name": "s", "in": [], "out": ["w"]}, {"name": "c", "in": ["w"], "out": ["z"]}],
        "sinks": sinks,
    }


def test_addresses(tmp_path: Path) -> None:
    places, addresses = tmp_path / "places", tmp_path / "addresses"
    places.write_text("t1 one\n* two\n")
    addresses.write_text("# of links\nc-d 10.0.0.1:7 # its own\n\nd-t1 [x]\n")
    plan = planned(BUTTERFLY, "--port", 7000, "--places", places, "--bound", 9)["overlay"]
    assert plan["bound"] == 9 and plan["sum"] == hashlib.sha256(BUTTERFLY.read_bytes()).hexdigest()
    assert list(plan["addresses"].items())[2:5] == [("a-t1", "one:7002"), ("b-t2", "two:7003"), ("a-c", "two:7004")]
    assert refused(BUTTERFLY, "--addresses", addresses) == f"{addresses}: line 4: no address: [x]\n"
    addresses.write_text("c-d 10.0.0.1:7\n")
    plan = planned(BUTTERFLY, "--port", 7000, "--addresses", addresses)["overlay"]
    assert plan["bound"] == 64 and [*plan["addresses"].values()][5:8] == ["127.0.0.1:7005", "10.0.0.1:7", "127.0.0.1:7007"]
    assert refused(BUTTERFLY, "--addresses", addresses) == f"{addresses}: no address for s-a\n"
    assert refused(BUTTERFLY, "--port", 65530) == f"{BUTTERFLY}: no port is left for c-d\n"


@pytest.mark.parametrize(
    ("line", "fault"),
    [
        ("c-d", "not LINK HOST:PORT"),
        ("c-d h:1 x", "not LINK HOST:PORT"),
        ("c-d h", "no address: h"),
        ("c-d h:0", "no address: h:0"),
        ("c-d h:65536", "no address: h:65536"),
        ("c-e h:1", "unknown link: c-e; there are s-a, s-b, a-t1, b-t2, a-c, b-c, c-d, d-t1, d-t2"),
        ("s-a h:1", "link s-a has an address already"),
    ],
)
def test_faults_of_addresses(tmp_path: Path, line: str, fault: str) -> None:
    addresses = tmp_path / "addresses"
    addresses.write_text(f"s-a h:1\n{line}\n")
    assert refused(BUTTERFLY, "--addresses", addresses) == f"{addresses}: line 2: {fault}\n"


def test_an_address_of_two_links(tmp_path: Path) -> None:
    addresses = tmp_path / "addresses"
    addresses.write_text("s-a h:1\ns-b h:1\n")
    said = refused(BUTTERFLY, "--port", 7000, "--addresses", addresses)
    assert said == f"{addresses}: s-a and s-b have the same address: h:1\n"


def test_links_that_live_under_other_patterns_have_addresses(failing: Path) -> None:
    for pattern in ("none", "f"):
        assert [*planned(failing, "--port", 1, "--pattern", pattern)["overlay"]["addresses"]] == ["u", "w", "v", "z"]


def reached(code: Code, pattern: int) -> set[str]:
    """The links to which something comes, found by going on from the source's own until no more is found."""
    network = code.network
    left = set(range(len(network.links))) - set(network.patterns[pattern].links)
    # The operands of a link out of the source are rows.
    first = {link for link in left if network.links[link].tail == network.source}
    found = {link for link in first if code.operands[link]}
    while more := {link for link in left - first - found if found & {one.origin for one in code.operands[link]}}:
        found |= more
    return {network.links[link].name for link in found}


def check_plan(path: Path) -> None:
    """The plans of a code under all its patterns, beside the code itself."""
    code = read_code(path.read_bytes())
    network = code.network
    for number, pattern in enumerate(network.patterns):
        plan = planned(path, "--pattern", pattern.name)
        live = reached(code, number)
        carrying = [link for link in network.links if link.name in live]
        assert [link["name"] for link in plan["links"]] == [link.name for link in carrying]
        for said, link in zip(plan["links"], carrying):
            assert (said["tail"], said["head"]) == (network.nodes[link.tail], network.nodes[link.head])
        assert {node["name"] for node in plan["nodes"]} == {link["tail"] for link in plan["links"]}
        for node in plan["nodes"]:
            assert node["in"] == [link["name"] for link in plan["links"] if link["head"] == node["name"]]
            assert node["out"] == [link["name"] for link in plan["links"] if link["tail"] == node["name"]]
            assert (node["in"] == []) == (node["name"] == plan["source"])
        assert len({node["name"] for node in plan["nodes"]}) == len(plan["nodes"])
        for place, sink in enumerate(plan["sinks"]):
            decoder = code.decoders[network.demand(place, number)]
            assert sink == {
                "name": network.nodes[network.sinks[place]],
                "links": [network.links[link].name for link in decoder.links],
            }
            assert set(sink["links"]) <= live


def test_plans_of_code_files_under_all_patterns(failing: Path) -> None:
    for path in (ONE, BUTTERFLY, failing):
        check_plan(path)


def test_plans_of_all_examples_under_all_patterns(program: Program, tmp_path: Path) -> None:
    texts = {path.stem: path for path in EXAMPLES.glob("*/*.net")}
    assert len(texts) >= 4
    double = "".join(
        f"{line} x2\n" if line.startswith("link") else f"{line}\n" for line in texts["butterfly"].read_text().splitlines()
    )
    (tmp_path / "double.net").write_text(double + "fail-each\n")
    (tmp_path / "fan.net").write_text(combination_text(6, 3))
    for name, text in {**texts, "double": tmp_path / "double.net", "fan": tmp_path / "fan.net"}.items():
        code = tmp_path / f"{name}.lif"
        assert program("compile", text, code, tmp_path / "report").returncode == 0
        check_plan(code)


def places(folder: Path, text: str) -> Path:
    path = folder / "places"
    path.write_text(text)
    return path


def hosts(plan: dict[str, Any]) -> dict[str, str]:
    found = [(one["name"], one.get("host")) for one in plan["nodes"] + plan["sinks"]]
    assert len(dict(found)) == len(set(found))
    return dict(found)


def test_places_are_taken_in_turn(tmp_path: Path) -> None:
    path = places(tmp_path, "# two machines for all, and one for the middle\r\n* n1\n\nc n3  # alone\n*\tn2\n")
    plan = planned(BUTTERFLY, "--places", path)
    # The nodes are numbered as the links name them: s, t1, t2, a, b, c, d.
    code = read_code(BUTTERFLY.read_bytes())
    turns = dict(zip((name for name in code.network.nodes if name != "c"), ["n1", "n2"] * 3))
    assert hosts(plan) == {**turns, "c": "n3"}
    for one in plan["nodes"] + plan["sinks"]:
        del one["host"]
    assert plan == planned(BUTTERFLY)
    own = places(tmp_path, "".join(f"{node} host-{node}.example\n" for node in code.network.nodes))
    assert hosts(planned(BUTTERFLY, "--places", own)) == {node: f"host-{node}.example" for node in code.network.nodes}


def test_a_node_keeps_its_host_under_each_pattern(failing: Path, tmp_path: Path) -> None:
    """Also one that does nothing takes its turn; but only one that does something must have a host."""
    path = places(tmp_path, "* n1\n* n2\n* n3\n")
    found = hosts(planned(failing, "--places", path))
    assert hosts(planned(failing, "--pattern", "f", "--places", path)).items() <= found.items()
    some = places(tmp_path, "s n1\nc n2\nt n3\n")
    assert hosts(planned(failing, "--pattern", "f", "--places", some)) == {"s": "n1", "c": "n2", "t": "n3"}
    assert refused(failing, "--places", some) == f"{some}: no host for a\n"


@pytest.mark.parametrize(
    "text, said",
    [
        ("", "no host for s, t1, t2, a, b, c, d"),
        ("s n1\n# t1 n2\n", "no host for t1, t2, a, b, c, d"),
        ("s n1\nx n2\n", "line 2: unknown node: x; there are s, t1, t2, a, b, c, d"),
        ("* n1\ns n1\n\ns n2\n", "line 4: node s has a host already"),
        ("s\n", "line 1: neither NODE HOST nor * HOST"),
        ("s n1 n2\n", "line 1: neither NODE HOST nor * HOST"),
        ("s n1;n2\n", "line 1: no name of a host: n1;n2"),
        ("* -w\n", "line 1: no name of a host: -w"),
        ("* n\xe9\n", "line 1: no name of a host: n\xe9"),
    ],
)
def test_places_are_refused(tmp_path: Path, text: str, said: str) -> None:
    path = places(tmp_path, text)
    assert refused(BUTTERFLY, "--places", path) == f"{path}: {said}\n"


def test_refusals(tmp_path: Path) -> None:
    assert refused(BUTTERFLY, "--pattern", "f") == f"{BUTTERFLY}: unknown pattern: f; its patterns: none\n"
    assert refused(BUTTERFLY, "--places", tmp_path / "x") == f"{tmp_path}/x: No such file or directory\n"
    cut = tmp_path / "cut.lif"
    cut.write_bytes(ONE.read_bytes()[:-1])
    assert refused(cut) == f"{cut}: Truncated 36\n"
    for words in ((), (BUTTERFLY, "none"), (BUTTERFLY, "--places")):
        assert run_tool("lif-plan", *words).returncode == 2


def test_a_decoder_of_a_link_that_carries_nothing_is_refused(tmp_path: Path) -> None:
    """No demand decodes of such a link, so no code that is accepted has one."""
    code = failing_code()
    path = tmp_path / "dead.lif"
    path.write_bytes(write_code(dataclasses.replace(code, operands=((), *code.operands[1:4], (Operand(2, 2),)))))
    assert refused(path) == f"{path}: demand t none: link z carries nothing\n"


def test_no_package_is_needed() -> None:
    assert without_packages("lif-plan", BUTTERFLY).stdout == run_tool("lif-plan", BUTTERFLY).stdout
