"""lif-draw: what a drawing says, by its texts and strokes, and what is refused."""
from __future__ import annotations

import json
import os
import re
import resource
import time
from pathlib import Path
from xml.etree import ElementTree

import pytest

from support import EXAMPLES, Program, layers_text, run_command, run_tool, without_packages
from lif_tools.formats import Code, Decoder, Operand, read_code, read_network, write_code

NET, CODE = EXAMPLES / "butterfly/butterfly.net", EXAMPLES / "butterfly/butterfly.lif"
REGIONAL = EXAMPLES / "regional/regional.net"
SVG = "{http://www.w3.org/2000/svg}"

# A network in which a link fails under a pattern, and one behind it carries nothing then, and the code of it.
FAILING = b"source s\nsink t\nlink u s a\nlink w s c\nlink v a c\nlink z c t\npattern f u\n"


def failing_code() -> bytes:
    operands = ((Operand(0, 1),), (Operand(0, 1),), (Operand(0, 1),), (Operand(1, 1), Operand(2, 2)))
    return write_code(Code(read_network(FAILING), 8, 1, operands, (Decoder((3,), (0xF4,)), Decoder((3,), (1,)))))


def drawn(*words: object) -> str:
    done = run_tool("lif-draw", *words, "-o", "-")
    assert (done.returncode, done.stderr) == (0, "")
    return done.stdout


def texts(svg: str) -> list[str]:
    """The texts of a drawing, as often as they stand there."""
    return sorted(text.text or "" for text in ElementTree.fromstring(svg).iter(f"{SVG}text"))


def strokes(svg: str) -> dict[str, dict[str, str]]:
    """For each link, by its label, how its line is drawn."""
    found = {}
    for group in ElementTree.fromstring(svg).iter(f"{SVG}g"):
        if group.get("class") == "edge":
            label = group.findtext(f"{SVG}text", "")
            found[label.split(":")[0]] = dict(next(group.iter(f"{SVG}path")).attrib, label=label)
    return found


def filled(svg: str) -> set[str]:
    """The nodes of the side."""
    found = set()
    for group in ElementTree.fromstring(svg).iter(f"{SVG}g"):
        if group.get("class") == "node" and any(part.get("fill") == "#fde9c9" for part in group):
            found.add(group.findtext(f"{SVG}title", ""))
    return found


def test_the_butterfly_with_its_code() -> None:
    svg = drawn(NET, "--code", CODE)
    assert texts(svg) == sorted(
        [
            "s",
            "a",
            "b",
            "c",
            "d",
            "t1",
            "x0 = a-t1",
            "x1 = a-t1 + d-t1",
            "t2",
            "x0 = b-t2 + d-t2",
            "x1 = b-t2",
            "s-a: x0",
            "s-b: x1",
            "a-t1: x0",
            "b-t2: x1",
            "a-c: x0",
            "b-c: x1",
            "c-d: x0 + x1",
            "d-t1: x0 + x1",
            "d-t2: x0 + x1",
            "demand t1 none cut 2",
            "the flow: 2 paths, coloured",
            "the side: the nodes that the cut closes off with the source",
            "thick, with two heads: the cut, 2 links",
            "the sink of the demand; the source has a roof",
            "x0 ..",
            "rows of the source, with coefficients of the code's field",
        ]
    )
    lines = strokes(svg)
    assert filled(svg) == {"s"}
    assert {name for name, line in lines.items() if line.get("stroke-width") == "4"} == {"s-a", "s-b"}
    assert {name for name, line in lines.items() if line["stroke"] == "#1f6fb4"} == {"s-a", "a-t1"}
    assert {name for name, line in lines.items() if line["stroke"] == "#c2610c"} == {"s-b", "b-c", "c-d", "d-t1"}
    assert "<!--" not in svg and "DOCTYPE" not in svg


def test_another_sink_and_another_pattern() -> None:
    svg = drawn(REGIONAL, "--sink", "edge-west", "--pattern", "duct-2")
    lines = strokes(svg)
    assert "demand edge-west duct-2 cut 2" in texts(svg)
    assert {line["label"] for line in lines.values() if "stroke-dasharray" in line} == {
        "coreA-agg2: fails",
        "coreB-agg2: fails",
    }
    assert {name for name, line in lines.items() if line["stroke"] == "#c2610c"} == {
        "head-coreB",
        "coreB-agg3",
        "agg3-west",
    }


def test_failed_and_dead_links_are_dashed(tmp_path: Path) -> None:
    net, code = tmp_path / "one.net", tmp_path / "one.lif"
    net.write_bytes(FAILING)
    code.write_bytes(failing_code())
    lines = strokes(drawn(net, "--code", code, "--pattern", "f"))
    assert {line["label"]: "stroke-dasharray" in line for line in lines.values()} == {
        "u: fails": True,
        "v: nothing": True,
        "w: x0": False,
        "z: x0": False,
    }
    assert {"links that fail", "links that carry nothing"} <= set(texts(drawn(net, "--code", code, "--pattern", "f")))
    assert not {"links that fail", "links that carry nothing"} & set(texts(drawn(net, "--code", code)))
    assert {line["label"] for line in strokes(drawn(net, "--code", code)).values()} == {
        "u: x0",
        "v: x0",
        "w: x0",
        "z: 3 x0",
    }


def test_live_draws_what_carries_alone(tmp_path: Path) -> None:
    net, code = tmp_path / "one.net", tmp_path / "one.lif"
    net.write_bytes(FAILING)
    code.write_bytes(failing_code())
    svg = drawn(net, "--code", code, "--pattern", "f", "--live")
    assert {line["label"] for line in strokes(svg).values()} == {"w: x0", "z: x0"}
    assert {"s", "c", "t", "demand t f cut 1; 2 of 4 links drawn"} <= set(texts(svg)) and "a" not in texts(svg)
    # The flow that is found takes links that carry nothing by the butterfly's code, which is then said; without the code they
    # are the ones that carry.
    net.write_text("source s\nsink t\nlink u s a\nlink v a t\nlink w s b\nlink x b t\n")
    operands = ((), (), (Operand(0, 1),), (Operand(2, 1),))
    code.write_bytes(write_code(Code(read_network(net.read_bytes()), 8, 1, operands, (Decoder((3,), (1,)),))))
    assert set(strokes(drawn(net, "--live"))) == {"u", "v", "w", "x"}
    svg = drawn(net, "--code", code, "--live")
    assert set(strokes(svg)) == {"w", "x"}
    assert "the flow: 2 paths, coloured; 2 of 4 links drawn" in texts(svg)
    assert "thick, with two heads: the cut, 2 links; 1 of 2 links drawn" in texts(svg)


def fills(svg: str) -> dict[str, str]:
    """How each node is filled."""
    found = {}
    for group in ElementTree.fromstring(svg).iter(f"{SVG}g"):
        if group.get("class") == "node":
            found[group.findtext(f"{SVG}title", "")] = next(part.get("fill", "") for part in group if part.get("fill"))
    return found


WHOLE, OTHER = "#cde6cd", "#f2c9c9"
WHOLE_ROW = "whole sinks: their rank is the code's rate, 2"
OTHER_ROW = "other sinks: their rank is below the code's rate, 2"


@pytest.mark.parametrize(
    "failed, title, dead, ranks",
    [
        ("", "no link failed: 2 of 2 sinks whole", set(), ("rank 2 whole", "rank 2 whole")),
        ("a-t1", "a-t1 failed: 1 of 2 sinks whole", set(), ("rank 1", "rank 2 whole")),
        ("a-t1,a-t1", "a-t1 failed: 1 of 2 sinks whole", set(), ("rank 1", "rank 2 whole")),
        ("s-a", "s-a failed: 0 of 2 sinks whole", {"a-t1", "a-c"}, ("rank 1", "rank 1")),
        ("b-c,s-a", "s-a, b-c failed: 0 of 2 sinks whole", {"a-t1", "a-c", "c-d", "d-t1", "d-t2"}, ("rank 0", "rank 1")),
    ],
)
def test_sinks_are_filled_by_what_they_get_of_any_failures(
    failed: str, title: str, dead: set[str], ranks: tuple[str, str]
) -> None:
    svg = drawn(NET, "--code", CODE, "--failed", failed)
    said, names = texts(svg), set(failed.split(",")) - {""}
    assert title in said and all(said.count(rank) == ranks.count(rank) for rank in ranks)
    filled_by = {True: WHOLE, False: OTHER}
    wanted = {f"t{sink}": filled_by[rank.endswith("whole")] for sink, rank in enumerate(ranks, start=1)}
    assert fills(svg) == {**dict.fromkeys("sabcd", "#ffffff"), **wanted}
    dashed = {line["label"] for line in strokes(svg).values() if "stroke-dasharray" in line}
    assert dashed == {f"{name}: fails" for name in names} | {f"{name}: nothing" for name in dead}
    # Nothing is drawn of a demand.
    assert {line["stroke"] for line in strokes(svg).values()} <= {"#555555", "#c0272d", "#9a9a9a"}
    assert not any(line.get("stroke-width") for line in strokes(svg).values())
    rows = {row for row, has in ((WHOLE_ROW, WHOLE in wanted.values()), (OTHER_ROW, OTHER in wanted.values())) if has}
    assert rows == {text for text in said if text.startswith(("whole sinks", "other sinks"))}
    assert not any(text.startswith(("the ", "thick")) for text in said)


def test_failed_takes_a_code_that_does_not_decode_and_no_demand(tmp_path: Path) -> None:
    path = tmp_path / "wrong.lif"
    path.write_bytes(CODE.read_bytes()[:-1] + b"\1")
    facts = json.loads(run_tool("lif-draw", NET, "--code", path, "--failed", "b-t2,a-t1", "--json").stdout)
    assert (facts["failed"], facts["rate"], facts["sinks"]["t1"]) == (["a-t1", "b-t2"], 2, {"rank": 1, "whole": False})
    assert set(facts["sinks"]) == {"t1", "t2"} and not facts.keys() & {"sink", "pattern", "cut", "paths", "decoders"}
    assert {link["name"] for link in facts["links"] if not link["live"]} == {"a-t1", "b-t2"}
    done = run_tool("lif-draw", NET, "--code", path, "--failed", "a-t1,storm", "--json")
    assert done.stderr.startswith(f"lif-draw: {NET}: unknown link: storm; its links: s-a, s-b, ")
    for more in ((), ("--code", path, "--sink", "t1"), ("--code", path, "--pattern", "f"), ("--code", path, "--report", NET)):
        done = run_tool("lif-draw", NET, "--failed", "a-t1", "--json", *more)
        assert done.returncode == 2 and done.stderr.endswith("--failed takes --code, and no --pattern, --sink or --report\n")
    done = run_tool("lif-draw", REGIONAL, "--code", CODE, "--failed", "trunk", "--json")
    assert done.stderr == f"lif-draw: {CODE}: the code is one of another network: it has no source headend\n"


def test_failed_and_live_draw_what_carries_and_all_sinks() -> None:
    svg = drawn(NET, "--code", CODE, "--failed", "s-a,b-t2,b-c", "--live")
    assert set(strokes(svg)) == {"s-b"} and set(fills(svg)) == {"s", "b", "t1", "t2"}
    assert "s-a, b-t2, b-c failed: 0 of 2 sinks whole; 1 of 9 links drawn" in texts(svg)


def test_the_format_is_that_of_the_ending(tmp_path: Path) -> None:
    for ending, begin in ((".svg", b"<svg"), (".PNG", b"\x89PNG\r\n\x1a\n"), (".pdf", b"%PDF-"), ("", b"<svg")):
        path = tmp_path / f"drawing{ending}"
        assert run_tool("lif-draw", NET, "-o", path).stderr == ""
        assert begin in path.read_bytes()[:80]
    # Neither the time nor where it is told comes into a drawing.
    first = (tmp_path / "drawing.pdf").read_bytes()
    time.sleep(1)
    run_command("lif-draw", NET, "-o", tmp_path / "drawing.pdf", env={**os.environ, "TZ": "Asia/Tokyo"})
    assert (tmp_path / "drawing.pdf").read_bytes() == first
    done = run_tool("lif-draw", NET, "-o", tmp_path / "drawing.jpg")
    assert done.returncode == 2 and done.stderr.endswith("drawing.jpg: a drawing has the ending .svg, .png, .pdf\n")
    assert not (tmp_path / "drawing.jpg").exists()


def test_a_drawing_that_cannot_be_read_is_told_before(tmp_path: Path) -> None:
    net = tmp_path / "large.net"
    net.write_text(layers_text(3, 18))
    done = run_command("lif-draw", net, "-o", tmp_path / "large.svg", env={"PATH": ""})
    told = f"lif-draw: {net}: 666 links: so large a drawing can't be read, and may take graphviz minutes; "
    assert done.stderr.startswith(f"{told}--live draws 54, those of the flow\nlif-draw: there is no program dot")
    assert run_tool("lif-draw", net, "--live", "-o", tmp_path / "large.svg").stderr == ""


def test_some_hundred_links_take_seconds(tmp_path: Path) -> None:
    """A network of networkx's generators, with each link from the lower to the higher number."""
    networkx = pytest.importorskip("networkx")
    graph = networkx.barabasi_albert_graph(155, 3, seed=1)
    net = tmp_path / "many.net"
    lines = ["source n0", "sink n154"] + [f"link {tail}-{head} n{tail} n{head}" for tail, head in sorted(graph.edges)]
    net.write_text("\n".join(lines) + "\n")
    before = resource.getrusage(resource.RUSAGE_CHILDREN).ru_utime
    assert len(strokes(drawn(net))) == graph.number_of_edges() == 456
    assert resource.getrusage(resource.RUSAGE_CHILDREN).ru_utime - before < 5


def test_json_has_the_same_facts() -> None:
    # Without a drawing there is no need of graphviz.
    done = run_command("lif-draw", NET, "--code", CODE, "--sink", "t2", "--json", env={"PATH": ""})
    assert (done.returncode, done.stderr) == (0, "")
    said = json.loads(done.stdout)
    assert (said["tool"], said["sink"], said["pattern"], said["cut"], said["rate"]) == ("lif-draw", "t2", "none", 2, 2)
    assert (said["side"], said["cross"], said["failed"], said["all_links"]) == (["s"], ["s-a", "s-b"], [], 9)
    assert sorted(said["paths"]) == [["s-a", "a-c", "c-d", "d-t2"], ["s-b", "b-t2"]]
    carried = {link["name"]: (link["tail"], link["head"], link["carries"], link["live"]) for link in said["links"]}
    assert len(carried) == 9 and carried["c-d"] == ("c", "d", [1, 1], True)
    assert said["decoders"]["t2"] == {"links": ["b-t2", "d-t2"], "rows": [[1, 1], [1, 0]]}


@pytest.mark.parametrize("field, version, entry", [(8, 1, 0x8E), (8, 2, 0x8E), (9, 2, 0x8D)])
def test_codes_of_both_versions_and_of_field_9(tmp_path: Path, field: int, version: int, entry: int) -> None:
    net, code = tmp_path / "one.net", tmp_path / "one.lif"
    net.write_text("source s\nsink t\nlink l s t\n")
    network = read_network(net.read_bytes())
    code.write_bytes(write_code(Code(network, field, 1, ((Operand(0, 2),),), (Decoder((0,), (entry,)),)), version))
    facts = json.loads(run_tool("lif-draw", net, "--code", code, "--json").stdout)
    assert (facts["field"], facts["decoders"]["t"]["rows"]) == (field, [[entry]])
    code.write_bytes(write_code(Code(network, field, 1, ((Operand(0, 2),),), (Decoder((0,), (1,)),)), version))
    assert "demand t none row 0 column 0 found 2" in run_tool("lif-draw", net, "--code", code, "--json").stderr


def test_json_is_said_beside_a_drawing(tmp_path: Path) -> None:
    path = tmp_path / "one.svg"
    said = json.loads(run_tool("lif-draw", NET, "--json", "--live", "-o", path).stdout)
    assert said["drawing"] == str(path) and "carries" not in said["links"][0] and "rate" not in said
    assert {link["name"] for link in said["links"]} == set(strokes(path.read_text()))
    done = run_tool("lif-draw", NET, "--json", "-o", "-")
    assert (done.returncode, done.stdout) == (2, "")


def test_flow_and_cut_are_those_of_the_report(tmp_path: Path) -> None:
    report = tmp_path / "one.txt"
    report.write_text(
        "rate 2\ndemand t1 none cut 2\nside s t2 a b c d\ncross a-t1 d-t1\npath s-a a-t1\npath s-b b-c c-d d-t1\n"
        "demand t2 none cut 2\nside s\ncross s-a s-b\npath s-a a-c c-d d-t2\npath s-b b-t2\n"
    )
    svg = drawn(NET, "--report", report)
    assert filled(svg) == {"s", "t2", "a", "b", "c", "d"}
    assert {name for name, line in strokes(svg).items() if line.get("stroke-width") == "4"} == {"a-t1", "d-t1"}
    lines = strokes(drawn(NET, "--report", report, "--sink", "t2"))
    assert lines["a-c"]["stroke"] == "#1f6fb4"


FLOW = "path s-a a-t1\npath s-b b-c c-d d-t1\n"

REFUSED_REPORTS = [
    ("rate 1\n", "no line `demand t1 none cut ..`; the report is that of another network"),
    ("rate 1\ndemand t1 none cut 1\nside s\ncross q\n", "line 4: q isn't in the network"),
    ("demand t1 none cut 1\nside s\n", "line 1: a demand has one line `side` and one line `cross`"),
    ("demand t1 none cut 2\nside s\ncross s-a\n" + FLOW, "line 1: the cut isn't the links that leave the side"),
    (
        "demand t1 none cut 2\nside s t1\ncross s-a s-b\n" + FLOW,
        "line 1: the side doesn't part the sink from the source",
    ),
    (
        "demand t1 none cut 2\nside s\ncross s-a s-b\npath s-a a-t1\n",
        "line 1: there aren't as many paths as links in the cut",
    ),
    (
        "demand t1 none cut 2\nside s\ncross s-a s-b\n" + FLOW.replace("c-d ", ""),
        "line 1: a path doesn't lead from the source to the sink",
    ),
    (
        "demand t1 none cut 2\nside s\ncross s-a s-b\n" + 2 * "path s-a a-t1\n",
        "line 1: a link stands on two paths, or fails",
    ),
]


@pytest.mark.parametrize("text, said", REFUSED_REPORTS)
def test_a_report_that_shows_no_least_cut_is_refused(tmp_path: Path, text: str, said: str) -> None:
    report = tmp_path / "one.txt"
    report.write_text(text)
    done = run_tool("lif-draw", NET, "--report", report, "-o", "-")
    assert (done.returncode, done.stderr) == (1, f"lif-draw: {report}: {said}\n")


def test_a_code_of_another_network_is_refused(tmp_path: Path) -> None:
    done = run_tool("lif-draw", REGIONAL, "--code", CODE, "-o", "-")
    assert done.stderr == f"lif-draw: {CODE}: the code is one of another network: it has no source headend\n"
    net = tmp_path / "one.net"
    for more, said in (
        ("link k c d\n", "it has no link k from c to d"),
        ("pattern f c-d\n", "it has no pattern f c-d"),
    ):
        net.write_text(NET.read_text() + more)
        assert run_tool("lif-draw", net, "--code", CODE, "-o", "-").stderr.endswith(f"another network: {said}\n")
    net.write_text(NET.read_text().replace("link d-t2 d t2\n", ""))
    assert run_tool("lif-draw", net, "--code", CODE, "-o", "-").stderr.endswith(
        "the text has no link d-t2 from d to t2\n"
    )


def test_a_code_that_does_not_decode_is_refused(tmp_path: Path) -> None:
    path = tmp_path / "wrong.lif"
    path.write_bytes(CODE.read_bytes()[:-1] + b"\1")
    done = run_tool("lif-draw", NET, "--code", path, "-o", "-")
    assert done.stderr == f"lif-draw: {path}: check failed: demand t2 none row 1 column 0 found 1\n"


def test_long_sums_are_told_by_their_size(tmp_path: Path) -> None:
    net, code = tmp_path / "wide.net", tmp_path / "wide.lif"
    net.write_text("source s\nsink t\n" + "".join(f"link l{link} s t\n" for link in range(8)))
    operands = tuple((Operand(link, 1),) for link in range(7)) + (tuple(Operand(row, 2) for row in range(7)),)
    entries = [int(row == column) for row in range(7) for column in range(7)]
    code.write_bytes(
        write_code(Code(read_network(net.read_bytes()), 8, 7, operands, (Decoder(tuple(range(7)), entries),)))
    )
    found = texts(drawn(net, "--code", code))
    assert "l7: a sum of 7" in found and "x0 .. x6 of 7 links" in found


def test_the_examples_are_drawn(program: Program, tmp_path: Path) -> None:
    """The drawings of examples/ are those that the tool makes, but for where graphviz puts things."""
    for folder, name, words in (
        ("regional", "flow", ("--sink", "edge-west", "--pattern", "duct-2")),
        (
            "polska",
            "polska",
            (
                "--sink",
                "Katowice",
            ),
        ),
    ):
        net = EXAMPLES / folder / f"{folder}.net"
        code, report = tmp_path / f"{folder}.lif", tmp_path / f"{folder}.txt"
        assert program("compile", net, code, report).returncode == 0
        svg = drawn(net, "--code", code, "--report", report, *words)
        kept = (EXAMPLES / folder / f"{name}.svg").read_text()
        assert (texts(svg), filled(svg)) == (texts(kept), filled(kept))


def test_the_butterfly_is_drawn() -> None:
    kept = (EXAMPLES / "butterfly/butterfly.svg").read_text()
    svg = drawn(NET, "--code", CODE)
    assert (texts(svg), filled(svg)) == (texts(kept), filled(kept))


def test_the_program_s_code_carries_what_is_drawn(program: Program, tmp_path: Path) -> None:
    code, report = tmp_path / "made.lif", tmp_path / "made.txt"
    assert program("compile", REGIONAL, code, report).returncode == 0
    made = read_code(code.read_bytes())
    for pattern in made.network.patterns:
        svg = drawn(REGIONAL, "--code", code, "--report", report, "--pattern", pattern.name)
        assert sum(text.endswith(": fails") for text in texts(svg)) == len(pattern.links)
        assert sum(re.match(r"x[01] = ", text) is not None for text in texts(svg)) == 8


def test_nothing_that_is_read_is_written_over(tmp_path: Path) -> None:
    net = tmp_path / "one"
    net.write_bytes(NET.read_bytes())
    assert run_tool("lif-draw", net, "-o", net).stderr == f"lif-draw: {net}: it is read, and isn't written over\n"
    assert net.read_bytes() == NET.read_bytes()


def test_misuse_and_unknown_names() -> None:
    assert run_tool("lif-draw", NET).returncode == 2
    for words, said in (
        (("--pattern", "f"), "unknown pattern: f; its patterns: none"),
        (("--sink", "s"), "unknown sink: s; there are t1, t2"),
        (("--sink", ""), "unknown sink: ; there are t1, t2"),
    ):
        assert run_tool("lif-draw", NET, "-o", "-", *words).stderr == f"lif-draw: {NET}: {said}\n"


def test_graphviz_is_named_where_it_is_missing() -> None:
    done = without_packages("lif-draw", NET, "-o", "-")
    assert (done.returncode, done.stdout) == (1, "")
    assert (
        done.stderr == "lif-draw: there is no program dot in the folders of PATH; on Debian: apt-get install graphviz\n"
    )


def test_links_of_bundles_are_drawn_by_their_names(program: Program, tmp_path: Path) -> None:
    net, code, report = (tmp_path / name for name in ("a.net", "a.lif", "a.txt"))
    net.write_text("source s\nsink t\nlink k s t x2\nlink l s t\nfail-each\nrate 1\n")
    assert program("compile", net, code, report).stdout == "compiled rate 1 field 8 demands 4\n"
    # The report has the cut of the network, and the code the rate that is wanted.
    facts = json.loads(run_tool("lif-draw", net, "--report", report, "--code", code, "--pattern", "k.2", "--json").stdout)
    assert (facts["cut"], facts["failed"], facts["paths"], facts["rate"]) == (2, ["k.2"], [["k.1"], ["l"]], 1)
    assert [link["name"] for link in facts["links"]] == ["k.1", "k.2", "l"]
    # Each demand takes its first path, and so `l` carries nothing.
    said = run_tool("lif-estimate", code, "--pattern", "k.2").stdout.splitlines()
    assert said[:2] == ["code rate 1 field 8 demands 4", "pattern k.2 live 1 of 3 links"]
