"""lif-import: the texts that it makes, what it leaves out and what it refuses."""
from __future__ import annotations

import json
import random
import subprocess
from pathlib import Path

import pytest

from support import EXAMPLES, Program, run_tool, without_packages
from lif_tools.flows import reachable
from lif_tools.formats import NAME, Network, read_network
from lif_tools.graphs import Edge
from lif_tools.importing import Reach

ABILENE = EXAMPLES / "abilene/abilene.graphml"
POLSKA = EXAMPLES / "polska/polska.graphml"

# A butterfly with a capacity and a conduit for each link, in each format.
LINKS = [
    ("s", "a", 20, "east"),
    ("s", "b", 20, "west"),
    ("a", "t1", 10, None),
    ("b", "t2", 10, None),
    ("a", "c", 10, "east"),
    ("b", "c", 10, "east;west"),
    ("c", "d", 10, None),
    ("d", "t1", 10, None),
    ("d", "t2", 10, None),
]
NODES = ["s", "a", "b", "t1", "t2", "c", "d"]


ORIENT = "with --orient the links away from the source are taken"


def graphml() -> str:
    edges = "".join(
        f'<edge source="{tail}" target="{head}"><data key="b">{bw}</data>'
        + (f'<data key="c">{conduit}</data>' if conduit else "")
        + "</edge>\n"
        for tail, head, bw, conduit in LINKS
    )
    nodes = "".join(f'<node id="{node}"/>' for node in NODES)
    return (
        '<graphml xmlns="http://graphml.graphdrawing.org/xmlns"><key id="b" for="edge" attr.name="bw" attr.type="int"/>'
        '<key id="c" for="edge" attr.name="conduit" attr.type="string"/>'
        f'<graph edgedefault="directed">{nodes}\n{edges}</graph></graphml>'
    )


def gml() -> str:
    nodes = "".join(f'  node [ id {place} label "{node}" ]\n' for place, node in enumerate(NODES))
    edges = "".join(
        f"  edge [ source {NODES.index(tail)} target {NODES.index(head)} bw {bw}"
        + (f' conduit "{conduit}"' if conduit else "")
        + " ]\n"
        for tail, head, bw, conduit in LINKS
    )
    return f"graph [\n  directed 1\n{nodes}{edges}]\n"


def dot() -> str:
    edges = [
        f"{tail} -> {head}" + (f" [bw={bw}" if bw != 10 else " [") + (f' conduit="{conduit}"]' if conduit else "]")
        for tail, head, bw, conduit in LINKS
    ]
    return (
        "digraph {\n  edge [bw=10];\n  s; a; b; t1; t2;\n  subgraph inner { c; d; }\n  "
        + ";\n  ".join(edges).replace("c -> d", "c:e -> d:w")
        + "\n}\n"
    )


def node_link(kind: str = "links") -> str:
    links = [
        {"source": tail, "target": head, "bw": bw} | ({"conduit": conduit.split(";")} if conduit else {})
        for tail, head, bw, conduit in LINKS
    ]
    return json.dumps(
        {"directed": True, "multigraph": False, "graph": {}, "nodes": [{"id": node} for node in NODES], kind: links}
    )


FORMATS = {
    "fly.graphml": graphml(),
    "fly.xml": graphml(),
    "fly.gml": gml(),
    "fly.dot": dot(),
    "fly.gv": dot(),
    "fly.json": node_link(),
    "edges.json": node_link("edges"),
}


def imported(path: Path, *words: object) -> str:
    """The text that is made of a graph."""
    done = run_tool("lif-import", path, *words, "-o", "-")
    assert done.returncode == 0, done.stderr
    return done.stdout


def read(text: str) -> Network:
    return read_network(text.encode())


def ends(network: Network) -> list[tuple[str, str, str]]:
    return [(link.name, network.nodes[link.tail], network.nodes[link.head]) for link in network.links]


def patterns(network: Network) -> dict[str, list[str]]:
    return {pattern.name: [network.links[link].name for link in pattern.links] for pattern in network.patterns[1:]}


def refused(path: Path, *words: object) -> str:
    """What is said of a graph that is refused, without its name. The sinks are t1 and t2 where no other is named."""
    sinks = () if "--sinks" in words else ("--sinks", "t1,t2")
    done = run_tool("lif-import", path, "--source", "s", *sinks, *words, "-o", "-")
    assert (done.returncode, done.stdout) == (1, "")
    assert done.stderr.startswith(f"lif-import: {path}: ") and done.stderr.count("\n") == 1
    return done.stderr.removeprefix(f"lif-import: {path}: ").removesuffix("\n")


@pytest.mark.parametrize("name", FORMATS)
def test_a_graph_of_each_format_is_read(tmp_path: Path, name: str) -> None:
    path = tmp_path / name
    path.write_text(FORMATS[name])
    words = ("--source", "s", "--sinks", "t1,t2", "--capacity", "bw", "--unit", 10, "--fail-by", "conduit")
    network = read(imported(path, *words))
    assert sorted(ends(network)) == sorted(
        [
            (f"{tail}-{head}{end}", tail, head)
            for tail, head, bw, _ in LINKS
            for end in ([".1", ".2"] if bw == 20 else [""])
        ]
    )
    assert {name: sorted(links) for name, links in patterns(network).items()} == {
        "east": ["a-c", "b-c", "s-a.1", "s-a.2"],
        "west": ["b-c", "s-b.1", "s-b.2"],
    }


def test_polska_is_the_example() -> None:
    words = ("--source", "Bydgoszcz", "--sinks", "Gdansk,Katowice,Szczecin", "--orient")
    assert imported(POLSKA, *words) == (EXAMPLES / "polska/polska.net").read_text()


def test_capacities_are_whole_units() -> None:
    words = (
        "--source",
        "New York",
        "--sinks",
        "Seattle,Los Angeles",
        "--orient",
        "--distance",
        "weight",
        "--capacity",
        "gbits",
    )
    text = imported(ABILENE, *words, "--unit", "2.5")
    assert (len(read(text).links), text.count(" Indianapolis Atlanta\n")) == (53, 1)
    text = imported(ABILENE, *words, "--unit", 10)
    assert '# left out: "Atlanta -- Indianapolis": its gbits is below the unit\n' in text.replace(
        "Indianapolis -- Atlanta", "Atlanta -- Indianapolis"
    )
    assert text.count("\nlink ") == 13
    assert len(read(imported(ABILENE, *words, "--unit", 3)).links) == 39


def test_links_lead_away_from_the_source(tmp_path: Path) -> None:
    path = tmp_path / "ring.dot"
    path.write_text("graph { s -- a; a -- b; s -- b; b -- t; t -- t; x -- y }")
    done = run_tool("lif-import", path, "--source", "s", "--sinks", "t", "--orient", "-o", tmp_path / "ring.net")
    assert done.stdout.splitlines()[4:] == [
        "left out t -- t: it leads to the node that it leaves",
        "left out x -- y: the source doesn't reach it",
    ]
    assert ends(read((tmp_path / "ring.net").read_text())) == [
        ("s-a", "s", "a"),
        ("s-b", "s", "b"),
        ("a-b", "a", "b"),
        ("b-t", "b", "t"),
    ]
    path.write_text("graph { a -- s [km=1]; a -- b [km=1]; s -- b [km=1.5]; b -- t [km=0.1] }")
    network = read(imported(path, "--source", "s", "--sinks", "t", "--orient", "--distance", "km"))
    assert ("a-b", "a", "b") in ends(network) and len(network.links) == 4


def test_a_directed_graph_loses_links_that_lead_back(tmp_path: Path) -> None:
    path = tmp_path / "both.dot"
    path.write_text("digraph { s -> a -> t; t -> a; a -> s }")
    assert refused(path, "--sinks", "t") == f"cycle s -> a -> s; {ORIENT}"
    text = imported(path, "--source", "s", "--sinks", "t", "--orient")
    assert text.count("it leads towards the source") == 2 and text.count("\nlink ") == 2


def test_names_are_made_valid_and_stay_apart(tmp_path: Path) -> None:
    names = ["s", "Zürich HB", "Zurich-HB", "Zurich/HB", "a" * 40, "a" * 41, "日本", "中国", "x", "t\n2", "none"]
    path = tmp_path / "names.json"
    path.write_text(
        json.dumps(
            {
                "directed": True,
                "nodes": [{"id": name} for name in names],
                "links": [{"source": "s", "target": name, "risk": "none", "id": "up/link"} for name in names[1:]],
            }
        )
    )
    text = imported(path, "--source", "s", "--sinks", "日本,t\n2", "--fail-by", "risk", "--link-name", "id")
    network = read(text)
    assert len(network.nodes) == len(names) and len({link.name for link in network.links}) == 10
    assert all(NAME.fullmatch(name.encode()) for name in network.nodes)
    for line in (
        '# node Zurich-HB is "Zürich HB"',
        '# node Zurich-HB.2 is "Zurich-HB"',
        '# node Zurich-HB.3 is "Zurich/HB"',
        '# node x is "日本"',
        '# node x.2 is "中国"',
        '# node x.3 is "x"',
        '# node t-2 is "t\\n2"',
        '# link up-link is "up/link"',
        '# link up-link.2 is "up/link"',
        '# pattern none.2 is "none"',
    ):
        assert line in text.splitlines()


def test_a_node_is_found_by_name_or_identifier(tmp_path: Path) -> None:
    path = tmp_path / "labels.gml"
    path.write_text(
        'graph [ directed 1 node [ id 1 label "A" ] node [ id 2 label "B" ] node [ id 3 label "B" ]\n'
        "edge [ source 1 target 2 ] edge [ source 2 target 3 ] ]"
    )
    assert ends(read(imported(path, "--source", "A", "--sinks", "2,3"))) == [("A-B", "A", "B"), ("B-B.2", "B", "B.2")]
    assert refused(path, "--source", "A", "--sinks", "B") == "several nodes have the name B; their identifiers are 2, 3"
    assert refused(path, "--source", "C") == "no node C; there are A, B, B"


def test_each_single_failure_is_a_pattern(tmp_path: Path) -> None:
    path = tmp_path / "fly.graphml"
    path.write_text(graphml().replace("east;west", "lone"))
    text = imported(
        path,
        "--source",
        "s",
        "--sinks",
        "t1,t2",
        "--fail-by",
        "conduit",
        "--fail-each",
        "--capacity",
        "bw",
        "--unit",
        10,
    )
    listed = patterns(read(text))
    # The link of the conduit `lone`, and that of `west`, fail by these patterns already.
    assert len(listed) == 3 + 9 - 2 and "fail-b-c" not in listed and "fail-s-b" not in listed
    assert listed["fail-s-a"] == ["s-a.1", "s-a.2"]


def lines_of(text: str, *kinds: str) -> list[str]:
    return [line for line in text.splitlines() if line.split(" ")[0] in kinds]


def test_each_link_fails_alone_by_one_line(tmp_path: Path) -> None:
    links: list[dict[str, object]] = [
        {"source": "s", "target": "a", "risk": "r", "bw": 1},
        {"source": "s", "target": "t", "risk": "r", "bw": 1},
        {"source": "a", "target": "t", "bw": 1},
    ]
    path, words = tmp_path / "a.json", ("--source", "s", "--sink", "t", "--fail-each")
    made_json(path, links)
    assert lines_of(imported(path, *words), "pattern", "fail-each") == ["fail-each"]
    text = imported(path, *words, "--fail-by", "risk")
    assert lines_of(text, "pattern", "fail-each") == ["pattern r s-a s-t", "fail-each"] and "# pattern" not in text
    listed = {"r": ["s-a", "s-t"], "s-a": ["s-a"], "s-t": ["s-t"], "a-t": ["a-t"]}
    assert patterns(read(text)) == listed
    # The text may want a rate, and the patterns are the same.
    text = imported(path, *words, "--fail-by", "risk", "--rate", 2, "--field", 8)
    assert (read(text).rate, patterns(read(text))) == (2, listed) and lines_of(text, "rate") == ["rate 2"]


def test_single_failures_are_listed_where_one_line_says_others(tmp_path: Path) -> None:
    links: list[dict[str, object]] = [
        {"source": "s", "target": "a", "risk": "r", "bw": 1},
        {"source": "s", "target": "t", "risk": "r", "bw": 1},
        {"source": "a", "target": "t", "bw": 1},
    ]
    path, words = tmp_path / "a.json", ("--source", "s", "--sink", "t", "--fail-each")

    def listed(*more: object, **changed: object) -> list[str]:
        made_json(path, [*links[:2], links[2] | changed])
        return lines_of(imported(path, *words, *more), "pattern", "fail-each")

    alone = ["pattern fail-s-a s-a", "pattern fail-s-t s-t", "pattern fail-a-t a-t"]
    # A link has parallels.
    assert listed("--capacity", "bw", "--unit", 1, bw=2) == alone
    # A risk has the name of a link, and one has a single link.
    assert listed("--fail-by", "risk", risk="s-t;r") == ["pattern r s-a s-t a-t", "pattern s-t a-t", *alone[:2]]
    assert listed("--fail-by", "risk", risk="q") == ["pattern r s-a s-t", "pattern q a-t", *alone[:2]]
    made_json(path, [{**link, "risk": "s-a"} for link in links])
    assert lines_of(imported(path, *words, "--fail-by", "risk"), "pattern") == ["pattern s-a s-a s-t a-t", *alone]
    # A link is named as the pattern without failures.
    made_json(path, [{**link, "risk": name} for link, name in zip(links, ("up", "none", "on"))])
    assert lines_of(imported(path, *words, "--link-name", "risk"), "pattern") == [
        "pattern fail-up up",
        "pattern fail-none none",
        "pattern fail-on on",
    ]
    # A failure is left out.
    made_json(path, [links[0], links[2]])
    assert lines_of(imported(path, *words, "--skip-cut"), "pattern", "fail-each") == []


def test_names_of_bundles_leave_room_and_stay_apart(tmp_path: Path) -> None:
    path = tmp_path / "a.json"
    named = [("a" * 40, 10), ("a" * 40, 100), ("b", 3), ("b.2", 1), ("b", 2), ("b.1", 2), ("b", 1), ("none", 12)]
    made_json(path, [{"source": "s", "target": "t", "name": name, "bw": bw} for name, bw in named])
    words = ("--source", "s", "--sink", "t", "--link-name", "name", "--capacity", "bw", "--unit", 1)
    text = imported(path, *words)
    assert lines_of(text, "link") == [
        f"link {29 * 'a'} s t x10",
        f"link {26 * 'a'}.2 s t x100",
        "link b s t x3",
        "link b.2.2 s t",
        "link b.4 s t x2",
        "link b.1.2 s t x2",
        "link b.5 s t",
        "link none s t x12",
    ]
    assert len(read(text).links) == sum(bw for _, bw in named)
    assert '# link b.4 is "b"' in text.splitlines()


def test_links_of_all_patterns_have_a_limit(tmp_path: Path) -> None:
    words = ("--source", "s", "--sink", "t", "--fail-by", "risk", "--capacity", "bw", "--unit", 1, "-o", "-")

    def made(risks: int) -> subprocess.CompletedProcess[str]:
        """Each risk has a bundle of 7900 links and a link of its own."""
        names = [f"r{number}" for number in range(risks)]
        links: list[dict[str, object]] = [{"source": "s", "target": "t", "risk": ";".join(names), "bw": 7900}]
        links += [{"source": "s", "target": "t", "risk": name, "bw": 1} for name in names]
        return run_tool("lif-import", made_json(tmp_path / "a.json", links), *words)

    assert len(read(made(265).stdout).patterns) == 266
    said = made(266).stderr
    assert f"{266 * 7901:,} links of listed patterns, of which there may be at most 2,097,152; demands 267: " in said


def test_what_the_field_allows_is_said_before(tmp_path: Path) -> None:
    path, net = tmp_path / "fan.json", tmp_path / "fan.net"

    def fan(sinks: int, count: int = 1) -> None:
        path.write_text(
            json.dumps(
                {
                    "directed": True,
                    "nodes": [{"id": f"t{sink}"} for sink in range(sinks)] + [{"id": "s"}],
                    "links": [{"source": "s", "target": f"t{sink}", "bw": count} for sink in range(sinks)],
                }
            )
        )

    def made(sinks: int, *words: object) -> subprocess.CompletedProcess[str]:
        names = ",".join(f"t{sink}" for sink in range(sinks))
        return run_tool("lif-import", path, "--source", "s", "--sinks", names, "--fail-each", *words, "-o", net)

    fan(15)
    assert "demands 240: sinks 15 times patterns 16 with none; field 8 serves at most 256\n" in made(15).stdout
    assert "rate 0: pattern s-t3 leaves no way to t3\n" in made(15).stdout
    assert "\nfield 8\n" in net.read_text() if made(15, "--field", 8).returncode == 0 else False
    fan(16)
    assert "demands 272: sinks 16 times patterns 17 with none; field 16 serves at most 65,536\n" in made(16).stdout
    assert made(16, "--field", 8).stderr == (
        f"lif-import: {path}: 272 demands, of which there may be at most 256; "
        "demands 272: sinks 16 times patterns 17 with none; field 8 serves at most 256\n"
    )
    fan(256)
    assert "65,792 demands, of which there may be at most 65,536" in made(256).stderr
    fan(4096)
    assert "4,097 nodes, of which there may be at most 4,096; 4,096 listed patterns, of which" in made(4096).stderr
    fan(2, 5000)
    assert made(2, "--capacity", "bw", "--unit", 1).stderr == (
        f"lif-import: {path}: 10,000 links; a network text has at most 8,192\n"
    )


@pytest.mark.parametrize(
    "name, content, said",
    [
        ("a.graphml", "<graphml>\n<graph>\n<node", "line 3: it isn't XML"),
        ("a.graphml", "<html/>", "it isn't GraphML"),
        ("a.gml", "graph [\n node [ id 0 label x y ]\n]", "line 2: it isn't GML"),
        ("a.gml", "graph [\n node [ id 0\n", "line 3: it isn't GML"),
        ("a.dot", "digraph {\n a -> b ]\n}", "line 2: it isn't DOT"),
        ("a.dot", "digraph {\n a -> b\n b ->\n}", "line 4: it isn't DOT: syntax error near '}'"),
        ("a.dot", "graph {\n a -- b\n} ]", "line 3: it isn't DOT: syntax error near ']'"),
        ("a.dot", "", "it isn't DOT: there is no graph"),
        ("a.json", '{\n"nodes": [\n}', "line 3: it isn't JSON"),
        ("a.json", "[]", "it isn't node-link JSON"),
        ("a.json", '{"nodes": [{"id": "s"}], "links": [{"source": "s"}]}', "link 0: its target null is no node"),
        (
            "a.json",
            '{"nodes": [{"id": "s"}], "links": [{"source": "s", "target": "u"}]}',
            'link 0: its target "u" is no node',
        ),
        ("a.json", b'{\n"\xff"}', "line 2: it isn't text in UTF-8"),
        ("a.gml", b'graph [\n label "\xff" ]', "line 2: it isn't text in UTF-8"),
        (
            "a.json",
            '{"directed": true, "nodes": [%s], "links": []}' % ", ".join('{"id": %d}' % node for node in range(30)),
            "no node s; there are 0, 1, 2, 3, 4, 5, 6, 7, 8, 9, 10, 11, 12, 13, 14, 15, 16, 17, 18, 19, ..",
        ),
    ],
)
def test_a_file_that_is_no_graph_is_refused(tmp_path: Path, name: str, content: str | bytes, said: str) -> None:
    path = tmp_path / name
    path.write_bytes(content if isinstance(content, bytes) else content.encode())
    assert refused(path).startswith(said)


@pytest.mark.parametrize(
    "links, words, said",
    [
        ("s -> t1", ("--sinks", "t1,t9"), "no node t9; there are s, t1"),
        ("s -> t1", ("--sinks", "s"), "node s is the source and a sink"),
        ("s -> t1", ("--sinks", "t1", "--sink", "t1"), "node t1 is a sink twice"),
        ("s -> t1", ("--sinks", "t1,t1"), "node t1 is a sink twice"),
        ("s -> t1; t2 -> t1", (), "no way leads from s to the sink t2"),
        ("s -> t1 -> t1 -> t2", (), f"cycle t1 -> t1; {ORIENT}"),
        (
            "s -> t1; t1 -> t2 [bw=1]",
            ("--capacity", "bw", "--unit", "1"),
            "link s -> t1 has no attribute bw; a number is needed",
        ),
        (
            "s -> t1 -> t2 [bw=fast]",
            ("--capacity", "bw", "--unit", "1"),
            "link s -> t1 has 'fast' as its bw; a number is needed",
        ),
        ("s -> t1 -> t2 [bw=-1]", ("--capacity", "bw", "--unit", "1"), "link s -> t1 has bw -1, below 0"),
        ("s -> t1 -> t2 [bw=1]", ("--capacity", "bw", "--unit", "2"), "no way leads from s to the sink t1"),
    ],
)
def test_a_graph_is_refused_by_its_node_or_link(tmp_path: Path, links: str, words: tuple[str, ...], said: str) -> None:
    path = tmp_path / "a.dot"
    path.write_text(f"digraph {{ {links} }}")
    assert refused(path, *words) == said


def test_an_undirected_graph_needs_orient(tmp_path: Path) -> None:
    path = tmp_path / "a.dot"
    path.write_text("graph { s -- t1 -- t2 }")
    assert refused(path) == "its links have no direction; --orient leads them away from the source"


def test_the_graph_is_never_written_over(tmp_path: Path) -> None:
    path = tmp_path / "a.dot"
    path.write_text("digraph { s -> t1 }")
    done = run_tool("lif-import", path, "--source", "s", "--sinks", "t1", "-o", path)
    assert (done.returncode, done.stderr) == (1, f"lif-import: {path}: it is read, and isn't written over\n")
    done = run_tool("lif-import", path, "--source", "s", "--sinks", "t1", "-o", tmp_path / "no/a.net")
    assert (done.returncode, done.stderr) == (1, f"lif-import: {tmp_path}/no/a.net: No such file or directory\n")


def made_json(path: Path, links: list[dict[str, object]], **more: object) -> Path:
    """A file of links and of the nodes that they have."""
    nodes = dict.fromkeys(str(link[end]) for link in links for end in ("source", "target"))
    path.write_text(json.dumps({"directed": True, "nodes": [{"id": node} for node in nodes], "links": links, **more}))
    return path


def test_an_attribute_that_is_named_must_be_there(tmp_path: Path) -> None:
    path = tmp_path / "fly.gml"
    path.write_text(gml())
    unit = ("--unit", "1")
    for words, said in (
        (("--fail-by", "condut"), "no link has an attribute condut; the nearest is conduit"),
        (("--link-name", "conduits"), "no link has an attribute conduits; the nearest is conduit"),
        (("--name", "lable"), "no node has an attribute lable; the nearest is label"),
        (("--capacity", "wb", *unit), "no link has an attribute wb; the nearest is bw"),
        (("--capacity", "wb", *unit, "--default", "5"), "no link has an attribute wb; the nearest is bw"),
        (("--orient", "--distance", "kilometres"), "no link has an attribute kilometres; there are bw, conduit"),
        (("--fail-by", "label"), "no link has an attribute label; there are bw, conduit"),
    ):
        assert refused(path, *words) == said
    for name in ("fly.dot", "fly.graphml", "fly.json"):
        (tmp_path / name).write_text(FORMATS[name])
        assert refused(tmp_path / name, "--fail-by", "condut") == "no link has an attribute condut; the nearest is conduit"
        assert refused(tmp_path / name, "--name", "x").startswith("no node has an attribute x")
    path = made_json(tmp_path / "a.json", [{"source": "s", "target": "t1", "risk": []}, {"source": "s", "target": "t2"}])
    assert refused(path, "--fail-by", "risk") == "no link has an attribute risk; the nearest is risk"


def test_what_lacks_an_attribute_is_counted(tmp_path: Path) -> None:
    path = tmp_path / "a.dot"
    path.write_text('digraph { a [city=A]; s -> a [km=1 duct=""]; a -> t [duct=x name=up]; s -> t [duct=y km=2] }')
    net = tmp_path / "a.net"

    def said(*words: str) -> list[str]:
        done = run_tool("lif-import", path, "--source", "s", "--sink", "t", *words, "-o", net)
        assert (done.returncode, done.stderr) == (0, "")
        return [line for line in done.stdout.splitlines() if " of " in line]

    assert said() == []
    assert said("--fail-by", "duct", "--name", "city", "--link-name", "name") == [
        "2 of 3 nodes have no city",
        "2 of 3 links have no name",
        "1 of 3 links have no duct",
    ]
    assert "link up A t\n" in net.read_text() and "link s-A s A\n" in net.read_text()
    assert said("--capacity", "km", "--unit", "0.5", "--default", "1.5") == ["1 of 3 links have no km, and get 3/2"]
    assert lines_of(net.read_text(), "link") == ["link a-t a t x3", "link s-a s a x2", "link s-t s t x4"]
    assert refused(path, "--sinks", "t", "--capacity", "km", "--unit", "1").startswith("link a -> t has no attribute km")
    assert refused(path, "--sinks", "t", "--orient", "--distance", "km").startswith("link a -> t has no attribute km")


def test_sinks_may_have_commas_in_their_names(tmp_path: Path) -> None:
    names = ["Paris, France", 'the "hub"', "a:b", "Köln", "东京"]
    path = made_json(tmp_path / "a.json", [{"source": "s", "target": name} for name in names])
    words = ("--sink", names[0], "--sinks", "Köln,东京", "--sink", names[1], "--sink", names[2])
    network = read(imported(path, "--source", "s", *words))
    assert [network.nodes[sink] for sink in network.sinks] == ["Paris-France", "Koln", "x", "the-hub", "a-b"]
    assert refused(path, "--sinks", names[0]).startswith("no node Paris; there are s, Paris, France")


STUB: list[dict[str, object]] = [
    {"source": "s", "target": "a", "risk": "r"},
    {"source": "s", "target": "b", "risk": "r"},
    {"source": "a", "target": "b"},
    {"source": "b", "target": "t"},
    {"source": "a", "target": "u"},
    {"source": "b", "target": "u"},
]


def test_failures_that_part_a_sink_can_be_left_out(tmp_path: Path) -> None:
    path, net = made_json(tmp_path / "a.json", STUB), tmp_path / "a.net"
    words = (path, "--source", "s", "--sinks", "t,u", "--fail-by", "risk", "--fail-each")
    done = run_tool("lif-import", *words, "-o", net)
    advice = "at rate 0 lif compile makes no code; --skip-cut leaves such single failures out"
    cut = ["rate 0: pattern r leaves no way to t, u", "rate 0: pattern b-t leaves no way to t"]
    assert done.stdout.splitlines()[4:] == ["4 of 6 links have no risk", *cut, advice]
    assert len(patterns(read(net.read_text()))) == 7
    done = run_tool("lif-import", *words, "--skip-cut", "-o", net)
    skipped = "the failure of b -> t: it leaves no way to t"
    assert done.stdout.splitlines()[4:] == ["4 of 6 links have no risk", f"left out {skipped}", cut[0]]
    text = net.read_text()
    assert '# left out: the failure of "b -> t": it leaves no way to t\n' in text
    assert sorted(patterns(read(text))) == ["fail-a-b", "fail-a-u", "fail-b-u", "fail-s-a", "fail-s-b", "r"]
    # The same is said where the text goes to standard output.
    told = run_tool("lif-import", *words, "--skip-cut", "-o", "-")
    assert told.stdout == text
    assert told.stderr == "".join(f"lif-import: {line}\n" for line in done.stdout.splitlines())


def test_each_failure_that_parts_a_sink_is_found(tmp_path: Path) -> None:
    """By taking each link out of a network of networkx."""
    networkx = pytest.importorskip("networkx")
    graph = networkx.gnp_random_graph(40, 0.06, seed=5, directed=True)
    graph = networkx.DiGraph((tail, head) for tail, head in graph.edges() if tail < head)
    path, sinks = tmp_path / "a.graphml", [node for node in sorted(networkx.descendants(graph, 2)) if node > 20]
    networkx.write_graphml(graph, path)
    words = ("--source", 2, "--sinks", ",".join(map(str, sinks)), "--fail-each")
    expected = set()
    for tail, head in graph.edges():
        left = graph.copy()
        left.remove_edge(tail, head)
        lost = [str(sink) for sink in sinks if sink not in networkx.descendants(left, 2)]
        if lost:
            expected.add(f"rate 0: pattern {tail}-{head} leaves no way to {', '.join(lost)}")
    done = run_tool("lif-import", path, *words, "-o", tmp_path / "a.net")
    assert {line for line in done.stdout.splitlines() if line.startswith("rate 0")} == expected
    assert len(sinks) > 5 and 3 < len(expected) < graph.number_of_edges()


def test_directed_links_between_nodes_as_far_are_led_by_what_they_need(tmp_path: Path) -> None:
    path = tmp_path / "a.dot"
    path.write_text("digraph { s -> a; s -> b; s -> c; c -> b; b -> a; a -> c; a -> t; c -> t; t -> s }")
    done = run_tool("lif-import", path, "--source", "s", "--sinks", "t", "--orient", "-o", tmp_path / "a.net")
    assert done.stdout.splitlines()[4:] == [
        "left out a -> c: it would close a cycle",
        "left out t -> s: it leads towards the source",
    ]
    text = imported(path, "--source", "s", "--sinks", "t", "--orient=flow")
    assert text.count(": it leads against the order of the nodes\n") == 2 and text.count("\nlink ") == 7


def test_orient_by_flow_says_what_is_left(tmp_path: Path) -> None:
    """The sink t gets two symbols only where a sends one on to b, which is as far."""
    path = tmp_path / "a.dot"
    path.write_text("graph { s -- b; s -- a; b -- a; a -- t; a -- t }")
    net = tmp_path / "a.net"
    for how, last in (("--orient", []), ("--orient=flow", ["rate 2, at most 2 by any order of the nodes", "flow to t 2"])):
        done = run_tool("lif-import", path, "--source", "s", "--sinks", "t", how, "-o", net)
        assert [line.split(", at most 2 with")[0] for line in done.stdout.splitlines()[4:]] == last
        assert done.returncode == 0 and net.read_text().count("\nlink ") == 5
    path.write_text("graph { s -- a; s -- b; a -- b; b -- c; a -- d; c -- d }")
    done = run_tool("lif-import", path, "--source", "s", "--sinks", "a,b", "--orient=flow", "-o", net)
    assert done.stdout.splitlines()[4:] == [
        "rate 1, at most 1 by any order of the nodes",
        "flow to a 1, at most 2 with links in both directions",
        "flow to b 2, at most 2 with links in both directions",
    ]


@pytest.mark.parametrize(
    "words",
    [
        (),
        ("a.dot",),
        ("a.dot", "--source", "s", "--sinks", "t"),
        ("a.txt", "--source", "s", "--sinks", "t", "-o", "-"),
        ("a.dot", "--source", "s", "--sinks", "t", "-o", "-", "--capacity", "bw"),
        ("a.dot", "--source", "s", "--sinks", "t", "-o", "-", "--capacity", "bw", "--unit", "0"),
        ("a.dot", "--source", "s", "--sinks", "t", "-o", "-", "--distance", "km"),
        ("a.dot", "--source", "s", "--sinks", "t", "-o", "-", "--distance", "km", "--orient=flow"),
        ("a.dot", "--source", "s", "--sinks", "t", "-o", "-", "--orient=best"),
        ("a.dot", "--source", "s", "--sinks", "t", "-o", "-", "--default", "1"),
        ("a.dot", "--source", "s", "--sinks", "t", "-o", "-", "--skip-cut"),
        ("a.dot", "--source", "s", "-o", "-"),
        ("a.dot", "--source", "s", "--sinks", "t", "-o", "-", "--field", "9"),
        ("--wrong",),
    ],
)
def test_words_that_are_no_form_end_with_2(words: tuple[str, ...]) -> None:
    done = run_tool("lif-import", *words)
    assert done.returncode == 2 and done.stderr.startswith("usage: lif-import") and "Traceback" not in done.stderr


def test_packages_that_are_missing_are_named() -> None:
    assert "Makes a network text" in without_packages("lif-import", "--help").stdout
    done = without_packages("lif-import", POLSKA, "--source", "a", "--sinks", "b", "-o", "-")
    assert done.returncode == 1 and done.stderr.endswith("on Debian: apt-get install python3-networkx\n")
    assert done.stderr.startswith("lif-import: there is no Python module networkx")


def test_the_program_reads_what_is_made(program: Program, tmp_path: Path) -> None:
    words = (
        "--source",
        "New York",
        "--sinks",
        "Seattle,Los Angeles",
        "--orient",
        "--distance",
        "weight",
        "--fail-each",
    )
    path = tmp_path / "abilene.net"
    path.write_text(imported(ABILENE, *words, "--capacity", "gbits", "--unit", "2.5"))
    assert program("order", path).returncode == 0
    said = program("cuts", path).stdout
    assert said.startswith("rate 0\n") and "demand Seattle none cut 4\n" in said


def test_names_never_break_a_line(tmp_path: Path) -> None:
    path = tmp_path / "a\nlink.json"
    links = [{"source": "s", "target": "t\n\x1b[1m"}, {"source": "t\n\x1b[1m", "target": "t\n\x1b[1m"}]
    path.write_text(json.dumps({"directed": True, "nodes": [{"id": "s"}, {"id": "t\n\x1b[1m"}], "links": links}))
    done = run_tool("lif-import", path, "--source", "s", "--sinks", "t\n\x1b[1m", "-o", tmp_path / "one.net")
    assert done.stderr == f"lif-import: {tmp_path}/a\\nlink.json: cycle t\\n\\x1b[1m -> t\\n\\x1b[1m; {ORIENT}\n"
    done = run_tool(
        "lif-import", path, "--source", "s", "--sinks", "t\n\x1b[1m", "--orient", "-o", tmp_path / "one.net"
    )
    assert done.stdout.splitlines()[4] == "left out t\\n\\x1b[1m -> t\\n\\x1b[1m: it leads to the node that it leaves"
    assert len(read((tmp_path / "one.net").read_text()).links) == 1


def test_what_failures_part_is_what_a_search_without_them_finds() -> None:
    chance = random.Random(6)
    parted = 0
    for _ in range(400):
        nodes = chance.randrange(3, 9)
        ends = [tuple(chance.choices(range(nodes), k=2)) for _ in range(chance.randrange(2, 18))]
        edges = [Edge(tail, head, {}) for tail, head in ends]
        sinks = chance.sample(range(1, nodes), 2)
        reach = Reach(edges, 0, sinks)
        for size in (1, 2, 3):
            failed = tuple(chance.sample(range(len(ends)), min(size, len(ends))))
            ways: dict[int, list[int]] = {}
            for place, (tail, head) in enumerate(ends):
                if place not in failed:
                    ways.setdefault(tail, []).append(head)
            before = reachable([0], {tail: [head for one, head in ends if one == tail] for tail, _ in ends})
            after = reachable([0], ways)
            assert reach.parted(failed) == tuple(sink for sink in sinks if sink in before and sink not in after)
            parted += bool(reach.parted(failed))
    assert parted > 100
