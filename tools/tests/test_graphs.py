"""Files of graphs: what networkx's generators make, in each format, and files that say more than one plain graph."""
from __future__ import annotations

import json
import time
from collections import Counter
from pathlib import Path
from typing import Any, Callable

import pytest

from support import run_tool
from lif_tools.common import ToolError
from lif_tools.graphfiles import FORMATS, read_graph
from lif_tools.graphs import Graph

networkx = pytest.importorskip("networkx")

WRITERS: dict[str, Callable[[Any, Path], Any]] = {
    "a.graphml": networkx.write_graphml,
    "a.gml": networkx.write_gml,
    "a.dot": networkx.nx_agraph.write_dot,
    "a.json": lambda graph, path: path.write_text(json.dumps(networkx.node_link_data(graph))),
}

# Names that are hard on one format or another.
NAMES = ["Zürich HB", "Paris, France", 'the "hub"', "a:b:c", "東京", "a\\b", "<b>&amp;</b>", "{x}", "x;y", "0", "it's"]


def generated() -> dict[str, Any]:
    """Graphs of networkx's generators, some with parallel links, one with all hard names."""
    star = networkx.MultiDiGraph([(NAMES[0], name) for name in NAMES[1:]])
    star.add_edge(NAMES[0], NAMES[1])
    chance = networkx.gnm_random_graph(30, 70, seed=1)
    return {
        "karate": networkx.Graph(networkx.karate_club_graph().edges()),
        "internet": networkx.Graph(networkx.random_internet_as_graph(60, seed=1).edges()),
        "directed": networkx.DiGraph((tail, head) for tail, head in chance.edges()),
        "parallel": networkx.MultiGraph([*chance.edges(), *list(chance.edges())[:9]]),
        "both ways": networkx.MultiDiGraph([*chance.edges(), *[(head, tail) for tail, head in list(chance.edges())[:9]]]),
        "loops": networkx.MultiDiGraph([(0, 1), (1, 1), (1, 1), (1, 2)]),
        "names": star,
    }


def links(graph: Graph) -> Counter[tuple[str, ...]]:
    """The links by the names of their ends; of an undirected graph without an order."""
    pairs = ((graph.names[edge.tail], graph.names[edge.head]) for edge in graph.edges)
    return Counter(pair if graph.directed else tuple(sorted(pair)) for pair in pairs)


def links_of(graph: Any) -> Counter[tuple[str, ...]]:
    pairs = ((str(tail), str(head)) for tail, head in graph.edges())
    return Counter(pair if graph.is_directed() else tuple(sorted(pair)) for pair in pairs)


@pytest.mark.parametrize("name", generated())
@pytest.mark.parametrize("file", WRITERS)
def test_what_networkx_writes_is_read_whole(tmp_path: Path, file: str, name: str) -> None:
    graph, path = generated()[name], tmp_path / file
    networkx.set_edge_attributes(graph, {edge: str(number) for number, edge in enumerate(graph.edges)}, "bw")
    WRITERS[file](graph, path)
    read = read_graph(str(path), FORMATS[path.suffix], None)
    assert read.directed == graph.is_directed() and Counter(read.names) == Counter(map(str, graph))
    assert links(read) == links_of(graph)
    numbers = [str(edge.values["bw"]) for edge in read.edges]
    assert sorted(numbers, key=int) == [str(number) for number in range(graph.number_of_edges())]


@pytest.mark.parametrize("file", WRITERS)
def test_hard_names_become_a_network(tmp_path: Path, file: str) -> None:
    path = tmp_path / file
    WRITERS[file](generated()["names"], path)
    words = [word for name in NAMES[1:] for word in ("--sink", name)]
    done = run_tool("lif-import", path, "--source", NAMES[0], *words, "-o", tmp_path / "a.net")
    assert (done.returncode, done.stderr) == (0, "")
    assert "links 11, at most 8,192" in done.stdout
    assert '# node Zurich-HB is "Zürich HB"\n' in (tmp_path / "a.net").read_text()


def graphml(inner: str, more: str = "", default: str = "directed") -> str:
    return f'<graphml>{more}<graph id="G" edgedefault="{default}">{inner}</graph></graphml>'


NESTED = """<node id="s"/><node id="box"><data key="n">Box</data><graph edgedefault="directed">
<node id="a"/><node id="inner"><graph edgedefault="directed"><node id="b"/><edge source="a" target="b"/></graph></node>
<edge source="s" target="a"/></graph></node><node id="t"/><edge source="b" target="t"/><edge source="s" target="box"/>"""


def read(path: Path, text: str | bytes) -> Graph:
    path.write_bytes(text if isinstance(text, bytes) else text.encode())
    return read_graph(str(path), FORMATS[path.suffix], None)


def test_graphs_in_nodes_are_read_whole(tmp_path: Path) -> None:
    key = '<key id="n" for="node" attr.name="label" attr.type="string"><default>none</default></key>'
    graph = read(tmp_path / "a.graphml", graphml(NESTED, key))
    assert sorted(graph.names) == ["a", "b", "box", "inner", "s", "t"]
    assert sorted(links(graph)) == [("a", "b"), ("b", "t"), ("s", "a"), ("s", "box")]
    assert {node.identifier: node.values["label"] for node in graph.nodes}["box"] == "Box"
    assert {node.identifier: node.values["label"] for node in graph.nodes}["a"] == "none"


YED = """<graphml xmlns="http://graphml.graphdrawing.org/xmlns" xmlns:y="http://www.yworks.com/xml/graphml">
<key for="node" id="d6" yfiles.type="nodegraphics"/>
<key attr.name="bw" attr.type="int" for="edge" id="d11"><default>5</default></key>
<graph edgedefault="directed" id="G">
<node id="n0"><data key="d6"><y:ShapeNode><y:NodeLabel>Head End</y:NodeLabel></y:ShapeNode></data></node>
<node id="n1" yfiles.foldertype="group"><data key="d6"><y:ProxyAutoBoundsNode/></data>
<graph edgedefault="directed" id="n1:"><node id="n1::n0"><port name="p"/></node><node id="n1::n1"/>
<edge source="n1::n0" target="n1::n1"/></graph></node>
<edge source="n0" target="n1::n0" targetport="p"><data key="d11">10</data></edge></graph></graphml>"""


def test_groups_of_yed_are_read_whole(tmp_path: Path) -> None:
    graph = read(tmp_path / "a.graphml", YED)
    assert graph.names == ("n0", "n1", "n1::n0", "n1::n1") and graph.nodes[0].values == {"label": "Head End"}
    assert {pair: edge.values["bw"] for pair, edge in zip(links(graph), graph.edges)} == {
        ("n0", "n1::n0"): 10,
        ("n1::n0", "n1::n1"): 5,
    }


def test_parallel_links_are_read_whole(tmp_path: Path) -> None:
    nodes = 'node [ id 0 label "s" ] node [ id 1 label "t" ]'
    edges = "edge [ source 0 target 1 bw 1 ] edge [ source 0 target 1 bw 2 ] edge [ source 1 target 0 ]"
    for head in ("", "multigraph 1", "multigraph 0", "# a comment on the graph [\n"):
        text = f'Creator "a graph [ of mine" # graph [\ngraph [ {head} {nodes} {edges} ]'
        graph = read(tmp_path / "a.gml", text)
        assert links(graph) == {("s", "t"): 3} and not graph.directed
        assert [edge.values.get("bw") for edge in graph.edges] == [1, 2, None]
    data: dict[str, object] = {"nodes": [{"id": "s"}, {"id": "t"}], "links": [{"source": "s", "target": "t", "key": 0}] * 2}
    assert links(read(tmp_path / "a.json", json.dumps({**data, "multigraph": False}))) == {("s", "t"): 2}
    assert links(read(tmp_path / "a.json", json.dumps(data))) == {("s", "t"): 2}
    edge = '<edge source="s" target="t"/>'
    assert links(read(tmp_path / "a.graphml", graphml(f'<node id="s"/><node id="t"/>{edge * 3}'))) == {("s", "t"): 3}


TWO = '<node id="s"/><node id="t"/>'


@pytest.mark.parametrize(
    "name, text, said",
    [
        (
            "a.graphml",
            graphml("").replace("</graphml>", "<graph/></graphml>"),
            "there are 2 graphs: G, one without an id; one is needed",
        ),
        ("a.graphml", "<graphml/>", "it isn't GraphML: there is no graph"),
        ("a.graphml", graphml(TWO + '<node id="s"/>'), "node s stands twice"),
        ("a.graphml", graphml(NESTED.replace('"b"/><', '"s"/><', 1)), "node s stands twice"),
        ("a.graphml", graphml(TWO + '<edge source="s" target="u"/>'), 'link 0: its target "u" is no node'),
        ("a.graphml", graphml(TWO + '<edge source="s"/>'), "link 0: its target null is no node"),
        (
            "a.graphml",
            graphml(TWO + '<edge id="e" source="s" target="t"/>' * 2),
            "two links between the same nodes have one id",
        ),
        ("a.graphml", graphml(TWO + "<hyperedge/>"), "it isn't GraphML: GraphML reader doesn't support hyperedges"),
        (
            "a.graphml",
            graphml(TWO + '<node id="x"><graph edgedefault="undirected"><edge source="s" target="t"/></graph></node>'),
            "it isn't GraphML: directed=false edge found in directed graph",
        ),
        ("a.gml", "graph [ node [ id 0 ] ] graph [ node [ id 0 ] ]", "it isn't GML: input contains more than one graph"),
        ("a.gml", "graph [ node [ id 0 ] edge [ source 0 target 1 ] ]", "it isn't GML: edge #0 has undefined target 1"),
        ("a.gml", "graph [ node [ id 0 ] node [ id 0 ] ]", "it isn't GML: node id 0 is duplicated"),
        ("a.json", '{"nodes": [{"id": "s"}, {"id": "s"}], "links": []}', 'node "s" stands twice'),
        ("a.json", "[" * 100000, "it isn't node-link JSON: its lists are too deep"),
    ],
)
def test_what_is_not_one_graph_is_refused(tmp_path: Path, name: str, text: str, said: str) -> None:
    path = tmp_path / name
    with pytest.raises(ToolError) as refused:
        read(path, text)
    assert str(refused.value).startswith(f"{path}: {said}")


@pytest.mark.parametrize(
    "depth, said",
    [(9, "line 14: it isn't XML: limit on input amplification"), (1, "it isn't GraphML: there is no graph")],
)
def test_a_bomb_of_xml_is_refused_at_once(tmp_path: Path, depth: int, said: str) -> None:
    """Entities of entities, which would be 10^9 words, and one that is long and stands often."""
    word = "lol" if depth > 1 else "lol" * 10000
    entities = [f'<!ENTITY e0 "{word}">'] + [f'<!ENTITY e{n} "{f"&e{n - 1};" * 10}">' for n in range(1, depth + 1)]
    text = "<?xml version='1.0'?>\n<!DOCTYPE graphml [\n{}\n]>\n<graphml>&e{};</graphml>".format("\n".join(entities), depth)
    begin = time.process_time()
    with pytest.raises(ToolError) as refused:
        read(tmp_path / "a.graphml", text)
    assert str(refused.value).startswith(f"{tmp_path}/a.graphml: {said}")
    assert time.process_time() - begin < 5


def test_8000_links_are_read_in_seconds(tmp_path: Path) -> None:
    graph = networkx.gnm_random_graph(4000, 8000, seed=1)
    lines = [f'  "n{tail}" -- "n{head}" [bw={tail % 9 + 1} duct="d{head % 40}"];' for tail, head in graph.edges()]
    path = tmp_path / "a.dot"
    path.write_text("graph {\n" + "\n".join(lines) + "\n}\n")
    begin = time.process_time()
    assert links(read_graph(str(path), "dot", None)) == Counter(tuple(sorted((f"n{a}", f"n{b}"))) for a, b in graph.edges())
    assert time.process_time() - begin < 4
