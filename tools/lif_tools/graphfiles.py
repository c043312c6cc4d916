"""Files of graphs: GraphML, GML, DOT and node-link JSON. A graph is read whole, or refused with the reason."""
from __future__ import annotations

import io
import json
import re
import warnings
from typing import Any
from xml.etree import ElementTree

from lif_tools.common import ToolError, module, read_bytes
from lif_tools.dot import read_dot
from lif_tools.graphs import Edge, Graph, Node, named

# The format of a file, by the end of its name.
FORMATS = {".graphml": "graphml", ".xml": "graphml", ".gml": "gml", ".dot": "dot", ".gv": "dot", ".json": "json"}

GRAPHML = "{http://graphml.graphdrawing.org/xmlns}"

Parts = tuple[bool, list[Node], list[Edge]]


def read_graph(path: str, kind: str, name: str | None) -> Graph:
    """The graph of a file. A node's name is the attribute asked for, or else in GML its label, or else its identifier."""
    content = read_bytes(path)
    readers = {"graphml": read_graphml, "gml": read_gml, "dot": read_dot, "json": read_json}
    directed, nodes, edges = readers[kind](path, content)
    return named(path, directed, nodes, edges, "label" if name is None and kind == "gml" else name)


def decoded(path: str, content: bytes) -> str:
    """The text of a file in UTF-8."""
    try:
        return content.decode("utf-8-sig")
    except UnicodeDecodeError as error:
        line = content.count(b"\n", 0, error.start) + 1
        raise ToolError(f"{path}: line {line}: it isn't text in UTF-8") from None


def one_line(error: Exception) -> str:
    """What an error says, in a line."""
    return " ".join(str(error).split()) or type(error).__name__


def parts_of(made: Any) -> Parts:
    """What a graph of networkx holds; attributes that it gives to all nodes or links are given to each."""
    places = {node: place for place, node in enumerate(made)}
    of_nodes, of_edges = made.graph.get("node_default", {}), made.graph.get("edge_default", {})
    nodes = [Node(str(node), {**of_nodes, **values}) for node, values in made.nodes(data=True)]
    edges = [Edge(places[tail], places[head], {**of_edges, **values}) for tail, head, values in made.edges(data=True)]
    return made.is_directed(), nodes, edges


# GraphML


def read_graphml(path: str, content: bytes) -> Parts:
    networkx = module("networkx", "python3-networkx")
    try:
        root = ElementTree.fromstring(content)
    except ElementTree.ParseError as error:
        raise ToolError(f"{path}: line {error.position[0]}: it isn't XML: {error}") from None
    links = flatten(path, root)
    try:
        with warnings.catch_warnings():
            warnings.simplefilter("ignore")
            made = networkx.read_graphml(io.BytesIO(ElementTree.tostring(root)), force_multigraph=True)
    except Exception as error:  # Whatever the reader raises.
        raise ToolError(f"{path}: it isn't GraphML: {one_line(error)}") from None
    if made.number_of_edges() != links:
        raise ToolError(f"{path}: two links between the same nodes have one id")
    return parts_of(made)


def flatten(path: str, root: ElementTree.Element) -> int:
    """Gives the nodes and links of graphs in nodes and links to the one graph that isn't in any; how many links there are."""
    for item in root.iter():
        if isinstance(item.tag, str) and not item.tag.startswith("{"):
            item.tag = GRAPHML + item.tag
    graphs = root.findall(f"{GRAPHML}graph")
    if root.tag != f"{GRAPHML}graphml" or not graphs:
        raise ToolError(f"{path}: it isn't GraphML: there is no graph")
    if len(graphs) > 1:
        names = ", ".join(graph.get("id", "one without an id") for graph in graphs)
        raise ToolError(f"{path}: there are {len(graphs)} graphs: {names}; one is needed")
    whole = graphs[0]
    for holder in [item for item in whole.iter() if item.tag in (f"{GRAPHML}node", f"{GRAPHML}edge")]:
        # Where yEd has a group, networkx would look for its graph.
        holder.attrib.pop("yfiles.foldertype", None)
        for inner in holder.findall(f"{GRAPHML}graph"):
            holder.remove(inner)
            default = "true" if inner.get("edgedefault") == "directed" else "false"
            for part in inner:
                if part.tag == f"{GRAPHML}edge":
                    part.attrib.setdefault("directed", default)
                if part.tag != f"{GRAPHML}data":
                    whole.append(part)
    return refuse_ends(path, whole)


def refuse_ends(path: str, graph: ElementTree.Element) -> int:
    """Refuses a node that stands twice, and a link that has no end or leads to no node; how many links there are."""
    known: set[str | None] = set()
    for node in graph.findall(f"{GRAPHML}node"):
        if node.get("id") in known:
            raise ToolError(f"{path}: node {node.get('id')} stands twice")
        known.add(node.get("id"))
    links = graph.findall(f"{GRAPHML}edge")
    for place, link in enumerate(links):
        for end in ("source", "target"):
            if link.get(end) not in known:
                raise ToolError(f"{path}: link {place}: its {end} {json.dumps(link.get(end))} is no node")
    return len(links)


# GML


def read_gml(path: str, content: bytes) -> Parts:
    networkx = module("networkx", "python3-networkx")
    text = decoded(path, content)
    try:
        return parts_of(networkx.parse_gml(with_parallel_links(text), label="id"))
    except Exception as error:  # Whatever the reader raises.
        place = re.search(r"\((\d+), \d+\)", str(error))
        line = f"line {place[1]}: " if place else ""
        raise ToolError(f"{path}: {line}it isn't GML: {one_line(error)}") from None


def with_parallel_links(text: str) -> str:
    """A text of GML that says that its graph may have parallel links, on the line where the graph begins."""
    for found in re.finditer(r'"[^"]*"|#.*|\bgraph\s*\[', text):
        if found[0].startswith("graph"):
            return f"{text[:found.end()]} multigraph 1 {text[found.end():]}"
    return text


# Node-link JSON


def read_json(path: str, content: bytes) -> Parts:
    try:
        data = json.loads(decoded(path, content))
    except json.JSONDecodeError as error:
        raise ToolError(f"{path}: line {error.lineno}: it isn't JSON: {error.msg}") from None
    except RecursionError:
        raise ToolError(f"{path}: it isn't node-link JSON: its lists are too deep") from None
    links = "links" if isinstance(data, dict) and "links" in data else "edges"
    if not isinstance(data, dict) or not all(
        isinstance(data.get(kind), list) and all(isinstance(one, dict) for one in data[kind])
        for kind in ("nodes", links)
    ):
        raise ToolError(f"{path}: it isn't node-link JSON: it needs the lists `nodes` and `links` of objects")
    places: dict[str, int] = {}
    nodes: list[Node] = []
    for place, node in enumerate(data["nodes"]):
        identifier = node.get("id", place)
        if places.setdefault(json.dumps(identifier), place) != place:
            raise ToolError(f"{path}: node {json.dumps(identifier)} stands twice")
        nodes.append(Node(str(tuples(identifier)), {name: value for name, value in node.items() if name != "id"}))
    return bool(data.get("directed")), nodes, [edge_of(path, number, link, places) for number, link in enumerate(data[links])]


def tuples(identifier: Any) -> Any:
    """An identifier as networkx has it, in which a list is a tuple."""
    return tuple(map(tuples, identifier)) if isinstance(identifier, list) else identifier


def edge_of(path: str, number: int, link: dict[str, Any], places: dict[str, int]) -> Edge:
    """A link, which leads from one node to another."""
    ends = []
    for end in ("source", "target"):
        identifier = json.dumps(link.get(end))
        if identifier not in places:
            raise ToolError(f"{path}: link {number}: its {end} {identifier} is no node")
        ends.append(places[identifier])
    return Edge(ends[0], ends[1], {name: value for name, value in link.items() if name not in ("source", "target")})
