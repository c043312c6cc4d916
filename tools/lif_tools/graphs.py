"""Graphs as tools take them, whatever file they come from: nodes and links with their attributes."""
from __future__ import annotations

import difflib
import functools
import re
from dataclasses import dataclass
from fractions import Fraction
from typing import Any, Mapping, Sequence

from lif_tools.common import ToolError, listed

Values = Mapping[str, Any]


@dataclass(frozen=True)
class Node:
    """A node of the graph, by its identifier, with its attributes."""

    identifier: str
    values: Values


@dataclass(frozen=True)
class Edge:
    """A link of the graph, by the places of its nodes, with its attributes."""

    tail: int
    head: int
    values: Values

    def turned(self) -> Edge:
        """The same link led the other way."""
        return Edge(self.head, self.tail, self.values)


@dataclass(frozen=True)
class Graph:
    """A graph, with the name of each node."""

    path: str
    directed: bool
    nodes: tuple[Node, ...]
    names: tuple[str, ...]
    edges: tuple[Edge, ...]

    def shown(self, edge: Edge) -> str:
        """A link as messages and comments name it."""
        return f"{self.names[edge.tail]} {'->' if self.directed else '--'} {self.names[edge.head]}"

    @functools.cached_property
    def places(self) -> tuple[dict[str, list[int]], dict[str, list[int]]]:
        """The places of the nodes of each name, and of each identifier."""
        found: tuple[dict[str, list[int]], dict[str, list[int]]] = ({}, {})
        for kind, texts in zip(found, (self.names, [node.identifier for node in self.nodes])):
            for place, text in enumerate(texts):
                kind.setdefault(text, []).append(place)
        return found

    def node(self, name: str) -> int:
        """The place of the node of a name, or else of an identifier."""
        for kind in self.places:
            places = kind.get(name, [])
            if len(places) == 1:
                return places[0]
            if places:
                same = listed([self.nodes[place].identifier for place in places])
                raise ToolError(f"{self.path}: several nodes have the name {name}; their identifiers are {same}")
        raise ToolError(f"{self.path}: no node {name}; there are {listed(self.names)}")


def named(path: str, directed: bool, nodes: Sequence[Node], edges: Sequence[Edge], attribute: str | None) -> Graph:
    """The graph of which an attribute names the nodes; those without it are named by their identifiers."""
    names = (text_of(node.values, attribute) if attribute else None for node in nodes)
    shown = tuple(node.identifier if name is None else name for node, name in zip(nodes, names))
    return Graph(path, directed, tuple(nodes), shown, tuple(edges))


# Attributes


def text_of(values: Values, attribute: str) -> str | None:
    """An attribute as text; an empty one is none."""
    value = values.get(attribute)
    return None if value is None or value == [] else str(value).strip() or None


def lacking(path: str, kind: str, items: Sequence[Node] | Sequence[Edge], attribute: str) -> int:
    """How many of the nodes or links lack an attribute, which is refused where none has it; the nearest one is named."""
    having = [item for item in items if text_of(item.values, attribute) is not None]
    if having:
        return len(items) - len(having)
    there = sorted({str(name) for item in items for name in item.values})
    near = difflib.get_close_matches(attribute, there, 1, 0.5)
    hint = f"; the nearest is {near[0]}" if near else f"; there are {listed(there)}" if there else ""
    raise ToolError(f"{path}: no {kind} has an attribute {attribute}{hint}")


def decimal(text: str) -> Fraction | None:
    """The number of a decimal text, exactly."""
    form = r"[+-]?(\d+\.?\d*|\.\d+)([eE][+-]?\d{1,3})?"
    return Fraction(text) if re.fullmatch(form, text, re.ASCII) else None


def number_of(graph: Graph, edge: Edge, attribute: str, default: Fraction | None = None) -> Fraction:
    """An attribute of a link as a number that isn't negative; the default where the link lacks it, if there is one."""
    text = text_of(edge.values, attribute)
    if text is None and default is not None:
        return default
    number = None if text is None else decimal(text)
    if number is None:
        what = "no attribute" if text is None else f"{text!r} as its"
        raise ToolError(f"{graph.path}: link {graph.shown(edge)} has {what} {attribute}; a number is needed")
    if number < 0:
        raise ToolError(f"{graph.path}: link {graph.shown(edge)} has {attribute} {text}, below 0")
    return number


def groups_of(edge: Edge, attribute: str) -> list[str]:
    """What a link shares its risk with: the parts of the attribute between semicolons, or the items of a list."""
    value = edge.values.get(attribute)
    parts = value if isinstance(value, list) else (text_of(edge.values, attribute) or "").split(";")
    return list(dict.fromkeys(part for part in (str(one).strip() for one in parts) if part))
