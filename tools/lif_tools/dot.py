"""Graphs in DOT, read by Graphviz's own parser."""
from __future__ import annotations

import codecs
import contextlib
import os
import re
import resource
import subprocess
import sys
import tempfile
from typing import Any, Iterator

from lif_tools.common import ToolError, listed, module, notice, program
from lif_tools.graphs import Edge, Node

# What the parser may take: a line such as `{a b ..} -> {c d ..}` is a link for each pair.
MOST_MEMORY = 1 << 30

# A line for each graph of a file.
COUNTS = r'BEG_G { printf("%d %d %s\n", nNodes($), nEdges($), gsub($.name, "\n", "\\n")); }'


def read_dot(path: str, content: bytes) -> tuple[bool, list[Node], list[Edge]]:
    """Whether the one graph of a file is directed, its nodes, and its links. An attribute that is empty is none.

    pygraphviz reads a file's first graph only, and where it finds no graph it doesn't say why. So gvpr, which has the
    same parser, reads all of the file first, in a process that may fail.
    """
    gv: Any = module("pygraphviz.graphviz", "python3-pygraphviz")
    content = content.removeprefix(codecs.BOM_UTF8)
    if b"\0" in content:
        line = content.count(b"\n", 0, content.index(b"\0")) + 1
        raise ToolError(f"{path}: line {line}: it isn't DOT: a byte is 0")
    counted = counts_of(path, content)
    with tempfile.TemporaryFile() as file:
        file.write(content)
        file.seek(0)
        try:
            with silence():
                handle = gv.agread(file, None)
        except ValueError:
            raise ToolError(f"{path}: gvpr reads it, and pygraphviz doesn't") from None
    try:
        charset = charset_of(gv, path, handle, content)
        nodes, edges = parts_of(gv, handle, charset)
        directed = bool(gv.agisdirected(handle))
    finally:
        gv.agclose(handle)
    if any(node.identifier.startswith("%") for node in nodes):
        raise ToolError(f"{path}: a node's name begins with %, and Graphviz's parser doesn't keep such names")
    if (len(nodes), len(edges)) != counted:
        raise ToolError(f"{path}: pygraphviz and gvpr read different graphs")
    return directed, nodes, edges


def counts_of(path: str, content: bytes) -> tuple[int, int]:
    """How many nodes and links the one graph of a file has. What Graphviz warns of is said."""
    done = subprocess.run(
        [program("gvpr", "graphviz"), COUNTS],
        input=content,
        capture_output=True,
        check=False,
        preexec_fn=lambda: resource.setrlimit(resource.RLIMIT_AS, (MOST_MEMORY, MOST_MEMORY)),
    )
    said = [line.strip() for line in done.stderr.decode(errors="backslashreplace").splitlines() if line.strip()]
    for line in said:
        if line.startswith("Error:") and "syntax error" in line:
            raise ToolError(f"{path}: {syntax_error(line)}")
    if done.returncode or any(line.startswith("Error") for line in said):
        raise ToolError(f"{path}: gvpr can't read it: {said[0] if said else f'it ends with {done.returncode}'}")
    graphs = [line.split(" ", 2) for line in done.stdout.decode(errors="backslashreplace").splitlines()]
    if not graphs:
        raise ToolError(f"{path}: it isn't DOT: there is no graph")
    if len(graphs) > 1:
        names = [re.sub(r"^%\d+$", "one without a name", name) for _, _, name in graphs]
        raise ToolError(f"{path}: there are {len(graphs)} graphs: {listed(names)}; one is needed")
    for line in said:
        notice(f"{path}: {line}")
    return int(graphs[0][0]), int(graphs[0][1])


def syntax_error(said: str) -> str:
    """What Graphviz says of a syntax error, with the line first."""
    found = re.search(r"syntax error in line (\d+)\s*(.*)", said)
    return f"line {found[1]}: it isn't DOT: syntax error {found[2]}".rstrip() if found else f"it isn't DOT: {said}"


@contextlib.contextmanager
def silence() -> Iterator[None]:
    """Without what a library writes to standard error."""
    sys.stderr.flush()
    kept = os.dup(2)
    try:
        with open(os.devnull, "wb") as nowhere:
            os.dup2(nowhere.fileno(), 2)
            yield
    finally:
        os.dup2(kept, 2)
        os.close(kept)


def charset_of(gv: Any, path: str, handle: Any, content: bytes) -> str:
    """The encoding of a file: what the graph's attribute `charset` says, or else UTF-8."""
    said = (gv.agget(handle, b"charset") or b"utf-8").decode("ascii", "backslashreplace")
    try:
        content.decode(said)
    except LookupError:
        raise ToolError(f"{path}: its charset {said} isn't known") from None
    except UnicodeDecodeError as error:
        line = content.count(b"\n", 0, error.start) + 1
        raise ToolError(f"{path}: line {line}: it isn't text in {said.upper()}, and the graph's charset is no other") from None
    return said


def parts_of(gv: Any, handle: Any, charset: str) -> tuple[list[Node], list[Edge]]:
    """The nodes of a graph in their order, and the links from each in theirs."""
    # The one of the module itself takes an empty name for none.
    name_of = gv._graphviz.agnameof
    symbols = {kind: list(symbols_of(gv, handle, kind)) for kind in (gv.AGNODE, gv.AGEDGE)}

    def values_of(item: Any, kind: Any) -> dict[str, str]:
        given = ((symbol, gv.agxget(item, symbol)) for symbol in symbols[kind])
        return {gv.agattrname(symbol).decode(charset): value.decode(charset) for symbol, value in given if value}

    items = list(steps(gv.agfstnode(handle), lambda item: gv.agnxtnode(handle, item)))
    places = {name_of(item): place for place, item in enumerate(items)}
    nodes, edges = [], []
    for place, item in enumerate(items):
        identifier, values = name_of(item).decode(charset), values_of(item, gv.AGNODE)
        if "label" in values:
            values["label"] = values["label"].replace("\\N", identifier)
        nodes.append(Node(identifier, values))
        for link in steps(gv.agfstout(handle, item), lambda link: gv.agnxtout(handle, link)):
            key, values = name_of(link), values_of(link, gv.AGEDGE)
            if key:
                values["key"] = key.decode(charset)
            edges.append(Edge(place, places[name_of(gv.aghead(link))], values))
    return nodes, edges


def steps(first: Any, after: Any) -> Iterator[Any]:
    """The items of a list of the library, from its first one on."""
    while first is not None:
        yield first
        first = after(first)


def symbols_of(gv: Any, handle: Any, kind: Any) -> Iterator[Any]:
    """The attributes that nodes or links may have."""
    symbol = None
    while True:
        try:
            symbol = gv.agnxtattr(handle, kind, symbol)
        except StopIteration:
            return
        yield symbol
