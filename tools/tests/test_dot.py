"""DOT: each file of Graphviz's documentation as gvpr reads it, and what readers of DOT easily get wrong."""
from __future__ import annotations

import gzip
import re
import shutil
import subprocess
from collections import Counter
from pathlib import Path
from typing import Iterator

import pytest

from support import run_tool, without_packages
from lif_tools.common import ToolError
from lif_tools.dot import read_dot

# What gvpr says of a graph: a word for its kind, and for each node and link its texts, each behind its length.
SAYS = r"""
BEG_G { printf("%s ", $.directed ? "digraph" : "graph"); }
N { printf("N%d:%s", length($.name), $.name); OF_NODES }
E { printf("E%d:%s%d:%s", length($.tail.name), $.tail.name, length($.head.name), $.head.name); OF_LINKS }
"""
ATTRIBUTES = {"N": ("label", "shape", "color"), "E": ("label", "color", "tailport", "headport", "style")}

Item = tuple[str, ...]


def documents() -> list[Path]:
    """The files in DOT of the package graphviz-doc."""
    if shutil.which("dpkg") is None:
        return []
    listed = subprocess.run(["dpkg", "-L", "graphviz-doc"], capture_output=True, text=True, check=False).stdout
    return [Path(line) for line in listed.splitlines() if re.search(r"\.(gv|dot)(\.gz)?$", line) and Path(line).exists()]


def content_of(path: Path) -> bytes:
    content = path.read_bytes()
    return gzip.decompress(content) if path.suffix == ".gz" else content


def gvpr_says(content: bytes, charset: str) -> tuple[str, Counter[Item], Counter[Item]]:
    """What gvpr says of a graph: its kind, its nodes, and its links with their ends."""
    parts = {
        kind: "".join(
            f'if (isAttr($G, "{kind}", "{name}")) printf("%d:%s", length(aget($, "{name}")), aget($, "{name}")); '
            f'else printf("0:"); '
            for name in names
        )
        for kind, names in ATTRIBUTES.items()
    }
    says = SAYS.replace("OF_NODES", parts["N"]).replace("OF_LINKS", parts["E"])
    done = subprocess.run(["gvpr", says], input=content, capture_output=True, check=True)
    kind, said = done.stdout.split(b" ", 1)
    found: dict[bytes, Counter[Item]] = {b"N": Counter(), b"E": Counter()}
    while said:
        letter, said = said[:1], said[1:]
        texts = []
        for _ in range({b"N": 1 + len(ATTRIBUTES["N"]), b"E": 2 + len(ATTRIBUTES["E"])}[letter]):
            length, said = said.split(b":", 1)
            texts.append(said[: int(length)].decode(charset))
            said = said[int(length) :]
        found[letter][tuple(texts)] += 1
    return kind.decode(), found[b"N"], found[b"E"]


def ours(content: bytes) -> tuple[str, Counter[Item], Counter[Item]]:
    """The same of what is read for lif-import."""
    directed, nodes, edges = read_dot("a.gv", content)
    return (
        "digraph" if directed else "graph",
        Counter((node.identifier, *(node.values.get(name, "") for name in ATTRIBUTES["N"])) for node in nodes),
        Counter(
            (
                nodes[edge.tail].identifier,
                nodes[edge.head].identifier,
                *(edge.values.get(name, "") for name in ATTRIBUTES["E"]),
            )
            for edge in edges
        ),
    )


def with_names(nodes: Counter[Item]) -> Counter[Item]:
    """Nodes with their names in labels, where \\N stands for them."""
    return Counter({(name, label.replace("\\N", name), *more): count for (name, label, *more), count in nodes.items()})


def assert_same(content: bytes, charset: str = "utf-8") -> None:
    kind, nodes, edges = gvpr_says(content, charset)
    assert ours(content) == (kind, with_names(nodes), edges)


@pytest.mark.skipif(not documents(), reason="there are no files of the package graphviz-doc")
def test_each_file_of_graphviz_is_as_gvpr_reads_it() -> None:
    links = 0
    for path in documents():
        content = content_of(path)
        assert_same(content, "latin1" if b"charset=latin1" in content else "utf-8")
        links += len(read_dot(str(path), content)[2])
    assert len(documents()) > 50 and links > 2000


@pytest.mark.skipif(not documents(), reason="there are no files of the package graphviz-doc")
def test_files_of_graphviz_become_networks(tmp_path: Path) -> None:
    """Ports, links of groups, and names in Russian."""
    net = tmp_path / "one.net"
    for name, source, sink, links in (
        ("switch.gv", "1", "20", 80),
        ("tree.gv", "node0", "node6", 8),
        ("russian.gv", "Контрагенты", "БанковскиеСчета", 7),
    ):
        path = next(path for path in documents() if path.name == name)
        done = run_tool("lif-import", path, "--source", source, "--sink", sink, "-o", net)
        assert (done.returncode, done.stderr) == (0, "")
        assert f"links {links}, at most 8,192" in done.stdout and net.read_text().count("\nlink ") == links


def texts() -> Iterator[str]:
    yield 'digraph { "node0":f2 -> "node4":f1; a:w -> b:e:n; "x:y" -> c:p [tailport=q] }'
    yield "digraph { a -> {b c} -> d; {e f} -> {g; h -> i} }"
    yield "strict graph { a -- b; b -- a; a -- b [color=red]; c -- c }"
    yield "strict digraph { a -> b; b -> a; a -> b }"
    yield "graph { a -- b; b -- a; a -- b -- c }"
    yield "digraph { ключ -> 鍵 -> Schlüssel; \"a,b\" -> \"say \\\"it\\\"\"; \"two\\nlines\" -> \"real\nbreak\" }"
    yield "digraph { a -> b [key=x]; a -> b [key=x label=again]; a -> b [key=y]; a -> b }"
    yield 'digraph { node [label="\\N!"] a; node [label=z]; b; edge [color=red] a -> b; subgraph { edge [color=red]; c -> a } }'
    yield "digraph { /* a -> z */ a -> b // b -> z\n# a -> z\n b -> c; }"
    yield 'digraph { "5%" -> ""; "" -> "\\n"; -1.5 -> .5 }'
    yield "digraph { a [label=<<b>x</b> &amp; y>]; <i> -> a [label=<l>] }"
    yield "GRAPH \"it\" { Node [shape=box]; A -- b; EDGE [style=dashed]; b -- c }"
    yield 'digraph { "a" + "b" -> "c\\\nd" }'


@pytest.mark.parametrize("text", texts())
def test_what_is_easily_got_wrong_is_as_gvpr_reads_it(text: str) -> None:
    assert_same(text.encode())


def test_links_are_counted_by_hand() -> None:
    """The same without gvpr: the ends of links, and how many there are."""
    for text, ends in {
        'digraph { "node0":f2 -> "node4":f1; "x:y" -> c:p }': ["node0>node4", "x:y>c"],
        "digraph { a -> {b c} -> d }": ["a>b", "a>c", "b>d", "c>d"],
        "strict graph { a -- b; b -- a; a -- b }": ["a>b"],
        "graph { a -- b; b -- a }": ["a>b", "b>a"],
        "digraph { a -> b; subgraph { b -> c } b -> c }": ["a>b", "b>c", "b>c"],
    }.items():
        _, nodes, edges = read_dot("a.gv", text.encode())
        assert [f"{nodes[edge.tail].identifier}>{nodes[edge.head].identifier}" for edge in edges] == ends


def test_letters_are_those_of_the_charset() -> None:
    text = 'digraph { graph [charset=latin1]; a [label="é"]; "ü" -> a }'
    assert_same(text.encode("latin1"), "latin1")
    assert [node.identifier for node in read_dot("a.gv", text.encode("latin1"))[1]] == ["a", "ü"]
    assert [node.identifier for node in read_dot("a.gv", "\ufeffgraph { ü }".encode())[1]] == ["ü"]


def test_an_attribute_that_is_empty_is_none() -> None:
    _, nodes, edges = read_dot("a.gv", b'digraph { a [x=""]; b [x=1]; a -> b [key=k]; b -> a [w=2] }')
    assert [dict(node.values) for node in nodes] == [{}, {"x": "1"}]
    assert [dict(edge.values) for edge in edges] == [{"key": "k"}, {"w": "2"}]


@pytest.mark.parametrize(
    "content, said",
    [
        (b"digraph A { a -> b }\ndigraph B { c }\n", "there are 2 graphs: A, B; one is needed"),
        (b"graph { a } graph { b } graph \"x\ny\" { c }", "there are 3 graphs: one without a name, one without a name, x\\ny"),
        (b"digraph { a -> b }\n\n]", "line 3: it isn't DOT: syntax error near ']'"),
        (b"digraph { a -> b }\n\ngraph { a -> b }", "line 3: it isn't DOT: syntax error near '->'"),
        (b'digraph {\n a -> "b\n', "line 2: it isn't DOT: syntax error scanning a quoted string"),
        (b"digraph {\n a -- b\n}", "line 2: it isn't DOT: syntax error near '--'"),
        (b'digraph {\n a -> "b\0c" }', "line 2: it isn't DOT: a byte is 0"),
        (b"// nothing\n", "it isn't DOT: there is no graph"),
        ("digraph { a }".encode("utf-16"), "line 1: it isn't DOT: a byte is 0"),
        (b"\xfe\xff", "line 1: it isn't DOT: syntax error"),
        (b'digraph {\n a -> "\xfc" }', "line 2: it isn't text in UTF-8, and the graph's charset is no other"),
        (b'digraph { graph [charset=utf8]\n "\xfc" }', "line 2: it isn't text in UTF8, and the graph's charset is no other"),
        (b'digraph { "%x" -> b }', "a node's name begins with %, and Graphviz's parser doesn't keep such names"),
        (b"digraph { graph [charset=klingon] }", "its charset klingon isn't known"),
    ],
)
def test_what_is_no_graph_in_dot_is_refused(content: bytes, said: str) -> None:
    with pytest.raises(ToolError) as refused:
        read_dot("a.gv", content)
    assert str(refused.value).startswith(f"a.gv: {said}")


def test_what_graphviz_warns_of_is_said(tmp_path: Path) -> None:
    path = tmp_path / "a.gv"
    path.write_text("digraph { s -> 1a; s -> t }")
    done = run_tool("lif-import", path, "--source", "s", "--sink", "t", "-o", tmp_path / "a.net")
    assert done.returncode == 0 and done.stderr.count("\n") == 1
    assert done.stderr.startswith(f"lif-import: {path}: Warning: syntax ambiguity - badly delimited number '1a'")


@pytest.mark.slow
def test_a_line_that_stands_for_too_many_links_is_refused() -> None:
    names = " ".join(f"n{node}" for node in range(4000))
    with pytest.raises(ToolError, match="a.gv: gvpr can't read it"):
        read_dot("a.gv", f"digraph {{ {{{names}}} -> {{{names}}} }}".encode())


def test_dot_needs_one_package_more(tmp_path: Path) -> None:
    (tmp_path / "a.dot").write_text("digraph { s -> t }")
    done = without_packages("lif-import", tmp_path / "a.dot", "--source", "s", "--sinks", "t", "-o", "-")
    assert done.returncode == 1 and done.stderr.endswith("on Debian: apt-get install python3-pygraphviz\n")
    assert done.stderr.startswith("lif-import: there is no Python module pygraphviz")
