"""Network texts: what is read, what is refused, and that the program says the same."""
from __future__ import annotations

import random
import sys
from dataclasses import dataclass
from pathlib import Path
from typing import Iterator

import pytest

from support import FLY, TOP, Program, refusal, run_tool
from lif_tools import formats
from lif_tools.flows import certificate
from lif_tools.formats import (
    DEMANDS_SERVED,
    MOST_RATE,
    MOST_TEXT_BYTES,
    Network,
    Refused,
    cycle_of,
    order_of,
    read_network,
)

sys.path.insert(0, str(TOP / "trials"))

import caseform  # noqa: E402

CASES = TOP / "crates/worked_cases/data"

ONE = "source s\nsink t\nlink l s t\n"
REFUSED_LINES = [
    (b"sink \x01", "line 4: BadByte"),
    (b"# \xff\xfe\nfield 8 \x7f", "line 5: BadByte"),
    (b"field 9", "line 4: BadLine"),
    (b"field", "line 4: BadLine"),
    (b"links a b c", "line 4: BadLine"),
    (b"link k s", "line 4: BadLine"),
    (b"pattern f", "line 4: BadLine"),
    (b"link a/b s t", "line 4: BadName"),
    (b"sink " + 33 * b"x", "line 4: BadName"),
    (b"link l a a", "line 4: DuplicateLink"),
    (b"pattern none l", "line 4: DuplicatePattern"),
    (b"pattern f l\npattern f l", "line 5: DuplicatePattern"),
    (b"sink t", "line 4: DuplicateSink"),
    (b"source s", "line 4: SecondSource"),
    (b"link k a a", "line 4: SelfLoop"),
    (b"pattern f x", "line 4: UnknownLink"),
    (b"pattern f l l", "line 4: RepeatedLink"),
    (b"field 8\nfield 8", "line 5: SecondField"),
    (b"sink s", "SinkIsSource s"),
]

REFUSED_TEXTS = [
    (b"", "NoSource"),
    (b"source s\n", "NoSink"),
    (b"source s\nsink t\n" + b"".join(b"link l%d s t\n" % link for link in range(8193)), "line 8195: TooMany Links"),
    (b"source s\n" + b"".join(b"sink t%d\n" % sink for sink in range(4096)), "line 4097: TooMany Nodes"),
    (
        b"source s\nlink l s t\n" + b"".join(b"pattern p%d l\n" % number for number in range(4096)),
        "line 4098: TooMany Patterns",
    ),
    (
        b"source s\nlink l s t\n"
        + b"".join(b"link k%d a%d b%d\n" % (link, link, link) for link in range(2047))
        + b"link last c d",
        "line 2050: TooMany Nodes",
    ),
]

CYCLE = "link a-b a b\nlink b-c b c\nlink c-a c a\n"


@pytest.mark.parametrize("line, said", REFUSED_LINES)
def test_a_line_is_refused(line: bytes, said: str) -> None:
    assert (refusal(read_network, ONE.encode() + line) + ":").startswith(said + ":")


@pytest.mark.parametrize("text, said", REFUSED_TEXTS, ids=[said for _, said in REFUSED_TEXTS])
def test_a_text_is_refused(text: bytes, said: str) -> None:
    assert (refusal(read_network, text) + ":").startswith(said + ":")


def test_comments_and_ends_of_lines_are_dropped() -> None:
    network = read_network(b"\tsource  s # \xc3\xa4\r\n\r\n# nothing\nsink t\r\nlink l s t\nlink k s t\npattern f k l")
    assert (network.nodes, network.source, network.sinks) == (("s", "t"), 0, (1,))
    assert [link.name for link in network.links] == ["l", "k"]
    assert [(pattern.name, pattern.links) for pattern in network.patterns] == [("none", ()), ("f", (0, 1))]
    assert (network.field, network.demands()) == (None, 2)


# What the program says, by the tools


def said_of(command: str, text: bytes) -> tuple[int, list[str]]:
    """The status and the lines of `order`, `cuts` and `compile`, by the tools; of the report all but the paths."""
    if len(text) > MOST_TEXT_BYTES:
        return 12, ["too long"]
    try:
        network = read_network(text)
    except Refused as refused:
        said = str(refused)
        return 3, [f"net refused: {':'.join(said.split(':')[:2]) if said.startswith('line') else said}"]
    cycle = cycle_of(network)
    if cycle is not None:
        return 3, [f"net refused: cycle {' '.join(network.links[link].name for link in cycle)}"]
    if command == "order":
        return 0, [network.links[link].name for link in order_of(network)]
    field = network.field or (8 if network.demands() <= DEMANDS_SERVED[8] else 16)
    if network.demands() > DEMANDS_SERVED[field]:
        return 5, [f"too many demands: {network.demands()}"]
    return report_of(network) if command == "cuts" else compiled(network, field)


def names_said(network: Network, sink: int, pattern: int) -> tuple[int, str, str, str]:
    """A demand's least cut, its name, and the names of its least side and of the links that leave that."""
    found = certificate(network, network.sinks[sink], network.patterns[pattern].links)
    name = f"demand {network.nodes[network.sinks[sink]]} {network.patterns[pattern].name}"
    side = "".join(f" {network.nodes[node]}" for node in found.side)
    return found.value, name, f"side{side}", "".join(f" {network.links[link].name}" for link in found.cross)


def all_said(network: Network) -> list[tuple[int, str, str, str]]:
    return [
        names_said(network, sink, pattern)
        for sink in range(len(network.sinks))
        for pattern in range(len(network.patterns))
    ]


def report_of(network: Network) -> tuple[int, list[str]]:
    found = all_said(network)
    lines = [f"rate {min(value for value, *_ in found)}"]
    for value, name, side, cross in found:
        lines += [f"{name} cut {value}", side, f"cross{cross}"]
    return 0, lines


def compiled(network: Network, field: int) -> tuple[int, list[str]]:
    """What is said of a code, or why there is none."""
    found, wanted = all_said(network), network.rate
    least = min(value for value, *_ in found)
    if least == 0:
        name, side = next((name, side) for value, name, side, _ in found if value == 0)
        return 4, [f"rate 0: {name} {side}"]
    if wanted is None and least > MOST_RATE:
        name = next(name for value, name, *_ in found if value == least)
        return 6, [f"rate over {MOST_RATE}: {name} cut {least}"]
    if wanted is not None and wanted > least:
        value, name, side = next((value, name, side) for value, name, side, _ in found if value < wanted)
        return 16, [f"rate {wanted} unmet: {name} cut {value} {side}"]
    return 0, [f"compiled rate {least if wanted is None else wanted} field {field} demands {network.demands()}"]


def without_paths(said: bytes) -> list[str]:
    return [line for line in said.decode().splitlines() if line != "path" and not line.startswith("path ")]


# The rows of the program


@dataclass(frozen=True)
class Row:
    """A run of a case that reads a text: the command, the text, the status, and what is said where that is told."""

    line: int
    command: str
    text: bytes
    status: int
    said: bytes | None


def rows_of(case: caseform.Case) -> Iterator[Row]:
    """The runs of a case that read a text, for all that its names stand for."""
    for values in caseform.goings(case):
        store = caseform.Static(case)
        for step in caseform.steps_of(case, values):
            for _, word, path, text in step.ops:
                store.before(word, path, text)
            store.ran(step)
            said = caseform.bytes_of(step.said[1], store.look_before) if step.said else told(step)
            text_read = store.old.get(step.words[1]) if len(step.words) > 1 else None
            if step.words[0] in (b"order", b"cuts", b"compile") and text_read is not None:
                yield Row(step.line, step.words[0].decode(), text_read, step.status[1], said)


def told(step: caseform.Step) -> bytes | None:
    """What lines say that is said; nothing is told of it where saying fails."""
    return None if step.apart else b"".join(text + b"\n" for _, text in step.says)


def cases_of(*names: str) -> list[caseform.Case]:
    return [case for name in names for case in caseform.read_cases(CASES / name)[0]]


@pytest.mark.parametrize("case", cases_of("bundles.cases", "refused-texts.cases"), ids=lambda case: str(case.line.text))
def test_rows_of_the_program_hold_of_the_tools(case: caseform.Case) -> None:
    rows = list(rows_of(case))
    assert rows
    for row in rows:
        status, lines = said_of(row.command, row.text)
        assert status == row.status, row.line
        # Of an order that is told by its status alone nothing is said in the row.
        assert row.said is None or row.said == b"" or lines == without_paths(row.said), row.line


def test_networks_of_a_rule_are_those_that_are_written_out() -> None:
    pairs = [
        {row.text: row.line for row in rows_of(case)}
        for case in cases_of("ruled-bundles.cases")
        if case.line.text.endswith("written out")
    ]
    assert len(pairs) == 100
    for texts in pairs:
        written, bundled = texts
        assert read_network(written) == read_network(bundled), texts


# A plain reading


@dataclass(frozen=True)
class Limits:
    """How much a text may have."""

    nodes: int
    links: int
    patterns: int
    members: int


def number_of(word: str, most: int) -> int | None:
    digits = word and all(letter in "0123456789" for letter in word)
    return int(word) if digits and 1 <= int(word) <= most else None


def is_line(words: list[str], limits: Limits) -> bool:
    match words:
        case ["field", bits]:
            return bits in ("8", "16")
        case ["rate", rate]:
            return number_of(rate, 32) is not None
        case ["source", _] | ["sink", _] | ["link", _, _, _] | ["fail-each"] | ["pattern", _, _, *_]:
            return True
        case ["link", _, _, _, count]:
            return count[0] == "x" and number_of(count[1:], limits.links) is not None
    return False


def is_name(word: str) -> bool:
    letters = "ABCDEFGHIJKLMNOPQRSTUVWXYZabcdefghijklmnopqrstuvwxyz0123456789_-."
    return 1 <= len(word) <= 32 and all(letter in letters for letter in word)


def made(words: list[str]) -> list[str]:
    """The names of the links of a line."""
    if words[0] != "link":
        return []
    return [words[1]] if len(words) == 4 else [f"{words[1]}.{one + 1}" for one in range(int(words[4][1:]))]


def all_made(lines: list[list[str]]) -> list[str]:
    return [name for words in lines for name in made(words)]


def first_words(lines: list[list[str]], kind: str) -> list[str]:
    return [words[1] for words in lines if words[0] == kind]


def nodes_named(lines: list[list[str]]) -> list[str]:
    ends = {"source": slice(1, 2), "sink": slice(1, 2), "link": slice(2, 4)}
    return list(dict.fromkeys(name for words in lines if words[0] in ends for name in words[ends[words[0]]]))


def written_out(lines: list[list[str]], words: list[str]) -> list[str]:
    """The names of the links that words of a pattern name, behind these lines."""
    links = all_made(lines)
    found: list[str] = []
    for word in words:
        bundles = [made(line) for line in lines if line[0] == "link" and len(line) == 5 and line[1] == word]
        found += [word] if word in links else bundles[0] if bundles else []
    return found


def patterns_listed(lines: list[list[str]]) -> list[list[str]]:
    return [written_out(lines[:at], words[2:]) for at, words in enumerate(lines) if words[0] == "pattern"]


def fault_of_line(lines: list[list[str]], words: list[str], limits: Limits) -> str | None:
    """What is wrong with the words of a line behind others."""
    if not is_line(words, limits):
        return "BadLine"
    kind, after = words[0], [*lines, words]
    taken = all_made(lines) + [line[1] for line in lines if line[0] == "link"]
    named = words[1:4] + made(words) if kind == "link" else words[1:] if kind in ("source", "sink", "pattern") else []
    faults = [
        ("BadName", not all(map(is_name, named))),
        ("SecondField", kind == "field" and first_words(lines, kind)),
        ("SecondRate", kind == "rate" and first_words(lines, kind)),
        ("SecondFailEach", kind == "fail-each" and words in lines),
        ("DuplicateLink", kind == "link" and set(taken) & {words[1], *made(words)}),
        ("DuplicatePattern", kind == "pattern" and words[1] in ["none", *first_words(lines, kind)]),
        ("DuplicateSink", kind == "sink" and words[1] in first_words(lines, kind)),
        ("SecondSource", kind == "source" and first_words(lines, kind)),
        ("SelfLoop", kind == "link" and words[2] == words[3]),
        ("UnknownLink", kind == "pattern" and not all(written_out(lines, [word]) for word in words[2:])),
        ("RepeatedLink", kind == "pattern" and len(links := written_out(lines, words[2:])) > len(set(links))),
        ("TooMany Nodes", len(nodes_named(after)) > limits.nodes),
        ("TooMany Links", len(all_made(after)) > limits.links),
        ("TooMany Patterns", len(patterns_listed(after)) > limits.patterns),
        ("TooMany Members", sum(map(len, patterns_listed(after))) > limits.members),
    ]
    return next((name for name, holds in faults if holds), None)


def plainly_read(text: str, limits: Limits) -> str | tuple[object, ...]:
    """What a text of printable letters stands for, by names, or its refusal: each line is looked at with all before it."""
    lines: list[list[str]] = []
    for number, line in enumerate(text.splitlines(), start=1):
        words = line.split()
        fault = fault_of_line(lines, words, limits) if words else None
        if fault:
            return f"line {number}: {fault}"
        lines += [words] if words else []
    sources, sinks, links = first_words(lines, "source"), first_words(lines, "sink"), all_made(lines)
    if not sources or not sinks:
        return "NoSink" if sources else "NoSource"
    if sources[0] in sinks:
        return f"SinkIsSource {sources[0]}"
    listed: list[tuple[str, list[str]]] = [("none", [])]
    listed += zip(first_words(lines, "pattern"), patterns_listed(lines))
    if ["fail-each"] in lines:
        for link in links:
            if link in ["none", *first_words(lines, "pattern")]:
                return f"PatternNamed {link}"
        listed += [(link, [link]) for link in links]
        if len(listed) - 1 > limits.patterns:
            return f"TooManyPatterns {len(listed) - 1}"
    ends = [(name, words[2], words[3]) for words in lines for name in made(words)]
    patterns = [(name, sorted(names, key=links.index)) for name, names in listed]
    field, rate = first_words(lines, "field"), first_words(lines, "rate")
    wanted = int(rate[0]) if rate else None
    return nodes_named(lines), ends, sources[0], sinks, patterns, int(field[0]) if field else None, wanted


def read_by_names(text: str) -> str | tuple[object, ...]:
    """What the tools read, in the same form."""
    try:
        network = read_network(text.encode())
    except Refused as refused:
        return ":".join(str(refused).split(":")[:2])
    nodes, names = network.nodes, [link.name for link in network.links]
    ends = [(link.name, nodes[link.tail], nodes[link.head]) for link in network.links]
    patterns = [(pattern.name, [names[link] for link in pattern.links]) for pattern in network.patterns]
    sinks = [nodes[sink] for sink in network.sinks]
    return list(nodes), ends, nodes[network.source], sinks, patterns, network.field, network.rate


def random_text(chance: random.Random, most: int) -> str:
    """A text of a few lines whose names meet often. One line in ten has a word that seldom stands there."""
    nodes, links = ["s", "a", "b", "t"], ["k", "l", "m", "k.1", "k.2", "l.1", "m.3"]

    def one_of(usual: list[str], seldom: list[str]) -> str:
        return chance.choice(seldom if chance.random() < 0.1 else usual)

    def link() -> str:
        tail, head = sorted(chance.sample(range(4), 2))
        name = one_of([*links, "k", "l", "m"], ["none", "p", "a/b", 31 * "k"])
        count = one_of(["", "", " x1", " x2", " x02", " x3"], [f" x{most}", f" x{most + 1}", " x0", " x", " 2", " x-1"])
        return f"link {name} {nodes[tail]} {one_of([nodes[head]], nodes)}{count}"

    def pattern() -> str:
        named = [one_of(["k", "l", "m"], [*links, "l.2", "m.1", "n"]) for _ in range(chance.randint(1, 2))]
        return f"pattern {one_of(['p', 'q', 'r', 'k', 'l'], ['k.1', 'l.2', 'none'])} {' '.join(named)}"

    others = [
        "fail-each",
        f"rate {one_of(['1', '2', '002', '3'], ['32', '33', '0', '1 2'])}",
        f"field {one_of(['8', '16'], ['08'])}",
        f"sink {one_of(['b'], nodes)}",
    ]
    lines = [link() for _ in range(chance.randint(1, 4))] + [pattern() for _ in range(chance.choice((0, 0, 1, 2, 4)))]
    if chance.random() < 0.3:
        chance.shuffle(lines)
    for line in [*others, chance.choice(others)]:
        if chance.random() < 0.3:
            lines.insert(chance.randint(0, len(lines)), line)
    if chance.random() < 0.95:
        lines[:0] = ["source s", "sink t", one_of(["link d s t x2"], [""])]
    return "".join(f"{line}\n" for line in lines)


@pytest.mark.parametrize("limits", [Limits(4096, 8192, 4095, 2_097_152), Limits(3, 7, 2, 4)], ids=["as they are", "low"])
def test_random_texts_are_read_as_by_a_plain_reading(limits: Limits, monkeypatch: pytest.MonkeyPatch) -> None:
    for name, most in vars(limits).items():
        monkeypatch.setattr(formats, f"MOST_{name.upper()}", most)
    chance, refusals, good = random.Random(1), set(), 0
    for _ in range(5000):
        text = random_text(chance, min(limits.links, 6))
        wanted = plainly_read(text, limits)
        assert read_by_names(text) == wanted, text
        if isinstance(wanted, str):
            refusals |= {word for word in wanted.split() if word[:1].isupper()}
        else:
            good += 1
    assert good > 150
    forms = {"BadLine", "BadName", "DuplicateLink", "UnknownLink", "RepeatedLink", "SecondRate", "SecondFailEach"}
    assert forms | {"PatternNamed"} <= refusals
    if limits.links < 8192:
        assert {"TooMany", "TooManyPatterns", "Nodes", "Links", "Patterns", "Members"} <= refusals


def test_the_program_says_the_same_of_random_texts(program: Program, tmp_path: Path) -> None:
    path, chance, statuses = tmp_path / "random.net", random.Random(2), set()
    texts = [random_text(chance, 6) for _ in range(400)]
    # Few texts stand for a network, so all of those are taken.
    good = [text for text in texts if not isinstance(read_by_names(text), str)]
    for text in [*good, *texts[:30]]:
        path.write_text(text)
        for command in ("order", "cuts", "compile"):
            outputs = [tmp_path / "code", tmp_path / "report"] if command == "compile" else []
            done = program(command, path, *outputs)
            assert (done.returncode, without_paths(done.stdout.encode())) == said_of(command, text.encode()), text
            statuses.add(done.returncode)
    assert {0, 3, 4, 16} <= statuses


def test_hostile_texts_are_refused() -> None:
    """Texts of the most bytes, of which a slow reading would take minutes."""
    start = b"source s\nsink t\nlink k s t x8192\n"
    hostile = [
        (start + b"pattern f" + 2_000_000 * b" k", "line 4: RepeatedLink: pattern f k k"),
        (start + b"pattern f" + 2_000_000 * b" k" + b" m", "line 4: UnknownLink: pattern f k k"),
        (start + 200_000 * b"link m s t x8192\n", "line 4: TooMany Links: link m s t x8192"),
        (b"link k s t x" + 4_000_000 * b"9", "line 1: BadLine: link k s t x999"),
        (b"rate " + 4_000_000 * b"0", "line 1: BadLine: rate 000"),
        (MOST_TEXT_BYTES * b"\n", "NoSource"),
        (MOST_TEXT_BYTES * b"\xff", "line 1: BadByte: \\xff"),
    ]
    for text, said in hostile:
        found = refusal(read_network, text)
        assert found.startswith(said) and len(found) < 200


def test_links_have_an_order_or_a_cycle() -> None:
    network = read_network(b"source s\nsink t\nlink b a t\nlink a s a\nlink c s t\n")
    assert (order_of(network), cycle_of(network)) == ([1, 0, 2], None)
    network = read_network((ONE + CYCLE + "link d-e c x\nlink x-y x y\n").encode())
    assert cycle_of(network) == [1, 2, 3]


def test_a_cycle_of_all_nodes_is_found() -> None:
    links = "".join(f"link l{node} n{node} n{(node + 1) % 4094}\n" for node in range(4094))
    assert cycle_of(read_network(("source s\nsink t\n" + links).encode())) == list(range(4094))


def test_errors_name_the_file_and_the_place(tmp_path: Path) -> None:
    path = tmp_path / "bad.net"
    path.write_text(ONE + "link a/b s t\n")
    done = run_tool("lif-gain", path)
    assert (done.returncode, done.stderr) == (1, f"lif-gain: {path}: line 4: BadName: link a/b s t\n")
    path.write_text(ONE + CYCLE)
    assert run_tool("lif-gain", path).stderr == f"lif-gain: {path}: cycle a-b b-c c-a\n"
    path.write_bytes(FLY[:-1])
    assert run_tool("lif-estimate", path).stderr == f"lif-estimate: {path}: Truncated 176\n"
    assert (
        run_tool("lif-gain", tmp_path / "none.net").stderr
        == f"lif-gain: {tmp_path}/none.net: No such file or directory\n"
    )
    path.write_bytes(b"#" * 4_194_305)
    assert run_tool("lif-gain", path).stderr == f"lif-gain: {path}: too long: it has more than 4,194,304 bytes\n"


def test_the_program_refuses_the_same_texts(program: Program, tmp_path: Path) -> None:
    path = tmp_path / "one.net"
    for text in [ONE.encode() + line for line, _ in REFUSED_LINES] + [text for text, _ in REFUSED_TEXTS]:
        path.write_bytes(text)
        said = refusal(read_network, text)
        said = ":".join(said.split(":")[:2]) if said.startswith("line") else said
        assert program("order", path).stdout == f"net refused: {said}\n"
    path.write_text(ONE + CYCLE)
    assert program("order", path).stdout == "net refused: cycle a-b b-c c-a\n"
