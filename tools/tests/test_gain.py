"""lif-gain: packings of trees, beside counts over all trees, and bounds where there is no time or room."""
from __future__ import annotations

import dataclasses
import itertools
import json
import os
import pty
import subprocess
import time
from fractions import Fraction
from pathlib import Path

import pytest

from support import EXAMPLES, TOOLS, combination_text, layers_text, run_tool, without_packages
from lif_tools import importing
from lif_tools.formats import read_network
from lif_tools.graphfiles import read_graph
from lif_tools.packings import packings
from lif_tools.trees import Effort, problem_of

pytest.importorskip("scipy.optimize")

TESTS = Path(__file__).resolve().parent


def said(path: Path, *words: object) -> list[list[str]]:
    """The rows of the table, without its head."""
    done = run_tool("lif-gain", path, *words)
    assert (done.returncode, done.stderr) == (0, "")
    rows = [line.split("  ") for line in done.stdout.splitlines()[1:]]
    return [[cell.strip() for cell in row if cell.strip()] for row in rows]


def combination(tmp_path: Path, middles: int, size: int) -> Path:
    """The network with a sink behind each so many of the middle nodes."""
    path = tmp_path / "combination.net"
    path.write_text(combination_text(middles, size))
    return path


def test_the_butterfly_and_the_regional_network() -> None:
    row = ["2", "3/2", "4/3", "1", "2"]
    assert said(EXAMPLES / "butterfly/butterfly.net") == [["none", *row]]
    regional = EXAMPLES / "regional/regional.net"
    assert said(regional) == [["none", *row], ["duct-2", *row], ["ring", *row], ["all", *row]]
    assert said(regional, "--pattern", "ring") == [["ring", *row]]


# Each tree reaches all but fewer middle nodes than a sink has, so a packing has n / (n - k + 1) trees.
@pytest.mark.parametrize("middles, size", [(3, 2), (4, 2), (5, 3), (6, 3), (6, 5)])
def test_combination_networks(tmp_path: Path, middles: int, size: int) -> None:
    shared = Fraction(middles, middles - size + 1)
    whole = int(shared)
    assert said(combination(tmp_path, middles, size)) == [
        ["none", str(size), str(shared), str(size / shared), str(whole), str(Fraction(size, whole))]
    ]


def test_three_trees_are_found() -> None:
    """The program of HiGHS that chooses a cheapest tree takes a dearer one in this network, and so found 5/2."""
    assert said(TESTS / "data/three-trees.net") == [["none", "3", "3", "1", "3", "1"]]


def test_parallel_links_and_dead_ends_count(tmp_path: Path) -> None:
    path = tmp_path / "one.net"
    path.write_text("source s\nsink t\nlink a s t\nlink b s t\nlink c s x\nlink d t y\npattern f a\npattern g a b\n")
    assert said(path) == [
        ["none", "2", "2", "1", "2", "1"],
        ["f", "1", "1", "1", "1", "1"],
        ["g", "0", "0", "-", "0", "-"],
        ["all", "0", "0", "-", "0", "-"],
    ]


def test_a_wanted_rate_bounds_all_rates(tmp_path: Path) -> None:
    path = tmp_path / "one.net"
    text = combination(tmp_path, 4, 2).read_text()
    # Trees in turns bring 4/3, and one whole tree 1.
    path.write_text(text + "rate 1\n")
    wanted = ["rate 1 is wanted, and no number of the rates is above it"]
    assert said(path) == [["none", "1", "1", "1", "1", "1"], wanted]
    assert json.loads(run_tool("lif-gain", path, "--json").stdout)["wanted_rate"] == 1
    path.write_text(text + "rate 2\n")
    wanted = ["rate 2 is wanted, and no number of the rates is above it"]
    assert said(path) == [["none", "2", "4/3", "3/2", "1", "2"], wanted]
    # The rate is wanted under each pattern, also where it is listed by one line.
    path.write_text("source s\nsink t\nlink l s t x3\nfail-each\nrate 2\n")
    wanted = ["rate 2 is wanted, and no number of the rates is above it"]
    one = ["2", "2", "1", "2", "1"]
    assert said(path) == [[name, *one] for name in ("none", "l.1", "l.2", "l.3", "all")] + [wanted]
    path.write_text("source s\nsink t\nlink l s t x3\nfail-each\nrate 3\n")
    unmet = ["rate 3 is wanted, which the least cut of l.1 doesn't meet; lif compile makes no code"]
    assert said(path) == [["none", "3", "3", "1", "3", "1"]] + [
        [name, *one] for name in ("l.1", "l.2", "l.3", "all")
    ] + [unmet]


def test_bounds_are_said_as_such(tmp_path: Path) -> None:
    path = combination(tmp_path, 6, 3)
    note = ["a..b: the number isn't below a nor above b; no search showed which one it is"]
    assert said(path, "--most", 10) == [["none", "3", "3/2..3", "1..2", "1..3", "1..3"], note]
    assert said(path, "--seconds", 0) == [["none", "3", "1..3", "1..3", "1", "3"], note]


def test_a_large_network_has_its_numbers_or_bounds_soon(tmp_path: Path) -> None:
    path = tmp_path / "layers.net"
    path.write_text(layers_text(5, 30))
    assert said(path, "--seconds", 0.5)[0][:2] == ["none", "30"]
    begun = time.monotonic()
    row = said(combination(tmp_path, 10, 5), "--seconds", 0.5)[0]
    assert row[:2] == ["none", "5"] and time.monotonic() - begun < 60
    least, most = (Fraction(bound) for bound in (row[2].split("..") * 2)[:2])
    assert least <= Fraction(10, 6) <= most


def test_patterns_are_named_at_a_terminal(tmp_path: Path) -> None:
    """Each pattern stands on standard error as it is looked at, and nothing where that is no terminal."""
    own, other = pty.openpty()
    words = [str(TOOLS / "lif-gain"), str(EXAMPLES / "regional/regional.net")]
    with open(tmp_path / "out", "wb") as out:
        subprocess.run(words, stdout=out, stderr=other, check=True)
    os.close(other)
    named = os.read(own, 4096).decode()
    os.close(own)
    assert [one.strip() for one in named.split("\r") if one.strip()] == [
        "pattern 1 of 3: none",
        "pattern 2 of 3: duct-2",
        "pattern 3 of 3: ring",
    ]
    assert (tmp_path / "out").read_text() == run_tool(*words).stdout


def test_misuse_and_unknown_names(tmp_path: Path) -> None:
    net = EXAMPLES / "regional/regional.net"
    for words in ((), (net, net), (net, "--seconds", "-1"), (net, "--seconds", "soon"), (net, "--most", "nan")):
        done = run_tool("lif-gain", *words)
        assert done.returncode == 2 and "Traceback" not in done.stderr
    done = run_tool("lif-gain", net, "--pattern", "storm")
    assert (done.returncode, done.stderr) == (1, f"lif-gain: {net}: unknown pattern: storm; its patterns: none, duct-2, ring\n")


def test_the_package_is_named() -> None:
    done = without_packages("lif-gain", EXAMPLES / "butterfly/butterfly.net")
    assert (done.returncode, done.stdout) == (1, "")
    assert done.stderr.endswith("on Debian: apt-get install python3-scipy\n") and "Traceback" not in done.stderr


def test_few_choices_in_polska_gain() -> None:
    """Of all sources with three sinks of a rate above 1, six gain, where links lead away by their number."""
    pytest.importorskip("networkx")
    path = str(EXAMPLES / "polska/polska.graphml")
    graph = read_graph(path, "graphml", None)
    above, gained = [], []
    for source in graph.names:
        others = [name for name in graph.names if name != source]
        words = importing.words_of([path, "--source", source, "--sinks", ",".join(others), "--orient", "-o", "-"])
        network = read_network(importing.text_of_network(importing.make(graph, words)).encode())
        for sinks in itertools.combinations(network.sinks, 3):
            problem = problem_of(dataclasses.replace(network, sinks=sinks), ())
            if problem.rate > 1:
                found = packings(problem, Effort(5_000_000, time.monotonic() + 60))
                assert found.shared.exact and found.whole.exact
                above.append(found)
                if found.shared.most < problem.rate:
                    gained.append((source, {network.nodes[sink] for sink in sinks}))
    assert (len(above), len(gained)) == (174, 6)
    assert ("Bydgoszcz", {"Gdansk", "Katowice", "Szczecin"}) in gained


@pytest.mark.slow
def test_few_choices_gain_where_links_lead_as_flows_need() -> None:
    """README.md has the numbers: of the choices of a rate above 1, and of those that gain."""
    pytest.importorskip("networkx")
    path = str(EXAMPLES / "polska/polska.graphml")
    graph = read_graph(path, "graphml", None)
    above, gained = [], []
    for source in graph.names:
        for sinks in itertools.combinations([name for name in graph.names if name != source], 3):
            words = importing.words_of([path, "--source", source, "--sinks", ",".join(sinks), "--orient=flow", "-o", "-"])
            problem = problem_of(read_network(importing.text_of_network(importing.make(graph, words)).encode()), ())
            if problem.rate > 1:
                above.append((source, sinks))
                if packings(problem, Effort(5_000_000, time.monotonic() + 60)).shared.most < problem.rate:
                    gained.append((source, sinks))
    assert (len(above), len(gained)) == (1901, 33)
    assert ("Bydgoszcz", ("Gdansk", "Katowice", "Szczecin")) in gained
