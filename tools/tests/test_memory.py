"""What lif-estimate says of memory: the numbers of the sources, and what the program takes."""
from __future__ import annotations

import fcntl
import json
import re
import struct
import subprocess
import termios
import time
from pathlib import Path
from typing import Any, Callable

import pytest

from support import EXAMPLES, TOP, Program, combination_text, find_proved, layers_text, network_of, run_tool, text_of
from lif_tools import formats, memory

# So many bytes of a source are sent; the program carries what it has read when that is 64 KiB.
LENGTH = 70_000


def source_number(name: str) -> int:
    """A number of the program's sources, by its name, which has one value wherever it stands."""
    form = re.compile(rf"^\s*(?:pub )?const {name}: \w+ = ([\d_]+);$", re.MULTILINE)
    found = {int(value) for path in TOP.glob("crates/*/src/**/*.rt") for value in form.findall(path.read_text())}
    assert len(found) == 1, f"{name} is {found} in the sources"
    return found.pop()


@pytest.mark.parametrize("name", ["MOST_BLOCKS", "WINDOW_LINKS", "WINDOW_PRODUCTS", "LEAST_SINKS", "WORKERS"])
def test_numbers_are_those_of_the_sources(name: str) -> None:
    assert getattr(memory, name) == source_number(name)


def test_numbers_of_formats_are_those_of_the_sources() -> None:
    assert (formats.PIECES, formats.ROW_BYTES) == (source_number("PIECES"), source_number("ROW"))


def text_by_order(graph: Any, sinks: list[int], times: int = 1, patterns: int = 0) -> str:
    """The text of a graph of numbers from 0 on, of which each edge leads to the higher number, so many times."""
    ends = sorted((min(edge), max(edge)) for edge in graph.edges for _ in range(times))
    listed: list[tuple[int, ...]] = [(number,) for number in range(patterns)]
    return text_of(network_of(0, tuple(sorted(sinks)), ends, listed))


def parallel_text(rate: int, patterns: int) -> str:
    """As many links as the rate from the source to the sink, and a link for each pattern that leads nowhere."""
    ends = [(0, 1)] * rate + [(0, 2)] * patterns
    return text_of(network_of(0, (1,), ends, [(rate + number,) for number in range(patterns)]))


def sparse(make: Callable[[Any], Any], *sinks: int, times: int = 1) -> Callable[[], str]:
    """The text of a graph of networkx, made when it is wanted."""

    def made() -> str:
        networkx = pytest.importorskip("networkx")
        return text_by_order(networkx.convert_node_labels_to_integers(make(networkx)), list(sinks), times)

    return made


NETWORKS: dict[str, Callable[[], str]] = {
    "layers of 12": lambda: layers_text(4, 12),
    "layers of 24": lambda: layers_text(3, 24),
    "20 sinks": lambda: combination_text(6, 3),
    "66 sinks": lambda: combination_text(12, 2),
    "70 sinks": lambda: combination_text(8, 4),
    "a path of 4000": sparse(lambda nx: nx.path_graph(4000), 3999),
    "a path of 1000, four times": sparse(lambda nx: nx.path_graph(1000), 999, times=4),
    "a star": sparse(lambda nx: nx.star_graph(3000), 1, 2),
    "a tree": sparse(lambda nx: nx.balanced_tree(2, 9), *range(900, 1000)),
    "a grid": sparse(lambda nx: nx.grid_2d_graph(40, 50), 1999, 1000),
    "preferential attachment": sparse(lambda nx: nx.barabasi_albert_graph(2000, 2, seed=1), 1990, 1995, 1999),
    "more of that": sparse(lambda nx: nx.barabasi_albert_graph(4000, 2, seed=2), 3000, 3999),
    "a small world": sparse(lambda nx: nx.connected_watts_strogatz_graph(1000, 6, 0.1, seed=3), 400, 500, 600, 700),
    "by chance": sparse(lambda nx: nx.gnm_random_graph(300, 1500, seed=6), 100, 200, 250, 299),
    "dense by chance": sparse(lambda nx: nx.gnm_random_graph(200, 4000, seed=6), 100, 150, 199),
    "a sink and 300 patterns": lambda: parallel_text(8, 300),
}


def is_idle(send: subprocess.Popen[bytes]) -> bool:
    """Whether the program has read all that it was given and waits for more, with no thread at work."""
    assert send.stdin is not None
    (left,) = struct.unpack("i", fcntl.ioctl(send.stdin, termios.FIONREAD, b"\0" * 4))
    try:
        tasks = [path.read_text() for path in Path(f"/proc/{send.pid}/task").glob("*/stat")]
    except (FileNotFoundError, ProcessLookupError):
        # A thread has ended meanwhile.
        return False
    return left == 0 and all(task.rpartition(")")[2].split()[0] == "S" for task in tasks)


def taken(code: Path, length: int, prefix: Path) -> int:
    """The bytes that the program has of memory of its own once it has carried a source, whose end hasn't come."""
    words = [str(word) for word in (find_proved(), "send", code, "none", 1, "/dev/stdin", prefix)]
    with subprocess.Popen(words, stdin=subprocess.PIPE, stdout=subprocess.DEVNULL) as send:
        assert send.stdin is not None
        send.stdin.write(bytes(length))
        send.stdin.flush()
        idle = 0
        while idle < 3:
            time.sleep(0.01)
            idle = idle + 1 if is_idle(send) else 0
        rollup = Path(f"/proc/{send.pid}/smaps_rollup").read_text()
        carried = sum(path.stat().st_size for path in prefix.parent.glob(f"{prefix.name}.*"))
        assert carried > 0 or length == 0
    assert send.returncode == 0
    return 1024 * int(re.findall(r"^Anonymous: +(\d+) kB$", rollup, re.MULTILINE)[0])


@pytest.fixture(scope="module")
def proved(program: Program) -> None:
    """There is a proved program: another one takes other memory."""
    if find_proved() is None:
        pytest.skip("there is no proved program: rt ci or ./lif-prove makes it")


def compiled(program: Program, text: str, folder: Path) -> Path:
    (folder / "a.net").write_text(text)
    done = program("compile", folder / "a.net", folder / "a.lif", folder / "a.txt")
    assert done.returncode == 0, done.stdout
    return folder / "a.lif"


def estimated(code: Path, length: int) -> dict[str, int]:
    facts = json.loads(run_tool("lif-estimate", code, "--bytes", length, "--json").stdout)
    found: dict[str, int] = facts["memory"]
    return found


@pytest.mark.parametrize("name", NETWORKS)
def test_the_memory_of_send(program: Program, proved: None, tmp_path: Path, name: str) -> None:
    """What the program takes, beyond what it takes for one link, is within 15 % of what was said.

    The threads of the check may leave memory or not, so the middle one of five runs is compared.
    """
    code = compiled(program, NETWORKS[name](), tmp_path)
    runs = sorted(taken(code, LENGTH, tmp_path / "out") for _ in range(5))
    base = taken(EXAMPLES / "one-link/one.lif", 0, tmp_path / "one")
    found = estimated(code, LENGTH)
    assert found["total"] == found["code"] + found["source"] + found["check"] + found["work"]
    assert found["total"] == pytest.approx(runs[2] - base, rel=0.15)


@pytest.mark.parametrize("version", [1, 2])
def test_a_file_that_is_more_than_the_work(program: Program, proved: None, tmp_path: Path, version: int) -> None:
    """Where the code's file is large, the most is held while it is read. In version 2 this one has a decoder once."""
    code = compiled(program, parallel_text(32, 3000), tmp_path)
    code.write_bytes(formats.write_code(formats.read_code(code.read_bytes()), version))
    found = estimated(code, 0)
    work = found["source"] + found["check"] + found["work"]
    assert found["file"] == code.stat().st_size
    assert (found["file"] > work) == (version == 1)
    assert found["total"] == found["code"] + max(found["file"], work)
    (tmp_path / "none").write_bytes(b"")

    def most(code: Path) -> int:
        words = ["/usr/bin/time", "-f", "%M", find_proved(), "send", code, "none", 1, tmp_path / "none", tmp_path / "out"]
        done = subprocess.run(list(map(str, words)), capture_output=True, text=True, check=True)
        return 1024 * int(done.stderr)

    assert found["total"] == pytest.approx(most(code) - most(EXAMPLES / "one-link/one.lif"), rel=0.15)
