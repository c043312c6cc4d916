"""What holds for every tool as a command: its version, its streams, its signals, its objects of JSON and its manual page."""
from __future__ import annotations

import json
import os
import re
import shutil
import signal
import subprocess
import sys
from pathlib import Path
from typing import Any

import pytest

from support import EXAMPLES, MODULES, TOOLS, TOP, ended, run_tool

NET, CODE = EXAMPLES / "butterfly/butterfly.net", EXAMPLES / "butterfly/butterfly.lif"
POLSKA = EXAMPLES / "polska/polska.graphml"

# The words with which each tool is called, behind its input.
INPUTS: dict[str, Path] = {
    "lif-draft": CODE,
    "lif-draw": NET,
    "lif-estimate": CODE,
    "lif-gain": NET,
    "lif-import": POLSKA,
    "lif-plan": CODE,
}
MORE: dict[str, list[object]] = {
    "lif-draft": ["-o", os.devnull],
    "lif-draw": ["--code", CODE, "-o", "-"],
    "lif-estimate": ["--bytes", 1000],
    "lif-gain": [],
    "lif-import": ["--format", "graphml", "--source", "Bydgoszcz", "--sinks", "Gdansk,Katowice", "--orient=flow", "-o", "-"],
    "lif-plan": [],
}
NAMES = sorted(INPUTS)
PACKAGES = {"lif-gain": "scipy", "lif-import": "networkx"}
EACH = pytest.mark.parametrize("name", NAMES)
# With the tool whose input is a plan, and which has tests of its own.
ALL = pytest.mark.parametrize("name", sorted(MODULES))


@pytest.fixture(autouse=True)
def packages(request: pytest.FixtureRequest) -> None:
    """Skips the tests of a tool where its Debian package isn't there."""
    name = request.node.callspec.params.get("name") if hasattr(request.node, "callspec") else "lif-draw"
    if name in PACKAGES:
        pytest.importorskip(PACKAGES[name])
    if name == "lif-draw" and shutil.which("dot") is None:
        pytest.skip("there is no program dot; on Debian: apt-get install graphviz")


def version() -> str:
    """The newest version of CHANGELOG.md."""
    newest = re.search(r"^## ([0-9.]+)$", (TOP / "CHANGELOG.md").read_text(), re.MULTILINE)
    assert newest is not None
    return newest[1]


def with_stream(name: str, number: int, to: str | None, *words: object) -> subprocess.CompletedProcess[str]:
    """A call in which a stream leads to a file, or is closed."""
    where = f"{number}>{to}" if to else f"{number}>&-"
    return ended(["sh", "-c", f'exec "$@" {where}', "sh", TOOLS / name, *words])


@ALL
def test_the_version_is_that_of_lif(name: str, tmp_path: Path) -> None:
    """It is said in any folder, and by a symbolic link."""
    (tmp_path / "link").symlink_to(TOOLS / name)
    assert ended([tmp_path / "link", "--version"], cwd="/").stdout == f"{name} of lif {version()}\n"


@EACH
def test_what_cannot_be_said_is_an_error(name: str) -> None:
    calls: list[tuple[str | None, str, list[object]]] = [
        ("/dev/full", "No space left on device", [INPUTS[name], *MORE[name]]),
        (None, "Bad file descriptor", ["--help"]),
    ]
    for to, cause, words in calls:
        done = with_stream(name, 1, to, *words)
        assert (done.returncode, done.stderr) == (1, f"{name}: standard output: {cause}\n")


@EACH
def test_a_reader_that_has_gone_is_no_error_to_tell(name: str) -> None:
    reader, writer = os.pipe()
    os.close(reader)
    words = [str(TOOLS / name), str(INPUTS[name]), *map(str, MORE[name])]
    done = subprocess.run(words, stdout=writer, stderr=subprocess.PIPE, text=True, check=False)
    os.close(writer)
    assert (done.returncode, done.stderr) == (1, "")


@pytest.mark.parametrize("to", ["/dev/full", None])
def test_an_error_that_cannot_be_said_is_one_still(to: str | None) -> None:
    done = with_stream("lif-estimate", 2, to, "missing")
    assert (done.returncode, done.stdout) == (1, "")


@EACH
def test_errors_name_the_file_on_standard_error(name: str, tmp_path: Path) -> None:
    path = tmp_path / "nié\n\x1b"
    done = run_tool(name, path, *MORE[name])
    assert (done.returncode, done.stdout) == (1, "")
    assert done.stderr == f"{name}: {tmp_path}/nié\\n\\x1b: No such file or directory\n"


@EACH
def test_ctrl_c_ends_quietly(name: str, tmp_path: Path) -> None:
    """The tool waits for its input when the signal comes."""
    pipe = tmp_path / "pipe"
    os.mkfifo(pipe)
    words = [str(TOOLS / name), str(pipe), *map(str, MORE[name])]
    started = subprocess.Popen(words, stdout=subprocess.PIPE, stderr=subprocess.PIPE)
    # It opens once the tool reads.
    with open(pipe, "wb"):
        started.send_signal(signal.SIGINT)
        assert started.communicate() == (b"", b"")
    assert started.returncode == -signal.SIGINT


@EACH
def test_json_is_one_object(name: str, tmp_path: Path) -> None:
    words = MORE[name][:-2] if "-o" in MORE[name] else MORE[name]
    output = ["-o", tmp_path / "made"] if name in ("lif-draft", "lif-import") else []
    done = run_tool(name, INPUTS[name], *words, *output, "--json")
    assert (done.returncode, done.stderr) == (0, "")
    said = json.loads(done.stdout)
    assert (said["tool"], said["version"]) == (name, version())
    # The page of the tools has the names of all that is said.
    told = (TOOLS / "README.md").read_text()
    missing = {key for key in keys_of(said) if f"`{key}`" not in told}
    assert missing == set()


def keys_of(said: Any) -> set[str]:
    """The names in an object and in those that it has; not in `decoders`, whose names are those of sinks."""
    if isinstance(said, list):
        return set().union(*map(keys_of, said))
    if not isinstance(said, dict):
        return set()
    return set(said).union(*(keys_of(value) for key, value in said.items() if key != "decoders"))


@ALL
def test_the_manual_page_has_every_option(name: str, tmp_path: Path) -> None:
    for needed, package in (("mandoc", "mandoc"), ("man", "man-db")):
        if shutil.which(needed) is None:
            pytest.skip(f"there is no program {needed}; on Debian: apt-get install {package}")
    page = tmp_path / f"{name}.1"
    page.write_text(ended([sys.executable, TOP / "packaging/manpages.py", name]).stdout)
    lint = ended(["mandoc", "-T", "lint", "-W", "warning", page]).stdout.splitlines()
    assert [line for line in lint if "mandoc.db" not in line and "referenced manual" not in line] == []
    done = ended(["man", "--warnings", "-l", page], env={**os.environ, "MANWIDTH": "200", "LC_ALL": "C.UTF-8"})
    assert (done.returncode, done.stderr) == (0, "")
    options = set(re.findall(r"^  (?:-\w, )?(--?[a-z-]+)", run_tool(name, "--help").stdout, re.MULTILINE))
    assert len(options) > 3 and {option for option in options if option not in done.stdout} == set()


def test_a_file_never_gets_the_number_of_a_closed_stream(tmp_path: Path) -> None:
    made = tmp_path / "made.svg"
    done = ended(["sh", "-c", 'exec "$@" 0<&- 1>&- 2>&-', "sh", TOOLS / "lif-draw", NET, "-o", made])
    assert (done.returncode, made.read_text()) == (0, run_tool("lif-draw", NET, "-o", "-").stdout)
