"""Every command of the documents is run, and what it says is compared with what stands there."""
from __future__ import annotations

import importlib
import os
import re
import shutil
from pathlib import Path

import pytest

from documents import check_commands, commands
from support import MODULES, TOOLS, TOP, Program, run_command, run_tool

DOCUMENTS = ["README.md", "docs/TUTORIAL.md", "docs/lif.1", "tools/README.md"]


@pytest.mark.parametrize("document", DOCUMENTS)
def test_commands_say_what_the_document_shows(program: Program, top: Path, document: str) -> None:
    if shutil.which("snakemake") is None and any(command.startswith("snakemake ") for command, _ in commands(document)):
        pytest.skip("there is no program snakemake; on Debian: apt-get install snakemake")
    # Snakemake keeps files in the folder of caches.
    check_commands(document, top, env={**os.environ, "XDG_CACHE_HOME": str(top / "cache")})


def test_the_table_of_gains(program: Program, top: Path) -> None:
    """Each number of the tutorial's table is what lif-gain says."""
    page = (TOP / "docs/TUTORIAL.md").read_text()
    rows = re.findall(r"^\| (.*) \| (\d+) \| (\S+) \| (\S+) \| (\S+) \| (\S+) \|$", page, re.MULTILINE)
    words = [
        "--source",
        "New York",
        "--sinks",
        "Seattle,Los Angeles",
        "--orient",
        "--distance",
        "weight",
        "--capacity",
        "gbits",
        "--unit",
        "2.5",
    ]
    run_tool("lif-import", top / "examples/abilene/abilene.graphml", *words, "-o", top / "abilene.net")
    networks = {
        "the butterfly": "examples/butterfly/butterfly.net",
        "a sink": "examples/combination/combination.net",
        "the regional": "examples/regional/regional.net",
        "12 cities": "examples/polska/polska.net",
        "Abilene": "abilene.net",
    }
    assert len(rows) == len(networks)
    for (name, *cells), (begin, path) in zip(rows, networks.items()):
        assert name.startswith(begin)
        lines = run_tool("lif-gain", top / path).stdout.splitlines()[1:]
        assert all(line.split()[1:] == cells for line in lines)


def test_every_option_is_told(top: Path) -> None:
    """What --help says of each tool names every option, and each tool stands in README.md and in the table of the tools."""
    for name, module in MODULES.items():
        described = importlib.import_module(f"lif_tools.{module}").__doc__ or ""
        done = run_tool(name, "--help")
        assert done.returncode == 0 and described.split("\n")[0] in done.stdout
        assert f"`tools/{name}`" in (TOP / "README.md").read_text()
        assert f"`{name}`" in (TOOLS / "README.md").read_text()


def test_output_follows_from_the_input_alone(top: Path) -> None:
    """Whatever the hashes of strings are, and however often a tool runs, it says and writes the same."""
    source = ["--source", "New York", "--sinks", "Seattle,Los Angeles", "--orient", "--fail-each", "-o", "-"]
    calls: list[list[object]] = [
        ["lif-import", top / "examples/abilene/abilene.graphml", *source],
        ["lif-draw", top / "examples/polska/polska.net", "-o", "-"],
        ["lif-gain", top / "examples/butterfly/butterfly.net"],
        ["lif-estimate", top / "examples/butterfly/butterfly.lif", "--bytes", "1"],
        ["lif-plan", top / "examples/butterfly/butterfly.lif"],
        ["lif-draft", top / "examples/polska/polska.net", "--rate", "2", "--random", "7", "--json", "-o", os.devnull],
    ]
    for call in calls:
        name, *words = call
        seeds = ({**os.environ, "PYTHONHASHSEED": str(seed)} for seed in range(2))
        outputs = {run_command(str(name), *words, env=env).stdout for env in seeds}
        assert len(outputs) == 1 and outputs != {""}
