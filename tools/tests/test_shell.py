"""The completion of bash and of zsh, and the man page."""
from __future__ import annotations

import re
import shutil
import subprocess
from pathlib import Path

import pytest

from support import MODULES, TOOLS, TOP, run_tool
from lif_tools.formats import Code, Decoder, Operand, read_network, write_code

STATUSES = re.compile(r"\| `(\w+)` \| (\d+) \|")


def completed(folder: Path, *words: str) -> list[str]:
    """What bash offers for the last word."""
    call = "_lif" if Path(words[0]).name == "lif" else "_lif_tool"
    script = (
        f'. "$0"; COMP_WORDS=("$@"); COMP_CWORD=$(($# - 1)); {call}; '
        'if ((${#COMPREPLY[@]})); then printf "%s\\n" "${COMPREPLY[@]}"; fi'
    )
    done = subprocess.run(
        ["bash", "-c", script, str(TOOLS / "lif-completion.bash"), *words],
        cwd=folder,
        capture_output=True,
        text=True,
        check=True,
    )
    assert done.stderr == ""
    return sorted(done.stdout.splitlines())


@pytest.fixture
def folder(tmp_path: Path) -> Path:
    """A folder with a network, a code of two patterns, and other files."""
    network = read_network(b"source s\nsink t\nlink l s t\nlink k s t\npattern duct l\npattern dust k\n")
    # The second link carries what the first does, and the decoder takes the one that works.
    code = Code(
        network,
        8,
        1,
        ((Operand(0, 1),), (Operand(0, 1),)),
        (Decoder((0,), (1,)), Decoder((1,), (1,)), Decoder((0,), (1,))),
    )
    (tmp_path / "my code.lif").write_bytes(write_code(code))
    for name in ("one.net", "notes.txt", "film.mp4"):
        (tmp_path / name).write_text("")
    (tmp_path / "old").mkdir()
    return tmp_path


def test_words_are_completed(folder: Path) -> None:
    words = "blind check compile cuts demo finish migrate order relay send sendtwo sink twin".split()
    assert completed(folder, "lif", "") == words
    assert completed(folder, "./lif", "c") == ["check", "compile", "cuts"]


def test_files_are_completed(folder: Path) -> None:
    assert completed(folder, "lif", "cuts", "") == ["old", "one.net"]
    assert completed(folder, "lif", "check", "") == ["my code.lif", "old"]
    assert completed(folder, "lif", "check", "n") == ["notes.txt"]
    assert completed(folder, "lif", "send", "a.lif", "none", "1", "f") == ["film.mp4"]
    assert completed(folder, "lif", "migrate", "") == completed(folder, "lif", "migrate", "a.lif", "") == ["my code.lif", "old"]
    assert completed(folder, "lif", "compile", "one.net", "b.lif", "n") == ["notes.txt"]
    (folder / "one.draft").write_text("")
    assert completed(folder, "lif", "finish", "") == completed(folder, DRAFT, "one.net", "-o", "") == ["old", "one.draft"]
    assert completed(folder, "lif", "finish", "one.draft", "") == ["my code.lif", "old"]
    assert completed(folder, "lif", "twin", "") == ["old", "one.net"]
    assert completed(folder, "lif", "twin", "one.net", "b", "1", "1", "") == ["my code.lif", "old"]
    assert completed(folder, "lif", "twin", "one.net", "b", "1", "1", "b.lif", "") == ["notes.txt", "old"]
    assert completed(folder, "lif", "sendtwo", "") == ["my code.lif", "old"]
    for words in (("f",), ("a", "f"), ("a", "b", "f")):
        assert completed(folder, "lif", "sendtwo", "a.lif", "none", "1", "1", *words) == ["film.mp4"]


def test_patterns_are_completed(folder: Path) -> None:
    assert completed(folder, "lif", "send", "my\\ code.lif", "") == ["duct", "dust", "none"]
    assert completed(folder, "lif", "send", "my\\ code.lif", "du") == ["duct", "dust"]
    assert completed(folder, "lif", "sendtwo", "my\\ code.lif", "") == ["duct", "dust", "none"]
    assert completed(folder, "lif", "sendtwo", "my\\ code.lif", "none", "") == []
    assert completed(folder, "lif", "sendtwo", "my\\ code.lif", "none", "1", "") == []
    assert completed(folder, "lif", "send", "one.net", "") == []
    assert completed(folder, "lif", "send", "a.lif", "none", "") == []
    assert completed(folder, "lif", "demo", "") == []


def test_nodes_and_sinks_are_completed(folder: Path) -> None:
    assert completed(folder, "lif", "relay", "my\\ code.lif", "") == ["duct", "dust", "none"]
    assert completed(folder, "lif", "relay", "my\\ code.lif", "none", "") == ["s", "t"]
    assert completed(folder, "lif", "sink", "my\\ code.lif", "none", "") == ["t"]
    assert completed(folder, "lif", "sink", "my\\ code.lif", "none", "t", "n") == ["notes.txt"]
    (folder / "two.net").write_text(NET)
    assert completed(folder, "lif", "twin", "two.net", "") == ["s", "t", "u"]
    assert completed(folder, "lif", "twin", "missing.net", "") == completed(folder, "lif", "twin", "two.net", "s", "") == []


def test_links_are_completed(folder: Path) -> None:
    assert completed(folder, "lif", "blind", "") == ["my code.lif", "old"]
    for words in (("a.lif", "f"), ("a.lif", "b", "f")):
        assert completed(folder, "lif", "blind", *words) == ["film.mp4"]
    assert completed(folder, "lif", "blind", "my\\ code.lif", "a", "b", "") == ["k", "l"]
    assert completed(folder, "lif", "blind", "my\\ code.lif", "a", "b", "k", "l", "k", "l") == ["l"]
    assert completed(folder, "lif", "blind", "notes.txt", "a", "b", "") == []
    (folder / "two.net").write_text(BUNDLED)
    assert completed(folder, DRAW, "two.net", "--failed", "") == ["k.1", "k.2", "k.3", "l"]
    assert completed(folder, DRAW, "two.net", "--failed", "k.1,k.") == ["k.1,k.1", "k.1,k.2", "k.1,k.3"]


def completed_by_zsh(folder: Path, *words: str) -> list[str]:
    """What zsh offers for the last word, where it takes all that it is given; `files` stands before the form of files."""
    script = (
        'compadd() { [[ $1 == -a ]] && set -- ${(P)2}; [[ $1 == -- ]] && shift; print -l -- "$@"; }; '
        '_files() { print -- files "$2"; }; PATH=${0:h}:$PATH; words=("$@"); CURRENT=$#; . $0'
    )
    done = subprocess.run(
        ["zsh", "-fc", script, str(TOOLS / "lif-completion.zsh"), *words],
        cwd=folder,
        capture_output=True,
        text=True,
        check=False,
    )
    assert done.stderr == ""
    return sorted(filter(None, done.stdout.splitlines()))


DRAFT, DRAW, IMPORT, ESTIMATE, PLAN, GAIN, NODE = (
    str(TOOLS / f"lif-{name}") for name in ("draft", "draw", "import", "estimate", "plan", "gain", "node")
)
# A link and a bundle.
BUNDLED = "source s\nsink t\nlink l s t\nlink k s t x3 # far\n"
PLANNED = '{\n "links": [\n  {\n   "name": "l",\n   "tail": "s",\n   "head": "t"\n  }\n ]\n}\n'
NET = "source s\nsink t\nsink u # far\nlink l s t\nlink k s u\npattern duct l\n"

# The words, and what is offered for the last one: names, and the endings of files.
OFFERED = [
    ((DRAW, "two.net", "--pattern", ""), ["duct", "none"], ""),
    ((DRAW, "two.net", "--sink", ""), ["t", "u"], ""),
    ((DRAW, "two.net", "--code", ""), ["my code.lif", "old"], "*.lif"),
    ((GAIN, "two.net", "--second", ""), ["s", "t", "u"], ""),
    ((ESTIMATE, "my\\ code.lif", "--pattern", ""), ["duct", "dust", "none"], ""),
    ((ESTIMATE, ""), ["my code.lif", "old"], "*.lif"),
    ((PLAN, "my\\ code.lif", "--pattern", ""), ["duct", "dust", "none"], ""),
    ((PLAN, ""), ["my code.lif", "old"], "*.lif"),
    ((ESTIMATE, "--bytes", ""), [], ""),
    ((IMPORT, "--field", ""), ["16", "8"], ""),
    ((IMPORT, "--format", ""), ["dot", "gml", "graphml", "json"], ""),
    ((IMPORT, "--capacity", ""), [], ""),
    ((DRAFT, "--field", ""), ["16", "8", "9"], ""),
    ((DRAFT, "--random", ""), [], ""),
    ((NODE, ""), ["old", "plan.json"], "*.json"),
    ((NODE, "status", ""), ["old", "plan.json"], "*.json"),
    ((NODE, "plan.json", ""), ["s", "t"], ""),
    ((PLAN, "--port", ""), [], ""),
    ((DRAFT, ""), ["my code.lif", "old", "one.net", "two.net"], "*.(lif|net)"),
]


def test_words_of_the_tools_are_completed(folder: Path) -> None:
    (folder / "two.net").write_text(NET)
    (folder / "plan.json").write_text(PLANNED)
    for words, offered, _ in OFFERED:
        assert (words, completed(folder, *words)) == (words, offered)
    options = set(re.findall(r"--[a-z-]+", run_tool("lif-draw", "--help").stdout.split("positional")[0])) | {"--help"}
    assert set(completed(folder, DRAW, "two.net", "--")) == options
    assert completed(folder, DRAW, "--l") == ["--live"]
    assert completed(folder, PLAN, "my\\ code.lif", "--places", "n") == ["notes.txt"]
    assert completed(folder, NODE, "plan.json", "t", "--to", "n") == ["notes.txt"]


def test_zsh_completes_the_words_of_the_tools(folder: Path) -> None:
    if shutil.which("zsh") is None:
        pytest.skip("there is no program zsh; on Debian: apt-get install zsh")
    (folder / "two.net").write_text(NET)
    (folder / "plan.json").write_text(PLANNED)
    for words, offered, files in OFFERED:
        assert (words, completed_by_zsh(folder, *words)) == (words, [f"files {files}"] if files else offered)
    assert completed_by_zsh(folder, DRAW, "-") == sorted(completed(folder, DRAW, "--"))
    assert completed_by_zsh(folder, PLAN, "my\\ code.lif", "--places", "") == ["files "]
    assert completed_by_zsh(folder, NODE, "plan.json", "t", "--to", "") == ["files "]
    assert completed_by_zsh(folder, "lif", "") == completed(folder, "lif", "")
    assert completed_by_zsh(folder, "lif", "migrate", "a.lif", "") == ["files *.lif"]
    assert completed_by_zsh(folder, "lif", "send", "my\\ code.lif", "") == ["duct", "dust", "none"]
    assert completed_by_zsh(folder, "lif", "finish", "") == completed_by_zsh(folder, DRAFT, "-o", "") == ["files *.draft"]
    assert completed_by_zsh(folder, "lif", "finish", "a.draft", "") == ["files *.lif"]
    assert completed_by_zsh(folder, "lif", "twin", "") == ["files *.net"]
    assert completed_by_zsh(folder, "lif", "twin", "two.net", "") == ["s", "t", "u"]
    assert completed_by_zsh(folder, "lif", "twin", "two.net", "b", "1", "1", "") == ["files *.lif"]
    assert completed_by_zsh(folder, "lif", "twin", "two.net", "b", "1", "1", "b.lif", "") == ["files *.txt"]
    assert completed_by_zsh(folder, "lif", "sendtwo", "") == ["files *.lif"]
    assert completed_by_zsh(folder, "lif", "sendtwo", "my\\ code.lif", "") == ["duct", "dust", "none"]
    for words in ((), ("a",), ("a", "b")):
        assert completed_by_zsh(folder, "lif", "sendtwo", "a.lif", "none", "1", "1", *words, "") == ["files "]
    assert completed_by_zsh(folder, "lif", "blind", "") == ["files *.lif"]
    assert completed_by_zsh(folder, "lif", "blind", "a.lif", "") == completed_by_zsh(folder, "lif", "blind", "a.lif", "b", "")
    assert completed_by_zsh(folder, "lif", "blind", "my\\ code.lif", "a", "b", "k", "") == ["k", "l"]
    (folder / "two.net").write_text(BUNDLED)
    assert completed_by_zsh(folder, DRAW, "two.net", "--failed", "") == ["k.1", "k.2", "k.3", "l"]
    assert completed_by_zsh(folder, DRAW, "two.net", "--failed", "l,k") == ["l,k.1", "l,k.2", "l,k.3", "l,l"]


def test_the_completion_is_that_of_the_commands() -> None:
    names = ["lif", *MODULES]
    done = subprocess.run(
        ["bash", "-c", '. "$0"; complete -p "$@"', str(TOOLS / "lif-completion.bash"), *names],
        capture_output=True,
        text=True,
        check=True,
    )
    assert done.stdout.splitlines() == ["complete -F _lif lif"] + [f"complete -F _lif_tool {name}" for name in MODULES]
    assert (TOOLS / "lif-completion.zsh").read_text().startswith(f"#compdef {' '.join(names)}\n")


def page() -> str:
    return (TOP / "docs/lif.1").read_text()


def test_the_man_page_is_well_formed() -> None:
    for name, package in (("mandoc", "mandoc"), ("man", "man-db")):
        if shutil.which(name) is None:
            pytest.skip(f"there is no program {name}; on Debian: apt-get install {package}")
    done = subprocess.run(
        ["mandoc", "-T", "lint", "-W", "style", str(TOP / "docs/lif.1")], capture_output=True, text=True, check=False
    )
    said = [
        line
        for line in done.stdout.splitlines()
        if "outdated mandoc.db" not in line and "referenced manual" not in line
    ]
    assert said == []
    done = subprocess.run(
        ["man", "--warnings", "-l", str(TOP / "docs/lif.1")], capture_output=True, text=True, check=False
    )
    assert done.stderr == ""


def test_the_man_page_has_every_word_and_every_status() -> None:
    (usage,) = re.findall(r"`usage: lif (.*?)`", (TOP / "docs/FORMATS.md").read_text())
    for form in usage.replace("\\", "").split(" | "):
        word, *names = form.split()
        assert f".Cm {word}\n.Ar {' '.join(names)}\n" in page()
    statuses = STATUSES.findall((TOP / "docs/FORMATS.md").read_text())
    assert len(statuses) == 23
    assert [number for _, number in statuses] == re.findall(r"^\.It (\d+)$", page(), re.MULTILINE)
