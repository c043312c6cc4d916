"""The manual pages of a package: those of the tools are made of their help texts and of tools/README.md, and that of lif is
docs/lif.1 with what differs where it is installed.

    python3 packaging/manpages.py TOOL

says the page of a tool, as lif-draw, which `man -l -` shows.
"""
from __future__ import annotations

import os
import re
import subprocess
import sys
import textwrap
import time
from pathlib import Path

DOC = "/usr/share/doc/lif"
STATUSES = (
    "0 where all is done, 1 where a file is refused, in one line that names the file and the line, place, node or link, "
    "and 2 where the words are no form."
)


def escaped(text: str) -> str:
    """A text as a page has it: what would be a command or a sign of its own is neither."""
    text = text.replace("\\", "\\e").replace("-", "\\-").replace("'", "\\(aq").replace("`", "\\(ga").replace("^", "\\(ha")
    return re.sub(r"^(?=\.)", r"\\&", text.replace("~", "\\(ti"), flags=re.MULTILINE)


def literal(text: str) -> str:
    return f".RS 2\n.nf\n{escaped(textwrap.dedent(text))}\n.fi\n.RE\n"


def filled(text: str) -> str:
    return escaped(textwrap.fill(" ".join(text.split()), 72, break_on_hyphens=False)) + "\n"


def paragraphs(text: str) -> str:
    """Paragraphs of a help text; one whose lines are indented keeps them."""
    parts = [part for part in re.split(r"\n\s*\n", text.strip("\n")) if part]
    return ".PP\n".join(literal(part) if part.startswith(" ") else filled(part) for part in parts)


def options(text: str) -> str:
    """What a help text says of words: each begins a line two letters in, and what it does stands further in."""
    said = ""
    for name, rest in re.findall(r"^  (\S.*?)(?:  +|\n)((?:.*\n?)(?:^    .*\n?)*)", text + "\n", re.MULTILINE):
        said += f".TP\n.B {escaped(name)}\n{filled(rest)}"
    return said


def examples(name: str) -> str:
    """The commands of tools/README.md that call a tool, with what they say."""
    page = (Path(__file__).resolve().parent.parent / "tools/README.md").read_text()
    blocks = re.findall(r"(?:^    .*\n)+", page, re.MULTILINE)
    found = [part for block in blocks for part in re.split(r"^(?=    \$ )", block, flags=re.MULTILINE)]
    named = [part.rstrip("\n").replace(f"tools/{name}", name) for part in found if part.startswith(f"    $ tools/{name} ")]
    return ".PP\n".join(literal(part.replace(" examples/", f" {DOC}/examples/")) for part in named)


def of_tool(tool: Path, version: str, seconds: int) -> str:
    """The page of a tool."""
    env = {**os.environ, "COLUMNS": "80", "LC_ALL": "C.UTF-8", "PYTHONDONTWRITEBYTECODE": "1"}
    help_text = subprocess.run([sys.executable, tool, "--help"], env=env, capture_output=True, text=True, check=True).stdout
    usage, rest = help_text.split("\n\n", 1)
    described, listed = re.split(r"^positional arguments:\n", rest, maxsplit=1, flags=re.MULTILINE)
    positional, optional = re.split(r"^(?:options|optional arguments):\n", listed, maxsplit=1, flags=re.MULTILINE)
    what = described.strip().split("\n")[0].rstrip(".")
    date = time.strftime("%Y-%m-%d", time.gmtime(seconds))
    page = f'.TH {escaped(tool.name.upper())} 1 {date} "lif {version}" "Tools of lif"\n'
    page += f".SH NAME\n{escaped(tool.name)} \\-\n{filled(what[:1].lower() + what[1:])}"
    page += f".SH SYNOPSIS\n.nf\n{escaped(textwrap.dedent(usage.replace('usage: ', '       ')))}\n.fi\n"
    page += f".SH DESCRIPTION\n{paragraphs(described)}.SH OPTIONS\n{options(positional)}{options(optional)}"
    page += f".SH EXIT STATUS\n{filled(STATUSES)}"
    shown = examples(tool.name)
    page += f".SH EXAMPLES\n{shown}" if shown else ""
    return page + f".SH SEE ALSO\n.BR lif (1)\n.PP\n.I {DOC}/tools/README.md\nsays more of each tool.\n"


def installed(page: str, script: str) -> str:
    """The page of lif, with another text on the script, and paths as they are where it is installed."""
    page, count = re.subn(r"^\.Sh THE SCRIPT\n.*?(?=^\.Sh )", lambda _: script, page, flags=re.MULTILINE | re.DOTALL)
    assert count == 1, "docs/lif.1 has one section on the script"
    page = page.replace("\\&./lif ", "lif ").replace("At the top of the repository, the", "The")
    page = re.sub(r"(?<= )examples/", f"{DOC}/examples/", page)
    return re.sub(r"^\.Pa (?=docs/|tools/)", f".Pa {DOC}/", page, flags=re.MULTILINE)


if __name__ == "__main__":
    named = Path(__file__).resolve().parent.parent / "tools" / "".join(sys.argv[1:2])
    if len(sys.argv) != 2 or not named.is_file():
        sys.exit(f"usage: {sys.argv[0]} TOOL, as lif-draw")
    says = subprocess.run([named, "--version"], capture_output=True, text=True, check=True).stdout
    print(of_tool(named, says.split()[-1], int(time.time())), end="")
