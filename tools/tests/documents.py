"""The commands of a document, and whether they say what stands there."""
from __future__ import annotations

import re
import subprocess
from pathlib import Path
from typing import Any

from support import TOP


def blocks(document: str) -> list[list[str]]:
    """The lines of each block of a document that has commands: indented ones, and in a man page literal ones."""
    text = (TOP / document).read_text()
    if document.endswith(".1"):
        found = re.findall(r"^\.Bd -literal.*?\n(.*?)^\.Ed$", text, re.MULTILINE | re.DOTALL)
        parts = [part.replace("\\-", "-").replace("\\&", "").splitlines() for part in found]
    else:
        found = re.findall(r"(?:^    .*\n)+", text, re.MULTILINE)
        parts = [[line[4:] for line in part.splitlines()] for part in found]
    return [part for part in parts if part[0].startswith("$ ")]


def commands(document: str) -> list[tuple[str, str]]:
    """The commands of a document in order, each with what it says."""
    found: list[tuple[str, str]] = []
    for block in blocks(document):
        for line in block:
            if line.startswith("$ "):
                found.append((line[2:], ""))
            else:
                found[-1] = (found[-1][0], found[-1][1] + line + "\n")
    return found


def form_of(said: str) -> str:
    """What a command may say, as an expression: a line of two dots stands for any lines."""
    return "".join("(?:.*\n)*?" if line == "..\n" else re.escape(line) for line in said.splitlines(keepends=True))


def check_commands(document: str, top: Path, **options: Any) -> None:
    """Runs the commands of a document in a folder, and compares what they say and how they end."""
    listed = commands(document)
    assert listed
    # One shell runs them all, as a reader's would, and says between them where one ends.
    mark = "== end of a command =="
    script = "".join(f"{command}\necho '{mark}'\n" for command, _ in listed if command != "echo $?")
    script = script.replace(f"echo '{mark}'\n", f"status=$?; echo '{mark}'; echo $status\n")
    done = subprocess.run(
        ["bash", "-c", script], cwd=top, stdout=subprocess.PIPE, stderr=subprocess.STDOUT, text=True, check=False, **options
    )
    outputs = re.split(rf"{mark}\n(\d+)\n", done.stdout)
    ended = iter(zip(outputs[::2], outputs[1::2]))
    status = "0"
    for place, (command, said) in enumerate(listed):
        if command == "echo $?":
            assert said == f"{status}\n"
            continue
        found, status = next(ended)
        assert re.fullmatch(form_of(said), found), f"{command} says\n{found}and not\n{said}"
        shown = place + 1 < len(listed) and listed[place + 1][0] == "echo $?"
        assert shown or status == "0" or said, f"{command} ends with {status}"
