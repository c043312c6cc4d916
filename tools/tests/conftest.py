"""The fixtures of the tests, and which tests read the program."""
from __future__ import annotations

import os
import shutil
import subprocess
from pathlib import Path
from typing import Any

import pytest

from support import EXAMPLES, TOOLS, TOP, Program, ended, find_program


def pytest_collection_modifyitems(items: list[pytest.Function]) -> None:
    """Marks the tests that ask for the program."""
    for item in items:
        if "program" in item.fixturenames:
            item.add_marker("program")


@pytest.fixture(scope="session")
def program() -> Program:
    """Runs the program `lif` with words; a test that asks for it is skipped where there is none."""
    found = find_program()
    if found is None:
        pytest.skip("there is no program: set LIF_PROGRAM to it, or let ./lif build it")

    def run(*given: object, **options: Any) -> subprocess.CompletedProcess[str]:
        return ended([found, *given], **options)

    return run


@pytest.fixture
def top(tmp_path: Path) -> Path:
    """A folder like the top of the repository, in which commands may leave files."""
    shutil.copytree(EXAMPLES, tmp_path / "examples")
    for folder in ("tools", "docs"):
        os.symlink(TOP / folder, tmp_path / folder)
    # As the script `lif` runs it, but for what that says of a program that isn't proved.
    (tmp_path / "lif").write_text(f'#!/bin/sh\nexec python3 {TOOLS}/lifrun.py {find_program()} "$@"\n')
    (tmp_path / "lif").chmod(0o755)
    return tmp_path
