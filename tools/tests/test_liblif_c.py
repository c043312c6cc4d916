"""The example in C: nodes as processes, and each sink with the bytes of the source."""
from __future__ import annotations

import os
import random
import re
import shutil
from pathlib import Path

import pytest

from support import EXAMPLES, TOP, ended

CODES = (EXAMPLES / "butterfly/butterfly.lif", TOP / "crates/worked_cases/data/wide-butterfly.lif")
SINKS = ("t1", "t2")
CHECKS = ("-std=c11", "-Wall", "-Wextra", "-pedantic", "-Werror", "-fsanitize=address,undefined")
# A block of rate 2 has room for 2044 bytes, and a window for four blocks.
SIZES = (0, 1, 2043, 2044, 2045, 4 * 2044 - 1, 4 * 2044, 100000)


@pytest.fixture(scope="module")
def butterfly(tmp_path_factory: pytest.TempPathFactory) -> Path:
    """The example, as a program; a test that asks for it is skipped where there is no library or no compiler."""
    library = os.environ.get("LIBLIF")
    if library is None:
        pytest.skip("there is no library: set LIBLIF to the path of liblif.a")
    if shutil.which("cc") is None:
        pytest.skip("there is no cc")
    made = tmp_path_factory.mktemp("c") / "butterfly"
    done = ended(["cc", *CHECKS, f"-I{TOP}/include", EXAMPLES / "c/butterfly.c", library, "-o", made])
    assert (done.returncode, done.stderr) == (0, "")
    return made


@pytest.mark.parametrize("code", CODES, ids=("field-8", "field-16"))
@pytest.mark.parametrize("size", SIZES)
def test_each_sink_gets_the_source(butterfly: Path, code: Path, size: int, tmp_path: Path) -> None:
    source, given = tmp_path / "src", random.Random(size).randbytes(size)
    source.write_bytes(given)
    for seed in (0, 1, 2**64 - 1):
        done = ended([butterfly, code, source, tmp_path / "out", seed], timeout=60)
        assert (done.returncode, done.stderr) == (0, "")
        for sink in SINKS:
            assert (tmp_path / f"out.{sink}").read_bytes() == given


def test_a_file_that_is_no_code_is_refused(butterfly: Path, tmp_path: Path) -> None:
    done = ended([butterfly, EXAMPLES / "butterfly/butterfly.net", os.devnull, tmp_path / "out", 1])
    assert (done.returncode, done.stderr) == (1, "butterfly: the bytes aren't a code file\n")


def test_a_source_that_is_not_there_is_named(butterfly: Path, tmp_path: Path) -> None:
    done = ended([butterfly, CODES[0], tmp_path / "none", tmp_path / "out", 1], timeout=60)
    assert done.returncode == 1
    assert f"butterfly: {tmp_path}/none\n" in done.stderr


def test_the_header_is_cpp(butterfly: Path, tmp_path: Path) -> None:
    if shutil.which("c++") is None:
        pytest.skip("there is no c++")
    uses = tmp_path / "uses.cc"
    uses.write_text('#include <lif.h>\nint main() { lif_code code{}; return lif_code_close(&code) == LIF_CLOSED ? 0 : 1; }\n')
    made = tmp_path / "uses"
    checks = ("-std=c++11", "-Wall", "-Wextra", "-pedantic", "-Werror")
    assert ended(["c++", *checks, f"-I{TOP}/include", uses, os.environ["LIBLIF"], "-o", made]).stderr == ""
    assert ended([made]).returncode == 0


def test_the_program_of_the_page(butterfly: Path, tmp_path: Path) -> None:
    """The first program of docs/C.md, by its words."""
    (program,) = re.findall(r"^```c\n(.*?)^```$", (TOP / "docs/C.md").read_text(), re.MULTILINE | re.DOTALL)
    uses, made = tmp_path / "first.c", tmp_path / "first"
    uses.write_text(program)
    assert ended(["cc", *CHECKS, f"-I{TOP}/include", uses, os.environ["LIBLIF"], "-o", made]).stderr == ""
    done = ended([made], cwd=TOP)
    assert (done.returncode, done.stdout, done.stderr) == (0, "hello\n", "")


def test_the_library_has_the_calls_of_the_header(butterfly: Path, tmp_path: Path) -> None:
    calls = re.findall(r"^uint32_t (lif_\w+)\(", (TOP / "include/lif.h").read_text(), re.MULTILINE)
    lines = ended(["nm", os.environ["LIBLIF"]]).stdout.splitlines()
    assert sorted(line.split()[-1] for line in lines if re.search(" [A-TV-Z] ", line)) == sorted(calls)


def test_no_library_is_made_without_the_archive_of_the_crate(tmp_path: Path) -> None:
    done = ended([TOP / "tools/liblif", tmp_path / "made", "--crate", tmp_path / "none", "--kit-archive", tmp_path / "none"])
    said = f"{TOP}/tools/liblif: there is no {tmp_path}/none: `rt lib` in crates/lif_c makes it\n"
    assert (done.returncode, done.stdout, done.stderr) == (1, "", said)
    assert not (tmp_path / "made").exists()


def test_names_of_errors_are_those_of_the_sources() -> None:
    """What the header says in words, and by what names, is what the crates say."""
    says, items = re.findall(r"\[\] = \{(.*?)\};", (TOP / "include/lif.h").read_text(), re.DOTALL)
    words = re.findall(r"#\[error\(\"(.*?)\"\)\]", (TOP / "crates/open_nodes/src/call_error.rt").read_text())
    assert re.findall(r'"(.*?)"', says)[1:15] == words
    names = re.findall(r'CodeRefusal::\w+(?: \{ \.\. \})? => "(\w+)"', (TOP / "crates/code_items/src/refusal.rt").read_text())
    assert re.findall(r'"(\w*)"', items) == ["", *(name for name in names if name != "OutOfMemory")]
