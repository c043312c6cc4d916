"""lif-node: overlays on the loopback that get all, whatever is killed and changed, or say what they lack."""
from __future__ import annotations

import contextlib
import importlib.util
import json
import os
import random
import re
import shutil
import signal
import subprocess
import threading
import time
from pathlib import Path
from typing import Iterator

import pytest

from documents import check_commands
from overlays import Overlay, until
from support import EXAMPLES, TOOLS, has_liblif, run_tool
from lif_tools.formats import Code, finish, read_code, read_draft, write_code

pytestmark = [
    pytest.mark.slow,
    pytest.mark.skipif(
        not has_liblif() or importlib.util.find_spec("zmq") is None, reason="there is no liblif, or no python3-zmq"
    ),
]
FLY = EXAMPLES / "butterfly/butterfly.lif"
# For how many seconds the stream without an end is watched.
WATCHED = float(os.environ.get("LIF_NODE_SECONDS", "6"))
CHANCE = random.Random(62)


@pytest.fixture
def fly(tmp_path: Path) -> Iterator[Overlay]:
    with Overlay(tmp_path, FLY) as overlay:
        yield overlay


def source(folder: Path, size: int) -> Path:
    path = folder / "src"
    path.write_bytes(CHANCE.randbytes(size))
    return path


@pytest.mark.parametrize("size", [0, 1, 2044 * 4, 300_000])
def test_nodes_start_in_any_order(fly: Overlay, size: int) -> None:
    src = source(fly.folder, size)
    for name in CHANCE.sample(fly.names, len(fly.names)):
        fly.start(name, *(("--from", src) if name == "s" else ()))
        time.sleep(CHANCE.random() / 5)
    fly.ends()
    assert fly.got("t1") == fly.got("t2") == src.read_bytes()
    # Nothing else is left where a sink writes.
    assert {path.name for path in fly.folder.iterdir() if "out" in path.name} == {"out.t1", "out.t2"}


@pytest.mark.parametrize("killed", ["s", "a", "c", "d", "t1", "c d t2", "s a b c d t1 t2"])
def test_a_node_that_was_killed_goes_on(fly: Overlay, killed: str) -> None:
    src, part = source(fly.folder, 12_000_000), fly.folder / ".out.t1.part"
    fly.start_all("--from", src)
    for share in (1, 5):
        until(lambda: part.exists() and part.stat().st_size > share * 1_000_000)
        for name in killed.split():
            fly.running[name].kill()
            fly.running[name].wait()
        for name in CHANCE.sample(killed.split(), len(killed.split())):
            fly.start(name, *(("--from", src) if name == "s" else ()))
    fly.ends()
    assert fly.got("t1") == fly.got("t2") == src.read_bytes()
    # Nothing was lost, and what was done isn't done again.
    assert all(fly.counted(name)["lost"] == 0 for name in fly.names)


def segments(folder: Path, sizes: dict[str, int]) -> dict[str, bytes]:
    made = {name: CHANCE.randbytes(size) for name, size in sizes.items()}
    folder.mkdir(exist_ok=True)
    for name, content in made.items():
        (folder / name).write_bytes(content)
    return made


def received(folder: Path) -> dict[str, bytes]:
    return {path.name: path.read_bytes() for path in folder.iterdir()}


def test_files_of_a_folder(fly: Overlay) -> None:
    """One of no bytes, of a window, of one byte more, of many, and with a name of letters of all kinds."""
    made = segments(fly.folder / "in", {"0": 0, "1": 1, "2": 8176 - 11, "3": 8176 - 10, "4": 500_000, "é ?*": 7})
    segments(fly.folder / "in", {".hidden": 5, "x.tmp": 6})
    fly.sinks = {"t1": "to1/", "t2": "to2/"}
    fly.start_all("--from", fly.folder / "in")
    until(lambda: all((fly.folder / to).is_dir() and made.keys() <= received(fly.folder / to).keys() for to in ("to1", "to2")))
    made |= segments(fly.folder / "in", {"5": 30_000, "a.m3u8": 100})
    until(lambda: "a.m3u8" in received(fly.folder / "to1"))
    made |= segments(fly.folder / "in", {"a.m3u8": 101})
    time.sleep(0.7)
    (fly.folder / "in/.end").touch()
    fly.ends()
    assert received(fly.folder / "to1") == received(fly.folder / "to2") == made
    assert not (fly.folder / "in/.lif-node").exists()


@pytest.mark.parametrize("killed", ["s", "t1", "s a b c d t1 t2"])
def test_folders_of_nodes_that_were_killed(fly: Overlay, killed: str) -> None:
    made = segments(fly.folder / "in", {f"{number:02}": 700_000 for number in range(16)})
    (fly.folder / "in/.end").touch()
    fly.sinks = {"t1": "to1/", "t2": "to2/"}
    fly.start_all("--from", fly.folder / "in")
    until(lambda: (fly.folder / "to1/03").exists())
    for name in killed.split():
        fly.running[name].kill()
        fly.running[name].wait()
    for name in killed.split():
        fly.start(name, *(("--from", fly.folder / "in") if name == "s" else ()))
    fly.ends()
    assert received(fly.folder / "to1") == received(fly.folder / "to2") == made


def test_pipes(fly: Overlay) -> None:
    """What comes on a pipe is sent at once, and comes out of one."""
    readers = {name: fly.start(name, "--to", "-", stdout=subprocess.PIPE) for name in ("t1", "t2")}
    for name in "abcd":
        fly.start(name)
    writer = fly.start("s", stdin=subprocess.PIPE)
    assert writer.stdin is not None
    for part in (b"one", b"two" * 10_000, b"three"):
        writer.stdin.write(part)
        writer.stdin.flush()
        for reader in readers.values():
            assert reader.stdout is not None
            assert reader.stdout.read(len(part)) == part
    writer.stdin.close()
    fly.ends()


def test_a_slow_sink_slows_the_source(fly: Overlay) -> None:
    """Where a sink's output isn't read, what all nodes hold stays within the bound, and nothing is dropped."""
    src = source(fly.folder, 8_000_000)
    fly.start_all("--from", src, leave=("t1",))
    slow = fly.start("t1", "--to", "-", stdout=subprocess.PIPE)
    time.sleep(3)
    windows = fly.counted("s")["windows"]
    assert 0 < windows <= 64 + 16
    assert fly.counted("s")["waits_for"] in ("s-a", "s-b") and max(fly.counted("s")["queue_out"].values()) == 64
    assert slow.stdout is not None and slow.stdout.read() == src.read_bytes()
    fly.ends()
    assert fly.got("t2") == src.read_bytes()


class Changer:
    """Changes a byte of the payload of one in so many frames that it sees."""

    def __init__(self, every: int):
        self.every, self.seen, self.changed = every, 0, 0

    def __call__(self, content: bytes) -> bytes:
        made = bytearray(content)
        for found in re.finditer(rb"LF\x01.{13}", content, re.DOTALL):
            self.seen += 1
            if self.seen % self.every == 0 and found.end() < len(made):
                made[found.end() - 1] ^= 1
                self.changed += 1
        return bytes(made)


def test_a_link_that_changes_bytes_now_and_then(fly: Overlay) -> None:
    """What came changed is seen, counted, and asked for again."""
    src, changer = source(fly.folder, 2_000_000), Changer(1000)
    fly.proxied("c-d", "c", changer)
    fly.start_all("--from", src)
    fly.ends()
    assert fly.got("t1") == fly.got("t2") == src.read_bytes()
    assert changer.changed > 2 and fly.counted("d")["refused"] == {"c-d": changer.changed}
    assert fly.said("d").startswith("lif-node: link c-d: window ")


def test_a_link_that_changes_everything(fly: Overlay) -> None:
    """The sink behind it says which windows it lacks, and has no file; the other one has its own."""
    src = source(fly.folder, 30_000)
    fly.proxied("a-t1", "a", Changer(1))
    fly.start_all("--from", src)
    fly.ends(t1=1)
    assert fly.got("t2") == src.read_bytes() and not (fly.folder / "out.t1").exists()
    assert fly.counted("t1")["lost"] == 4 and fly.counted("t1")["refused"]["a-t1"] >= 4
    said = fly.said("t1").splitlines()
    assert [line for line in said if "can't be had" in line] == [
        "lif-node: window 0 can't be had",
        f"lif-node: {fly.folder}/out.t1: it can't be had whole, and isn't written",
        *(f"lif-node: window {window} can't be had" for window in (1, 2, 3)),
    ]
    assert said[-1] == "lif-node: not all could be had"


def test_a_file_of_a_folder_that_lacks_a_window_is_given_up_alone(fly: Overlay) -> None:
    made = segments(fly.folder / "in", {"0": 100, "1": 100, "2": 100})
    fly.proxied("d-t2", "d", OneWindow(1))
    (fly.folder / "in/.end").touch()
    fly.sinks = {"t1": "to1/", "t2": "to2/"}
    fly.start_all("--from", fly.folder / "in")
    fly.ends(t2=1)
    assert received(fly.folder / "to1") == made
    assert received(fly.folder / "to2") == {name: content for name, content in made.items() if name != "1"}


class OneWindow:
    """Changes the payload of the frames of one window, which has one generation here."""

    def __init__(self, window: int):
        self.generation = (4 * window).to_bytes(4, "big")

    def __call__(self, content: bytes) -> bytes:
        return re.sub(rb"(LF\x01.{5}" + re.escape(self.generation) + rb").", rb"\1?", content, flags=re.DOTALL)


def test_two_sinks_at_one_address(fly: Overlay) -> None:
    src = source(fly.folder, 1000)
    first = fly.start("t1")
    until(lambda: fly.counted("t1") != {})
    done = run_node(fly, "t1", "--to", fly.folder / "other")
    assert done.returncode == 1 and re.fullmatch(
        r"lif-node: link \S+: can't listen at 127\.0\.0\.1:\d+: Address already in use\n", done.stderr
    )
    fly.start_all("--from", src, leave=("t1",))
    fly.ends()
    assert first.returncode == 0 and fly.got("t1") == src.read_bytes()


def run_node(fly: Overlay, *words: object) -> subprocess.CompletedProcess[str]:
    return run_tool("lif-node", fly.path, *words, timeout=20)


def test_what_is_refused_at_the_start(fly: Overlay, tmp_path: Path) -> None:
    plan = fly.path.read_text()
    other = tmp_path / "other.lif"
    shutil.copy(EXAMPLES / "one-link/one.lif", other)

    def said(content: str, *words: object) -> str:
        fly.path.write_text(content)
        done = run_node(fly, *words)
        assert (done.returncode, done.stdout) == (1, "")
        return done.stderr.removeprefix("lif-node: ").removesuffix("\n").removeprefix(f"{fly.path}: ")

    assert said(plan.replace(str(FLY), str(other)), "s") == f"it isn't a plan of this code: {other}"
    no_plan = "no plan of lif-plan with addresses, by --port or --addresses"
    for broken in ("", "[]", "{}", plan.replace("overlay", "other"), plan.replace('"bound": 64', '"bound": "64"')):
        assert said(broken, "s") == no_plan
    nodes = ", ".join(read_code(FLY.read_bytes()).network.nodes)
    assert said(plan, "x") == f"unknown node: x; there are {nodes}"
    without = json.loads(plan)
    del without["overlay"]["addresses"]["c-d"]
    assert said(json.dumps(without), "s") == "no address for c-d"
    assert said(plan, "a", "--from", "x") == "--from is for the source, and a is none"
    assert said(plan, "a", "--to", "x") == "--to is for a sink, and a is none"
    assert said(plan, "s", "--from", tmp_path / "missing") == f"{tmp_path}/missing: No such file or directory"
    assert said(plan, "s", "--pattern", "x") == f"{FLY}: unknown pattern: x; its patterns: none"


def test_another_code_or_another_stream_is_refused(fly: Overlay) -> None:
    """By the node that hears of it, in one line."""
    src = source(fly.folder, 40_000_000)
    fly.start_all("--from", src)
    until(lambda: (fly.folder / ".out.t1.part").exists() and (fly.folder / ".out.t1.part").stat().st_size > 10_000)
    fly.running["s"].kill()
    fly.running["s"].wait()
    src.write_bytes(b"another")
    fly.start("s", "--from", src)
    assert fly.running["a"].wait(20) == fly.running["b"].wait(20) == 1
    assert fly.said("a") == "lif-node: link s-a: another stream began, while this one hasn't ended: start all nodes again\n"


@pytest.fixture
def regional(tmp_path: Path) -> Path:
    """A code of the regional network, which has two patterns."""
    for seed in range(20):
        words = ["--rate", 2, "--random", seed, "-o", tmp_path / "regional.draft"]
        assert run_tool("lif-draft", EXAMPLES / "regional/regional.net", *words).returncode == 0
        code = finish(read_draft((tmp_path / "regional.draft").read_bytes()))
        if isinstance(code, Code):
            (tmp_path / "regional.lif").write_bytes(write_code(code))
            return tmp_path / "regional.lif"
    raise AssertionError("no draft decodes")


def test_a_pattern_that_is_told(regional: Path, tmp_path: Path) -> None:
    """All nodes change at one window, and nothing is lost where the links that are to fail still work."""
    src, control = source(tmp_path, 6_000_000), tmp_path / "control"
    with Overlay(tmp_path, regional) as overlay:
        overlay.start_all("--from", src, "--control", control)
        part = tmp_path / ".out.edge-west.part"
        for share, pattern in enumerate(("duct-2", "ring", "none", "x"), start=1):
            until(lambda: part.exists() and part.stat().st_size > share * 800_000)
            with open(control, "a") as file:
                file.write(f"pattern {pattern}\n")
        overlay.ends()
        assert {overlay.got(sink) for sink in overlay.sinks} == {src.read_bytes()}
        assert overlay.said("headend") == f"lif-node: {control}: unknown pattern: x; there are none, duct-2, ring\n"


def test_links_that_fail(regional: Path, tmp_path: Path) -> None:
    """The windows wait, the counters show for which link, and once the pattern is told it goes on."""
    folder, control = tmp_path / "in", tmp_path / "control"
    made = segments(folder, {f"{number:03}": 20_000 for number in range(10)})
    with Overlay(tmp_path, regional) as overlay:
        overlay.sinks = {sink: f"to-{sink}/" for sink in overlay.sinks}
        west = tmp_path / "to-edge-west"
        cut = [overlay.proxied(f"{core}-agg2", core) for core in ("coreA", "coreB")]
        overlay.start_all("--from", folder, "--control", control)
        until(lambda: west.is_dir() and "005" in received(west))
        for proxy in cut:
            proxy.is_cut = True
        made |= segments(folder, {f"{number:03}": 20_000 for number in range(10, 40)})
        until(lambda: str(overlay.counted("agg2").get("waits_for")).endswith("-agg2"))
        control.write_text("pattern duct-2\n")
        until(lambda: overlay.counted("headend").get("pattern") == "duct-2")
        late = segments(folder, {f"{number:03}": 20_000 for number in range(40, 60)})
        time.sleep(1)
        (folder / ".end").touch()
        statuses = {name.replace("-", "_"): 1 for name in overlay.sinks}
        end = time.monotonic() + 60
        found = {name: each.wait(max(0.1, end - time.monotonic())) for name, each in overlay.running.items()}
        assert all(status in (0, statuses.get(name.replace("-", "_"), 0)) for name, status in found.items())
        for sink, to in overlay.sinks.items():
            got = received(tmp_path / to)
            assert late.items() <= got.items() and got.items() <= (made | late).items()


def test_a_link_that_comes_up_again(fly: Overlay) -> None:
    """All windows wait for it, and nothing is lost, though what went over it meanwhile was."""
    src, part = source(fly.folder, 6_000_000), fly.folder / ".out.t1.part"
    proxy = fly.proxied("b-c", "b")
    fly.start_all("--from", src)
    until(lambda: part.exists() and part.stat().st_size > 500_000)
    proxy.is_cut = True
    until(lambda: fly.counted("c").get("waits_for") == "b-c" and fly.counted("s").get("waits_for") is not None)
    proxy.is_cut = False
    fly.ends()
    assert fly.got("t1") == fly.got("t2") == src.read_bytes()


def memory(overlay: Overlay) -> dict[str, int]:
    """How many kilobytes each node holds."""
    status = {name: Path(f"/proc/{each.pid}/status").read_text() for name, each in overlay.running.items()}
    return {name: int(re.findall(r"VmRSS:\s+(\d+)", text)[0]) for name, text in status.items()}


def feed(source: subprocess.Popen[bytes]) -> None:
    """Writes to a source until that ends."""
    with contextlib.suppress(OSError):
        while source.stdin is not None:
            source.stdin.write(CHANCE.randbytes(100_000))
            time.sleep(0.04)


def test_memory_stays(fly: Overlay) -> None:
    """A stream without an end, of some megabytes a second: what each node holds doesn't grow."""
    fly.start_all(leave=("s", "t1", "t2"))
    for sink in ("t1", "t2"):
        fly.start(sink, "--to", "-", stdout=subprocess.DEVNULL)
    threading.Thread(target=feed, args=(fly.start("s", stdin=subprocess.PIPE),), daemon=True).start()
    until(lambda: int(fly.counted("t1").get("windows", 0)) > 500)
    time.sleep(WATCHED / 3)
    before, windows = memory(fly), fly.counted("t1")["windows"]
    time.sleep(WATCHED * 2 / 3)
    after = memory(fly)
    assert fly.counted("t1")["windows"] > windows
    assert all(after[name] - before[name] < 4000 for name in before), (before, after)


def test_status(fly: Overlay) -> None:
    src = source(fly.folder, 20_000)
    asked = ("lif-node", "status", fly.path, "--counters", fly.folder / "counters")
    assert run_tool(*asked).stdout == "".join(f"{name} has said nothing\n" for name in fly.names)
    fly.start_all("--from", src)
    fly.ends()
    lines = run_tool(*asked).stdout.splitlines()
    assert [re.sub(r"\d+ bytes.*", "", line) for line in lines] == [f"{name} ended, 3 windows, 3 done, " for name in fly.names]
    found = json.loads(run_tool(*asked, "--json").stdout)
    assert (found["tool"], [node["node"] for node in found["nodes"]]) == ("lif-node", fly.names)
    bytes_out = {link: count for node in found["nodes"] for link, count in node["bytes_out"].items()}
    assert bytes_out.keys() == fly.plan["overlay"]["addresses"].keys() and min(bytes_out.values()) > 10 * 8 * 140
    (fly.folder / "counters/a").write_text("no counters\n")
    done = run_tool(*asked)
    assert (done.returncode, done.stderr) == (1, f"lif-node: {fly.folder}/counters/a: no counters of lif-node\n")


def test_the_page_of_the_example(top: Path) -> None:
    check_commands("examples/overlay/README.md", top)


def test_every_name_of_counters_stands_on_the_page(fly: Overlay) -> None:
    fly.start("c")
    until(lambda: fly.counted("c") != {})
    page = (TOOLS / "README.md").read_text()
    assert {name for name in fly.counted("c") if f"`{name}`" not in page} == set()


def test_ctrl_c_ends_quietly(fly: Overlay) -> None:
    started = fly.start("c")
    until(lambda: fly.counted("c") != {})
    started.send_signal(signal.SIGINT)
    assert started.wait(20) == -signal.SIGINT and fly.said("c") == ""
