"""The example of a cluster: the nodes of a code as jobs, by Snakemake on this machine, and by a Slurm that is started here."""
from __future__ import annotations

import contextlib
import json
import os
import re
import shutil
import signal
import subprocess
import sys
import time
from pathlib import Path
from typing import Any, Iterator

import pytest

from documents import check_commands
from keeping import kept, marked
from slurm import MACHINES, Slurm, missing, slurm, wait_for
from support import EXAMPLES, Program, combination_text, ended, find_program, run_tool

CLUSTER = EXAMPLES / "cluster"
BUTTERFLY = EXAMPLES / "butterfly/butterfly.lif"
# Ten generations at rate 2, the last one of 1604 bytes.
SOURCE = bytes((167 * place + 13 * (place // 256) + 5) % 256 for place in range(20_000))
GENERATIONS, GENERATION_BYTES = 10, 8 * 140
# In seconds, for one call of Snakemake.
LIMIT = 200.0

# The program, with its calls noted. The first calls of one node or sink go wrong: what it wrote is cut, and it is killed, or it
# hangs.
NOTED = """\
#!/bin/sh
echo "$1 $4 ${{SLURMD_NODENAME-}}" >>{room}/calls
if [ "$4" = {node} ] && [ "$(grep -c "^$1 {node} " {room}/calls)" -le {times} ]; then
    {trouble}
fi
exec {lif} "$@"
"""
CUT = """{lif} "$@"
    for file in "$6" "$6".*; do
        if [ -f "$file" ]; then truncate --size="$(($(stat --format=%s "$file") / 2))" "$file"; fi
    done
    kill -KILL $$"""
HANG = "exec sleep 600"
# Brings files, with its calls noted. The first time it brings a part of the file of one link, and is killed.
CARRIED = """\
#!/bin/sh
echo "carry ${{1##*/L.}} ${{2##*/}} ${{SLURMD_NODENAME-}}" >>{room}/calls
if [ "${{1##*/L.}}" = {link} ] && [ "$(grep -c "^carry {link} " {room}/calls)" = 1 ]; then
    head --bytes=1000 "$1" >"$2"
    kill -KILL $$
fi
exec cp "$1" "$2"
"""


class Run:
    """A folder with a source and a plan, in which Snakemake runs the nodes of a code."""

    def __init__(self, folder: Path, env: dict[str, str], code: Path, *words: object) -> None:
        self.folder = folder
        folder.mkdir(exist_ok=True)
        (folder / "the source").write_bytes(SOURCE)
        (folder / "plan.json").write_text(run_tool("lif-plan", code, *words).stdout)
        self.config: dict[str, object] = {"plan": "plan.json", "code": code, "src": "the source", "lif": find_program()}
        # Snakemake keeps files in the folder of caches.
        self.env = {**env, "XDG_CACHE_HOME": str(folder / "cache")}
        self.words: list[object] = ["--cores", "2"]

    def script(self, name: str, text: str, **parts: object) -> Path:
        path = self.folder / name
        path.write_text(text.format(room=self.folder, lif=find_program(), **parts))
        path.chmod(0o755)
        return path

    def note(self, node: str = "-", times: int = 0, trouble: str = CUT) -> None:
        """Has the calls of the program noted, and the first ones of a node go wrong."""
        self.config["lif"] = self.script("noted", NOTED.replace("{trouble}", trouble), node=node, times=times)

    @contextlib.contextmanager
    def on(self, cluster: Slurm) -> Iterator[None]:
        """Has Slurm run the jobs within the block."""
        before = self.env, self.words
        submit, status = f"{CLUSTER}/submit {{resources.host}}", CLUSTER / "status"
        self.env = {**self.env, **cluster.env}
        self.words = ["--jobs", 12, "--cluster", submit, "--cluster-status", status, "--cluster-cancel", "scancel"]
        yield
        self.env, self.words = before

    @contextlib.contextmanager
    def started(self, *words: object) -> Iterator[subprocess.Popen[bytes]]:
        """Snakemake at work, which is ended with all its jobs on this machine where the block ends early."""
        config = [f"{name}={value}" for name, value in self.config.items()]
        call = ["snakemake", *words, "-s", CLUSTER / "Snakefile", *self.words, "--config", *config]
        with open(self.folder / "said", "wb") as said:
            process = subprocess.Popen(
                [*map(str, call)],
                cwd=self.folder,
                env=self.env,
                stdin=subprocess.DEVNULL,
                stdout=said,
                stderr=subprocess.STDOUT,
                start_new_session=True,
            )
        try:
            yield process
        finally:
            if process.poll() is None:
                os.killpg(process.pid, signal.SIGKILL)
                process.wait()

    def run(self, *words: object) -> int:
        """Runs Snakemake, and gives its status."""
        with self.started(*words) as process:
            return process.wait(LIMIT)

    def plan(self) -> Any:
        return json.loads((self.folder / "plan.json").read_text())

    def hosts(self) -> dict[str, str]:
        """The machine of each node that does something."""
        return {one["name"]: one["host"] for one in self.plan()["nodes"] + self.plan()["sinks"]}

    def said(self) -> str:
        return (self.folder / "said").read_text()

    def calls(self) -> list[str]:
        """The calls of the program, and of what carries, since this was last asked; with the machine, where there is one."""
        path = self.folder / "calls"
        lines = path.read_text().splitlines() if path.exists() else []
        path.write_text("")
        return sorted(line.strip() for line in lines)

    def received(self) -> dict[str, bytes]:
        return {path.name: path.read_bytes() for path in self.folder.glob("received/*")}

    def is_received(self, sinks: int = 2) -> bool:
        """Whether each sink has the source."""
        return [*self.received().values()] == [SOURCE] * sinks


@pytest.fixture(scope="module")
def env() -> Iterator[dict[str, str]]:
    """The environment in which Snakemake is started, with which all ends that it starts."""
    if shutil.which("snakemake") is None:
        pytest.skip("there is no program snakemake; on Debian: apt-get install snakemake")
    with kept() as made:
        yield made


@pytest.fixture(scope="module")
def cluster(env: dict[str, str]) -> Iterator[Slurm]:
    packages = missing()
    if packages:
        pytest.skip(f"there is no Slurm; on Debian: apt-get install {' '.join(packages)}")
    with slurm(env) as made:
        yield made


@pytest.fixture
def fly(program: Program, env: dict[str, str], tmp_path: Path) -> Run:
    """The butterfly, with all calls noted."""
    run = Run(tmp_path / "run", env, BUTTERFLY)
    run.note()
    return run


def middle(run: Run) -> None:
    """Runs the butterfly up to what node c reads, on this machine."""
    assert run.run("nodes/c/in/L.a-c", "nodes/c/in/L.b-c") == 0
    assert run.calls() == ["relay a", "relay b", "relay s"] and not run.received()


def rest(run: Run) -> None:
    """Runs what is left when node c has run, and sees that it is no more than that."""
    run.calls()
    assert run.run() == 0 and run.is_received()
    assert run.calls() == ["relay d", "sink t1", "sink t2"]


KEPT = """
import keeping, subprocess
with keeping.kept() as env:
    subprocess.run(["sleep", "600"], env={**env, "ROOM": room})
"""


def test_what_is_started_ends_where_the_tests_are_killed(tmp_path: Path) -> None:
    words = [sys.executable, "-c", f"room = {str(tmp_path)!r}{KEPT}"]
    with subprocess.Popen(words, cwd=Path(__file__).parent) as tests:
        try:
            wait_for(lambda: marked(f"ROOM={tmp_path}") != [], "what is started")
        finally:
            tests.kill()
    wait_for(lambda: marked(f"ROOM={tmp_path}") == [], "its end")


# On this machine


@pytest.mark.parametrize(
    "network, pattern", [("butterfly", "none"), ("regional", "none"), ("regional", "duct-2"), ("regional", "ring")]
)
def test_what_is_received_is_what_send_writes(
    program: Program, env: dict[str, str], tmp_path: Path, network: str, pattern: str
) -> None:
    code = tmp_path / "the code.lif"
    assert program("compile", EXAMPLES / network / f"{network}.net", code, tmp_path / "report").returncode == 0
    run = Run(tmp_path / "run", env, code, "--pattern", pattern)
    assert run.run() == 0
    assert program("send", code, pattern, 1, run.folder / "the source", tmp_path / "sent").returncode == 0
    sent = {path.suffix.removeprefix("."): path.read_bytes() for path in tmp_path.glob("sent.*")}
    assert run.received() == sent and set(sent.values()) == {SOURCE}
    # Nothing is left to do, and no file stands beside those of the plan.
    plan = run.plan()
    assert run.run() == 0 and "Nothing to be done" in run.said()
    wanted = {f"{node['name']}/out/L.{link}" for node in plan["nodes"] for link in node["out"]}
    wanted |= {f"{node['name']}/in/L.{link}" for node in plan["nodes"] for link in node["in"]}
    wanted |= {f"{sink['name']}/in/L.{link}" for sink in plan["sinks"] for link in sink["links"]}
    nodes = run.folder / "nodes"
    assert {str(path.relative_to(nodes)) for path in nodes.glob("*/*/[!.]*")} == wanted


@pytest.mark.parametrize("call, made", [("relay d", "nodes/d/out"), ("sink t1", "received/t1")])
def test_a_job_that_is_killed_in_the_middle(fly: Run, call: str, made: str) -> None:
    rule, node = call.split()
    fly.note(node, times=2)
    assert fly.run("--retries", 2) == 0 and fly.is_received()
    assert fly.calls().count(call) == 3
    # Without retries each run fails, and the next one does what is missing.
    shutil.rmtree(fly.folder / "nodes")
    shutil.rmtree(fly.folder / "received")
    for _ in range(2):
        assert fly.run() == 1 and f"Error in rule {rule}" in fly.said()
        assert not (fly.folder / made).exists() and "t1" not in fly.received()
    fly.calls()
    fly.note()
    assert fly.run() == 0 and fly.is_received()
    calls = set(fly.calls())
    assert call in calls and calls <= {call, "sink t1", "sink t2"}


def test_what_carries_is_killed_in_the_middle(fly: Run) -> None:
    """It brings each file to another name, so that the next job sees nothing of one that was brought in part."""
    fly.config["carry"] = fly.script("carried", CARRIED, link="c-d")
    assert fly.run() == 1
    assert not (fly.folder / "nodes/d/in/L.c-d").exists() and not fly.received()
    assert fly.run() == 0 and fly.is_received()
    carried = [f"carry {link['name']} part.{link['name']}" for link in fly.plan()["links"]]
    assert [call for call in fly.calls() if call.startswith("carry")] == sorted([*carried, "carry c-d part.c-d"])


def test_snakemake_that_is_killed(fly: Run) -> None:
    """The folder is locked then, and what was written in part is marked."""
    middle(fly)
    fly.note("c", times=1, trouble=HANG)
    with fly.started() as process:
        wait_for(lambda: "relay c" in (fly.folder / "calls").read_text(), "the relay")
        os.killpg(process.pid, signal.SIGKILL)
        process.wait()
    assert (fly.folder / "nodes/c/out").is_dir()
    assert fly.run() == 1 and "IncompleteFilesException" in fly.said()
    assert fly.run("--rerun-incomplete") == 1 and "LockException" in fly.said()
    assert fly.run("--unlock") == 0
    assert fly.run("--rerun-incomplete") == 0 and fly.is_received()
    assert fly.calls() == ["relay c", "relay c", "relay d", "sink t1", "sink t2"]


# What is done to the stream of a link: the place of a byte that is changed, or how many bytes are cut off; and what is said.
CHANGES = [
    (140, 0, "BadFrame 140"),
    (147, 0, "OtherLink 140"),
    (None, 1, f"BadLength {GENERATIONS * GENERATION_BYTES - 1}"),
    (None, GENERATION_BYTES, f"Missing {GENERATIONS - 1} 0"),
]


def test_a_stream_that_is_changed_on_the_way_is_refused(fly: Run) -> None:
    middle(fly)
    path = fly.folder / "nodes/c/in/L.a-c"
    whole = path.read_bytes()
    for place, cut, line in CHANGES:
        stream = bytearray(whole[: len(whole) - cut])
        if place is not None:
            stream[place] ^= 1
        path.write_bytes(stream)
        assert fly.run("--retries", 1) == 1
        assert fly.calls() == ["relay c"] * 2 and not fly.received()
        assert (fly.folder / "logs/relay.c").read_text() == f"stream refused: a-c {line}\n"
    # What to do then: the file is taken away, and the same command goes on.
    path.unlink()
    assert fly.run("nodes/c/out") == 0
    rest(fly)


def test_a_stream_that_its_node_has_wrong_is_made_anew(fly: Run) -> None:
    middle(fly)
    tail, head = fly.folder / "nodes/a/out", fly.folder / "nodes/c/in/L.a-c"
    (tail / "L.a-c").write_bytes(b"")
    head.unlink()
    assert fly.run() == 1 and (fly.folder / "logs/relay.c").read_text() == "stream refused: a-c Missing 0 0\n"
    head.unlink()
    shutil.rmtree(tail)
    fly.calls()
    assert fly.run() == 0 and fly.is_received()
    assert fly.calls() == ["relay a", "relay c", "relay d", "sink t1", "sink t2"]


def test_streams_that_are_cut_alike_are_refused_by_the_sink(fly: Run) -> None:
    middle(fly)
    assert fly.run("nodes/t1/in/L.a-t1", "nodes/t1/in/L.d-t1") == 0
    for path in fly.folder.glob("nodes/t1/in/L.*"):
        path.write_bytes(path.read_bytes()[:-GENERATION_BYTES])
    assert fly.run("received/t1") == 1 and not fly.received()
    assert (fly.folder / "logs/sink.t1").read_text() == f"bad blocks: generation {GENERATIONS - 2} count 2044\n"
    assert fly.run("received/t2") == 0
    shutil.rmtree(fly.folder / "nodes")
    assert fly.run() == 0 and fly.is_received()


def test_a_payload_that_is_changed_is_not_seen(fly: Run) -> None:
    """As the page says: a frame has no checksum of its payload."""
    middle(fly)
    path = fly.folder / "nodes/c/in/L.a-c"
    stream = bytearray(path.read_bytes())
    stream[200] ^= 1
    path.write_bytes(stream)
    assert fly.run() == 0
    assert sorted(fly.received()) == ["t1", "t2"] and SOURCE not in fly.received().values()


def test_a_large_plan_is_dried(program: Program, env: dict[str, str], tmp_path: Path) -> None:
    """Of a network with a sink behind each two of 23 middle nodes."""
    (tmp_path / "fan.net").write_text(combination_text(23, 2))
    assert program("compile", tmp_path / "fan.net", tmp_path / "fan.lif", tmp_path / "report").returncode == 0
    begun = time.monotonic()
    run = Run(tmp_path / "run", env, tmp_path / "fan.lif")
    assert run.run("--dry-run") == 0
    assert time.monotonic() - begun < 10
    assert re.search(r"^total +807 ", run.said(), re.MULTILINE)


@pytest.mark.parametrize("name", [".", ".."])
def test_a_node_that_no_folder_can_be_named_after(fly: Run, name: str) -> None:
    plan = fly.folder / "plan.json"
    plan.write_text(plan.read_text().replace('"d"', f'"{name}"'))
    assert fly.run("--dry-run") == 1 and f"no folder can have the name {name} of a node" in fly.said()


def test_words_and_plans_that_are_missing(fly: Run) -> None:
    source = fly.config.pop("src")
    assert fly.run("--dry-run") == 1 and "--config names no src; README.md beside this file has its words" in fly.said()
    fly.config["src"] = source
    plan = fly.folder / "plan.json"
    plan.write_text("")
    assert fly.run("--dry-run") == 1 and "plan.json is no plan of tools/lif-plan: " in fly.said()
    plan.unlink()
    assert fly.run("--dry-run") == 1 and "plan.json is no plan of tools/lif-plan: [Errno 2] No such file" in fly.said()


# Slurm


def word_of(folder: Path, said: str, status: int) -> str:
    """The word for a job of which Slurm says something."""
    scontrol = folder / "scontrol"
    call = '[ "$*" = "--oneliner show job 7" ] || exit 2'
    scontrol.write_text(f'#!/bin/sh\n{call}\necho "{said}" >&{1 + status}\nexit {status}\n')
    scontrol.chmod(0o755)
    done = ended([CLUSTER / "status", 7], env={"PATH": f"{folder}:/usr/bin:/bin"})
    assert (done.returncode, done.stderr) == (0, "")
    return done.stdout.rstrip("\n")


@pytest.mark.parametrize(
    "word, states",
    [
        ("success", ["COMPLETED"]),
        ("running", ["PENDING", "CONFIGURING", "RUNNING", "SUSPENDED", "COMPLETING", "STAGE_OUT"]),
        ("failed", ["FAILED", "CANCELLED", "TIMEOUT", "NODE_FAIL", "OUT_OF_MEMORY", "PREEMPTED", "BOOT_FAIL", "DEADLINE"]),
    ],
)
def test_the_words_for_states(tmp_path: Path, word: str, states: list[str]) -> None:
    for state in states:
        assert word_of(tmp_path, f"JobId=7 JobName=a.sh JobState={state} Reason=None", 0) == word


def test_the_words_where_slurm_says_nothing_of_a_job(tmp_path: Path) -> None:
    assert word_of(tmp_path, "slurm_load_jobs error: Invalid job id specified", 1) == "failed"
    assert word_of(tmp_path, "slurm_load_jobs error: Unable to contact slurm controller (connect failure)", 1) == "running"


@pytest.fixture
def placed(fly: Run) -> Run:
    """The butterfly with its nodes on three machines in turn."""
    place(fly, *MACHINES)
    return fly


def place(run: Run, *names: str) -> None:
    """Gives the nodes of the butterfly to machines in turn."""
    (run.folder / "places").write_text("".join(f"* {name}\n" for name in names))
    (run.folder / "plan.json").write_text(run_tool("lif-plan", BUTTERFLY, "--places", run.folder / "places").stdout)


def job_of(cluster: Slurm, run: Run, call: str) -> str:
    """The number of the job that makes a call of the program, once it does."""
    wait_for(lambda: call in (run.folder / "calls").read_text(), call)
    jobs = cluster.ask("squeue", "-h", "-t", "R", "-o", "%i %j").splitlines()
    (job,) = (line.split()[0] for line in jobs if f".{call.split()[0]}." in line)
    return job


def state_of(cluster: Slurm, job: str) -> str:
    found = re.search(r"JobState=(\w+)", cluster.ask("scontrol", "show", "job", job))
    return found[1] if found else ""


@pytest.mark.slow
def test_each_job_runs_on_its_machine(placed: Run, cluster: Slurm) -> None:
    """A link is brought by that of its head."""
    placed.config["carry"] = placed.script("carried", CARRIED, link="-")
    with placed.on(cluster):
        assert placed.run() == 0 and placed.is_received()
    of, links = placed.hosts(), placed.plan()["links"]
    assert set(of.values()) == set(MACHINES)
    calls = [f"relay {node} {of[node]}" for node in "sabcd"] + [f"sink {sink} {of[sink]}" for sink in ("t1", "t2")]
    calls += [f"carry {link['name']} part.{link['name']} {of[link['head']]}" for link in links]
    assert placed.calls() == sorted(calls)


@pytest.mark.slow
def test_a_relay_that_is_killed_on_any_machine(fly: Run, cluster: Slurm) -> None:
    """The plan has no places."""
    middle(fly)
    fly.note("c", times=1)
    with fly.on(cluster):
        assert fly.run("nodes/c/out", "--retries", 1) == 0
    assert re.fullmatch(r"relay c n[123] relay c n[123]", " ".join(fly.calls()))
    rest(fly)


@pytest.mark.slow
def test_a_job_that_is_cancelled(placed: Run, cluster: Slurm) -> None:
    middle(placed)
    placed.note("c", times=1, trouble=HANG)
    with placed.on(cluster), placed.started("nodes/c/out", "--retries", 1) as process:
        job = job_of(cluster, placed, "relay c")
        assert cluster.ask("scancel", job) == ""
        assert process.wait(LIMIT) == 0
    assert state_of(cluster, job) == "CANCELLED" and f"external: {job}," in placed.said()
    rest(placed)


@pytest.mark.slow
def test_a_machine_that_is_lost(placed: Run, cluster: Slurm) -> None:
    """Its job fails, the next one waits until the machine is back, and the run goes on."""
    middle(placed)
    placed.note("c", times=1, trouble=HANG)
    with placed.on(cluster), placed.started("nodes/c/out", "--retries", 1) as process:
        job = job_of(cluster, placed, "relay c")
        with cluster.lost(placed.hosts()["c"]):
            wait_for(lambda: "ReqNodeNotAvail" in cluster.ask("squeue", "-h", "-o", "%r"), "a job that waits")
            assert state_of(cluster, job) == "NODE_FAIL"
            assert process.poll() is None and not (placed.folder / "nodes/c/out").exists()
        assert process.wait(LIMIT) == 0
    assert placed.calls() == [f"relay c {placed.hosts()['c']}"] * 2
    rest(placed)


@pytest.mark.slow
def test_a_machine_that_stays_away(placed: Run, cluster: Slurm) -> None:
    """Ctrl-C ends the run with its jobs, and a plan with other places goes on."""
    middle(placed)
    away = placed.hosts()["c"]
    with cluster.lost(away), placed.on(cluster):
        with placed.started("nodes/c/out") as process:
            wait_for(lambda: "external jobid" in placed.said() and cluster.ask("squeue", "-h") != "", "a job")
            process.send_signal(signal.SIGINT)
            assert process.wait(LIMIT) == 1
        wait_for(lambda: cluster.ask("squeue", "-h") == "", "no job")
        other = next(name for name in MACHINES if name != away)
        place(placed, other)
        # The job that was ended counts as a try.
        assert placed.run("nodes/c/out", "--retries", 1) == 0
    assert placed.calls() == [f"relay c {other}"]
    rest(placed)


@pytest.mark.slow
def test_the_commands_of_the_page(program: Program, top: Path, cluster: Slurm) -> None:
    check_commands("examples/cluster/README.md", top, env={**cluster.env, "XDG_CACHE_HOME": str(top / "cache")})
