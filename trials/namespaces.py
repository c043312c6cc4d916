"""A network of lif made of network namespaces: one for each node, and for each link a pair of interfaces of limited rate.

`trials/overlay` runs programs in it. A namespace has the number of the trial's process in its name, so that those of a trial
that was killed are known, and removed by the next one.
"""
from __future__ import annotations

import contextlib
import ctypes
import json
import os
import re
import signal
import subprocess
import sys
import time
from pathlib import Path
from typing import IO, Any, Iterable, Sequence

from lif_tools.formats import Network

PREFIX = "lif-trial"
DELAYS = Path(__file__).resolve().parent / "delays.py"
# Bytes that a link may send at once, and seconds for which packets may wait at it.
BURST, QUEUE = 8 * 1024, 0.1
libc = ctypes.CDLL(None)
PR_SET_PDEATHSIG = 1
# Seconds that a process has to end in once it is told to.
GRACE = 3.0


class Unable(Exception):
    """The machine doesn't do what the trial needs."""


def run(*words: str) -> str:
    """What a command says. One that fails is said with its words."""
    try:
        return subprocess.run(words, check=True, capture_output=True, text=True).stdout
    except FileNotFoundError:
        raise Unable(f"there is no {words[0]}; on Debian: apt-get install iproute2") from None
    except subprocess.CalledProcessError as error:
        raise Unable(f"{' '.join(words)}: {error.stderr.strip() or error.returncode}") from None


def remove_left() -> None:
    """Removes namespaces of trials that were killed."""
    for line in run("ip", "netns", "list").splitlines():
        found = re.match(rf"{PREFIX}-(\d+)-", line)
        if found and (int(found[1]) == os.getpid() or not os.path.exists(f"/proc/{found[1]}")):
            run("ip", "netns", "del", line.split()[0])


def address(link: int, end: int) -> str:
    """The address of an interface of a link: at its tail with 1, at its head with 2."""
    return f"10.{64 + link // 4096}.{link // 64 % 64}.{link % 64 * 4 + end}"


class Namespaces:
    """The nodes and links of a network, until the end of the `with`. Links have a delay in milliseconds, by netem where the
    kernel has it, and else by a program between both ends."""

    def __init__(self, network: Network, mbit: float, delay: float):
        self.network, self.mbit, self.delay = network, mbit, delay
        self.netem = bool(delay) and has_netem()
        self.running: list[subprocess.Popen[bytes]] = []
        self.made: list[str] = []

    def __enter__(self) -> Namespaces:
        remove_left()
        try:
            if self.delay and not self.netem:
                self.add(self.wire)
            for node in range(len(self.network.nodes)):
                self.add(self.name(node))
            for number, link in enumerate(self.network.links):
                self.join(number, link.tail, link.head)
            if self.delay and not self.netem:
                self.delay_all()
        except BaseException:
            self.__exit__()
            raise
        return self

    def __exit__(self, *_: object) -> None:
        self.end(self.running)
        for name in self.made:
            with contextlib.suppress(Unable):
                run("ip", "netns", "del", name)
        self.made.clear()

    @property
    def wire(self) -> str:
        """The namespace in which links are delayed."""
        return self.name("wire")

    def name(self, node: int | str) -> str:
        return f"{PREFIX}-{os.getpid()}-{node}"

    def add(self, name: str) -> None:
        run("ip", "netns", "add", name)
        self.made.append(name)
        run("ip", "-n", name, "link", "set", "lo", "up")
        settings = ["net.ipv4.ip_forward=1", "net.ipv4.conf.all.rp_filter=0", "net.ipv4.conf.default.rp_filter=0"]
        run("ip", "netns", "exec", name, "sysctl", "-qw", *settings)
        # Where the kernel has it; else its own stays.
        with contextlib.suppress(Unable):
            run("ip", "netns", "exec", name, "sysctl", "-qw", "net.ipv4.tcp_congestion_control=cubic")

    def join(self, number: int, tail: int, head: int) -> None:
        """Makes the two interfaces of a link: `o` with its number at the tail, and `i` with it at the head."""
        ends = ((self.name(tail), f"o{number}", 1), (self.name(head), f"i{number}", 2))
        (from_, out, _), (to, into, _) = ends
        if self.delay and not self.netem:
            self.pair(from_, out, self.wire, f"a{number}")
            self.pair(self.wire, f"b{number}", to, into)
            for name in (f"a{number}", f"b{number}"):
                run("ip", "-n", self.wire, "link", "set", name, "up")
        else:
            self.pair(from_, out, to, into)
        for name, interface, end in ends:
            run("ip", "-n", name, "addr", "add", f"{address(number, end)}/30", "dev", interface)
            # So counters have the heads of all packets, and the rate is that of packets as they go over a wire.
            run("ip", "-n", name, "link", "set", interface, "gso_max_segs", "1", "up")
            self.limit(name, interface)

    def pair(self, name: str, interface: str, other: str, far: str) -> None:
        run("ip", "link", "add", "name", interface, "netns", name, "type", "veth", "peer", "name", far, "netns", other)

    def limit(self, name: str, interface: str) -> None:
        parent = ["root", "handle", "1:"]
        if self.netem:
            packets = str(int(self.mbit * 1e6 / 8 * (self.delay / 1000 + QUEUE) / 1000) + 100)
            words = ["netem", "delay", f"{self.delay}ms", "limit", packets]
            run("tc", "-n", name, "qdisc", "add", "dev", interface, *parent, *words)
            parent = ["parent", "1:1", "handle", "10:"]
        words = ["tbf", "rate", f"{int(self.mbit * 1e6)}bit", "burst", str(BURST), "latency", f"{int(QUEUE * 1000)}ms"]
        run("tc", "-n", name, "qdisc", "add", "dev", interface, *parent, *words)

    def delay_all(self) -> None:
        """Starts the program that delays what goes over links."""
        names = [end for number in range(len(self.network.links)) for end in (f"a{number}", f"b{number}")]
        words = [sys.executable, str(DELAYS), str(self.delay), *names]
        process = self.start(self.wire, words, Path(os.devnull), stdout=subprocess.PIPE)
        if process.stdout is None or process.stdout.readline() != b"ready\n":
            raise Unable("links can't be delayed: there is no netem, and delays.py doesn't run")

    def cut(self, links: Iterable[int]) -> None:
        """Takes links down, at their tails."""
        for number in links:
            run("ip", "-n", self.name(self.network.links[number].tail), "link", "set", f"o{number}", "down")

    def sent(self) -> dict[int, int]:
        """How many bytes each link has carried so far, both ways."""
        found: dict[int, int] = dict.fromkeys(range(len(self.network.links)), 0)
        for node in range(len(self.network.nodes)):
            for facts in json.loads(run("ip", "-n", self.name(node), "-s", "-j", "link", "show")):
                if re.fullmatch(r"[io]\d+", facts["ifname"]):
                    found[int(facts["ifname"][1:])] += facts["stats64"]["tx"]["bytes"]
        return found

    # Programs in the namespaces

    def start(self, name: str, words: Sequence[str], errors: Path, **more: Any) -> subprocess.Popen[bytes]:
        """Starts a program in a namespace; what it says goes to a file."""
        with open(errors, "ab") as file:
            options: dict[str, Any] = {"stdin": subprocess.DEVNULL, "stdout": file, "stderr": file, **more}
            options |= {"start_new_session": True, "preexec_fn": die_with_parent}
            process: subprocess.Popen[bytes] = subprocess.Popen(["ip", "netns", "exec", name, *words], **options)
        self.running.append(process)
        return process

    def end(self, processes: Iterable[subprocess.Popen[bytes]]) -> None:
        """Ends processes that were started here, and all that they started."""
        processes = list(processes)
        until = time.monotonic() + GRACE
        for process in processes:
            signal_group(process, signal.SIGTERM)
        for process in processes:
            with contextlib.suppress(subprocess.TimeoutExpired):
                process.wait(max(0.05, until - time.monotonic()))
        for process in processes:
            signal_group(process, signal.SIGKILL)
            process.wait()
            for pipe in (process.stdin, process.stdout):
                if pipe is not None:
                    with contextlib.suppress(OSError):
                        pipe.close()
        self.running = [process for process in self.running if process not in processes]


def has_netem() -> bool:
    """Whether the kernel delays packets."""
    name = f"{PREFIX}-{os.getpid()}-netem"
    run("ip", "netns", "add", name)
    try:
        run("tc", "-n", name, "qdisc", "add", "dev", "lo", "root", "netem", "delay", "1ms")
    except Unable:
        return False
    finally:
        run("ip", "netns", "del", name)
    return True


def die_with_parent() -> None:
    """Has a process killed as soon as the one that started it is gone."""
    libc.prctl(PR_SET_PDEATHSIG, signal.SIGKILL)


def signal_group(process: subprocess.Popen[bytes], number: int) -> None:
    """Sends a signal to a process that wasn't waited for yet, and to those of its group."""
    if process.returncode is None:
        with contextlib.suppress(ProcessLookupError):
            os.killpg(process.pid, number)


def established(process: subprocess.Popen[bytes], port: int) -> int:
    """How many connections stand at a port of the namespace of a process; none where it has ended."""
    try:
        lines = Path(f"/proc/{process.pid}/net/tcp").read_text().splitlines()[1:]
    except OSError:
        return 0
    fields = [line.split() for line in lines]
    return sum(each[1].endswith(f":{port:04X}") and each[3] == "01" for each in fields)


def copy(source: Path, first: int, length: int, to: IO[bytes]) -> None:
    """Copies a part of a file to a pipe, as fast as that takes it."""
    with contextlib.suppress(BrokenPipeError), to, open(source, "rb") as file:
        file.seek(first)
        while length:
            piece = file.read(min(length, 1 << 16))
            if not piece:
                break
            to.write(piece)
            length -= len(piece)
