"""Runs one node of an overlay: it listens on its links in, connects its links out, and carries a stream, window by window.

  lif-node PLAN NODE    runs the node until the stream ends
  lif-node status PLAN  says what the nodes of a plan have counted, by the files of --counters FOLDER

PLAN is what `lif-plan --port` or `lif-plan --addresses` writes. The source reads a file, a pipe, or the files that appear in
a folder in the order of their names, until the file `.end` is there. A sink writes a file, under another name until all of
it is there, files into a folder, each whole or not at all, or standard output.

Nodes may be started in any order. One that was killed goes on once it is started again. A slow link slows the source, and
nothing is dropped.
"""
from __future__ import annotations

import argparse
import contextlib
import hashlib
import json
import os
import re
import time
from dataclasses import dataclass
from pathlib import Path
from typing import TYPE_CHECKING, Any, Sequence

from lif_tools.common import ToolError, listed, load_code, module, notice, pattern_number, print_json, read_bytes, words_parser
from lif_tools.formats import MOST_CODE_BYTES, Code as CodeFile
from lif_tools.node_links import Incoming, Outgoing
from lif_tools.plan import overlay_of

if TYPE_CHECKING:
    from lif_tools.node_work import Worker

# The longest that a node sleeps, in milliseconds, and that the source does where nothing tells it of more.
SLEEP, LOOK = 200, 20
# Seconds for which a node waits at the end for the heads of links that carry nothing.
FAREWELL = 5.0


@dataclass(frozen=True)
class Overlay:
    """A plan with addresses, and its code."""

    path: str
    code: CodeFile
    content: bytes
    addresses: dict[int, str]
    bound: int

    def place(self, link: int) -> tuple[str, str, int]:
        """A link's name and address, and how many windows may wait on it."""
        return self.code.network.links[link].name, self.addresses[link], self.bound

    def numbers(self, node: int, end: str) -> list[int]:
        """The links that begin or end at a node."""
        links = self.code.network.links
        return [number for number in self.addresses if getattr(links[number], end) == node]


def load_plan(path: str) -> dict[str, Any]:
    try:
        plan = json.loads(read_bytes(path))
        found = plan["overlay"]
        if not isinstance(found["bound"], int) or not isinstance(found["addresses"], dict):
            raise TypeError
        [plan["code"] + plan["pattern"] + found["sum"], *map(str.lower, found["addresses"].values())]
    except (ValueError, KeyError, TypeError):
        raise ToolError(f"{path}: no plan of lif-plan with addresses, by --port or --addresses") from None
    return dict(plan)


def load_overlay(path: str) -> tuple[dict[str, Any], Overlay]:
    """A plan with its code, which must be the one that it was made of."""
    plan = load_plan(path)
    content = read_bytes(plan["code"], MOST_CODE_BYTES)
    if hashlib.sha256(content).hexdigest() != plan["overlay"]["sum"]:
        raise ToolError(f"{path}: it isn't a plan of this code: {plan['code']}")
    code = load_code(plan["code"])
    numbers = {link.name: number for number, link in enumerate(code.network.links)}
    unknown = [name for name in plan["overlay"]["addresses"] if name not in numbers]
    needed = [code.network.links[link].name for link in overlay_of(code)]
    lacking = [name for name in needed if name not in plan["overlay"]["addresses"]]
    if unknown or lacking:
        raise ToolError(f"{path}: no address for {listed(lacking)}" if lacking else f"{path}: unknown link: {unknown[0]}")
    addresses = {numbers[name]: address for name, address in plan["overlay"]["addresses"].items()}
    return plan, Overlay(path, code, content, addresses, plan["overlay"]["bound"])


def node_number(overlay: Overlay, name: str) -> int:
    names = overlay.code.network.nodes
    if name not in names:
        raise ToolError(f"{overlay.path}: unknown node: {name}; there are {listed(names)}")
    number = names.index(name)
    if not overlay.numbers(number, "tail") and not overlay.numbers(number, "head"):
        raise ToolError(f"{overlay.path}: node {name} has nothing to do")
    return number


class Control:
    """The file in which the source is told patterns."""

    def __init__(self, path: str | None, names: Sequence[str]):
        self.path, self.names, self.seen = path, names, ""
        self.due = 0.0

    def pattern(self) -> int | None:
        """The pattern of the last line that names one, where that is new."""
        if self.path is None or time.monotonic() < self.due:
            return None
        self.due = time.monotonic() + 0.2
        with contextlib.suppress(OSError):
            with open(self.path) as file:
                lines = re.findall(r"^pattern (\S+)\n", file.read(), re.MULTILINE)
            if lines and lines[-1] != self.seen:
                self.seen = lines[-1]
                if self.seen in self.names:
                    return self.names.index(self.seen)
                notice(f"{self.path}: unknown pattern: {self.seen}; there are {listed(self.names)}")
        return None


class Running:
    """A node that runs."""

    def __init__(self, plan: dict[str, Any], overlay: Overlay, words: argparse.Namespace):
        from lif_tools.liblif import Code, CodeRefused
        from lif_tools.node_counts import Counters
        from lif_tools import node_work

        network, number = overlay.code.network, node_number(overlay, words.node)
        try:
            code = Code(overlay.content)
        except (ImportError, FileNotFoundError) as error:
            raise ToolError(f"there is no liblif: {error}") from None
        except CodeRefused as refused:
            raise ToolError(f"{plan['code']}: {refused}") from None
        self.worker = worker = node_work.Worker(code, network, number, plan["overlay"]["sum"])
        self.ends(worker, plan, overlay, words)
        for link in overlay.numbers(number, "head"):
            worker.into[link] = Incoming(link, *overlay.place(link), worker.on_state)
        for link in overlay.numbers(number, "tail"):
            worker.out[link] = Outgoing(link, *overlay.place(link), worker.state)
        self.zmq: Any = module("zmq", "python3-zmq")
        self.poller: Any = self.zmq.Poller()
        self.polled: dict[Outgoing, int] = {}
        for incoming in worker.into.values():
            self.poller.register(incoming.socket, self.zmq.POLLIN)
        for outgoing in worker.out.values():
            for socket in (outgoing.socket, outgoing.monitor):
                self.poller.register(socket, self.zmq.POLLIN)
            self.polled[outgoing] = self.zmq.POLLIN
        self.counters = Counters(words.counters, words.node)
        self.control = Control(words.control, [pattern.name for pattern in network.patterns])

    def ends(self, worker: Worker, plan: dict[str, Any], overlay: Overlay, words: argparse.Namespace) -> None:
        """Opens what the source reads, or what a sink writes."""
        from lif_tools.node_sinks import FileSink, FolderSink, PipeSink
        from lif_tools.node_sources import FileSource, FolderSource

        network = overlay.code.network
        is_source, is_sink = worker.number == network.source, worker.number in network.sinks
        for option, given, fits in (("--from", words.source, is_source), ("--control", words.control, is_source),
                                    ("--pattern", words.pattern, is_source), ("--to", words.to, is_sink)):  # fmt: skip
            if given is not None and not fits:
                raise ToolError(f"{option} is for {'a sink' if option == '--to' else 'the source'}, and {words.node} is none")
        if is_source:
            source = words.source or "-"
            rate, is_folder = worker.code.rate, os.path.isdir(source)
            worker.giver = FolderSource(Path(source), rate) if is_folder else FileSource(source, rate)
            worker.schedule.stream = worker.giver.stream
            worker.pattern = pattern_number(plan["code"], network, words.pattern or plan["pattern"])
        if is_sink:
            to = words.to or "-"
            folder = to.endswith("/") or os.path.isdir(to)
            if folder:
                os.makedirs(to, exist_ok=True)
                worker.taker = FolderSink(Path(to))
            else:
                worker.taker = PipeSink() if to == "-" else FileSink(Path(to))

    def run(self) -> bool:
        """Carries the stream until it ends. Whether a sink here got all of it."""
        worker, left, parted, worked = self.worker, False, None, True
        while not left:
            self.receive(0 if worked else self.rest())
            told = self.control.pattern() if worker.giver is not None else None
            worker.pattern = worker.pattern if told is None else told
            worked, until = False, time.monotonic() + 0.05
            while worker.step():
                worked = True
                self.flush()
                if time.monotonic() > until:
                    break
            worker.acknowledge()
            self.flush()
            self.counters.say(worker)
            if worker.at_end() and worker.done() >= worker.following:
                parted = parted or time.monotonic()
                left = self.may_leave(time.monotonic() - parted)
        if worker.taker is not None:
            worker.taker.end()
        self.counters.say(worker, ended=True)
        for link in (*worker.into.values(), *worker.out.values()):
            link.close()
        self.zmq.Context.instance().term()
        return worker.taker is None or not worker.taker.failed

    def receive(self, rest: int) -> None:
        """Takes in what has come, for which it waits so many milliseconds at most."""
        for link, monitored in self.polled.items():
            wanted = self.zmq.POLLIN | (self.zmq.POLLOUT if link.waits() else 0)
            if monitored != wanted:
                self.poller.modify(link.socket, wanted)
                self.polled[link] = wanted
        ready = {id(each) for each, _ in self.poller.poll(rest)}
        for incoming in self.worker.into.values():
            if id(incoming.socket) in ready:
                incoming.receive(self.worker.following)
        for outgoing in self.worker.out.values():
            if id(outgoing.monitor) in ready:
                outgoing.watch()
            if id(outgoing.socket) in ready:
                outgoing.receive()

    def rest(self) -> int:
        """How many milliseconds it may wait: the source looks for more to send."""
        worker = self.worker
        return LOOK if worker.giver is not None and worker.waits_for is None and not worker.at_end() else SLEEP

    def flush(self) -> None:
        for link in self.worker.out.values():
            link.flush()

    def may_leave(self, waited: float) -> bool:
        """Whether all heads know of the end, and all tails that they do. Tails, and heads of links that carry nothing, are
        waited for a while."""
        worker = self.worker
        live = set(worker.open(worker.schedule.pattern(worker.following)).out)
        for link in worker.out.values():
            link.leaves = (link.head_done or 0) >= worker.following and link.is_told
        self.flush()
        deaf = {link.number for link in worker.out.values() if not link.has_left}
        near = [link for link in worker.into.values() if not link.has_left]
        for incoming in near:
            # What was said last may have been lost.
            incoming.said = incoming.said if time.monotonic() - incoming.heard < 1 else 0
        return not deaf and not near or waited > FAREWELL and not deaf & live


def words_of(arguments: Sequence[str]) -> argparse.Namespace:
    parser = words_parser("lif-node", __doc__)
    add = parser.add_argument
    add("plan", metavar="PLAN", help="a plan with addresses, or `status`")
    add("node", metavar="NODE", help="the node to run, by its name; behind `status` the plan")
    add("--from", dest="source", metavar="PATH", help="what the source reads: a file, a folder, or -, standard input, as else")
    add("--to", metavar="PATH", help="what a sink writes: a file, a folder, or -, standard output, as else")
    add("--pattern", metavar="P", help="the pattern of failed links to begin with, at the source; else that of the plan")
    add("--control", metavar="FILE", help="a file whose last line `pattern P` tells the source another pattern")
    add("--counters", metavar="FILE", help="where counters go, else standard error; in a folder the file has the node's name")
    return parser.parse_args(arguments)


def say_status(words: argparse.Namespace) -> None:
    from lif_tools.node_counts import said, status_of

    plan = load_plan(words.node)
    names = [node["name"] for node in plan["nodes"]]
    names += [sink["name"] for sink in plan["sinks"] if sink["name"] not in names]
    found = status_of(names, words.counters or ".")
    if words.json:
        print_json("lif-node", {"plan": words.node, "nodes": found})
    else:
        print("\n".join(map(said, found)))


def main(arguments: Sequence[str]) -> None:
    words = words_of(arguments)
    if words.plan == "status":
        say_status(words)
        return
    plan, overlay = load_overlay(words.plan)
    module("zmq", "python3-zmq")
    if not Running(plan, overlay, words).run():
        raise ToolError("not all could be had")
