"""What a node of an overlay counts, as lines of JSON, and what all nodes of a plan counted."""
from __future__ import annotations

import json
import os
import sys
import time
from pathlib import Path
from typing import Any

from lif_tools.common import ToolError, notice
from lif_tools.node_work import Worker

# A file of counters that has more bytes is put aside.
MOST_BYTES = 1 << 20


def facts_of(worker: Worker, ended: bool) -> dict[str, Any]:
    """What a node counted until now."""
    schedule = worker.schedule
    pattern = worker.code.pattern_name(schedule.pattern(worker.following)) if schedule.begins else None
    return {
        "node": worker.code.node_name(worker.number),
        "time": round(time.time(), 3),
        "ended": ended,
        "windows": worker.following,
        "done": worker.done(),
        "lost": worker.lost,
        "pattern": pattern,
        "waits_for": worker.waits_for,
        "bytes_in": {link.name: link.bytes for link in worker.into.values()},
        "bytes_out": {link.name: link.bytes for link in worker.out.values()},
        "queue_in": {link.name: len(link.came) for link in worker.into.values()},
        "queue_out": {link.name: len(link.kept) for link in worker.out.values()},
        "refused": {link.name: link.refused for link in worker.into.values() if link.refused},
        "seconds_in_liblif": round(worker.seconds, 3),
    }


class Counters:
    """Writes the counters of a node once a second, and at the end: to a file, to one of a folder, or to standard error."""

    def __init__(self, path: str | None, node: str):
        self.path = None if path is None else Path(path) / node if os.path.isdir(path) else Path(path)
        self.due = time.monotonic()

    def say(self, worker: Worker, ended: bool = False) -> None:
        if not ended and time.monotonic() < self.due:
            return
        self.due = time.monotonic() + 1
        line = json.dumps(facts_of(worker, ended))
        if self.path is None:
            print(line, file=sys.stderr, flush=True)
            return
        try:
            if self.path.exists() and self.path.stat().st_size > MOST_BYTES:
                self.path.replace(self.path.with_name(self.path.name + ".old"))
            with open(self.path, "a") as file:
                file.write(line + "\n")
        except OSError as error:
            notice(f"{self.path}: {error.strerror}")


def last_line(path: Path) -> dict[str, Any] | None:
    """The last whole line of a file of counters; nothing where there is none."""
    try:
        with open(path, "rb") as file:
            file.seek(max(0, os.fstat(file.fileno()).st_size - (1 << 18)))
            lines = file.read().split(b"\n")
    except FileNotFoundError:
        return None
    except OSError as error:
        raise ToolError(f"{path}: {error.strerror}") from None
    try:
        facts: dict[str, Any] = json.loads(lines[-2]) if len(lines) > 1 else {}
    except ValueError:
        raise ToolError(f"{path}: no counters of lif-node") from None
    return facts or None


def status_of(nodes: list[str], folder: str) -> list[dict[str, Any]]:
    """The last counters of each node that has some, and else its name alone."""
    return [last_line(Path(folder) / node) or {"node": node} for node in nodes]


def said(facts: dict[str, Any]) -> str:
    """A line on a node."""
    if "windows" not in facts:
        return f"{facts['node']} has said nothing"
    ago = max(0.0, time.time() - facts["time"])
    what = "ended" if facts["ended"] else f"waits for {facts['waits_for']}" if facts["waits_for"] else "runs"
    came, went = (sum(facts[key].values()) for key in ("bytes_in", "bytes_out"))
    line = f"{facts['node']} {what}, {facts['windows']} windows, {facts['done']} done, {came} bytes in, {went} out"
    line += f", {facts['seconds_in_liblif']} s in liblif"
    if facts["lost"]:
        line += f", {facts['lost']} windows can't be had"
    for link, count in facts["refused"].items():
        line += f", {count} refused of {link}"
    return line if facts["ended"] or ago < 3 else f"{line}, {ago:.0f} s ago"
