"""Overlays on the loopback for tests: nodes as processes, and proxies on their links."""
from __future__ import annotations

import json
import os
import random
import select
import socket
import subprocess
import threading
import time
from pathlib import Path
from types import TracebackType
from typing import Any, Callable

from support import TOOLS, run_tool

# A node that waits for what never comes is a failure by then.
LONGEST = 40.0


def until(is_so: Callable[[], bool], seconds: float = LONGEST) -> None:
    """Waits until something is so."""
    end = time.monotonic() + seconds
    while not is_so():
        assert time.monotonic() < end, "it took too long"
        time.sleep(0.005)


def free_base(count: int) -> int:
    """A port from which on so many are free."""
    chance = random.Random(os.getpid() ^ time.monotonic_ns())
    while True:
        base = chance.randrange(20000, 32000 - count)
        sockets = []
        try:
            for port in range(base, base + count):
                sockets.append(socket.socket())
                sockets[-1].bind(("127.0.0.1", port))
            return base
        except OSError:
            continue
        finally:
            for each in sockets:
                each.close()


class Proxy:
    """Passes the bytes of a link on to its head, as `change` makes them down the link; nothing of them once it is cut."""

    def __init__(self, head: str, change: Callable[[bytes], bytes] = bytes):
        self.head, self.change, self.is_cut = head, change, False
        self.listener = socket.create_server(("127.0.0.1", 0))
        self.address = f"127.0.0.1:{self.listener.getsockname()[1]}"
        threading.Thread(target=self.run, daemon=True).start()

    def run(self) -> None:
        while True:
            try:
                tail, _ = self.listener.accept()
            except OSError:
                return
            threading.Thread(target=self.carry, args=(tail,), daemon=True).start()

    def carry(self, tail: socket.socket) -> None:
        host, port = self.head.rsplit(":", 1)
        try:
            with tail, socket.create_connection((host, int(port))) as head:
                while True:
                    for ready in select.select([tail, head], [], [])[0]:
                        content = ready.recv(1 << 16)
                        if not content:
                            return
                        if not self.is_cut:
                            (head if ready is tail else tail).sendall(self.change(content) if ready is tail else content)
        except OSError:
            return


class Overlay:
    """The nodes of a plan, run as processes in a folder, which are ended with it."""

    def __init__(self, folder: Path, code: Path, *words: object):
        self.folder = folder
        done = run_tool("lif-plan", code, "--port", free_base(64), *words)
        assert done.returncode == 0, done.stderr
        self.plan: dict[str, Any] = json.loads(done.stdout)
        self.path = folder / "plan.json"
        self.path.write_text(done.stdout)
        (folder / "counters").mkdir()
        names = [node["name"] for node in self.plan["nodes"]]
        self.names = names + [sink["name"] for sink in self.plan["sinks"] if sink["name"] not in names]
        self.source = self.plan["source"]
        self.running: dict[str, subprocess.Popen[bytes]] = {}
        self.sinks: dict[str, str] = {sink["name"]: f"out.{sink['name']}" for sink in self.plan["sinks"]}
        self.paths: dict[str, Path] = {}

    def __enter__(self) -> Overlay:
        return self

    def __exit__(self, kind: type[BaseException] | None, error: BaseException | None, trace: TracebackType | None) -> None:
        for each in self.running.values():
            each.kill()
            each.wait()
        if error is not None:
            for name in self.names:
                print(f"{name}: {self.said(name)}")

    def proxied(self, link: str, tail: str, change: Callable[[bytes], bytes] = bytes) -> Proxy:
        """Puts a proxy on a link: its tail has a plan with another address."""
        proxy = Proxy(self.plan["overlay"]["addresses"][link], change)
        plan = json.loads(self.paths.get(tail, self.path).read_text())
        plan["overlay"]["addresses"][link] = proxy.address
        self.paths[tail] = self.folder / f"plan.{tail}"
        self.paths[tail].write_text(json.dumps(plan))
        return proxy

    def start(self, name: str, *words: object, **options: Any) -> subprocess.Popen[bytes]:
        given: list[object] = [TOOLS / "lif-node", self.paths.get(name, self.path), name]
        given += ["--counters", self.folder / "counters"]
        given += ["--to", f"{self.folder}/{self.sinks[name]}"] if name in self.sinks and "--to" not in words else []
        with open(self.folder / f"said.{name}", "ab") as said:
            started = subprocess.Popen([*map(str, given), *map(str, words)], stderr=said, **options)
        self.running[name] = started
        return started

    def start_all(self, *words: object, leave: tuple[str, ...] = ()) -> None:
        """Starts all nodes, with words for the source."""
        for name in self.names:
            if name not in leave:
                self.start(name, *(words if name == self.source else ()))

    def said(self, name: str) -> str:
        path = self.folder / f"said.{name}"
        return path.read_text() if path.exists() else ""

    def counted(self, name: str) -> dict[str, Any]:
        path = self.folder / "counters" / name
        lines = path.read_text().split("\n")[:-1] if path.exists() else []
        facts: dict[str, Any] = json.loads(lines[-1]) if lines else {}
        return facts

    def ends(self, **statuses: int) -> None:
        """Waits until all nodes have ended, with 0 but for those that are named."""
        end = time.monotonic() + LONGEST
        found = {name: each.wait(max(0.1, end - time.monotonic())) for name, each in self.running.items()}
        assert found == {name: statuses.get(name.replace("-", "_"), 0) for name in found}

    def got(self, sink: str) -> bytes:
        return (self.folder / self.sinks[sink]).read_bytes()
