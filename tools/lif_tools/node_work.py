"""What a node of an overlay does, window by window: it waits for what it needs of one, adds up, gives, and goes on."""
from __future__ import annotations

import time
from collections import defaultdict
from dataclasses import dataclass, field
from typing import Any, Protocol

from lif_tools.common import ToolError, notice
from lif_tools.formats import FRAME_BYTES, PIECES, Network
from lif_tools.liblif import Code, Node, Sink, cut
from lif_tools.node_links import Incoming, Message, Outgoing, Stamp

# So many generations has a window, but for one that ends early.
WINDOW = 4
# Numbers of generations begin again behind so many.
ALL_GENERATIONS = 1 << 32
# How many patterns stay open at a time.
MOST_OPEN = 4
# Seconds until a link that fails by a later pattern is given up, and until a window is asked for that may have been changed.
PATIENCE, DOUBT = 2.0, 0.5


class Taker(Protocol):
    """Where a sink puts what it decodes."""

    failed: bool

    def start(self, stream: str) -> int: ...
    def take(self, window: int, begins: bool, content: bytes) -> None: ...
    def lose(self, window: int) -> None: ...
    def end(self) -> None: ...


class Giver(Protocol):
    """Where the source finds what it sends."""

    stream: str

    def window(self) -> tuple[bool, list[bytes]] | None: ...
    def is_at_end(self) -> bool: ...
    def begin_at(self, window: int) -> int: ...
    def done(self, window: int) -> None: ...


@dataclass
class Opened:
    """A node under a pattern: what of liblif is open, the links that it needs, and its live links out."""

    node: Node | None
    sink: Sink | None
    needed: tuple[int, ...]
    out: tuple[int, ...]


@dataclass
class Schedule:
    """From which window on which pattern is in force, and how many windows there are where the stream's end is known."""

    stream: str | None = None
    begins: dict[int, int] = field(default_factory=dict)
    end: int | None = None
    # All is known of windows below this one.
    known: int = 0

    def pattern(self, window: int) -> int:
        return self.begins[max((first for first in self.begins if first <= window), default=min(self.begins))]

    def stretch(self, window: int) -> int:
        """Up to where the pattern of a window stays, as far as it is known."""
        return min([first for first in self.begins if first > window], default=self.known)

    def merge(self, begins: dict[int, int], end: int | None) -> bool:
        """Takes in what another node knows. Whether it was new."""
        before = (dict(self.begins), self.end)
        self.begins.update(begins)
        self.end = self.end if end is None else end
        self.known = max(self.known, *self.begins, self.end or 0)
        return before != (self.begins, self.end)

    def forget(self, window: int) -> None:
        """Forgets patterns that no longer stood before a window."""
        last = max((first for first in self.begins if first <= window), default=0)
        self.begins = {first: pattern for first, pattern in self.begins.items() if first >= last}


class Worker:
    """A node at work. `following` is the window that it works on next; all before `done()` are done here and behind it."""

    def __init__(self, code: Code, network: Network, number: int, checksum: str):
        self.code, self.network, self.number, self.checksum = code, network, number, checksum
        self.into: dict[int, Incoming] = {}
        self.out: dict[int, Outgoing] = {}
        self.schedule = Schedule()
        self.giver: Giver | None = None
        self.taker: Taker | None = None
        self.following, self.lost, self.frames_refused, self.seconds = 0, 0, 0, 0.0
        # Whether the source knows from which window on it sends.
        self.begun = False
        self.pattern: int | None = None
        self.waits_for: str | None = None
        self.waits_since = 0.0
        self.opened: dict[int, Opened] = {}
        # Links that fail by the last pattern that is told, since when, and those of them that are given up.
        self.failing: frozenset[int] = frozenset()
        self.failing_since = 0.0
        self.dead: set[int] = set()

    def state(self, link: Outgoing) -> dict[str, Any]:
        """What a link's head is to know."""
        schedule = self.schedule
        begins = [[first, self.code.pattern_name(pattern)] for first, pattern in schedule.begins.items()]
        first = link.first(self.following)
        return {"code": self.checksum, "stream": schedule.stream, "first": first, "begins": begins, "end": schedule.end}

    def on_state(self, link: Incoming, state: dict[str, Any]) -> None:
        """Takes in what a link's tail says, and passes on what is new."""
        if state["code"] != self.checksum:
            raise ToolError(f"link {link.name}: the node before it has another code")
        if state["stream"] is None:
            return
        if self.schedule.stream is None:
            self.schedule.stream = state["stream"]
            if self.taker is not None:
                self.following = max(self.following, self.taker.start(state["stream"]))
        elif self.schedule.stream != state["stream"]:
            raise ToolError(f"link {link.name}: another stream began, while this one hasn't ended: start all nodes again")
        self.dead.discard(link.number)
        begins = {int(first): self.code.pattern(name) for first, name in state["begins"]}
        self.learn(begins, state["end"])

    def learn(self, begins: dict[int, int], end: int | None) -> None:
        """Takes in from which windows on there are which patterns, or the end."""
        if not self.schedule.merge(begins, end):
            return
        self.tell()
        failing = frozenset(self.network.patterns[self.schedule.begins[max(self.schedule.begins)]].links)
        if failing != self.failing:
            self.failing, self.failing_since = failing, time.monotonic()
            self.dead &= failing

    def tell(self) -> None:
        for link in self.out.values():
            link.is_told = False

    def done(self) -> int:
        """The first window that isn't done here and behind this node."""
        links = (link for link in self.out.values() if link.number not in self.dead)
        return min((link.first(self.following) for link in links), default=self.following)

    def acknowledge(self) -> None:
        """Says up all links how far all is done."""
        if self.schedule.stream is None:
            return
        for number in self.failing & self.out.keys() - self.dead:
            if self.out[number].kept and time.monotonic() - max(self.failing_since, self.out[number].heard) > PATIENCE:
                self.dead.add(number)
                notice(f"link {self.out[number].name}: it fails, by the pattern that is told, and what it had isn't waited for")
        done = self.done()
        for link in self.into.values():
            link.done(done)
        if len(self.schedule.begins) > 1:
            self.schedule.forget(done)
        if self.giver is not None and self.begun:
            self.giver.done(done)

    def at_end(self) -> bool:
        return self.schedule.end is not None and self.following >= self.schedule.end

    def open(self, pattern: int) -> Opened:
        """What is to be done under a pattern."""
        if pattern not in self.opened:
            if len(self.opened) >= MOST_OPEN:
                self.opened.pop(next(iter(self.opened)))
            node = Node(self.code, self.number, pattern)
            out = tuple(node.links_out)
            needed = set(node.links_in) if out else set()
            sinks = [sink for sink in range(self.code.sinks) if self.code.sink_node(sink) == self.number]
            sink = Sink(self.code, sinks[0], pattern) if sinks and self.taker is not None else None
            if sink is not None:
                needed |= {link for link in self.into if sink.wants(link)}
            self.opened[pattern] = Opened(node if out else None, sink, tuple(sorted(needed)), out)
        return self.opened[pattern]

    def wait_for(self, link: str | None) -> bool:
        if link != self.waits_for:
            self.waits_for, self.waits_since = link, time.monotonic()
        return False

    def step(self) -> bool:
        """Does the next window, if that can be. Whether something was done."""
        if self.schedule.stream is None or self.at_end():
            return self.wait_for(None)
        if self.giver is not None:
            return self.step_source(self.giver)
        for link in self.into.values():
            self.schedule.known = max(self.schedule.known, max(link.came, default=-1) + 1)
        if self.following >= self.schedule.known:
            for link in self.into.values():
                link.ask_for_the_rest(self.following)
            return self.wait_for(next((link.name for link in self.into.values()), None))
        pattern = self.schedule.pattern(self.following)
        opened = self.open(pattern)
        if not opened.needed:
            return self.skip_to(min(self.schedule.stretch(self.following), self.schedule.known))
        missing = [self.into[link] for link in opened.needed if self.following not in self.into[link].came]
        passed = max((link.first for link in missing), default=0)
        if passed > self.following:
            # It was done before this node was started again.
            return self.skip_to(passed)
        late = [link for link in missing if not self.gives_up(link)]
        for link in late:
            link.ask_for_the_rest(self.following)
        full = [self.out[link] for link in opened.out if not self.out[link].has_room()]
        if late or full:
            return self.wait_for((late or full)[0].name)
        self.work(opened, [self.into[link].came.pop(self.following, None) for link in opened.needed])
        return True

    def skip_to(self, window: int) -> bool:
        self.following = max(self.following + 1, window)
        self.clear()
        self.tell()
        return True

    def clear(self) -> None:
        """Forgets windows that came and are behind."""
        for link in self.into.values():
            while link.came and min(link.came) < self.following:
                del link.came[min(link.came)]

    def gives_up(self, link: Incoming) -> bool:
        """Whether a link that is waited for won't bring the window: it came changed too often, or the link fails by a later
        pattern, and has brought nothing for a while."""
        if link.given_up(self.following) or link.number in self.dead:
            return True
        waited = time.monotonic() - self.waits_since if self.waits_for == link.name else 0.0
        if link.doubts and waited > DOUBT:
            link.ask(self.following)
            self.waits_since = time.monotonic()
        if link.number in self.failing and waited > PATIENCE:
            self.dead.add(link.number)
            notice(f"link {link.name}: it fails, by the pattern that is told, and window {self.following} hasn't come over it")
        return link.number in self.dead

    def work(self, opened: Opened, came: list[Message | None]) -> None:
        """Does a window by what came of it."""
        begun = time.perf_counter()
        window, pattern = self.following, self.schedule.pattern(self.following)
        # Of a window of which nothing came it isn't known how long it is.
        brought = [message.stamp for message in came if message is not None and not message.lost]
        stamps = [stamp for stamp in brought if stamp.pattern == pattern]
        stamp = stamps[0] if stamps else Stamp(window, pattern, WINDOW, False)
        self.following += 1
        first = window * WINDOW % ALL_GENERATIONS
        for each in (opened.node, opened.sink):
            if each is not None:
                each.begin(first, stamp.count)
        for number, message in zip(opened.needed, came):
            if message is not None and message.stamp == stamp:
                self.accept(opened, number, message.frames)
            elif message is not None and not message.lost:
                self.into[number].refused += 1
                notice(f"link {self.into[number].name}: window {window} is stamped otherwise than on another link")
        if opened.node is not None:
            self.give(opened, opened.node, stamp)
        if opened.sink is not None and self.taker is not None:
            generations = range(first, first + stamp.count)
            whole = all(map(opened.sink.is_whole, generations))
            content = b"".join(map(opened.sink.data, generations)) if whole else b""
            self.seconds += time.perf_counter() - begun
            self.decoded(self.taker, window, stamp.begins, content if whole else None)
        else:
            self.seconds += time.perf_counter() - begun
        self.clear()

    def decoded(self, taker: Taker, window: int, begins: bool, content: bytes | None) -> None:
        if content is None:
            self.lost += 1
            notice(f"window {window} can't be had")
            taker.lose(window)
        else:
            taker.take(window, begins, content)

    def accept(self, opened: Opened, number: int, frames: memoryview) -> None:
        """Gives the frames of a link to the node and to the sink."""
        link = self.into[number]
        refused = opened.node.accept_each(frames) if opened.node is not None else []
        if opened.sink is not None and opened.sink.wants(number):
            refused = opened.sink.accept_each(frames)
        link.refused += len(refused)
        if refused:
            notice(f"link {link.name}: {len(refused)} frames are refused: {refused[0]}")

    def give(self, opened: Opened, node: Node, stamp: Stamp) -> None:
        """Gives what is due to the links out."""
        due: dict[int, list[bytes]] = defaultdict(list)
        frames = node.due(len(opened.out) * stamp.count * PIECES)
        for at in range(0, len(frames), FRAME_BYTES):
            frame = frames[at : at + FRAME_BYTES]
            due[int.from_bytes(frame[4:8], "big")].append(frame)
        for number in opened.out:
            whole = len(due[number]) == stamp.count * PIECES
            self.out[number].put(stamp, b"".join(due[number]) if whole else None)

    def step_source(self, giver: Giver) -> bool:
        """Makes a window of what the source has, once all links out have said how far they are."""
        if not self.begun:
            heads = [self.out[link].head_done for link in self.open(self.pattern or 0).out]
            if None in heads:
                return self.wait_for(next(link.name for link in self.out.values() if link.head_done is None))
            self.following = giver.begin_at(min(head for head in heads if head is not None))
            self.begun = True
            self.learn({self.following: self.pattern or 0}, None)
        if self.pattern is not None and self.pattern != self.schedule.pattern(self.following):
            self.learn({self.following: self.pattern}, None)
        opened = self.open(self.schedule.pattern(self.following))
        full = [self.out[link] for link in opened.out if not self.out[link].has_room()]
        if full:
            return self.wait_for(full[0].name)
        made = giver.window()
        if made is None:
            if giver.is_at_end():
                self.learn({}, self.following)
            return self.wait_for(None)
        begun = time.perf_counter()
        begins, pieces = made
        stamp = Stamp(self.following, self.schedule.pattern(self.following), len(pieces), begins)
        first = self.following * WINDOW % ALL_GENERATIONS
        self.following += 1
        if opened.node is not None:
            opened.node.begin(first, len(pieces))
            for generation, piece in enumerate(pieces, start=first):
                opened.node.feed(generation, cut(piece, self.code.rate))
            self.give(opened, opened.node, stamp)
        self.seconds += time.perf_counter() - begun
        return True
