#!/usr/bin/python3
"""Carries a file through the butterfly from its source to its two sinks: all nodes in one program, and the links too.

    butterfly.py SEED SRC PREFIX

The frames that fly come in an order that SEED decides. PREFIX.t1 and PREFIX.t2 get what the sinks decode, which is SRC.
"""
from __future__ import annotations

import contextlib
import itertools
import random
import sys
from pathlib import Path
from typing import Iterator

EXAMPLES = Path(__file__).resolve().parent.parent
sys.path.insert(0, str(EXAMPLES.parent / "tools"))

from lif_tools.liblif import Code, Node, Sink, blocks, frame_link  # noqa: E402

# So many generations are on their way at a time.
WINDOW = 4


def carry(code: Code, nodes: list[Node], sinks: list[Sink], flying: list[bytes], chance: random.Random) -> None:
    """Gives each frame that flies to the node that its link leads into, until none flies."""
    at_sink = {code.sink_node(number): sink for number, sink in enumerate(sinks)}
    while flying:
        place = chance.randrange(len(flying))
        flying[place], flying[-1] = flying[-1], flying[place]
        frame = flying.pop()
        link = frame_link(frame)
        _, node = code.ends(link)
        nodes[node].accept(frame)
        flying += nodes[node].frames()
        if node in at_sink and at_sink[node].wants(link):
            at_sink[node].accept(frame)


def send(code: Code, source: Iterator[bytes], seed: int) -> Iterator[tuple[bytes, ...]]:
    """What each sink gets of each block of a source."""
    chance = random.Random(seed)
    with contextlib.ExitStack() as opened:
        nodes = [opened.enter_context(Node(code, number)) for number in range(code.nodes)]
        sinks = [opened.enter_context(Sink(code, number)) for number in range(code.sinks)]
        for first in itertools.count(0, WINDOW):
            window = list(itertools.islice(source, WINDOW))
            if not window:
                return
            for each in (*nodes, *sinks):
                each.begin(first, len(window))
            for generation, block in enumerate(window, start=first):
                nodes[code.source].feed(generation, block)
            carry(code, nodes, sinks, list(nodes[code.source].frames()), chance)
            for generation in range(first, first + len(window)):
                yield tuple(sink.data(generation) for sink in sinks)


def main() -> None:
    if len(sys.argv) != 4:
        sys.exit(__doc__)
    seed, src, prefix = sys.argv[1:]
    with Code.read(EXAMPLES / "butterfly/butterfly.lif") as code, contextlib.ExitStack() as opened:
        source = opened.enter_context(open(src, "rb"))
        files = [opened.enter_context(open(f"{prefix}.{code.sink_name(sink)}", "wb")) for sink in range(code.sinks)]
        for parts in send(code, blocks(source, code.rate), int(seed)):
            for file, part in zip(files, parts):
                file.write(part)


main()
