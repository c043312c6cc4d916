"""Says what a code of lif costs, from its file: products, frames, bytes on links and memory.

  products   multiplications for each byte of the source, those by 0 and 1 counted: a live link takes one for each live
             operand and byte, and a sink for each byte of each row as many as the rate
  frames     what flies for each generation: 8 on each live link, of 140 bytes
  links      the bytes on each link for a source of --bytes, without what a transport adds; the same on all live links,
             and none on the others
  memory     about what `lif send` takes, beside some 2 MB for the program itself, counted from the sizes of what it
             holds: for the source, the code, nodes, sinks and frames that fly, and what the check of the code leaves; or
             for the code and its file, where that is more; a decoder is held for each demand, though a file of version 2
             has it once
  nodes      for a source of --bytes, by each node by itself, as `lif relay` and `lif sink` run it: the bytes of the
             streams that it reads and writes, and about what it holds of them; where it reads more than it may, how
             much that is

The file is read and refused as by `lif check`, but whether its demands decode isn't looked at.
"""
from __future__ import annotations

import argparse
import dataclasses
from dataclasses import dataclass
from fractions import Fraction
from pathlib import Path
from typing import Sequence

from lif_tools.common import load_code, pattern_number, print_json, words_parser
from lif_tools.formats import (
    FRAME_BYTES,
    MOST_RELAYED_BYTES,
    MOST_SOURCE_BYTES,
    MOST_STREAM_BYTES,
    PIECES,
    Code,
    capacity,
    generations,
    live_links,
)
from lif_tools.memory import Memory, memory_of


# What `lif relay` of the source reads at a time.
READ_BYTES = 65_536


@dataclass(frozen=True)
class Estimate:
    """What a code costs under a pattern."""

    code: Code
    pattern: int
    live: tuple[bool, ...]

    def live_count(self) -> int:
        return sum(self.live)

    def sums(self) -> int:
        """How many operands the live links add up."""
        return sum(
            self.live[operand.origin] or link.tail == self.code.network.source
            for number, link in enumerate(self.code.network.links)
            if self.live[number]
            for operand in self.code.operands[number]
        )

    def link_products(self) -> Fraction:
        """The products of the links for a byte of the source."""
        return Fraction(self.sums(), self.code.rate)

    def sink_products(self) -> int:
        """The products of all sinks for a byte of the source."""
        return len(self.code.network.sinks) * self.code.rate

    def frames(self) -> int:
        """How many frames there are for a generation."""
        return PIECES * self.live_count()

    def streams(self, node: int, length: int) -> tuple[int, int]:
        """The bytes that a node reads and writes as streams, for a source of so many bytes; at the source the file is read."""
        network = self.code.network
        each = generations(self.code.rate, length) * PIECES * FRAME_BYTES
        lives = [link for link, live in zip(network.links, self.live) if live]
        read = length if node == network.source else each * sum(link.head == node for link in lives)
        return read, each * sum(link.tail == node for link in lives)

    def most_read(self, node: int) -> int:
        """The most bytes that a node may read as streams, and the source of its file."""
        return MOST_RELAYED_BYTES if node == self.code.network.source else MOST_STREAM_BYTES

    def held(self, node: int, length: int) -> int:
        """About what `lif relay` of a node holds of its streams: all, and the file that is read; at the source what it reads at
        a time."""
        if node == self.code.network.source:
            return READ_BYTES
        read = self.streams(node, length)[0]
        return read + min(read, generations(self.code.rate, length) * PIECES * FRAME_BYTES)

    def memory(self, length: int, file_bytes: int) -> Memory:
        """What `lif send` takes for a source of so many bytes, where the code's file has so many."""
        return memory_of(self.code, self.live, length, file_bytes)


def estimate(code: Code, pattern: int) -> Estimate:
    return Estimate(code, pattern, tuple(live_links(code, pattern)))


def number_text(number: Fraction) -> str:
    """A number with at most two decimals."""
    return f"{float(number):.2f}".rstrip("0").rstrip(".")


def node_lines(found: Estimate, length: int) -> list[str]:
    """What each node by itself reads, writes and holds."""
    return [
        f"node {name} reads {read} bytes{beyond}, writes {written}, holds about {found.held(node, length)}"
        for node, name in enumerate(found.code.network.nodes)
        for (read, written), most in [(found.streams(node, length), found.most_read(node))]
        for beyond in [f" and may read {most}" if read > most else ""]
    ]


def code_lines(found: Estimate) -> list[str]:
    """What holds for every source."""
    code, network = found.code, found.code.network
    total = found.link_products() + found.sink_products()
    return [
        f"code rate {code.rate} field {code.field} demands {network.demands()}",
        f"pattern {network.patterns[found.pattern].name} live {found.live_count()} of {len(network.links)} links",
        f"products a byte {number_text(total)}: links {number_text(found.link_products())}, "
        f"sinks {found.sink_products()}",
        f"frames a generation {found.frames()}, for at most {capacity(code.rate)} bytes of the source",
    ]


def memory_line(memory: Memory) -> str:
    """What `lif send` takes, and for what."""
    parts = {
        "source": memory.source,
        "code": memory.code,
        "nodes, sinks and links": memory.work,
        "left by the check": memory.check,
    }
    if memory.total > sum(parts.values()):
        parts = {"code": memory.code, "its file, while it is read": memory.file}
    return f"memory of send about {memory.total} bytes: " + ", ".join(f"{name} {size}" for name, size in parts.items())


def source_lines(found: Estimate, length: int, file_bytes: int) -> list[str]:
    """What holds for a source of so many bytes."""
    blocks = generations(found.code.rate, length)
    each = blocks * PIECES * FRAME_BYTES
    return [
        f"source {length} bytes: generations {blocks}, frames {blocks * found.frames()}, "
        f"bytes on all links {each * found.live_count()}",
        memory_line(found.memory(length, file_bytes)),
        *(f"link {link.name} {each if live else 0}" for link, live in zip(found.code.network.links, found.live)),
        *node_lines(found, length),
    ]


def memory_facts(memory: Memory) -> dict[str, object]:
    """The same, for JSON."""
    return {"total": memory.total, **dataclasses.asdict(memory)}


def facts_of(found: Estimate, path: str, length: int | None, file_bytes: int) -> dict[str, object]:
    """The same facts, for JSON."""
    code, network = found.code, found.code.network
    facts: dict[str, object] = {
        "code": path,
        "rate": code.rate,
        "field": code.field,
        "demands": network.demands(),
        "pattern": network.patterns[found.pattern].name,
        "live_links": found.live_count(),
        "all_links": len(network.links),
        "products": {"links": found.link_products(), "sinks": found.sink_products()},
        "frames_a_generation": found.frames(),
        "bytes_a_generation": capacity(code.rate),
    }
    if length is not None:
        blocks = generations(code.rate, length)
        each = blocks * PIECES * FRAME_BYTES
        facts |= {
            "bytes": length,
            "generations": blocks,
            "frames": blocks * found.frames(),
            "bytes_on_links": each * found.live_count(),
            "memory": memory_facts(found.memory(length, file_bytes)),
            "links": [
                {"name": link.name, "bytes": each if live else 0} for link, live in zip(network.links, found.live)
            ],
            "nodes": [
                {
                    "name": name,
                    "reads": read,
                    "most": found.most_read(node),
                    "writes": written,
                    "holds": found.held(node, length),
                }
                for node, name in enumerate(network.nodes)
                for read, written in [found.streams(node, length)]
            ],
        }
    return facts


def length_of(text: str) -> int:
    if not text.isascii() or not text.isdigit() or int(text) > MOST_SOURCE_BYTES:
        raise argparse.ArgumentTypeError(f"{text!r} isn't a number of at most {MOST_SOURCE_BYTES}, the longest source")
    return int(text)


def words_of(arguments: Sequence[str]) -> argparse.Namespace:
    parser = words_parser("lif-estimate", __doc__)
    add = parser.add_argument
    add("code", metavar="CODE", help="a code file")
    add("--pattern", metavar="P", default="none", help="the pattern of failed links, else none")
    add("--bytes", type=length_of, metavar="N", help="the length of the source")
    for kind in ("patterns", "nodes", "sinks", "links"):
        add(f"--{kind}", action="store_true", help=f"say the names of the code's {kind} and nothing else")
    return parser.parse_args(arguments)


def main(arguments: Sequence[str]) -> None:
    words = words_of(arguments)
    code = load_code(words.code)
    network = code.network
    kinds = {
        "patterns": [pattern.name for pattern in network.patterns],
        "nodes": list(network.nodes),
        "sinks": [network.nodes[sink] for sink in network.sinks],
        "links": [link.name for link in network.links],
    }
    asked = {kind: names for kind, names in kinds.items() if getattr(words, kind)}
    if asked:
        say(words, {"code": words.code, **asked}, [name for names in asked.values() for name in names])
        return
    found, size = estimate(code, pattern_number(words.code, code.network, words.pattern)), Path(words.code).stat().st_size
    lines = code_lines(found) + (source_lines(found, words.bytes, size) if words.bytes is not None else [])
    say(words, facts_of(found, words.code, words.bytes, size), lines)


def say(words: argparse.Namespace, facts: dict[str, object], lines: Sequence[str]) -> None:
    """Says facts as lines, or as JSON."""
    if words.json:
        print_json("lif-estimate", facts)
    else:
        print("\n".join(lines))
