"""What `lif send` takes of memory for a code, counted from the sizes of what it holds.

Each list is a block of memory, and the system's allocator adds eight bytes to a block and rounds it up. What the program
fills is counted where nothing comes of it too; of the room for frames that fly, only what is used.
"""
from __future__ import annotations

import random
from dataclasses import dataclass

from lif_tools.formats import FRAME_BYTES, PIECES, ROW_BYTES, Code, capacity

# Numbers of the program's sources, by their names there.
MOST_BLOCKS = 4
WINDOW_LINKS = 256
WINDOW_PRODUCTS = 4096
LEAST_SINKS = 3
WORKERS = 4

# Bytes of the records that lists hold, on a machine of 64 bits.
LIST = 24
NAME = LIST
NUMBER = 4
LINK = NAME + 2 * NUMBER
PATTERN = NAME + LIST
OPERAND = 2 * NUMBER
DECODER = 2 * LIST
HELD_ROWS = 2 * LIST
GENERATION = HELD_ROWS + LIST
STATION = 488
FLIGHT = NUMBER + FRAME_BYTES
# The tables of products that all nodes share.
TABLES = 8456
# A link's vector in the check.
VECTOR = 64
# The system's allocator gives larger blocks back as they are freed, until one was given back.
LARGE_BLOCK = 128 * 1024


def block(count: int, size: int) -> int:
    """A list of so many records, which has room for these."""
    return max(32, (count * size + 23) // 16 * 16) if count else 0


def grown(count: int, size: int) -> int:
    """A list to which so many records were added one by one: it has room for four, and doubles that."""
    return block(max(4, 1 << (count - 1).bit_length()), size) if count else 0


def window_of(code: Code) -> int:
    """How many generations go at a time."""
    sinks = len(code.network.sinks)
    by_links = WINDOW_LINKS // max(1, len(code.network.links))
    by_threads = WINDOW_PRODUCTS // (sinks * code.rate**2) if sinks >= 2 * LEAST_SINKS else 0
    return min(MOST_BLOCKS, max(1, by_links, by_threads))


@dataclass(frozen=True)
class Memory:
    """What is held while a source is carried, and what the file of the code takes while that is read."""

    source: int
    code: int
    check: int
    work: int
    file: int

    @property
    def total(self) -> int:
        """The most at a time: the code's file is gone when the rest comes."""
        return self.code + max(self.file, self.source + self.check + self.work)


def memory_of(code: Code, live: tuple[bool, ...], length: int, file_bytes: int) -> Memory:
    """What a source of so many bytes takes, where these links are live."""
    return Memory(
        source_bytes(code, length),
        code_bytes(code),
        check_bytes(code),
        work_bytes(code, live) + sink_bytes(code) + most_flying(code, live) * FLIGHT,
        file_bytes,
    )


def source_bytes(code: Code, length: int) -> int:
    """What is gathered of a source, and the blocks that go at a time, with one that is decoded."""
    window = window_of(code)
    return min(length, window * capacity(code.rate)) + block(window + 1, code.rate * ROW_BYTES)


def code_bytes(code: Code) -> int:
    """The code: names, links, patterns, operands and decoders."""
    network = code.network
    names = [*network.nodes, *(link.name for link in network.links), *(pattern.name for pattern in network.patterns)]
    lists = block(len(network.nodes), NAME) + block(len(network.links), LINK + LIST) + block(len(network.sinks), NUMBER)
    lists += block(len(network.patterns), PATTERN) + block(network.demands(), DECODER)
    return (
        lists
        + sum(block(len(name), 1) for name in names)
        + sum(block(len(pattern.links), NUMBER) for pattern in network.patterns)
        + sum(block(len(operands), OPERAND) for operands in code.operands)
        + network.demands() * (block(code.rate, NUMBER) + block(code.rate**2, NUMBER))
    )


def check_bytes(code: Code) -> int:
    """What the check leaves to the threads beside the first, each of which held a vector for each link.

    How much that is depends on which thread ends when: about three quarters of it, and of large blocks, which may go
    back to the system, about a half.
    """
    each = block(len(code.network.links), VECTOR)
    held = (min(WORKERS, code.network.demands()) - 1) * each
    return held // 2 if each >= LARGE_BLOCK else held * 3 // 4


def work_bytes(code: Code, live: tuple[bool, ...]) -> int:
    """The nodes, with those to which nothing comes, and the tables that they share."""
    network = code.network
    into, out = network.links_by(lambda link: link.head), network.links_by(lambda link: link.tail)
    total = block(len(network.nodes), STATION) + TABLES + block(len(network.links), NUMBER)
    for node in range(len(network.nodes)):
        inputs = [link for link in into[node] if live[link]]
        if node == network.source:
            inputs = list(range(code.rate))
        sums = [
            [operand.origin for operand in code.operands[link] if node == network.source or live[operand.origin]]
            for link in out[node]
            if live[link]
        ]
        total += node_bytes(inputs if node != network.source else [], sums) + inputs_bytes(inputs, sums)
    return total


def node_bytes(ins: list[int], sums: list[list[int]]) -> int:
    """The plan of a node: the live links into it and out of it, and what each of these adds up."""
    operands = sum(map(len, sums))
    return (
        block(len(ins), NUMBER)
        + block(len(sums), NUMBER)
        + 2 * block(len(sums), LIST)
        + sum(grown(len(one), OPERAND) + block(len(one), NUMBER) for one in sums)
        + grown(operands, OPERAND)
        + grown(len(sums) + 1, 2 * NUMBER)
    )


def inputs_bytes(inputs: list[int], sums: list[list[int]]) -> int:
    """What a node holds of its inputs, and what waits for them: sums one after another that have the same go together."""
    groups = [one for place, one in enumerate(sums) if place == 0 or one != sums[place - 1]]
    readers = dict.fromkeys(inputs, 0)
    for group in groups:
        for origin in group:
            readers[origin] += 1
    due = PIECES * MOST_BLOCKS << max(len(sums) - 1, 0).bit_length()
    words = -(-due // 64)
    each_generation = (
        block(len(groups) * PIECES, NUMBER) + block(len(inputs), ROW_BYTES) + block(len(inputs) * PIECES, 1)
    )
    return (
        grown(len(groups), LIST)
        + sum(block(max(4, len(group)), NUMBER) for group in groups if group)
        + grown(len(groups) + 1, NUMBER)
        + block(len(inputs), LIST)
        + sum(grown(count, NUMBER) for count in readers.values())
        + block(MOST_BLOCKS, GENERATION)
        + MOST_BLOCKS * each_generation
        + block(words, 8)
        + block(-(-words // 64), 8)
    )


def sink_bytes(code: Code) -> int:
    """What the sinks hold of what comes, their decoders, and what they decode."""
    rate = code.rate
    each = (
        block(rate, NUMBER)
        + block(rate, 1)
        + block(rate**2, NUMBER)
        + block(MOST_BLOCKS, HELD_ROWS)
        + MOST_BLOCKS * (block(rate, ROW_BYTES) + block(rate * PIECES, 1))
        + block(MOST_BLOCKS * rate, ROW_BYTES)
    )
    return len(code.network.sinks) * each + 2 * block(len(code.network.sinks), LIST)


def most_flying(code: Code, live: tuple[bool, ...]) -> int:
    """How many frames of a window fly at a time, at most, where links give them in one order by chance.

    The source puts all its frames at first, and a node puts one when all that it adds up has come.
    """
    network, count = code.network, PIECES * window_of(code)
    readers: list[list[int]] = [[] for _ in network.links]
    missing: dict[int, list[int]] = {}
    flying: list[tuple[int, int]] = []
    for number, link in enumerate(network.links):
        if live[number] and link.tail == network.source:
            flying += [(number, piece) for piece in range(count)]
        elif live[number]:
            origins = [operand.origin for operand in code.operands[number] if live[operand.origin]]
            missing[number] = [len(origins)] * count
            for origin in origins:
                readers[origin].append(number)
    chance = random.Random(1)
    most = len(flying)
    while flying:
        place = int(chance.random() * len(flying))
        flying[place], flying[-1] = flying[-1], flying[place]
        number, piece = flying.pop()
        for reader in readers[number]:
            missing[reader][piece] -= 1
            if missing[reader][piece] == 0:
                flying.append((reader, piece))
        most = max(most, len(flying))
    return most
