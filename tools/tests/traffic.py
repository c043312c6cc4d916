"""What the links of a code carry, by docs/FORMATS.md: blocks, their coded traffic, and streams."""
from __future__ import annotations

import random
from typing import Sequence

from lif_tools.formats import (
    COUNT_BYTES,
    ELEMENT_BYTES,
    FRAME_BYTES,
    PIECES,
    ROW_BYTES,
    Code,
    capacity,
    generations,
    live_links,
    product_of,
    vectors_of,
)


def times(field: int, element: int, row: bytes) -> bytes:
    """A row times an element."""
    product, size = product_of(field), ELEMENT_BYTES[field]
    if size == 1:
        return row.translate(bytes(product(element, other) for other in range(256)))
    parts = (int.from_bytes(row[at : at + size], "big") for at in range(0, len(row), size))
    return b"".join(product(element, part).to_bytes(size, "big") for part in parts)


def sum_of(rows: Sequence[bytes]) -> bytes:
    """The sum of rows, in each of the fields."""
    total = 0
    for row in rows:
        total ^= int.from_bytes(row, "big")
    return total.to_bytes(len(rows[0]), "big")


def blocks_of(rate: int, source: bytes) -> list[bytes]:
    room = capacity(rate)
    parts = [source[number * room : (number + 1) * room] for number in range(generations(rate, len(source)))]
    return [(len(part).to_bytes(COUNT_BYTES, "big") + part).ljust(rate * ROW_BYTES, b"\0") for part in parts]


def stream_of(link: int, rows: Sequence[bytes]) -> bytes:
    """The frames of a link that carries these rows, one of each generation."""
    size = ROW_BYTES // PIECES
    return b"".join(
        b"LF\1" + bytes([piece]) + link.to_bytes(4, "big") + number.to_bytes(4, "big") + row[piece * size :][:size]
        for number, row in enumerate(rows)
        for piece in range(PIECES)
    )


def streams_of(code: Code, pattern: int, source: bytes) -> dict[str, bytes]:
    """The stream of each live link, by the link's name."""
    live, vectors, found = live_links(code, pattern), vectors_of(code, pattern), {}
    places = range(0, code.rate * ROW_BYTES, ROW_BYTES)
    blocks = [[block[at : at + ROW_BYTES] for at in places] for block in blocks_of(code.rate, source)]
    for number, link in enumerate(code.network.links):
        if live[number]:
            sums = [sum_of([times(code.field, *pair) for pair in zip(vectors[number], rows)]) for rows in blocks]
            found[link.name] = stream_of(number, sums)
    return found


def mixed(stream: bytes, seed: int) -> bytes:
    """The frames of a stream in another order, some of them twice."""
    chance = random.Random(seed)
    frames = [stream[at : at + FRAME_BYTES] for at in range(0, len(stream), FRAME_BYTES)]
    frames += chance.choices(frames, k=len(frames) // 3)
    chance.shuffle(frames)
    return b"".join(frames)
