"""Delays what goes between pairs of interfaces, for `namespaces.py` where the kernel has no netem.

    delays.py MS A B [A B ..]

Each packet that comes to one interface of a pair leaves over the other one so many milliseconds later, in order. `ready` is
said on standard output as soon as packets are taken.
"""
from __future__ import annotations

import contextlib
import select
import socket
import sys
import time
from collections import deque
from typing import Sequence

ETH_P_ALL, SOL_PACKET, PACKET_VNET_HDR, SO_RCVBUFFORCE = 3, 263, 15, 33
# Bytes that wait at an interface while others are served, and the most of a packet, with what the kernel says of it.
ROOM, MOST = 1 << 22, 1 << 17


def opened(interface: str) -> socket.socket:
    """All that comes to an interface. The kernel says ahead of each packet which checksums it has yet to make."""
    made = socket.socket(socket.AF_PACKET, socket.SOCK_RAW, 0)
    made.setsockopt(socket.SOL_SOCKET, SO_RCVBUFFORCE, ROOM)
    made.setsockopt(SOL_PACKET, PACKET_VNET_HDR, 1)
    made.bind((interface, ETH_P_ALL))
    made.setblocking(False)
    return made


def take(source: socket.socket, to: socket.socket, due: float, waiting: deque[tuple[float, socket.socket, bytes]]) -> None:
    """Takes all packets that have come to an interface."""
    with contextlib.suppress(BlockingIOError, OSError):
        while True:
            packet, facts = source.recvfrom(MOST)
            if facts[2] != socket.PACKET_OUTGOING:
                waiting.append((due, to, packet))


def carry(seconds: float, pairs: Sequence[tuple[socket.socket, socket.socket]]) -> None:
    peers = {one.fileno(): (one, other) for pair in pairs for one, other in (pair, pair[::-1])}
    poller = select.epoll()
    for number in peers:
        poller.register(number, select.EPOLLIN)
    waiting: deque[tuple[float, socket.socket, bytes]] = deque()
    while True:
        ready = poller.poll(max(0.0, waiting[0][0] - time.monotonic()) if waiting else None)
        now = time.monotonic()
        for number, _ in ready:
            take(*peers[number], now + seconds, waiting)
        while waiting and waiting[0][0] <= now:
            _, to, packet = waiting.popleft()
            # What doesn't go is lost, as on a link that is down.
            with contextlib.suppress(OSError):
                to.send(packet)


def main() -> None:
    milliseconds, *names = sys.argv[1:]
    sockets = [opened(name) for name in names]
    print("ready", flush=True)
    carry(float(milliseconds) / 1000, list(zip(sockets[::2], sockets[1::2])))


if __name__ == "__main__":
    main()
