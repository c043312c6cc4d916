"""Says what each node of a code does under a pattern, as JSON, for what runs the nodes as jobs.

  links   each live link, with its tail and its head; a link that fails or carries nothing doesn't stand there
  nodes   each node with live links out, for `lif relay`: the live links in, which it reads, and those out, which it
          writes; the source has none in, since it reads the file that is sent
  sinks   each sink, for `lif sink`: the links that its decoder wants, which it reads
  host    with --places for each of these nodes and sinks where it is to run
  overlay with --port or --addresses for `lif-node`: the address at which the head of each link listens, also of links
          that are live under other patterns alone, the checksum of the code, and how many windows may wait on a link

HOSTS is a text of lines `NODE HOST` and `* HOST`. A node without a line of its own gets a host of the latter, which
are taken in turn where there are several. What follows a `#` is a comment. ADDRESSES is a text of lines
`LINK HOST:PORT`. With --port a link without such a line has the host of its head, by --places, or else 127.0.0.1, and the
port N plus the link's number.

The file is read and refused as by `lif check`, but whether its demands decode isn't looked at.
"""
from __future__ import annotations

import argparse
import hashlib
import itertools
import re
from dataclasses import dataclass
from typing import Sequence

from lif_tools.common import ToolError, listed, load_code, pattern_number, print_json, read_bytes, words_parser
from lif_tools.formats import MOST_TEXT_BYTES, Code, live_links

# For every node that has no line of its own.
ANY = "*"
# How many windows may wait on a link, where the words don't say.
BOUND = 64
MOST_PORT = 65535
# A shell takes it as it is.
HOST = re.compile(r"[A-Za-z0-9][A-Za-z0-9._-]*")


@dataclass(frozen=True)
class Plan:
    """What a code's nodes do under a pattern, by numbers. `into` and `out` have for each node its live links in and out, and
    `wanted` those of each sink's decoder."""

    code: Code
    pattern: int
    live: tuple[int, ...]
    into: tuple[tuple[int, ...], ...]
    out: tuple[tuple[int, ...], ...]
    wanted: tuple[tuple[int, ...], ...]

    def busy(self) -> list[int]:
        """The nodes that do something."""
        return sorted({node for node, links in enumerate(self.out) if links} | set(self.code.network.sinks))


def plan_of(path: str, code: Code, pattern: int) -> Plan:
    """The plan of a file's code. A decoder that wants a link which carries nothing is refused: it decodes nothing."""
    network = code.network
    alive = live_links(code, pattern)
    wanted = tuple(code.decoders[network.demand(sink, pattern)].links for sink in range(len(network.sinks)))
    for node, links in zip(network.sinks, wanted):
        for link in links:
            if not alive[link]:
                demand = f"{network.nodes[node]} {network.patterns[pattern].name}"
                raise ToolError(f"{path}: demand {demand}: link {network.links[link].name} carries nothing")
    into, out = (
        tuple(tuple(link for link in links if alive[link]) for links in network.links_by(end))
        for end in (lambda link: link.head, lambda link: link.tail)
    )
    return Plan(code, pattern, tuple(link for link, lives in enumerate(alive) if lives), into, out, wanted)


def read_places(path: str, plan: Plan) -> dict[int, str]:
    """The host of each node that has one, by a text of places. A node that does something must have one."""
    names = plan.code.network.nodes
    numbers = {name: number for number, name in enumerate(names)}
    own: dict[str, str] = {}
    shared: list[str] = []
    for number, line in enumerate(read_bytes(path, MOST_TEXT_BYTES).decode(errors="backslashreplace").split("\n"), start=1):
        words = line.split("#", 1)[0].split()
        if not words:
            continue
        fault = place_fault(words, numbers, own)
        if fault is not None:
            raise ToolError(f"{path}: line {number}: {fault}")
        if words[0] == ANY:
            shared.append(words[1])
        else:
            own[words[0]] = words[1]
    turns = itertools.cycle(shared)
    hosts = {node: own[name] if name in own else next(turns) for node, name in enumerate(names) if name in own or shared}
    without = [names[node] for node in plan.busy() if node not in hosts]
    if without:
        raise ToolError(f"{path}: no host for {listed(without)}")
    return hosts


def place_fault(words: list[str], numbers: dict[str, int], own: dict[str, str]) -> str | None:
    """What is wrong with the words of a line, if something is."""
    if len(words) != 2:
        return "neither NODE HOST nor * HOST"
    if not HOST.fullmatch(words[1]):
        return f"no name of a host: {words[1]}"
    if words[0] == ANY:
        return None
    if words[0] not in numbers:
        return f"unknown node: {words[0]}; there are {listed(list(numbers))}"
    return f"node {words[0]} has a host already" if words[0] in own else None


def overlay_of(code: Code) -> list[int]:
    """The links that are live under some pattern."""
    live = [live_links(code, pattern) for pattern in range(len(code.network.patterns))]
    return [link for link in range(len(code.network.links)) if any(alive[link] for alive in live)]


def read_addresses(path: str, plan: Plan) -> dict[int, str]:
    """The addresses of links, by a text of them."""
    numbers = {link.name: number for number, link in enumerate(plan.code.network.links)}
    found: dict[int, str] = {}
    for number, line in enumerate(read_bytes(path, MOST_TEXT_BYTES).decode(errors="backslashreplace").split("\n"), start=1):
        words = line.split("#", 1)[0].split()
        if not words:
            continue
        fault = address_fault(words, numbers, found)
        if fault is not None:
            raise ToolError(f"{path}: line {number}: {fault}")
        found[numbers[words[0]]] = words[1]
    return found


def address_fault(words: list[str], numbers: dict[str, int], found: dict[int, str]) -> str | None:
    """What is wrong with the words of a line on an address, if something is."""
    if len(words) != 2:
        return "not LINK HOST:PORT"
    host, _, port = words[1].rpartition(":")
    if not HOST.fullmatch(host) or not re.fullmatch("[0-9]{1,5}", port) or not 0 < int(port) <= MOST_PORT:
        return f"no address: {words[1]}"
    if words[0] not in numbers:
        return f"unknown link: {words[0]}; there are {listed(list(numbers))}"
    return f"link {words[0]} has an address already" if numbers[words[0]] in found else None


def addresses_of(words: argparse.Namespace, plan: Plan, hosts: dict[int, str]) -> dict[int, str]:
    """The address of each link that is live under some pattern, and each at most once."""
    links = plan.code.network.links
    own = read_addresses(words.addresses, plan) if words.addresses else {}
    found: dict[int, str] = {}
    for link in overlay_of(plan.code):
        if link in own:
            found[link] = own[link]
        elif words.port is None:
            raise ToolError(f"{words.addresses}: no address for {links[link].name}")
        elif words.port + link > MOST_PORT:
            raise ToolError(f"{words.code}: no port is left for {links[link].name}")
        else:
            found[link] = f"{hosts.get(links[link].head, '127.0.0.1')}:{words.port + link}"
    by_address = {address: link for link, address in found.items()}
    for link, address in found.items():
        if by_address[address] != link:
            names = f"{links[link].name} and {links[by_address[address]].name}"
            raise ToolError(f"{words.addresses or words.code}: {names} have the same address: {address}")
    return found


def facts_of(plan: Plan, path: str, hosts: dict[int, str]) -> dict[str, object]:
    """The plan, for JSON."""
    network = plan.code.network
    nodes = network.nodes

    def names(links: Sequence[int]) -> list[str]:
        return [network.links[link].name for link in links]

    def place(node: int) -> dict[str, str]:
        return {"host": hosts[node]} if node in hosts else {}

    return {
        "code": path,
        "pattern": network.patterns[plan.pattern].name,
        "source": nodes[network.source],
        "links": [
            {"name": link.name, "tail": nodes[link.tail], "head": nodes[link.head]}
            for link in (network.links[number] for number in plan.live)
        ],
        "nodes": [
            {"name": nodes[node], "in": names(plan.into[node]), "out": names(out), **place(node)}
            for node, out in enumerate(plan.out)
            if out
        ],
        "sinks": [
            {"name": nodes[node], "links": names(links), **place(node)} for node, links in zip(network.sinks, plan.wanted)
        ],
    }


def overlay_facts(words: argparse.Namespace, plan: Plan, hosts: dict[int, str]) -> dict[str, object]:
    """What `lif-node` needs besides, for JSON."""
    addresses = addresses_of(words, plan, hosts)
    names = plan.code.network.links
    checksum = hashlib.sha256(read_bytes(words.code)).hexdigest()
    return {"sum": checksum, "bound": words.bound, "addresses": {names[link].name: each for link, each in addresses.items()}}


def count(text: str) -> int:
    """A number from 1 on."""
    if not re.fullmatch("[1-9][0-9]{0,6}", text):
        raise argparse.ArgumentTypeError(f"no number from 1 on: {text}")
    return int(text)


def words_of(arguments: Sequence[str]) -> argparse.Namespace:
    parser = words_parser("lif-plan", __doc__)
    add = parser.add_argument
    add("code", metavar="CODE", help="a code file")
    add("--pattern", metavar="P", default="none", help="the pattern of failed links, else none")
    add("--places", metavar="HOSTS", help="a text that says where each node is to run")
    add("--port", metavar="N", type=count, help="addresses for `lif-node`, of the ports from N on")
    add("--addresses", metavar="ADDRESSES", help="a text that says at which address the head of each link listens")
    add("--bound", metavar="N", type=count, default=BOUND, help=f"how many windows may wait on a link, else {BOUND}")
    return parser.parse_args(arguments)


def main(arguments: Sequence[str]) -> None:
    words = words_of(arguments)
    code = load_code(words.code)
    plan = plan_of(words.code, code, pattern_number(words.code, code.network, words.pattern))
    hosts = read_places(words.places, plan) if words.places else {}
    facts = facts_of(plan, words.code, hosts)
    if words.port is not None or words.addresses:
        facts["overlay"] = overlay_facts(words, plan, hosts)
    print_json("lif-plan", facts)
