"""Greatest flows and least cuts, beside counts over all sets of nodes, and beside the program's."""
from __future__ import annotations

import itertools
import random
from pathlib import Path

from support import Program, network_of, text_of
from lif_tools.formats import Network
from lif_tools.flows import certificate, rate_under


def chance_network(chance: random.Random) -> Network:
    nodes = chance.randrange(3, 8)
    ends = [tuple(sorted(chance.sample(range(nodes), 2))) for _ in range(chance.randrange(nodes, 16))] + [
        (0, nodes - 1)
    ]
    patterns = [tuple(sorted(chance.sample(range(len(ends)), 2))) for _ in range(2)]
    return network_of(0, (nodes - 1,), ends, patterns)


def all_sides(network: Network, failed: tuple[int, ...]) -> dict[frozenset[int], int]:
    """Each set of nodes with the source and without the sink, and how many links leave it."""
    others = [node for node in range(len(network.nodes)) if node not in (network.source, network.sinks[0])]
    sides = {}
    for size in range(len(others) + 1):
        for more in itertools.combinations(others, size):
            side = frozenset((network.source, *more))
            sides[side] = sum(
                link.tail in side and link.head not in side
                for number, link in enumerate(network.links)
                if number not in failed
            )
    return sides


def assert_paths(network: Network, paths: tuple[tuple[int, ...], ...], failed: tuple[int, ...]) -> None:
    links = list(itertools.chain(*paths))
    assert len(set(links)) == len(links) and not set(links) & set(failed)
    for path in paths:
        nodes = [network.links[path[0]].tail] + [network.links[link].head for link in path]
        assert [network.links[link].tail for link in path] == nodes[:-1]
        assert (nodes[0], nodes[-1]) == (network.source, network.sinks[0])


def test_cuts_are_the_least() -> None:
    chance = random.Random(2)
    for _ in range(150):
        network = chance_network(chance)
        for pattern in network.patterns:
            found = certificate(network, network.sinks[0], pattern.links)
            sides = all_sides(network, pattern.links)
            least = min(sides.values())
            assert found.value == len(found.paths) == least
            assert frozenset(found.side) == frozenset.intersection(
                *(side for side, size in sides.items() if size == least)
            )
            assert_paths(network, found.paths, pattern.links)


def test_the_program_finds_the_same_cuts(program: Program, tmp_path: Path) -> None:
    chance = random.Random(3)
    path = tmp_path / "one.net"
    for _ in range(20):
        network = chance_network(chance)
        path.write_text(text_of(network))
        said = program("cuts", path).stdout
        assert said.startswith(f"rate {min(rate_under(network, pattern.links) for pattern in network.patterns)}\n")
        for pattern in network.patterns:
            found = certificate(network, network.sinks[0], pattern.links)
            assert f"demand {network.nodes[network.sinks[0]]} {pattern.name} cut {found.value}\n" in said
