"""Orders of nodes for flows: beside all orders of small networks, and on networks that nobody here made."""
from __future__ import annotations

import itertools
import random
from fractions import Fraction
from pathlib import Path
from typing import Any

import pytest

from support import network_of, run_tool
from lif_tools.flows import certificate
from lif_tools.formats import cycle_of, read_network
from lif_tools.orientation import Kept, depth_first, distances, order_for_flow, ranks, settled, ways_of

networkx = pytest.importorskip("networkx")

Ends = list[tuple[int, int]]


def flows_of(ends: Ends, order: tuple[int, ...], sinks: tuple[int, ...], directed: bool) -> tuple[int, ...]:
    """The greatest flows along an order, by the least cuts of the network that it makes."""
    rank = ranks(order, max(max(pair) for pair in ends) + 1)
    led = [pair for pair in ends if rank[pair[0]] < rank[pair[1]]]
    led += [] if directed else [(head, tail) for tail, head in ends if rank[head] < rank[tail]]
    if not led:
        return tuple(0 for _ in sinks)
    most = max(max(sinks), *(max(pair) for pair in ends))
    network = network_of(order[0], sinks, [*led, (most, most + 1)])
    return tuple(certificate(network, sink, (len(led),)).value for sink in sinks)


def found_for(ends: Ends, sinks: tuple[int, ...], directed: bool = False, **limits: int) -> Kept:
    links = [(tail, head, Fraction(1)) for tail, head in ends]
    far = distances(links, 0, directed)
    start = depth_first([0], ends) if directed else sorted(far, key=lambda node: (far[node], node))
    ways = ways_of([(tail, head, 1) for tail, head in ends], directed)
    count = max(max(pair) for pair in ends) + 1
    return order_for_flow(count, ways, 0, sinks, start, **limits)


def chance_ends(chance: random.Random, nodes: int, links: int) -> Ends:
    """Links between nodes, all of which have one; some are parallel."""
    while True:
        ends = [(tail, head) for tail, head in (chance.sample(range(nodes), 2) for _ in range(links))]
        if len({node for pair in ends for node in pair}) == nodes:
            return ends


def most_of_all_orders(ends: Ends, sinks: tuple[int, ...], directed: bool) -> int:
    nodes = range(1, max(max(pair) for pair in ends) + 1)
    return max(min(flows_of(ends, (0, *order), sinks, directed)) for order in itertools.permutations(nodes))


def assert_best(chance: random.Random, nodes: int, links: int, count: int, directed: bool) -> tuple[int, bool]:
    """The order that is found is the best of all, and what is said of it holds; whether the bound is met."""
    ends = chance_ends(chance, nodes, links)
    sinks = tuple(chance.sample(range(1, nodes), count))
    kept = found_for(ends, sinks, directed)
    assert kept.order[0] == 0 and len(set(kept.order)) == len(kept.order)
    assert kept.along == flows_of(ends, kept.order, sinks, directed)
    graph = networkx.MultiDiGraph(ends) if directed else networkx.MultiGraph(ends)
    plain = networkx.DiGraph() if directed else networkx.Graph()
    for tail, head in graph.edges():
        plain.add_edge(tail, head, capacity=plain.get_edge_data(tail, head, {"capacity": 0})["capacity"] + 1)
    assert kept.greatest == tuple(networkx.maximum_flow_value(plain, 0, sink) for sink in sinks)
    best = most_of_all_orders(ends, sinks, directed)
    assert min(kept.along) == best <= kept.bound <= min(kept.greatest)
    return best, best == kept.bound


def test_orders_of_links() -> None:
    links = [(0, 1), (1, 2), (2, 3), (3, 1), (0, 3), (4, 5)]
    order = depth_first([0], links)
    assert order[0] == 0 and sorted(order) == [0, 1, 2, 3]
    assert [pair for pair in links[:5] if order.index(pair[0]) > order.index(pair[1])] == [(3, 1)]
    assert depth_first([0, 4, 5, 1], links) == [0, 4, 5, 1, 2, 3]
    assert settled([0, 1, 2, 3, 4], [(4, 1), (3, 4)]) == [0, 2, 3, 4, 1]
    assert ranks([2, 0], 4) == [1, 2, 0, 2]


def test_a_search_that_may_take_no_steps_keeps_the_order() -> None:
    ends = [(0, 1), (0, 2), (1, 2), (1, 3), (2, 3)]
    kept = found_for(ends, (1, 2, 3))
    assert (kept.order, kept.along, kept.greatest, kept.bound) == ((0, 1, 2, 3), (1, 2, 2), (2, 2, 2), 1)
    ring = [(0, 1), (1, 2), (2, 3), (3, 4), (4, 0)]
    assert found_for(ring, (2,)).along == (2,)
    assert found_for(ring, (2,), most_steps=0).order == (0, 1, 4, 2, 3)


def test_the_order_is_the_best_of_all_for_small_networks() -> None:
    chance = random.Random(11)
    for nodes, links, count in ((4, 7, 2), (5, 9, 2), (5, 9, 3), (5, 10, 4)):
        for _ in range(10):
            assert_best(chance, nodes, links, count, False)
    for _ in range(10):
        assert_best(chance, 5, 11, 2, True)


@pytest.mark.slow
def test_the_order_is_the_best_of_all_for_many_networks() -> None:
    chance, met, rates = random.Random(12), 0, set()
    for count in (2, 3, 4, 5):
        for _ in range(50):
            best, is_met = assert_best(chance, 6, chance.randrange(8, 15), count, chance.random() < 0.3)
            met += is_met
            rates.add(best)
    assert met > 180 and rates >= {0, 1, 2, 3}


def known_graphs() -> dict[str, Any]:
    """Networks of people, and such as generators of the internet make."""
    return {
        "karate": networkx.karate_club_graph(),
        "florentine": networkx.florentine_families_graph(),
        "miserables": networkx.les_miserables_graph(),
        "internet": networkx.random_internet_as_graph(150, seed=2),
        "barabasi": networkx.barabasi_albert_graph(120, 3, seed=1),
        "waxman": networkx.waxman_graph(80, 0.4, 0.15, seed=3),
        "grid": networkx.grid_2d_graph(6, 6),
        "regular": networkx.random_regular_graph(4, 60, seed=1),
    }


# For each network with five sinks the rate by distance, that by flows, and what no order is above.
RATES = {
    "karate": (1, 3, 3),
    "florentine": (1, 2, 2),
    "miserables": (3, 3, 3),
    "internet": (2, 5, 5),
    "barabasi": (2, 3, 3),
    "waxman": (2, 3, 3),
    "grid": (1, 2, 2),
    "regular": (1, 4, 4),
}


@pytest.mark.parametrize("name", known_graphs())
def test_no_link_of_a_known_network_is_lost(tmp_path: Path, name: str) -> None:
    made = networkx.convert_node_labels_to_integers(known_graphs()[name])
    graph = networkx.Graph((tail, head) for tail, head in made.edges() if tail != head)
    path, net = tmp_path / "a.graphml", tmp_path / "a.net"
    networkx.write_graphml(graph, path)
    part = max(networkx.connected_components(graph), key=len)
    nodes = sorted(node for node in part if graph.degree(node) > 2)
    source, sinks = nodes[0], random.Random(name).sample(nodes[1:], 5)
    words = (path, "--source", source, "--sinks", ",".join(map(str, sinks)), "-o", net)
    rates = []
    for how in ("--orient", "--orient=flow"):
        done = run_tool("lif-import", *words, how)
        assert (done.returncode, done.stderr) == (0, "")
        network = read_network(net.read_bytes())
        assert cycle_of(network) is None
        assert len(network.links) == graph.subgraph(part).number_of_edges()
        rates.append([certificate(network, sink, ()).value for sink in network.sinks])
    networkx.set_edge_attributes(graph, 1, "capacity")
    lines = [
        f"flow to {sink} {rate}, at most {networkx.maximum_flow_value(graph, source, sink)} with links in both directions"
        for sink, rate in zip(sinks, rates[1])
    ]
    bound = RATES[name][2]
    assert done.stdout.splitlines()[4:10] == [f"rate {min(rates[1])}, at most {bound} by any order of the nodes", *lines]
    assert (min(rates[0]), min(rates[1])) == RATES[name][:2]
