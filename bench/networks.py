#!/usr/bin/env python3
"""Writes a network text to standard output, made from the format that docs/FORMATS.md gives.

`patterns` and `comments` are texts of the most bytes, links and nodes that there can be. Their links lead from a node
to a later one, and the lines stand in no order. `patterns` has the most listed patterns too, behind the links, and
nearly all of its bytes are names of links in patterns. In `comments` nearly all bytes are comments, one behind each
link and five in lines of their own, and each line ends with a carriage return.

`combination MIDDLES SIZE` has a link from the source to each middle node, and a sink for each set of so many middle
nodes, with a link from each of them.

`layers LAYERS WIDTH DEGREE PATTERNS` has so many layers of so many nodes. The source has as many links to each node
of the first layer as the degree is, and each node of a layer as many to different nodes of the next one. The nodes of
the last layer are the sinks. Pattern p fails all links into one layer but p, which are spread evenly; the layers take
turns, all but the last one.

`butterfly SINKS PATTERNS` is a butterfly with so many sinks. Each has the link of the middle from one node, and the
first half of them a link from the one side, the second half from the other. The patterns fail links from the source to
a node where nothing goes on.

`mixed LAYERS WIDTH DEGREE SINKS RATE PATTERNS` has so many layers of so many nodes too. The source has one link to each
node of the first layer, each node of a layer has as many as the degree is to different nodes of the next one, and each
sink has as many as the rate is from different nodes of the last one, all by chance. Each pattern fails an eighth of the
links into one layer, by chance; the layers take turns, all but the first one.

`sized LINKS WIDTH DEGREE SINKS RATE` has exactly so many links, in as many whole layers as there is room for, as `mixed`
without patterns. The links that remain lead from the source to the nodes of the first layer, in turn.

`parallel LINKS` is one bundle of so many links from the source to the sink.

`hubs NODES DEGREE SINKS` and `near NODES DEGREE SINKS` are like networks of routers. The nodes come one after another, and
into each but the source lead as many links as the degree is, from nodes before it that chance chooses, one for each link. So
the cut of each is the degree. In `hubs` a node is chosen in proportion to how many links lead into it or out of it, so few
nodes have many. In `near` the nodes lie in a square by chance, and come in the order of their distance from the source; one
is chosen the less, the farther it is from the next node. The sinks are chosen by chance.

Behind the words of a kind `fail-each` lets each link fail alone, and `rate R` wants that rate. Networks whose single links
fail are:

- `parallel 1023 fail-each`, with 1,024 demands
- `mixed 4 32 4 16 8 0 fail-each`, with 544 links and 8,720 demands
- `sized LINKS 16 4 16 4 fail-each`, as for 250, 500, 1000 and 2000 links; the demands are 16 times one more than the links
- `sized 1000 16 4 SINKS 4 fail-each`, for up to 64 sinks
- `hubs 251 4 16 fail-each` and `near 251 4 16 fail-each`, with 1,000 links and 16,016 demands
"""
import itertools
import math
import random
import re
import string
import sys

MOST_BYTES, MOST_NODES, MOST_LINKS, MOST_PATTERNS = 4194304, 4096, 8192, 4095

# The chance that a link joins two nodes of a square falls by this part of its side to one over e.
REACH = 0.1

# What stands in the comments behind links.
SIDES = ("east", "west")


def scattered_links(chance):
    """The words of the most links, in no order, between the most nodes."""
    heads = list(range(1, MOST_NODES)) + [chance.randrange(1, MOST_NODES) for _ in range(MOST_LINKS - MOST_NODES + 1)]
    links = [f"link l{number} n{chance.randrange(head)} n{head}" for number, head in enumerate(heads)]
    chance.shuffle(links)
    return links


def ends(sinks):
    """The lines of the source and of so many sinks, which are the last nodes."""
    return ["source n0"] + [f"sink n{MOST_NODES - sinks + sink}" for sink in range(sinks)]


def failing(chance, number, room):
    """The line of a pattern, with a comment that fills it up to so many bytes with the line feed."""
    line = f"pattern p{number}"
    comment = " # fail together"
    room -= len(line) + len(comment) + 1
    names = "".join(f" l{link}" for link in chance.sample(range(MOST_LINKS), room // len(" l1000")))
    return line + names + comment + (room - len(names)) * "."


def patterns():
    chance = random.Random(1)
    lines = ends(16) + [f"{link} # {side}" for link, side in zip(scattered_links(chance), itertools.cycle(SIDES))]
    room = MOST_BYTES - sum(len(line) + 1 for line in lines)
    for before in range(MOST_PATTERNS):
        lines.append(failing(chance, before + 1, room // (MOST_PATTERNS - before)))
        room -= len(lines[-1]) + 1
    return "".join(line + "\n" for line in lines)


def remark(chance, length):
    """A comment of so many bytes."""
    return "#" + "".join(chance.choices(string.ascii_letters + "    ,.#\t", k=length - 1))


def comments():
    chance = random.Random(2)
    lines = ends(16)
    starts = [start for link in scattered_links(chance) for start in (link + " ", "", "", "", "", "")]
    room = MOST_BYTES - sum(len(line) + 2 for line in lines + starts)
    for before, start in enumerate(starts):
        length = room // (len(starts) - before)
        lines.append(start + remark(chance, length))
        room -= length
    return "".join(line + "\r\n" for line in lines)


def combination(middles, size):
    nodes = range(1, middles + 1)
    sets = list(enumerate(itertools.combinations(nodes, size), 1))
    lines = ["source s"]
    lines += [f"link a{middle} s m{middle}" for middle in nodes]
    lines += [f"link b{sink}-{middle} m{middle} t{sink}" for sink, members in sets for middle in members]
    lines += [f"sink t{sink}" for sink, _ in sets]
    return "".join(line + "\n" for line in lines)


def layers(count, width, degree, listed):
    lines = ["source s"]
    for layer in range(count):
        for node, step in itertools.product(range(width), range(degree)):
            tail = f"n{layer - 1}.{node}" if layer > 0 else "s"
            head = (5 * node + 3 * step + 7 * layer) % width if layer > 0 else node
            lines.append(f"link l{layer}.{node * degree + step} {tail} n{layer}.{head}")
    lines += [f"sink n{count - 1}.{node}" for node in range(width)]
    into = width * degree
    for pattern in range(1, listed + 1):
        kept = {place * into // pattern for place in range(pattern)}
        layer = (pattern - 1) % (count - 1)
        names = [f"l{layer}.{link}" for link in range(into) if link not in kept]
        lines.append(" ".join([f"pattern p{pattern}"] + names))
    return "".join(line + "\n" for line in lines)


def butterfly(sinks, listed):
    numbers = range(1, sinks + 1)
    lines = ["source s"] + [f"sink t{sink}" for sink in numbers]
    lines += ["link s-a s a", "link s-b s b", "link a-c a c", "link b-c b c", "link c-d c d"]
    lines += [f"link d-t{sink} d t{sink}" for sink in numbers]
    sides = {sink: "a" if 2 * sink <= sinks else "b" for sink in numbers}
    lines += [f"link {side}-t{sink} {side} t{sink}" for sink, side in sides.items()]
    for pattern in range(1, listed + 1):
        lines += [f"link e{pattern} s x", f"pattern p{pattern} e{pattern}"]
    return "".join(line + "\n" for line in lines)


def mixed(count, width, degree, sinks, rate, listed):
    chance = random.Random(3)
    lines = ["source s"] + [f"link l0.{node} s n0.{node}" for node in range(width)]
    for layer, node in itertools.product(range(1, count), range(width)):
        for step, head in enumerate(chance.sample(range(width), degree)):
            lines.append(f"link l{layer}.{node * degree + step} n{layer - 1}.{node} n{layer}.{head}")
    for sink in range(1, sinks + 1):
        lines.append(f"sink t{sink}")
        for step, tail in enumerate(chance.sample(range(width), rate)):
            lines.append(f"link t{sink}.{step} n{count - 1}.{tail} t{sink}")
    into = width * degree
    for pattern in range(1, listed + 1):
        layer = (pattern - 1) % (count - 1) + 1
        names = [f"l{layer}.{link}" for link in chance.sample(range(into), into // 8)]
        lines.append(" ".join([f"pattern p{pattern}"] + names))
    return "".join(line + "\n" for line in lines)


def sized(links, width, degree, sinks, rate):
    room = links - width - sinks * rate
    if room < 0:
        sys.exit(f"networks.py: {links} links are too few")
    text = mixed(room // (width * degree) + 1, width, degree, sinks, rate, 0)
    more = range(room % (width * degree))
    return text + "".join(f"link m{link} s n0.{link % width}\n" for link in more)


def grown(chance, nodes, sinks, tails_of):
    """Nodes that come one after another, each with links from the earlier ones that a function gives for it."""
    lines = ["source n0"]
    for node in range(1, nodes):
        lines += [f"link l{node}.{step} n{tail} n{node}" for step, tail in enumerate(tails_of(node))]
    lines += [f"sink n{node}" for node in chance.sample(range(1, nodes), sinks)]
    return "".join(line + "\n" for line in lines)


def hubs(nodes, degree, sinks):
    chance = random.Random(4)
    ends = [0] * degree

    def tails_of(node):
        tails = chance.choices(ends, k=degree)
        ends.extend(tails + [node] * degree)
        return tails

    return grown(chance, nodes, sinks, tails_of)


def near(nodes, degree, sinks):
    chance = random.Random(5)
    source, *others = [(chance.random(), chance.random()) for _ in range(nodes)]
    places = [source] + sorted(others, key=lambda place: math.dist(source, place))

    def tails_of(node):
        weights = [math.exp(-math.dist(places[node], place) / REACH) for place in places[:node]]
        return chance.choices(range(node), weights, k=degree)

    return grown(chance, nodes, sinks, tails_of)


def parallel(links):
    return f"source s\nsink t\nlink l s t x{links}\n"


KINDS = {
    "patterns": (patterns, 0),
    "comments": (comments, 0),
    "combination": (combination, 2),
    "layers": (layers, 4),
    "butterfly": (butterfly, 2),
    "mixed": (mixed, 6),
    "sized": (sized, 5),
    "parallel": (parallel, 1),
    "hubs": (hubs, 3),
    "near": (near, 3),
}
USAGE = (
    "patterns | comments | combination MIDDLES SIZE | layers LAYERS WIDTH DEGREE PATTERNS | "
    "butterfly SINKS PATTERNS | mixed LAYERS WIDTH DEGREE SINKS RATE PATTERNS | "
    "sized LINKS WIDTH DEGREE SINKS RATE | parallel LINKS | hubs NODES DEGREE SINKS | near NODES DEGREE SINKS "
    "[fail-each] [rate R]"
)


def main(kind="", *words):
    make, count = KINDS.get(kind, (None, 0))
    lines = re.fullmatch("( fail-each)?( rate [0-9]+)?", "".join(f" {word}" for word in words[count:]))
    if make is None or len(words) < count or lines is None:
        sys.exit(f"usage: networks.py {USAGE}")
    sys.stdout.write(make(*map(int, words[:count])) + "".join(f"{line[1:]}\n" for line in lines.groups() if line))


main(*sys.argv[1:])
