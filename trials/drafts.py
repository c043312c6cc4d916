"""The drafts of codes, and the cases of `finish` that follow a rule: drafts by chance, of which `lif_tools.formats` says which
decoders they get, or which demand doesn't decode.
"""
from __future__ import annotations

import dataclasses
import itertools
import random
import sys
from pathlib import Path

TOP = Path(__file__).resolve().parent.parent
sys.path.insert(0, str(TOP / "tools"))

# pylint: disable=wrong-import-position
from lif_tools.formats import (  # noqa: E402
    ELEMENT_BYTES,
    Code,
    Draft,
    Link,
    Network,
    Operand,
    Pattern,
    draft_of,
    finish,
    read_code,
    write_code,
    write_draft,
)

DATA = TOP / "crates/worked_cases/data"
# The codes with a draft of their own.
CODES = [
    "one-link",
    "doubled-one-link",
    "wide-one-link",
    "backward-one-link",
    "dead-one-link",
    "butterfly",
    "cut-butterfly",
    "wide-butterfly",
    "two-ways",
    "fan-nine",
    "many-rows",
    "wide-many-rows",
    "253-sinks",
    "300-demands",
    "regional",
]
# How many drafts by chance there are.
DRAWN = 400


def draft_named(name: str) -> Draft:
    return draft_of(read_code((DATA / f"{name}.lif").read_bytes()))


def links_of_sinks(draw: random.Random, nodes: int, sinks: list[int]) -> list[Link]:
    """Links from lower nodes to higher ones, of which some stand twice, by rising tails."""
    ends = [pair for pair in itertools.combinations(range(nodes), 2) if draw.random() < 0.6]
    ends += [(draw.randrange(sink), sink) for sink in sinks for _ in range(draw.randrange(3))]
    return [Link(f"l{number}", tail, head) for number, (tail, head) in enumerate(sorted(ends))]


def operand_of(draw: random.Random, origin: int, most: int) -> Operand:
    return Operand(origin, draw.choice([1, 1, 2, draw.randint(1, most)]))


def drawn(draw: random.Random) -> Draft:
    """A draft by chance. Most links add up all that there is, and some nothing."""
    field, rate, nodes = draw.choice([8, 9, 16]), draw.choice([1, 1, 2, 2, 3]), draw.randint(2, 5)
    sinks = draw.sample(range(1, nodes), draw.randint(1, min(3, nodes - 1)))
    links = links_of_sinks(draw, nodes, sinks)
    operands = []
    for link in links:
        origins = range(rate) if link.tail == 0 else [at for at, other in enumerate(links) if other.head == link.tail]
        share = draw.choice([1, 1, 0.6])
        taken = [origin for origin in origins if draw.random() < share]
        operands.append(tuple(operand_of(draw, origin, 256 ** ELEMENT_BYTES[field] - 1) for origin in taken))
    patterns = [Pattern("none", ())]
    for number in range(draw.randrange(3) if links else 0):
        failed = draw.sample(range(len(links)), draw.randint(1, min(2, len(links))))
        patterns.append(Pattern(f"p{number}", tuple(sorted(failed))))
    network = Network(tuple(f"n{node}" for node in range(nodes)), tuple(links), 0, tuple(sinks), tuple(patterns))
    return Draft(network, field, rate, tuple(operands))


def in_hex(content: bytes) -> str:
    return f"<{content.hex()}>"


HEAD = """\
# `finish` of drafts by chance: the whole file of each code, or the first demand that doesn't decode.
"""

DECODES = """
case drafts that decode, {over}
for draft rate field demands decoders
{rows}
given draft = $draft
run finish draft code
status 0
says finished rate $rate field $field demands $demands
file code = draft[3 := <43>] + $decoders
run check code
status 0
says accepted rate $rate field $field demands $demands
"""

FAILS = """
case drafts of which a demand doesn't decode, {over}
for draft sink pattern block
{rows}
given draft = $draft
given code = "older"
run finish draft code
status 21
says not decoding: demand $sink $pattern block $block
calls create 0
"""


def is_early(draft: Draft, code: Code) -> bool:
    """Whether each decoder has the first links into its sink, in a code with some."""
    into = draft.network.links_by(lambda link: link.head)
    sinks = [sink for sink in draft.network.sinks for _ in draft.network.patterns]
    return all(list(decoder.links) == into[sink][: draft.rate] for sink, decoder in zip(sinks, code.decoders))


def drafts_cases() -> bytes:
    """The cases of drafts by chance: of those that decode, most have a decoder with other links than the first ones."""
    draw = random.Random(1)
    decodes: dict[int, list[str]] = {8: [], 9: [], 16: []}
    fails: dict[int, list[str]] = {8: [], 9: [], 16: []}
    while sum(map(len, [*decodes.values(), *fails.values()])) < DRAWN:
        draft = drawn(draw)
        network, content, made = draft.network, write_draft(draft), finish(draft)
        if isinstance(made, Code):
            if is_early(draft, made) and draw.random() < 0.7:
                continue
            length = len(content)
            decoders = in_hex(write_code(made)[length:])
            row = f"{in_hex(content)} {draft.rate} {draft.field} {network.demands()} {decoders}"
            decodes[draft.field].append(f"  {row}")
        elif made.demand > 0 or draw.random() < 0.3:
            sink, pattern = divmod(made.demand, len(network.patterns))
            block = " ".join(map(str, made.block))
            named = f"{network.nodes[network.sinks[sink]]} {network.patterns[pattern].name}"
            fails[draft.field].append(f"  {in_hex(content)} {named} {block}")
    text = HEAD
    for field, rows in decodes.items():
        text += DECODES.format(over=f"over the field {field}", rows="\n".join(rows))
    for field, rows in fails.items():
        text += FAILS.format(over=f"over the field {field}", rows="\n".join(rows))
    return text.encode()


def many_demands() -> Draft:
    """A draft with 65,536 demands: 16 sinks with two links each from the source, the first of which carries twice the row. Each of
    4,095 listed patterns is another set of links to a node that is no sink."""
    sinks, spare = range(1, 17), range(12)
    ends = [(f"{kind}{sink}", sink) for sink in sinks for kind in "ab"] + [(f"c{place}", 17) for place in spare]
    links = tuple(Link(name, 0, head) for name, head in ends)
    patterns = [Pattern("none", ())]
    for number in range(1, 4096):
        patterns.append(Pattern(f"p{number}", tuple(32 + place for place in spare if number >> place & 1)))
    nodes = ("s", *(f"t{sink}" for sink in sinks), "m")
    network = Network(nodes, links, 0, tuple(sinks), tuple(patterns))
    operands = tuple((Operand(0, 2 if name.startswith("a") else 1),) for name, _ in ends)
    return Draft(network, 8, 1, operands)


def lacking_row(name: str) -> Draft:
    """The draft of a code of the greatest rate, whose link `l7` carries what `l3` does, and the last one nothing."""
    draft = draft_named(name)
    operands = list(draft.operands)
    operands[7], operands[32] = operands[3], ()
    return dataclasses.replace(draft, operands=tuple(operands))


def late_failure() -> Draft:
    """The draft of the regional network's code, with a pattern more, the last one, under which the last link into the last sink and
    one before it fail, so that this sink alone doesn't decode."""
    draft = draft_named("regional")
    into = draft.network.links_by(lambda link: link.head)[draft.network.sinks[-1]]
    patterns = (*draft.network.patterns, Pattern("last", tuple(into[1:])))
    return dataclasses.replace(draft, network=dataclasses.replace(draft.network, patterns=patterns))


FILES = {
    **{f"{name}.draft": (lambda name=name: write_draft(draft_named(name))) for name in CODES},
    "65536-demands.draft": lambda: write_draft(many_demands()),
    "lacking-row.draft": lambda: write_draft(lacking_row("many-rows")),
    "wide-lacking-row.draft": lambda: write_draft(lacking_row("wide-many-rows")),
    "late-failure.draft": lambda: write_draft(late_failure()),
    "drafts.cases": drafts_cases,
}
