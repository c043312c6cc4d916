"""Writes a draft: a code without decoders, for which `lif finish` finds them where all demands decode.

  lif-draft CODE -o DRAFT                       a code without its decoders
  lif-draft NET --coefficients FILE -o DRAFT    a network with coefficients that come from elsewhere
  lif-draft NET --random SEED -o DRAFT          a network with coefficients by chance

FILE is a text of lines `LINK FROM TIMES`: the link LINK adds up what the link FROM carries, times the element TIMES of
the field, which is its number from 1 on. Where LINK leaves the source, FROM is two words, `row I`: row I of the source,
from 0 on. A link without a line carries nothing. What follows a `#` is a comment.

By chance each link has a coefficient for all that it may add up, each element of the field being as likely; what gets 0
is left out. The same SEED gives the same draft.
"""
from __future__ import annotations

import argparse
import dataclasses
import random
import sys
from typing import Mapping, Sequence

from lif_tools.common import ToolError, load_code, load_network, print_json, read_bytes, words_parser, write_bytes
from lif_tools.formats import (
    DEMANDS_SERVED,
    ELEMENT_BYTES,
    MOST_CODE_BYTES,
    MOST_RATE,
    Draft,
    Link,
    Network,
    Operand,
    draft_of,
    in_order,
    write_draft,
)

# A coefficient for each of what a link adds up: rows of the source, or links.
Terms = dict[int, int]


def field_of(network: Network, asked: int | None) -> int:
    """The field that is asked for, or that of the text, or the one that the compiler takes."""
    if asked is not None:
        return asked
    if network.field is not None:
        return network.field
    return min(field for field, served in DEMANDS_SERVED.items() if network.demands() <= served)


def rate_of(path: str, network: Network, asked: int | None) -> int:
    rate = network.rate if asked is None else asked
    if rate is None:
        raise ToolError(f"{path}: no rate: --rate R says it, or a line `rate R` of the text")
    return rate


def draft_with(network: Network, field: int, rate: int, terms: Sequence[Terms]) -> Draft:
    """The draft of a network with these terms for each link."""
    operands = tuple(tuple(Operand(*pair) for pair in sorted(of.items())) for of in terms)
    listed = dataclasses.replace(network, rate=None, field=field if field in DEMANDS_SERVED else None)
    return Draft(listed, field, rate, operands)


class Reader:
    """Reads lines of coefficients, and says what is wrong with one."""

    def __init__(self, network: Network, field: int, rate: int):
        self.network, self.rate = network, rate
        self.most = 256 ** ELEMENT_BYTES[field] - 1
        self.numbers = {link.name: number for number, link in enumerate(network.links)}
        self.terms: list[Terms] = [{} for _ in network.links]

    def number(self, word: str, most: int) -> int | None:
        """The number that a word is in digits, up to the most."""
        digits = word.lstrip("0") or "0"
        is_number = word.isascii() and word.isdigit() and len(digits) <= len(str(most))
        return int(digits) if is_number and int(digits) <= most else None

    def origin_of(self, link: Link, words: Sequence[str]) -> int | str:
        """What a link adds up, or what is wrong with the words that say it."""
        nodes = self.network.nodes
        if link.tail == self.network.source:
            if len(words) != 2:
                return f"link {link.name} leaves the source, so it adds up rows: row I"
            row = self.number(words[1], self.rate - 1)
            return f"no row from 0 to {self.rate - 1}: {words[1]}" if row is None else row
        if len(words) == 2:
            return f"link {link.name} doesn't leave the source, so it adds up links into {nodes[link.tail]}"
        other = self.numbers.get(words[0])
        if other is None:
            return f"unknown link: {words[0]}"
        if self.network.links[other].head != link.tail:
            return f"link {words[0]} doesn't lead into {nodes[link.tail]}, which link {link.name} leaves"
        return other

    def fault(self, words: Sequence[str]) -> str | None:
        """What is wrong with the words of a line, if something is; else its coefficient is kept."""
        if len(words) != 3 and (len(words) != 4 or words[1] != "row"):
            return "neither LINK FROM TIMES nor LINK row I TIMES"
        if words[0] not in self.numbers:
            return f"unknown link: {words[0]}"
        link = self.numbers[words[0]]
        origin = self.origin_of(self.network.links[link], words[1:-1])
        if isinstance(origin, str):
            return origin
        times = self.number(words[-1], self.most)
        if not times:
            return f"no coefficient from 1 to {self.most}: {words[-1]}"
        if origin in self.terms[link]:
            return f"link {words[0]} has {' '.join(words[1:-1])} already"
        self.terms[link][origin] = times
        return None


def read_coefficients(path: str, network: Network, field: int, rate: int) -> list[Terms]:
    """The terms of each link, by the lines of a file."""
    reader = Reader(network, field, rate)
    text = read_bytes(path).decode(errors="backslashreplace")
    for number, line in enumerate(text.split("\n"), start=1):
        words = line.split("#", 1)[0].split()
        fault = reader.fault(words) if words else None
        if fault is not None:
            raise ToolError(f"{path}: line {number}: {fault}")
    return reader.terms


def draw_coefficients(seed: int, network: Network, field: int, rate: int) -> list[Terms]:
    """The terms of each link, by chance."""
    draw = random.Random(seed)
    into = network.links_by(lambda link: link.head)
    found = []
    for link in network.links:
        origins = range(rate) if link.tail == network.source else into[link.tail]
        drawn = {origin: draw.randrange(256 ** ELEMENT_BYTES[field]) for origin in origins}
        found.append({origin: times for origin, times in drawn.items() if times})
    return found


def drafted(words: argparse.Namespace) -> Draft:
    """The draft that is asked for."""
    if words.coefficients is None and words.random is None:
        return draft_of(load_code(words.input))
    network = in_order(load_network(words.input))
    if network.demands() > max(DEMANDS_SERVED.values()):
        raise ToolError(f"{words.input}: too many demands: {network.demands():,}; a draft has at most 65,536")
    field, rate = field_of(network, words.field), rate_of(words.input, network, words.rate)
    if words.coefficients is not None:
        return draft_with(network, field, rate, read_coefficients(words.coefficients, network, field, rate))
    return draft_with(network, field, rate, draw_coefficients(words.random, network, field, rate))


def facts_of(draft: Draft, words: argparse.Namespace) -> Mapping[str, object]:
    return {
        "input": words.input,
        "draft": words.output,
        "rate": draft.rate,
        "field": draft.field,
        "demands": draft.network.demands(),
        "links": len(draft.network.links),
        "operands": sum(map(len, draft.operands)),
    }


def whole_number(word: str) -> int:
    if not (word.isascii() and word.isdigit()):
        raise argparse.ArgumentTypeError(f"no number in digits: {word!r}")
    return int(word)


def words_of(arguments: Sequence[str]) -> argparse.Namespace:
    parser = words_parser("lif-draft", __doc__)
    add = parser.add_argument
    add("input", metavar="INPUT", help="a code file, or with --coefficients or --random a network text")
    add("-o", dest="output", metavar="DRAFT", required=True, help="the draft that is written; - is standard output")
    add("--coefficients", metavar="FILE", help="a text of coefficients")
    add("--random", type=whole_number, metavar="SEED", help="draw the coefficients, by this number")
    add("--rate", type=int, choices=range(1, MOST_RATE + 1), metavar="R", help="the rate, else that of the network text")
    add("--field", type=int, choices=sorted(ELEMENT_BYTES), help="the field, else that of the text, else that of lif compile")
    words = parser.parse_args(arguments)
    if words.coefficients is not None and words.random is not None:
        parser.error("--coefficients and --random are told both")
    if words.coefficients is None and words.random is None and (words.rate, words.field) != (None, None):
        parser.error("--rate and --field are those of a network; a code has its own")
    return words


def main(arguments: Sequence[str]) -> None:
    words = words_of(arguments)
    draft = drafted(words)
    content = write_draft(draft)
    if len(content) > MOST_CODE_BYTES:
        raise ToolError(f"{words.output}: too long: it would have more than {MOST_CODE_BYTES:,} bytes")
    write_bytes(words.output, content, words.input, *([words.coefficients] if words.coefficients else []))
    facts = facts_of(draft, words)
    if words.json:
        print_json("lif-draft", facts)
    elif words.output != "-":
        sys.stdout.write("drafted rate {rate} field {field} demands {demands}\n".format(**facts))
