"""The form of cases, as docs/CASES.md gives it: reads files of cases, and makes of each going of a case its steps.

What isn't understood is a `Trouble` with its line. Nothing is run here, but `try_form` evaluates all that a going says.
"""
from __future__ import annotations

import functools
import re
from dataclasses import dataclass, field
from pathlib import Path
from typing import Callable, Iterator, Optional

# So many bytes may a number of a line make, and no number of a line is above the second.
MOST_BYTES = 1 << 28
MOST_NUMBER = (1 << 64) - 1
FRAME_PAYLOAD = 128
LONGEST_PATH = 255

# Bytes that aren't known before a case is run are None.
Bytes = Optional[bytes]
Values = dict[str, str]

QUOTED = r'"(?:[^"\\]|\\.)*"'
# A word of a line `for` or of a table, as it stands: with its quotes, and with bytes in hex as one.
CELL = re.compile(rf'(?:{QUOTED}|<[^>]*>|[^ "<])+')
WORD = re.compile(rf'{QUOTED}|[^ "][^ ]*')
FOR_NAME = r"[A-Za-z_][A-Za-z0-9_]*"
NUMBER = r"[0-9]+"
ESCAPE = re.compile(rb"\\(x[0-9a-f]{2}|.?)", re.DOTALL)
ESCAPES = {b"n": b"\n", b"r": b"\r", b"t": b"\t", b'"': b'"', b"\\": b"\\"}
PUT_IN = re.compile(rf"\$(?:\{{([^}}]*)\}}|({FOR_NAME})|)")
SUM = re.compile(r" ?([-+*/%]) ?")
BRACKET = re.compile(rf"\[({NUMBER})?\.\.({NUMBER})?\]")
CHANGE = re.compile(rf"\[({NUMBER}) := ({QUOTED}|<[^>]*>)\]")
TIMES = re.compile(rf" \* ({NUMBER})")
DEMO = re.compile(rf"demo ({NUMBER})")
EACH = re.compile(rf"each ({NUMBER})\.\.({NUMBER}) ({QUOTED})")
LITERAL = re.compile(rf"{QUOTED}|<[^>]*>")
NAME = re.compile(r'[^ \[\]"<>=$+*]+')
HEX = re.compile(r"(?:[0-9a-f]{2}(?: ?[0-9a-f]{2})*)?")
PERIOD = 65536

# The words that may begin a line of a case, by what they belong to, and what follows them. What is None is read apart.
BEFORE = {"let": None, "given": None, "gone": None}
APART = {
    "reads": rf"{NUMBER}",
    "fail": rf"(?:read|create|say|put|take) {NUMBER}|append {NUMBER}(?: keep {NUMBER})?",
    "order": rf"{NUMBER}(?: {NUMBER})*(?: \* {NUMBER})?",
    "oldest": "",
    "newest": "",
    "keep": rf"{NUMBER}(?: {NUMBER})*|{NUMBER}\.\.{NUMBER}",
    "spoil": rf"{NUMBER} {NUMBER} {NUMBER}",
}
AFTER = {
    "file": None,
    "made": None,
    "none": None,
    "opened": rf"{NUMBER} {NUMBER}",
    "frames": rf"{NUMBER}(?: (?:on|of) {NUMBER})?",
    "takes": rf"{NUMBER}",
    "unopened": "",
    "calls": rf"(?:read|create|append) {NUMBER}",
    "frame": None,
}
FRAME = re.compile(rf"{NUMBER} {NUMBER} {NUMBER} = (.*)")
SHAPES = {word: re.compile(shape) for word, shape in (APART | AFTER).items() if shape is not None}
PHASES = {"run": 2, "status": 3, "says": 4, "said": 4}
PHASES |= {word: 0 for word in BEFORE} | {word: 1 for word in APART} | {word: 5 for word in AFTER}


class Trouble(Exception):
    """What isn't understood; the line's number where it is known."""

    def __init__(self, text: str, line: int = 0) -> None:
        super().__init__(text)
        self.text, self.line = text, line


@dataclass(frozen=True)
class Line:
    number: int
    text: str


@dataclass(frozen=True)
class For:
    """A line `for`: what one name goes through, or the rows of a table."""

    line: Line
    names: tuple[str, ...]
    through: str
    rows: tuple[tuple[str, ...], ...]


@dataclass
class Case:
    """A case as it stands in its file; `lets` are the bytes that have a name in the whole file."""

    path: Path
    line: Line
    lets: dict[str, bytes]
    loops: list[For] = field(default_factory=list)
    body: list[Line] = field(default_factory=list)


@dataclass
class Step:
    """A run of a case, with what is done before it and what it comes to. `ops` and `after` are (line, word, path, BYTES)."""

    ops: list[tuple[int, str, str | bytes, str]] = field(default_factory=list)
    apart: list[str] = field(default_factory=list)
    line: int = 0
    words: list[bytes] = field(default_factory=list)
    status: tuple[int, int] = (0, -1)
    says: list[tuple[int, bytes]] = field(default_factory=list)
    said: tuple[int, str] | None = None
    after: list[tuple[int, str, bytes, str]] = field(default_factory=list)


def raw(text: str) -> bytes:
    """The bytes of a text of a file of cases."""
    return text.encode("utf-8", "surrogateescape")


def number(digits: str) -> int:
    value = int(digits) if len(digits) < 100 else MOST_NUMBER + 1
    if value > MOST_NUMBER:
        raise Trouble(f"too great a number: {digits[:40]}")
    return value


def count(digits: str) -> int:
    """A number of bytes."""
    value = number(digits)
    if value > MOST_BYTES:
        raise Trouble(f"more than {MOST_BYTES} bytes: {value}")
    return value


def escaped(found: re.Match[bytes]) -> bytes:
    mark = found[1]
    if mark[:1] == b"x" and len(mark) == 3:
        return bytes([int(mark[1:], 16)])
    if mark not in ESCAPES:
        raise Trouble(f"no such escape: {found[0].decode('utf-8', 'replace')}")
    return ESCAPES[mark]


def unquoted(text: str) -> bytes:
    """The bytes of a text in quotes."""
    return ESCAPE.sub(escaped, raw(text[1:-1]))


def literal(text: str) -> bytes:
    """The bytes of a text in quotes or of bytes in hex."""
    if text[0] == '"':
        return unquoted(text)
    if not HEX.fullmatch(text[1:-1]):
        raise Trouble(f"no bytes in hex: {text}")
    return bytes.fromhex(text[1:-1])


def words_of(text: str) -> list[bytes]:
    """The words of a text, with one space between each two; those in quotes are read."""
    words, at = [], 0
    while True:
        found = WORD.match(text, at)
        if not found:
            raise Trouble("there isn't a word behind each space, or a text has no end")
        words.append(unquoted(found[0]) if found[0][0] == '"' else raw(found[0]))
        at = found.end()
        if at == len(text):
            return words
        if text[at] != " ":
            raise Trouble(f"no space behind a text: {text[at:]}")
        at += 1


def cells_of(text: str, most: int | None = None) -> list[str]:
    """The words of a text as they stand; with `most`, so many, of which the last is the rest of the text."""
    cells, at = [], 0
    while most is None or len(cells) + 1 < most:
        found = CELL.match(text, at)
        if not found:
            raise Trouble("a row with too few words" if most else "there isn't a word behind each space")
        cells.append(found[0])
        at = found.end()
        if at == len(text) and most is None:
            return cells
        if text[at : at + 1] != " ":
            raise Trouble("a row with too few words" if at == len(text) else f"no space behind a word: {text[at:]}")
        at += 1
    if not text[at:]:
        raise Trouble("a row with too few words")
    return [*cells, text[at:]]


def term(text: str, values: Values) -> int:
    text = values.get(text, text)
    if not re.fullmatch(NUMBER, text):
        raise Trouble(f"neither a number nor a name of a `for` with one: {text!r}")
    return number(text)


def sum_of(text: str, values: Values) -> int:
    """The number of terms with operations between them, from left to right."""
    parts = SUM.split(text)
    value = term(parts[0], values)
    for sign, right in zip(parts[1::2], parts[2::2]):
        by = term(right, values)
        if sign in "/%" and by == 0:
            raise Trouble(f"a division by zero: {text}")
        value = {"+": value + by, "-": value - by, "*": value * by, "/": value // (by or 1), "%": value % (by or 1)}[sign]
        if not 0 <= value <= MOST_NUMBER:
            raise Trouble(f"a number below zero or above 2^64 - 1: {text}")
    return value


def put_in(text: str, values: Values) -> str:
    """A line with what stands for the names of the lines `for`."""
    if "$" not in text:
        return text

    def put(found: re.Match[str]) -> str:
        if found[1] is not None:
            return str(sum_of(found[1], values))
        if found[2] not in values:
            raise Trouble(f"unknown name: {found[0]}")
        return values[found[2]]

    return PUT_IN.sub(put, text)


@functools.lru_cache(maxsize=None)
def demo_tile() -> bytes:
    return bytes((167 * place + 13 * (place // 256) + 5) % 256 for place in range(PERIOD))


def demo(length: int) -> bytes:
    """So many bytes of the source of `demo`."""
    return (demo_tile() * (length // PERIOD + 1))[:length]


def each(first: int, last: int, text: bytes) -> bytes:
    """A text for each number of a range, with the number in place of each `#`."""
    if (last - first) * len(text) > MOST_BYTES:
        raise Trouble(f"more than {MOST_BYTES} bytes")
    parts = text.split(b"#")
    return b"".join(str(one).encode().join(parts) for one in range(first, last + 1))


@functools.lru_cache(maxsize=256)
def data_file(folder: Path, name: str) -> bytes | None:
    """The bytes of a file beside the file of cases."""
    path = folder / name
    return path.read_bytes() if "/" not in name and path.is_file() else None


Look = Callable[[str], Bytes]


def part_of(text: str, at: int, look: Look) -> tuple[Bytes, int]:
    """The part of bytes at a place, and where it ends."""
    found = LITERAL.match(text, at)
    if found:
        return literal(found[0]), found.end()
    found = DEMO.match(text, at)
    if found:
        return demo(count(found[1])), found.end()
    found = EACH.match(text, at)
    if found:
        return each(number(found[1]), number(found[2]), unquoted(found[3])), found.end()
    found = NAME.match(text, at)
    if not found:
        raise Trouble(f"no part of bytes: {text[at:] or 'nothing'}")
    if found[0] in ("demo", "each"):
        raise Trouble(f"not understood behind `{found[0]}`: {text[found.end():]}")
    return look(found[0]), found.end()


def cut(part: Bytes, first: str | None, last: str | None) -> Bytes:
    if first is None and last is None:
        raise Trouble("a part of bytes from nowhere to nowhere: [..]")
    lower, upper = number(first or "0"), None if last is None else number(last)
    return None if part is None else part[lower:upper]


def change(part: Bytes, place: int, put: bytes) -> Bytes:
    if part is None:
        return None
    if place > len(part):
        raise Trouble(f"bytes put behind the end of others: at {place} of {len(part)}")
    return part[:place] + put + part[place + len(put) :]


def repeat(part: Bytes, times: int) -> Bytes:
    if part is not None and len(part) * times > MOST_BYTES:
        raise Trouble(f"more than {MOST_BYTES} bytes")
    return None if part is None else part * times


def behind(text: str, at: int, part: Bytes) -> tuple[Bytes, int]:
    """What all that stands behind a part makes of it, and where that ends."""
    while True:
        if found := BRACKET.match(text, at):
            part = cut(part, found[1], found[2])
        elif found := CHANGE.match(text, at):
            part = change(part, number(found[1]), literal(found[2]))
        elif found := TIMES.match(text, at):
            part = repeat(part, count(found[1]))
        else:
            return part, at
        at = found.end()


def bytes_of(text: str, look: Look) -> Bytes:
    """The bytes that a text says; `look` gives those of a name."""
    parts, at = [], 0
    while True:
        part, at = part_of(text, at, look)
        part, at = behind(text, at, part)
        parts.append(part)
        if at == len(text):
            break
        if not text.startswith(" + ", at):
            raise Trouble(f"neither the end nor ` + ` behind a part: {text[at:]}")
        at += 3
    known = [part for part in parts if part is not None]
    if len(known) < len(parts):
        return None
    if sum(map(len, known)) > 2 * MOST_BYTES:
        raise Trouble(f"more than {2 * MOST_BYTES} bytes")
    return known[0] if len(known) == 1 else b"".join(known)


def look_in(folder: Path, lets: dict[str, Bytes], store: Callable[[bytes], tuple[bool, Bytes]]) -> Look:
    """Where names are looked for: those of `let`, the store, the folder of the file of cases."""

    def look(name: str) -> Bytes:
        if name in lets:
            return lets[name]
        is_there, content = store(raw(name))
        if is_there:
            return content
        data = data_file(folder, name)
        if data is None:
            raise Trouble(f"no bytes of this name: {name}")
        return data

    return look


def equation(rest: str) -> tuple[str, str]:
    """The word before ` = `, and what stands behind that."""
    found = WORD.match(rest)
    if not found or not rest.startswith(" = ", found.end()):
        raise Trouble("there is no ` = ` behind the first word")
    return found[0], rest[found.end() + 3 :]


def let_name(rest: str) -> tuple[str, str]:
    name, text = equation(rest)
    if not NAME.fullmatch(name) or name in ("demo", "each"):
        raise Trouble(f"no name for bytes: {name}")
    return name, text


def leads_out(path: bytes) -> bool:
    """Whether a path leads out of the folder in which it is used."""
    return path.startswith(b"/") or b".." in path.split(b"/")


def path_of(words: list[bytes]) -> bytes:
    if len(words) != 1:
        raise Trouble("not one path")
    if leads_out(words[0]):
        raise Trouble("a path that leads out of the folder")
    return words[0]


def is_plain(path: bytes) -> bool:
    """Whether a path is the name of a file in a real folder."""
    return 0 < len(path) <= LONGEST_PATH and path != b"." and b"/" not in path and b"\0" not in path


class Reading:
    """The steps of a going, as its lines are read."""

    def __init__(self) -> None:
        self.steps: list[Step] = []
        self.step = Step()
        self.phase = 0

    def take(self, line: int, text: str) -> None:
        """Takes in a line of the body."""
        word, space, rest = text.partition(" ")
        if word not in PHASES:
            raise Trouble(f"a line that begins with no word of cases: {text[:60]}")
        if space and not rest:
            raise Trouble("a space at the end of the line")
        self.go_to(word)
        if word in BEFORE:
            self.before(line, word, rest)
        elif word in SHAPES:
            self.shaped(word, rest)
        elif word in AFTER:
            self.after(line, word, rest)
        else:
            self.said(line, word, rest)

    def go_to(self, word: str) -> None:
        """Goes on to the part of a step that a word belongs to."""
        phase = PHASES[word]
        if phase < 3 <= self.phase:
            self.end_step()
        if self.phase == 2 and phase != 3:
            raise Trouble("a run without a status", self.step.line)
        if phase < self.phase or phase == self.phase == 3:
            raise Trouble(f"`{word}` stands too late in the case, or twice")
        if self.phase < 2 < phase:
            raise Trouble(f"`{word}` before a run")
        self.phase = phase

    def end_step(self) -> None:
        self.steps.append(self.step)
        self.step, self.phase = Step(), 0

    def before(self, line: int, word: str, rest: str) -> None:
        if word == "gone":
            self.step.ops.append((line, word, path_of(words_of(rest)), ""))
        elif word == "let":
            self.step.ops.append((line, word, *let_name(rest)))
        else:
            path, text = equation(rest)
            self.step.ops.append((line, word, path_of(words_of(path)), text))

    def shaped(self, word: str, rest: str) -> None:
        if not SHAPES[word].fullmatch(rest):
            raise Trouble(f"not understood behind `{word}`: {rest or 'nothing'}")
        numbers = [number(digits) for digits in re.findall(NUMBER, rest)]
        if word in ("reads", "fail", "keep") and numbers[0] == 0:
            raise Trouble(f"`{word}` counts from 1")
        if word == "keep" and ".." in rest and numbers[0] > numbers[1]:
            raise Trouble("a range without numbers")
        if word == "spoil" and (numbers[1] >= FRAME_PAYLOAD or not 0 < numbers[2] < 256):
            raise Trouble(f"no byte of {FRAME_PAYLOAD} or no mask of 1 to 255")
        if word in APART:
            called = f"fail {rest.split(' ')[0]}" if word == "fail" else word
            orders = ("order", "oldest", "newest")
            if (word in orders and set(orders) & set(self.step.apart)) or (word == "reads" and word in self.step.apart):
                raise Trouble(f"`{word}` behind another such line")
            self.step.apart.append(called)

    def after(self, line: int, word: str, rest: str) -> None:
        if word == "frame":
            found = FRAME.fullmatch(rest)
            if not found:
                raise Trouble(f"not understood behind `frame`: {rest or 'nothing'}")
            self.step.after.append((line, word, b"", found[1]))
            return
        name, text = equation(rest) if word == "file" else (rest, "")
        path = path_of(words_of(name))
        if any(path == named for _, kind, named, _ in self.step.after if kind != "frame"):
            raise Trouble(f"a path that an earlier line of this run names: {name}")
        self.step.after.append((line, word, path, text))

    def said(self, line: int, word: str, rest: str) -> None:
        step = self.step
        if word == "run":
            step.line, step.words = line, words_of(rest) if rest else []
            if any(leads_out(one) for one in step.words):
                raise Trouble("a word that leads out of the folder")
        elif word == "status":
            if not re.fullmatch(NUMBER, rest) or number(rest) > 255:
                raise Trouble(f"no status: {rest or 'nothing'}")
            step.status = line, int(rest)
        elif step.said or (word == "said" and step.says):
            raise Trouble("`said` beside another line of what is said")
        elif word == "says":
            if not rest:
                raise Trouble("`says` without a text")
            step.says.append((line, raw(rest)))
        else:
            if not rest.startswith("= "):
                raise Trouble("there is no `= ` behind `said`")
            step.said = line, rest[2:]

    def end(self, begin: int) -> list[Step]:
        if self.phase == 2:
            raise Trouble("a run without a status", self.step.line)
        if self.phase < 2 and self.steps and (self.step.ops or self.step.apart):
            raise Trouble("the case ends with lines that say nothing of a run")
        if self.phase >= 3:
            self.end_step()
        if not self.steps:
            raise Trouble("a case without a run", begin)
        return self.steps


def steps_of(case: Case, values: Values) -> list[Step]:
    """The steps of a going."""
    reading, at = Reading(), case.line.number
    try:
        for line in case.body:
            at = line.number
            text = put_in(line.text, values)
            if text and not text.startswith("#"):
                reading.take(at, text)
        return reading.end(case.line.number)
    except Trouble as trouble:
        raise Trouble(trouble.text, trouble.line or at) from None


def through(loop: For, values: Values) -> Iterator[Values]:
    """What a line `for` gives its names, one after another."""
    if len(loop.rows):
        for row in loop.rows:
            yield dict(zip(loop.names, row))
        return
    text = put_in(loop.through, values)
    found = re.fullmatch(rf"({NUMBER})\.\.({NUMBER})", text)
    if found:
        for one in range(number(found[1]), number(found[2]) + 1):
            yield {loop.names[0]: str(one)}
        return
    for cell in cells_of(text):
        if re.fullmatch(rf"{NUMBER}\.\.{NUMBER}", cell):
            raise Trouble(f"a range among words: {cell}")
        yield {loop.names[0]: cell}


def goings(case: Case, level: int = 0, values: Values | None = None) -> Iterator[Values]:
    """What stands for the names of a case, for each time that it goes."""
    values = values or {}
    if level == len(case.loops):
        yield values
        return
    loop = case.loops[level]
    try:
        for more in through(loop, values):
            yield from goings(case, level + 1, values | more)
    except Trouble as trouble:
        raise Trouble(trouble.text, trouble.line or loop.line.number) from None


def name_of(case: Case, values: Values) -> str:
    """The name of a case, and what stands for its names of `for`."""
    told = " ".join(f"{name}={value if len(value) <= 60 else value[:60] + '..'}" for name, value in values.items())
    return put_in(case.line.text, values) + (f" [{told}]" if told else "")


class Static:
    """What is known of a store before a case is run: the bytes of its files, or that there is one."""

    def __init__(self, case: Case) -> None:
        self.files: dict[bytes, Bytes] = {}
        self.lets: dict[str, Bytes] = dict(case.lets)
        self.old: dict[bytes, Bytes] = {}
        self.look = look_in(case.path.parent, self.lets, lambda path: (path in self.files, self.files.get(path)))
        self.look_before = look_in(case.path.parent, self.lets, lambda path: (path in self.old, self.old.get(path)))

    def before(self, word: str, path: str | bytes, text: str) -> None:
        if word == "gone":
            self.files.pop(path, None)
        elif word == "let":
            self.lets[path] = bytes_of(text, self.look)
        else:
            self.files[path] = bytes_of(text, self.look)

    def ran(self, step: Step) -> None:
        """A run may have made the files that are named behind it, with other bytes."""
        self.old = dict(self.files)
        for _, word, path, _ in step.after:
            if word in ("file", "made"):
                self.files[path] = None
            elif word == "none":
                self.files.pop(path, None)

    def after(self, word: str, path: bytes, text: str) -> None:
        if word == "file":
            self.files[path] = bytes_of(text, self.look_before)
        elif word == "frame":
            payload = bytes_of(text, self.look_before)
            if payload is not None and len(payload) > FRAME_PAYLOAD:
                raise Trouble(f"a payload of more than {FRAME_PAYLOAD} bytes")


def apart_of(step: Step) -> list[str]:
    """What a step needs that a real folder doesn't give."""
    paths = [path for _, word, path, _ in step.ops if word != "let"] + [path for _, word, path, _ in step.after if word != "frame"]
    needs = list(step.apart)
    if not all(map(is_plain, paths)):
        needs.append("a path that is no name of a file")
    if any(b"\0" in word for word in step.words):
        needs.append("a word with a zero")
    return needs


def try_form(case: Case, values: Values) -> list[str]:
    """Reads and evaluates all of a going, and says what it needs that a real folder doesn't give."""
    steps, static, at = steps_of(case, values), Static(case), 0
    try:
        for step in steps:
            for at, word, path, text in step.ops:
                static.before(word, path, text)
            static.ran(step)
            if step.said:
                at = step.said[0]
                bytes_of(step.said[1], static.look_before)
            for at, word, path, text in step.after:
                static.after(word, path, text)
    except Trouble as trouble:
        raise Trouble(trouble.text, trouble.line or at) from None
    return list(dict.fromkeys(need for step in steps for need in apart_of(step)))


def read_for(lines: list[Line], at: int) -> tuple[For, int]:
    """The line `for` at a place with its rows, and the place behind them."""
    line = lines[at]
    words = line.text.split(" ")
    end = at + 1
    if words[2:3] == ["in"]:
        names, rest = words[1:2], " ".join(words[3:])
        if not rest:
            raise Trouble("a `for` without what it goes through", line.number)
        rows = []
    else:
        names, rest = words[1:], ""
        while end < len(lines) and lines[end].text.startswith("  "):
            end += 1
        rows = lines[at + 1 : end]
        if not rows:
            raise Trouble("a `for` without rows", line.number)
    if not all(re.fullmatch(FOR_NAME, name) and name != "in" for name in names) or len(set(names)) < len(names):
        raise Trouble("what a `for` names is no name, or is one twice", line.number)
    cells = []
    for row in rows:
        try:
            cells.append(tuple(cells_of(row.text[2:], len(names))))
        except Trouble as trouble:
            raise Trouble(trouble.text, row.number) from None
    return For(line, tuple(names), rest, tuple(cells)), end


def read_case(path: Path, lines: list[Line], lets: dict[str, bytes]) -> Case:
    """The case that these lines are, of which the first begins it."""
    name = lines[0].text[5:]
    if not name or name.strip(" ") != name or "  " in name:
        raise Trouble("a case without a name, or one without one space between each two words", lines[0].number)
    case, at, named = Case(path, Line(lines[0].number, name), lets), 1, set()
    while at < len(lines) and re.match(r"for( |$)", lines[at].text):
        loop, at = read_for(lines, at)
        if named & set(loop.names):
            raise Trouble("a name that an earlier `for` of the case has", loop.line.number)
        named |= set(loop.names)
        case.loops.append(loop)
    case.body = lines[at:]
    for line in case.body:
        if re.match(r"for( |$)", line.text):
            raise Trouble("`for` stands too late in the case", line.number)
    return case


def read_let(path: Path, line: Line, lets: dict[str, bytes]) -> None:
    """Takes in a line before the first case."""
    try:
        word, _, rest = put_in(line.text, {}).partition(" ")
        if word != "let":
            raise Trouble("neither `let` nor `case` before the first case")
        name, text = let_name(rest)
        lets[name] = bytes_of(text, look_in(path.parent, lets, lambda _: (False, None))) or b""
    except Trouble as trouble:
        raise Trouble(trouble.text, line.number) from None


def read_cases(path: Path) -> tuple[list[Case], list[Trouble]]:
    """The cases of a file, and what isn't understood in it."""
    texts = path.read_bytes().decode("utf-8", "surrogateescape").split("\n")
    lines = [Line(place, text) for place, text in enumerate(texts, 1) if text and not text.startswith("#")]
    begins = [place for place, line in enumerate(lines) if re.match(r"case( |$)", line.text)]
    cases, troubles, lets = [], [], {}
    for line in lines[: begins[0]] if begins else lines:
        try:
            read_let(path, line, lets)
        except Trouble as trouble:
            troubles.append(trouble)
    for first, last in zip(begins, [*begins[1:], len(lines)]):
        try:
            cases.append(read_case(path, lines[first:last], lets))
        except Trouble as trouble:
            troubles.append(trouble)
    if not begins:
        troubles.append(Trouble("a file without a case", len(texts)))
    return cases, troubles
