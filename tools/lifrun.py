"""Runs the program for the script `lif`, and says on standard error what its line doesn't.

    python3 tools/lifrun.py PROGRAM WORD ..

The program gets the words, standard input and output and the signals, and this ends as it does. Said is how far `send`,
`sendtwo` or `blind` is, where standard error is a terminal; what stands behind a status other than 0, found by looking at the
words and the files; and which outputs hold only a beginning, or the line too. What is read of a pipe is gone, so none is read
here.
"""
from __future__ import annotations

import ctypes
import os
import signal
import stat
import sys
import threading
import time

# Modules that take long to load are left to where they are needed, and those of types to who checks these.
TYPE_CHECKING = False
if TYPE_CHECKING:
    from typing import NoReturn, Sequence

FORMS = {
    "order": ("NET",),
    "cuts": ("NET",),
    "compile": ("NET", "CODE", "REPORT"),
    "check": ("CODE",),
    "send": ("CODE", "PATTERN", "SEED", "SRC", "PREFIX"),
    "demo": ("N", "K", "BYTES"),
    "migrate": ("OLD", "NEW"),
    "relay": ("CODE", "PATTERN", "NODE", "IN", "OUT"),
    "sink": ("CODE", "PATTERN", "SINK", "IN", "DST"),
    "blind": ("CODE", "SRC", "PREFIX"),
    "finish": ("DRAFT", "CODE"),
    "twin": ("NET", "SECOND", "R1", "R2", "CODE", "REPORT"),
    "sendtwo": ("CODE", "PATTERN", "SEED", "R1", "SRC1", "SRC2", "PREFIX"),
}
# What a command takes behind the words of its form, as many as there are.
MORE = {"blind": "LINK"}
SOURCES = ("SRC", "SRC1", "SRC2")
INPUTS = ("NET", "CODE", *SOURCES, "OLD")
# What is read by those commands that make CODE.
INPUTS_OF = {"compile": ("NET",), "finish": ("DRAFT",), "twin": ("NET",)}
NODE_COMMANDS = ("relay", "sink")
# Those that carry sources to the files of sinks.
SENDING = ("send", "sendtwo", "blind")
# Those that make a code and a report of a network.
MAKING = ("compile", "twin")
NUMBERS = ("SEED", "N", "K", "BYTES", "R1", "R2")

# The statuses, as docs/FORMATS.md has them.
USAGE, NET_REFUSED, ZERO_RATE, TOO_MANY_DEMANDS, RATE_OVER, CODE_REFUSED, CHECK_FAILED, UNKNOWN_PATTERN = range(2, 10)
READ_FAULT, WRITE_FAULT, TOO_LONG, OUT_OF_MEMORY, SAME_PATH, LINK_FAULT, RATE_UNMET = range(10, 17)
STREAM_REFUSED, UNKNOWN_NODE, BAD_BLOCKS, UNKNOWN_LINK, NOT_DECODING, TWIN_REFUSED, BAD_SPLIT = range(17, 24)

# Signals that are passed on to the program.
PASSED = (signal.SIGHUP, signal.SIGINT, signal.SIGQUIT, signal.SIGTERM, signal.SIGUSR1, signal.SIGUSR2)
PR_SET_PDEATHSIG = 1

# In seconds: when progress is first said, how often then, and over how long the speed is taken.
FIRST_SAID = 2.0
SAID_EACH = 0.5
SPEED_OVER = 5.0
# The time of a file may be that of the clock's tick before.
TICK_NANOSECONDS = 50_000_000

# A longer code file isn't read again to see what is wrong with it.
MOST_READ_AGAIN = 8_000_000
# What stands before the patterns of a code file is shorter.
FRONT_BYTES = 1_000_000
# How many names a line lists.
MOST_LISTED = 8


def write(text: str) -> None:
    """Writes to standard error, where that takes it."""
    try:
        os.write(2, text.encode(errors="backslashreplace"))
    except OSError:
        pass


def say(line: str) -> None:
    """Says a line, without what a terminal would act on."""
    write("lif: " + "".join(letter if letter.isprintable() else ascii(letter)[1:-1] for letter in line) + "\n")


def listed(names: Sequence[str]) -> str:
    if len(names) > MOST_LISTED:
        return f"{', '.join(names[:MOST_LISTED])} and {len(names) - MOST_LISTED:,} more"
    return " and ".join([", ".join(names[:-1]), names[-1]] if len(names) > 1 else names)


# Files


def size_of(path: str) -> int | None:
    """The length of a regular file."""
    try:
        found = os.stat(path)
    except OSError:
        return None
    return found.st_size if stat.S_ISREG(found.st_mode) else None


def content_of(path: str, most: int) -> bytes:
    """The first bytes of a regular file, so many at most; none of anything else."""
    if size_of(path) is None:
        return b""
    try:
        with open(path, "rb") as file:
            return file.read(most)
    except OSError:
        return b""


def read_fault(path: str) -> str | None:
    """Why a file can't be read, if so."""
    try:
        if not stat.S_ISFIFO(os.stat(path).st_mode):
            with open(path, "rb") as file:
                file.read(1)
    except OSError as error:
        return error.strerror
    return None


def stands(path: str) -> bool:
    """Whether something stands at a path. That can't be told where a name is too long, which is an error."""
    try:
        os.lstat(path)
    except FileNotFoundError:
        return False
    return True


def write_fault(path: str) -> str | None:
    """Why a file can't be made or written to, if so. Nothing is made, emptied or written."""
    folder = os.path.dirname(path) or "."
    try:
        if stands(path) and not stat.S_ISFIFO(os.stat(path).st_mode):
            os.close(os.open(path, os.O_WRONLY | os.O_NONBLOCK))
        else:
            os.stat(os.path.join(folder, "."))
            if os.statvfs(folder).f_flag & os.ST_RDONLY:
                return "Read-only file system"
            if not os.access(folder, os.W_OK | os.X_OK):
                return "Permission denied"
    except OSError as error:
        return error.strerror
    return "No space left on device" if os.statvfs(folder).f_bavail == 0 else None


class Call:
    """What the program was called with, and when, in nanoseconds."""

    def __init__(self, words: Sequence[str]):
        self.words = words
        self.start = time.time_ns()

    @property
    def command(self) -> str:
        return self.words[0] if self.words else ""

    @property
    def given(self) -> dict[str, str]:
        """The words by their names in the form; none where they are no form."""
        form = FORMS.get(self.command, ())
        more = len(self.words) - 1 - len(form)
        return dict(zip(form, self.words[1:])) if more == 0 or (more > 0 and self.command in MORE) else {}

    @property
    def failed(self) -> Sequence[str]:
        """The names of the links that fail, which `blind` is given."""
        return self.words[1 + len(FORMS[self.command]) :] if self.command in MORE else ()

    @property
    def sources(self) -> list[str]:
        """The files that are sent: one or two, and of each sink one file for each of these."""
        return [self.given[name] for name in SOURCES if name in self.given]

    def inputs(self) -> list[str]:
        named = INPUTS_OF.get(self.command, INPUTS)
        return [self.given[name] for name in named if name in self.given] + self.node_files()[0]

    def outputs(self) -> list[str]:
        """The files that are made, in order. Of `send`, `sendtwo` and `blind` there are none where the code can't be read
        here."""
        from lif_tools.formats import Refused, read_sinks

        given = self.given
        if self.command in MAKING and given:
            return [given["CODE"], given["REPORT"]]
        if self.command == "migrate" and given:
            return [given["NEW"]]
        if self.command == "finish" and given:
            return [given["CODE"]]
        if self.command in NODE_COMMANDS and given:
            return self.node_files()[1]
        if self.command not in SENDING or not given:
            return []
        if self.command == "blind":
            return [f"{given['PREFIX']}.{sink}" for sink in self.whole_sinks() or []]
        try:
            sinks = read_sinks(content_of(given["CODE"], FRONT_BYTES))
        except Refused:
            return []
        ends = [".1", ".2"] if self.command == "sendtwo" else [""]
        return [f"{given['PREFIX']}.{sink}{end}" for sink in sinks for end in ends]

    def whole_sinks(self) -> list[str] | None:
        """The sinks that `blind` serves, in order, where its code can be read here."""
        from lif_tools.formats import Refused, read_code, whole_sinks

        content = content_of(self.given["CODE"], MOST_READ_AGAIN + 1)
        try:
            if len(content) > MOST_READ_AGAIN:
                return None
            code = read_code(content)
            numbers = {link.name: number for number, link in enumerate(code.network.links)}
            return whole_sinks(code, [numbers[name] for name in self.failed])
        except (Refused, KeyError):
            return None

    def node_files(self) -> tuple[list[str], list[str]]:
        """What `relay` or `sink` reads beside CODE, and what it makes, in order, where its code can be read here."""
        if self.command not in NODE_COMMANDS or not self.given:
            return [], []
        from lif_tools.formats import Refused, links_read, links_written, read_code

        code, pattern, node, read, written = self.words[1:]
        content = content_of(code, MOST_READ_AGAIN + 1)
        outputs = [written] if self.command == "sink" else []
        try:
            if len(content) > MOST_READ_AGAIN:
                return [], outputs
            known = read_code(content)
            if self.command == "sink":
                return [f"{read}.{link}" for link in links_read(known, pattern, node, is_sink=True)], outputs
            inputs = [f"{read}.{link}" for link in links_read(known, pattern, node)]
            outputs = [f"{written}.{link}" for link in links_written(known, pattern, node)]
            return ([read] if node == known.network.nodes[known.network.source] else inputs), outputs
        except (Refused, ValueError):
            return [], outputs

    def knows_links(self) -> bool:
        """Whether it can be seen here which files of links a node reads, where there is one."""
        return self.command not in NODE_COMMANDS or self.node_files()[0] != []

    def unknown_outputs(self) -> str | None:
        """What is made, where it can't be seen here which files these are."""
        if not self.knows_links():
            return "the file of a link"
        return "a sink's file" if self.command == "blind" and self.given and self.whole_sinks() is None else None

    def is_written(self, path: str) -> bool:
        """Whether a regular file was written to since the program began."""
        try:
            found = os.stat(path)
        except OSError:
            return False
        return stat.S_ISREG(found.st_mode) and found.st_mtime_ns >= self.start - TICK_NANOSECONDS


# What stands behind a status


def cause(call: Call, status: int) -> str | None:
    """What stands behind a status, in words."""
    given = call.given
    net, code, draft = given.get("NET", ""), given.get("CODE", given.get("OLD", "")), given.get("DRAFT", "")
    if status == USAGE:
        return usage_cause(call)
    if status == NET_REFUSED:
        return net_cause(net)
    if status == ZERO_RATE:
        return f"{net}: only failed links leave the side that the line names, so nothing comes to that sink"
    if status == TOO_MANY_DEMANDS:
        return f"{net}: sinks times patterns, with none, may be 256 by `field 8` and 65,536 by `field 16`"
    if status == RATE_OVER:
        return f"{net}: each sink can get more than 32 symbols a use, and no code has a higher rate"
    if status == RATE_UNMET:
        if call.command == "twin":
            second = given.get("SECOND", "")
            return f"{net}: so much doesn't come to that sink; `lif-gain {net} --second {second}` says which R1 and R2 do"
        return f"{net}: its line `rate` wants more than that sink can get; without the line the greatest rate is taken"
    if status == CODE_REFUSED:
        return draft_cause(draft) if draft else code_cause(code)
    if status == CHECK_FAILED:
        return f"{code}: the sink that the line names doesn't get the source back under that pattern"
    if status == UNKNOWN_PATTERN:
        return name_cause(code, "pattern", given.get("PATTERN", ""))
    if status == READ_FAULT:
        return input_cause(call)
    if status == WRITE_FAULT:
        return output_cause(call)
    if status == TOO_LONG:
        return length_cause(call)
    if status == OUT_OF_MEMORY:
        return "the system gave no more memory, or this process may have no more (`ulimit -v`)"
    if status == SAME_PATH:
        return "the file at that path would be read, or written for something else, and written over"
    if status == LINK_FAULT:
        return "a link took no frame or gave none"
    if status == STREAM_REFUSED:
        return "the file of that link isn't the frames of the link, each of them: see what wrote it"
    if status == UNKNOWN_NODE:
        return name_cause(code, *(("sink", given["SINK"]) if "SINK" in given else ("node", given.get("NODE", ""))))
    if status == BAD_BLOCKS:
        return "the streams end too early, or aren't those of one file, code and pattern"
    if status == UNKNOWN_LINK:
        return link_cause(code, call.failed)
    if status == NOT_DECODING:
        return f"{draft}: what comes to that sink under that pattern is the same for that block as for zeros"
    if status == TWIN_REFUSED:
        return twin_cause(net, given)
    if status == BAD_SPLIT:
        return f"{code}: R1 is {given.get('R1', '')}, and has to be at least 1 and below the rate that the line has"
    return None


def usage_cause(call: Call) -> str | None:
    from_help = "`lif --help` lists the commands"
    if not call.command:
        return f"no command is given: {from_help}"
    if call.command not in FORMS:
        return f"there is no command {call.command}: {from_help}"
    form = FORMS[call.command]
    if not call.given:
        more = f", and any number of {MORE[call.command]}" if call.command in MORE else ""
        return f"{call.command} takes {' '.join(form)}{more}; {len(call.words) - 1} of {len(form)} words were given"
    for name, word in [*call.given.items(), *((MORE[call.command], link) for link in call.failed)]:
        if name in NUMBERS and not (word.isascii() and word.isdigit() and int(word) < 2**64):
            return f"{name} is {word}, and has to be a number below 2^64"
        if not is_text(word):
            return f"{name} is {word}, and has to be text in UTF-8, also where it is a path"
    if call.command == "twin":
        return "R1 and R2 are at least 1, and at most 32 together"
    if call.command == "demo":
        return "N is at most 64, K from 1 to 32 and at most N, and BYTES at most 67,108,864; links and nodes have their limits"
    return None


def is_text(word: str) -> bool:
    """Whether the bytes of a word are text, as the program takes them."""
    try:
        os.fsencode(word).decode()
    except UnicodeDecodeError:
        return False
    return True


def net_cause(net: str) -> str | None:
    from lif_tools.formats import MOST_TEXT_BYTES, Refused, cycle_of, read_network

    if size_of(net) is None:
        return None
    try:
        network = read_network(content_of(net, MOST_TEXT_BYTES))
    except Refused as refused:
        return f"{net}: {refused}"
    cycle = cycle_of(network)
    if cycle is None:
        return None
    return f"{net}: these links form a cycle: {listed([network.links[link].name for link in cycle])}"


def twin_cause(net: str, given: dict[str, str]) -> str | None:
    """Why two sources aren't joined, where the network can be read here."""
    from lif_tools.formats import MOST_LINKS, MOST_NODES, MOST_TEXT_BYTES, SUPER, Refused, read_network, taken_name

    try:
        network = read_network(content_of(net, MOST_TEXT_BYTES))
        r1, r2 = int(given["R1"]), int(given["R2"])
    except (Refused, KeyError, ValueError):
        return None
    if given["SECOND"] not in network.nodes:
        return f"{net}: no node is named {given['SECOND']}; its nodes: {', '.join(network.nodes[:MOST_LISTED])}"
    taken = taken_name(network, r1, r2)
    if taken is not None:
        return f"{net}: {taken} has a name that twin gives to what it puts before both nodes"
    nodes, links = len(network.nodes), len(network.links)
    if nodes >= MOST_NODES:
        return f"{net}: {nodes:,} nodes, and with the node {SUPER} there may be {MOST_NODES:,}"
    return f"{net}: {links:,} links, and with those of the node {SUPER} there may be {MOST_LINKS:,}"


def code_cause(code: str) -> str | None:
    from lif_tools.formats import Refused, read_code

    content = content_of(code, MOST_READ_AGAIN + 1)
    if size_of(code) is None or len(content) > MOST_READ_AGAIN:
        return None
    try:
        read_code(content)
    except Refused as refused:
        return f"{code}: no code file: {refused}"
    return None


def draft_cause(draft: str) -> str | None:
    from lif_tools.formats import Refused, read_draft

    content = content_of(draft, MOST_READ_AGAIN + 1)
    if size_of(draft) is None or len(content) > MOST_READ_AGAIN:
        return None
    try:
        read_draft(content)
    except Refused as refused:
        return f"{draft}: no file of a draft: {refused}"
    return None


def names_in(code: str, kind: str) -> list[str]:
    """The names of a kind in a code file: its patterns, nodes, sinks or links. None where it can't be read here."""
    from lif_tools.formats import Refused, read_code

    content = content_of(code, MOST_READ_AGAIN + 1)
    try:
        network = read_code(content).network if len(content) <= MOST_READ_AGAIN else None
    except Refused:
        network = None
    if network is None:
        return []
    named = {
        "pattern": [it.name for it in network.patterns],
        "node": list(network.nodes),
        "sink": [network.nodes[it] for it in network.sinks],
        "link": [it.name for it in network.links],
    }
    return named[kind]


def name_cause(code: str, kind: str, word: str) -> str:
    """That a code has no such name, and which it has."""
    names = names_in(code, kind)
    return f"{code}: no {kind} is named {word}" + (f"; its {kind}s: {', '.join(names[:MOST_LISTED])}" if names else "")


def link_cause(code: str, failed: Sequence[str]) -> str:
    known = set(names_in(code, "link"))
    unknown = next((word for word in failed if word not in known), "") if known else ""
    return name_cause(code, "link", unknown) if unknown else f"{code}: no link has the name that the line has"


def input_cause(call: Call) -> str:
    inputs = call.inputs()
    for path in inputs:
        fault = read_fault(path)
        if fault:
            return f"{path}: {fault}"
    if call.knows_links():
        return f"{listed(inputs)}: reading failed on the way"
    return f"the file of a link, or at the source {call.given.get('IN', '')}, couldn't be read"


def output_cause(call: Call) -> str:
    outputs = call.outputs()
    for place, path in enumerate(outputs):
        for other in [*call.inputs(), *outputs[:place]]:
            try:
                if os.path.samefile(path, other):
                    return f"{path}: it is {other} by another name"
            except OSError:
                pass
        fault = write_fault(path)
        if fault:
            return f"{path}: {fault}"
    try:
        os.fstat(1)
    except OSError:
        return "standard output is closed, so the line couldn't be said"
    unknown = call.unknown_outputs() if not outputs else None
    if unknown is not None:
        return f"{unknown} couldn't be made or written to, or standard output took no more"
    whole = "an output was full, or " if outputs else ""
    return f"{whole}standard output took no more"


def length_cause(call: Call) -> str | None:
    from lif_tools.formats import MOST_CODE_BYTES, MOST_RELAYED_BYTES, MOST_SOURCE_BYTES, MOST_STREAM_BYTES, MOST_TEXT_BYTES

    given = call.given
    mosts = {"NET": MOST_TEXT_BYTES, **dict.fromkeys(SOURCES, MOST_SOURCE_BYTES)}
    for name in INPUTS_OF.get(call.command, INPUTS):
        size, most = size_of(given.get(name, "")), mosts.get(name, MOST_CODE_BYTES)
        if size is not None and size > most:
            return f"{given[name]}: {size:,} bytes, and at most {most:,} are read"
    if call.command in NODE_COMMANDS:
        inputs = call.node_files()[0]
        sizes = [size for path in inputs if (size := size_of(path)) is not None]
        told = f"{sum(sizes):,} bytes" if len(sizes) == len(inputs) else "more bytes than are read"
        if inputs == [given["IN"]]:
            return f"{given['IN']}: {told}, and at most {MOST_RELAYED_BYTES:,} are relayed"
        if inputs:
            return f"{listed(inputs)}: {told} together, and at most {MOST_STREAM_BYTES:,} are read"
        return f"at most {MOST_STREAM_BYTES:,} bytes of links are read together, and at the source {MOST_RELAYED_BYTES:,}"
    read = given.get("OLD", given.get("DRAFT", ""))
    if size_of(read) is not None:
        return f"{read}: in version 2 its code has more than {MOST_CODE_BYTES:,} bytes, and a code file at most so many"
    return None


def beginnings(call: Call) -> str | None:
    """Which outputs hold only a beginning, once the program has ended early."""
    outputs, sources = call.outputs(), call.sources
    written = [path for path in outputs if call.is_written(path)]
    parts: list[str] = []
    if call.command in SENDING:
        for place, source in enumerate(sources):
            length = size_of(source)
            own = [path for path in outputs[place :: len(sources)] if path in written]
            short = [path for path in own if length is None or (size_of(path) or 0) < length]
            what = "only a beginning" if length is not None else "perhaps only a beginning"
            parts += [f"{what} of {source} stands in {listed(short)}"] if short else []
        return ", and ".join(parts) or None
    # The code is whole where the report was begun.
    begun = written[-1:] if call.command in MAKING else written
    return f"perhaps only a beginning stands in {listed(begun)}" if begun else None


def with_line(call: Call) -> str | None:
    """Which output is standard output too, once the program has said its line there."""
    one = {"migrate": "NEW", "sink": "DST", "finish": "CODE"}.get(call.command)
    names = ("CODE", "REPORT") if call.command in MAKING else (one,) if one else ()
    for path in (call.given[name] for name in names if call.given):
        try:
            found = os.stat(path)
            is_said = os.path.samestat(found, os.fstat(1)) and not stat.S_ISCHR(found.st_mode)
        except OSError:
            continue
        if is_said:
            return f"{path}: it is standard output too, so the line came into it" + (
                ", over its beginning" if stat.S_ISREG(found.st_mode) else ""
            )
    return None


# Progress


class Progress(threading.Thread):
    """Says on the terminal how far `send`, `sendtwo` or `blind` is, by the files of the first sink, until `ended` is set: in
    the line below the cursor, so that what the program says comes before it, in its own line.
    """

    def __init__(self, call: Call) -> None:
        super().__init__(daemon=True)
        self.call = call
        self.begun = time.monotonic()
        self.ended = threading.Event()

    def run(self) -> None:
        if self.ended.wait(FIRST_SAID):
            return
        sources = self.call.sources
        paths = self.call.outputs()[: len(sources)]
        if not paths:
            return
        sizes = [size for source in sources if (size := size_of(source)) is not None]
        path, length = listed(paths), sum(sizes) if len(sizes) == len(sources) else None
        seen = [(self.begun, 0)]
        while True:
            size = sum(size_of(one) or 0 for one in paths if self.call.is_written(one))
            seen.append((time.monotonic(), size))
            while seen[-1][0] - seen[0][0] > SPEED_OVER:
                seen.pop(0)
            line = progress_line(path, size, length, seen)
            columns = os.get_terminal_size(2).columns or 80
            if is_in_front():
                write(f"\n{line[: columns - 1]}\033[K\033[A\r")
            if self.ended.wait(SAID_EACH):
                break
        if is_in_front():
            write("\r\033[J")

    def end(self) -> None:
        self.ended.set()
        self.join()


def progress_line(path: str, size: int, length: int | None, seen: Sequence[tuple[float, int]]) -> str:
    (before, first), (now, last) = seen[0], seen[-1]
    speed = (last - first) / (now - before) if now > before else 0
    parts = [f"lif: {path}: {size:,}" + (f" of {length:,} bytes" if length is not None else " bytes")]
    if speed > 0:
        parts.append(f"{speed / 1e6:,.3g} MB/s" if speed >= 1e6 else f"{speed / 1e3:,.3g} kB/s")
        if length is not None:
            left = max(length - size, 0) / speed
            parts.append(f"{left:.0f} s left" if left < 100 else f"{left / 60:.0f} min left")
    return ", ".join(parts)


# The program


def start(program: str, words: Sequence[str]) -> int:
    """Starts the program and gives its number. It gets the signals that come here, and is killed where this process is."""
    passed = [number for number in PASSED if signal.getsignal(number) != signal.SIG_IGN]
    tie = ctypes.CDLL(None).prctl
    masked = signal.pthread_sigmask(signal.SIG_BLOCK, passed)
    child = os.fork()
    if child == 0:
        try:
            tie(PR_SET_PDEATHSIG, signal.SIGKILL)
            # Python ignores it, and the program is not to.
            signal.signal(signal.SIGPIPE, signal.SIG_DFL)
            signal.pthread_sigmask(signal.SIG_SETMASK, masked)
            os.execv(program, [program, *words])
        except OSError as error:
            say(f"{program}: {error.strerror}")
        finally:
            os._exit(126)
    for number in passed:
        signal.signal(number, lambda number, _: os.kill(child, number))
    signal.pthread_sigmask(signal.SIG_SETMASK, masked)
    return child


def end(ended: int) -> NoReturn:
    """Ends as the program did: with its status, or by the same signal."""
    if ended < 0:
        import resource

        resource.setrlimit(resource.RLIMIT_CORE, (0, 0))
        if -ended != signal.SIGKILL:
            signal.signal(-ended, signal.SIG_DFL)
        os.kill(os.getpid(), -ended)
    os._exit(ended if ended >= 0 else 128 - ended)


def main(program: str, *words: str) -> NoReturn:
    call = Call(words)
    child = start(program, words)
    progress = Progress(call) if call.command in SENDING and call.given and shows_progress() else None
    if progress:
        progress.start()
    # It is left as it is, so that signals that come meanwhile still have somewhere to go.
    found = os.waitid(os.P_PID, child, os.WEXITED | os.WNOWAIT)
    ended = found.si_status if found.si_code == os.CLD_EXITED else -found.si_status
    if progress:
        progress.end()
    lines = (cause(call, ended) if ended > 0 else None, beginnings(call)) if ended else (with_line(call),)
    for line in lines:
        if line:
            say(line)
    end(ended)


def is_in_front() -> bool:
    """Whether this is what runs at the terminal, and nothing else does."""
    try:
        return os.tcgetpgrp(2) == os.getpgrp()
    except OSError:
        return False


def shows_progress() -> bool:
    """Whether standard error is a terminal that can move its cursor."""
    return os.isatty(2) and os.environ.get("TERM", "dumb") != "dumb"


if __name__ == "__main__":
    main(*sys.argv[1:])
