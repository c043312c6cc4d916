"""Builds the program without a proof, for the script `lif`.

    python3 tools/liftry.py CRATE PROGRAM

`rt try` builds one of the folder CRATE into a folder of its own, runs it, and keeps nothing. So it is run on a pipe, where it
waits until it is copied to the path PROGRAM.
"""
from __future__ import annotations

import os
import shutil
import signal
import subprocess
import sys
import tempfile
import time
from pathlib import Path

ENDING = (signal.SIGHUP, signal.SIGINT, signal.SIGTERM)
# In seconds.
LOOKED_EACH = 0.2


def opened(pipe: Path) -> int | None:
    """The pipe, once a program has opened it to read."""
    try:
        return os.open(pipe, os.O_WRONLY | os.O_NONBLOCK)
    except OSError:
        return None


def build(crate: str, program: str, room: Path) -> bool:
    """Builds the program in an empty folder, and says whether that went well."""
    pipe = room / "net"
    os.mkfifo(pipe)
    begun = time.time_ns()
    rt = None
    try:
        with open(room / "said", "wb") as said:
            # What is typed at the terminal doesn't come to rt, so that it is told once to end.
            rt = subprocess.Popen(
                ["rt", "try", "--", "order", str(pipe)],
                cwd=crate,
                env={**os.environ, "TMPDIR": str(room)},
                stdin=subprocess.DEVNULL,
                stdout=said,
                stderr=said,
                start_new_session=True,
            )
        held = None
        while held is None and rt.poll() is None:
            time.sleep(LOOKED_EACH)
            held = opened(pipe)
        built = next((it for it in room.rglob("program") if it.is_file()), None)
        if built is None:
            sys.stderr.write((room / "said").read_text(errors="replace"))
            return False
        part = f"{program}.{os.getpid()}"
        shutil.copyfile(built, part)
        os.chmod(part, 0o755)
        # Sources may have changed since it began.
        os.utime(part, ns=(begun, begun))
        os.replace(part, program)
        return True
    finally:
        for number in ENDING:
            signal.signal(number, signal.SIG_IGN)
        if rt is not None:
            rt.terminate()
            rt.wait()


def main(crate: str, program: str) -> None:
    for number in ENDING:
        signal.signal(number, lambda number, _: sys.exit(128 + number))
    print("lif: there is no proved program: one is built that isn't proved, in about a minute", file=sys.stderr)
    print("lif: it is checked at each step and slow: a second for some 300 kB through a small network", file=sys.stderr)
    try:
        # A signal that comes while the folder is made is heard once it would be removed.
        signal.pthread_sigmask(signal.SIG_BLOCK, ENDING)
        with tempfile.TemporaryDirectory(prefix="lif-") as room:
            signal.pthread_sigmask(signal.SIG_UNBLOCK, ENDING)
            is_built = build(crate, program, Path(room))
    except OSError as error:
        print(f"lif: {error.filename or 'rt'}: {error.strerror}", file=sys.stderr)
        is_built = False
    if not is_built:
        print("lif: the program couldn't be built", file=sys.stderr)
        sys.exit(1)


if __name__ == "__main__":
    main(*sys.argv[1:])
