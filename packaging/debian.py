"""How Debian packages are made of what they hold: shared by `packaging/deb` and `packaging/deb-library`."""
from __future__ import annotations

import hashlib
import os
import shutil
import subprocess
from pathlib import Path

from contents import Making, Refused, dated, put


def needs(*names: str) -> None:
    for name in names:
        if shutil.which(name) is None:
            raise Refused(f"there is no program {name}; on Debian: apt-get install dpkg-dev")


def size_of(root: Path) -> int:
    """What a package takes when it is installed, in KiB, as Debian counts it."""
    files = [path for path in root.rglob("*") if path.is_file() and not path.is_symlink()]
    return sum(-(-path.stat().st_size // 1024) for path in files) + sum(path.is_dir() for path in root.rglob("*"))


def checksums(root: Path) -> str:
    files = sorted(path for path in (root / "usr").rglob("*") if path.is_file() and not path.is_symlink())
    return "".join(f"{hashlib.md5(path.read_bytes()).hexdigest()}  {path.relative_to(root)}\n" for path in files)


def build(made: Making, root: Path, control: str, package: Path) -> None:
    """Makes the package of a folder, and puts it to where it was asked for."""
    put(root / "DEBIAN/md5sums", checksums(root))
    put(root / "DEBIAN/control", control)
    dated(root, made.time)
    subprocess.run(
        ["dpkg-deb", "--root-owner-group", "-Zxz", "--build", root, package],
        env={**os.environ, "SOURCE_DATE_EPOCH": str(made.time)},
        stdout=subprocess.DEVNULL,
        check=True,
    )
    made.keep(package)
