#!/usr/bin/env python3
"""Builds a program by `rt try`, which proves nothing, and keeps it.

usage: kept.py FOLDER PATH

FOLDER has the program's sources, which end in .rs since `rt ci` accepts an .rt file only in a crate, and a file `libraries` with
the crates that it uses. The program goes to PATH. It stops at an index out of range, a number that overflows, or memory that is
used after it was freed. Its allocations can be made to fail: checks/programs/refuse.c is linked into it, since
`rt try --fail-alloc` builds the program anew for each allocation.
"""
import contextlib
import io
import os
import subprocess
import sys
import tempfile
from pathlib import Path

sys.dont_write_bytecode = True
import crates
import programs


def linked(room):
    """The path of the compiled C code that is linked into the program."""
    made, source = f"{room}/refuse.o", programs.ROOT / "checks/programs/refuse.c"
    subprocess.run([os.environ.get("CC", "cc"), "-DLINKED", "-fPIC", "-O1", "-c", "-o", made, source], check=True)
    return made


def keep(source, path):
    """Builds the program of a folder, and keeps it at a path."""
    sources = {f"{it.stem}.rt": it.read_text() for it in source.glob("*.rs")}
    said = io.TextIOWrapper(io.BytesIO())
    with tempfile.TemporaryDirectory() as room:
        folder = crates.with_program(room, source.name, (source / "libraries").read_text().strip(), sources)
        rtlib = crates.toolchain().rtlib
        crate = next(it for it in rtlib.crates_below(room) if it.name == source.name)
        # rt links the C code of a crate so, if the crate may have some.
        crate.c_code = lambda into=None: [linked(room)]
        os.chdir(folder)
        with contextlib.redirect_stderr(said):
            status = crate.try_unproved(["--steps", "1"], ["--keep", str(path)])
    if status or not path.is_file():
        sys.exit(f"{said.buffer.getvalue().decode(errors='replace')[-8000:]}\nkept.py: {source.name} isn't built")


if __name__ == "__main__":
    if len(sys.argv) != 3:
        sys.exit(__doc__.strip())
    keep(Path(sys.argv[1]).resolve(), Path(sys.argv[2]).resolve())
