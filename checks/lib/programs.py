#!/usr/bin/env python3
"""What checks and benchmarks run: built programs, scripts as modules, and C code that is loaded before a program.

usage: programs.py CRATE [PATH]

Prints the path of the program of a crate: PATH if it is given; else the program is proved and built first.
"""
import importlib.machinery
import importlib.util
import os
import subprocess
import sys
from pathlib import Path

sys.dont_write_bytecode = True
ROOT = Path(__file__).resolve().parents[2]
PROVE = ROOT / "tools/prove"


def script(path):
    """A script, or another program in Python, as a module."""
    loader = importlib.machinery.SourceFileLoader(Path(path).name, str(path))
    module = importlib.util.module_from_spec(importlib.util.spec_from_loader(loader.name, loader))
    loader.exec_module(module)
    return module


def built(crate, path=None):
    """The path of the program of a crate. If it isn't given, the program is proved and built first."""
    if path:
        return str(Path(path).resolve())
    subprocess.run([sys.executable, PROVE, crate], stdout=sys.stderr, check=True)
    folder = subprocess.run([sys.executable, PROVE, "--folder"], stdout=subprocess.PIPE, text=True, check=True).stdout.strip()
    return f"{folder}/crates/{crate}/out/{crate}"


def all_built(paths, *names):
    """The paths of the programs of several crates. Either all are given, or none: then they are proved and built first."""
    if len(paths) not in (0, len(names)):
        sys.exit(f"give the paths of all of {', '.join(names)}, or of none, which proves and builds them")
    return [built(name, *paths[at : at + 1]) for at, name in enumerate(names)]


def preloaded(name, folder):
    """The path of a library, compiled into a folder from a C file of checks/programs, that LD_PRELOAD takes."""
    library = Path(folder) / f"{name}.so"
    compiler = os.environ.get("CC", "cc")
    source = ROOT / "checks/programs" / f"{name}.c"
    subprocess.run([compiler, "-shared", "-fPIC", "-O1", "-o", library, source, "-ldl"], check=True)
    return library


if __name__ == "__main__":
    if len(sys.argv) not in (2, 3):
        sys.exit(__doc__.strip())
    print(built(*sys.argv[1:]))
