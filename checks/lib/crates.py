"""The crates of the repository, as crates.txt lists them."""
import functools
import os
import subprocess
import sys
from dataclasses import dataclass
from pathlib import Path

import programs

ROOT = programs.ROOT


@dataclass
class Listed:
    """A line of crates.txt: the crates of the repository that it names, the comment after them, and the heading above."""

    line: str
    libraries: list
    remark: str
    heading: str


def listed():
    """The crates by name, in the order of crates.txt. A heading is a comment line after an empty one."""
    found, heading, before = {}, "", None
    for line in (ROOT / "crates.txt").read_text().splitlines():
        words, _, remark = line.partition("#")
        name, colon, libraries = words.partition(":")
        if colon:
            found[name.split()[0]] = Listed(line, libraries.split(), remark.strip(), heading)
        elif before == "" and remark:
            heading = remark.strip()
        before = line
    for crate in found.values():
        crate.libraries = [it for it in crate.libraries if it in found]
    return found


def known(names):
    """Returns the names, each once; an unknown one ends the run."""
    unknown = [it for it in names if it not in listed()]
    if unknown:
        sys.exit(f"crates.txt has no crate {', '.join(unknown)}")
    return list(dict.fromkeys(names))


def toolchain():
    """The program `rt` as a module: it reads edits, and starts proofs and checks."""
    page = subprocess.run(["rt", "doc"], stdout=subprocess.PIPE, text=True, check=True).stdout.strip()
    module = programs.script(Path(page).parent / "bin/rt")
    # Its first call must be in the main thread.
    module.rtlib.guarded()
    # It computes the sum of a crate's files anew for each way to it in the graph of crates, which takes minutes in all.
    module.rtlib.Crate.stamp = functools.cache(module.rtlib.Crate.stamp)
    return module


def at_once(memory):
    """Returns how many processes of this memory to run side by side: one for each processor, as far as memory allows."""
    found = os.sysconf("SC_PAGE_SIZE") * os.sysconf("SC_PHYS_PAGES")
    return max(1, min(len(os.sched_getaffinity(0)), found // memory))


def copy(room):
    """Copies the crates to a folder."""
    command = f"mkdir '{room}/.git' && tar --exclude=out -cf - crates crates.txt HANDLES | tar -xf - -C '{room}'"
    subprocess.run(command, shell=True, check=True, cwd=ROOT)


def add(room, name, libraries, sources):
    """Adds a crate to a copy of the crates, and returns the crate's folder there."""
    folder = Path(room) / "crates" / name
    (folder / "src").mkdir(parents=True)
    for file, text in sources.items():
        (folder / "src" / file).write_text(text)
    with (Path(room) / "crates.txt").open("a") as lines:
        lines.write(f"{name}: {libraries}\n")
    return folder


def with_program(room, name, libraries, sources):
    """Copies the crates to a folder, with one more program, and returns the program's folder there."""
    copy(room)
    return add(room, name, libraries, sources)
