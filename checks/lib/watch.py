#!/usr/bin/env python3
"""Notes the processor time and the memory of the proofs that a process starts; `rt ci` prints neither.

usage: watch.py PID FILE    until it is terminated; then FILE has the times
       watch.py --machine   prints a line with the day, the machine and the toolchain

A line of FILE: `times: CRATE proof SECONDS tests SECONDS edits SECONDS memory GIGABYTES`. Each prover below the process is looked
at four times a second; what it uses after the last time isn't seen.
"""
import datetime
import os
import re
import signal
import subprocess
import sys
import time
from collections import defaultdict
from pathlib import Path

TICK = os.sysconf("SC_CLK_TCK")
PAUSE = 0.25
# The folder in which rt tries an edit begins so.
OF_EDIT = "rt-edit-"
KINDS = ("proof", "tests", "edits")


def processes():
    """The parent of each process, when it started, and its processor time in seconds: its own, and that of ended children."""
    found = {}
    for name in filter(str.isdigit, os.listdir("/proc")):
        try:
            fields = Path(f"/proc/{name}/stat").read_text().rpartition(")")[2].split()
        except OSError:
            continue
        found[int(name)] = (int(fields[1]), fields[19], sum(map(int, fields[11:15])) / TICK)
    return found


def proof_of(pid):
    """The crate and the kind of the proof that a process is of; None: it is no prover."""
    try:
        words = Path(f"/proc/{pid}/cmdline").read_bytes().decode(errors="replace").split("\0")
        folder = os.path.basename(os.readlink(f"/proc/{pid}/cwd"))
    except OSError:
        return None
    if os.path.basename(words[0]) != "rattle" or "--crate-name" not in words:
        return None
    kind = "tests" if "--test" in words else "edits" if folder.startswith(OF_EDIT) else "proof"
    return words[words.index("--crate-name") + 1], kind


def memory_of(pid):
    """The most memory that a process had, in gigabytes."""
    try:
        found = re.search(r"VmHWM:\s+(\d+)", Path(f"/proc/{pid}/status").read_text())
    except OSError:
        return 0
    return int(found[1]) / 1e6 if found else 0


class Watch:
    """What was seen so far: of each prover its time, and of each crate its memory."""

    def __init__(self, top):
        self.top, self.proofs, self.times, self.memory = top, {}, {}, defaultdict(float)

    def look(self):
        found = processes()
        for pid, (_, start, _) in found.items():
            if (pid, start) not in self.proofs and self.is_below(pid, found):
                self.proofs[pid, start] = proof_of(pid)
        sums = defaultdict(float)
        for pid, (_, start, seconds) in found.items():
            if first := self.first_prover(pid, found):
                sums[first] += seconds
                crate = self.proofs[first][0]
                self.memory[crate] = max(self.memory[crate], memory_of(pid))
        for prover, seconds in sums.items():
            self.times[prover] = max(self.times.get(prover, 0), seconds)

    def is_below(self, pid, found):
        """Whether a process was started by the watched one, or by one that it started."""
        while pid in found and pid != self.top:
            pid = found[pid][0]
        return pid == self.top

    def first_prover(self, pid, found):
        """The uppermost prover among a process and its parents; a prover starts others of its kind."""
        first = None
        while pid in found and pid != self.top:
            key = (pid, found[pid][1])
            first = key if self.proofs.get(key) else first
            pid = found[pid][0]
        return first if pid == self.top else None

    def lines(self):
        seconds = defaultdict(lambda: dict.fromkeys(KINDS, 0.0))
        for prover, time_of in self.times.items():
            crate, kind = self.proofs[prover]
            seconds[crate][kind] += time_of
        for crate, kinds in sorted(seconds.items()):
            words = " ".join(f"{kind} {kinds[kind]:.1f}" for kind in KINDS)
            yield f"times: {crate} {words} memory {self.memory[crate]:.1f}\n"


def machine():
    """The day, the machine and the toolchain."""
    memory = os.sysconf("SC_PAGE_SIZE") * os.sysconf("SC_PHYS_PAGES") / (1 << 30)
    kit = subprocess.run(["rt", "version"], stdout=subprocess.PIPE, text=True).stdout.strip()
    day = datetime.datetime.now(datetime.timezone.utc).date().isoformat()
    return f"machine: {day}, {len(os.sched_getaffinity(0))} cores, {memory:.0f} GB, {kit}"


def main(words):
    if words == ["--machine"]:
        print(machine(), flush=True)
        return
    if len(words) != 2:
        sys.exit(__doc__.strip())
    watch = Watch(int(words[0]))
    # The handler ends the pause, and the loop.
    signal.signal(signal.SIGTERM, lambda *_: sys.exit(0))
    try:
        while True:
            watch.look()
            time.sleep(PAUSE)
    finally:
        Path(words[1]).write_text("".join(watch.lines()))


if __name__ == "__main__":
    main(sys.argv[1:])
