"""Times that options of `binlog-changes` give in time zones: a part of `changes`."""
import datetime
import io
import os
import subprocess
import zoneinfo
from pathlib import Path

import logs
from json_lines import expect, lines_of

# Summer time begins and ends at these seconds in most of Europe; other zones change at other times.
CHANGES = [985_482_000, 1_004_230_800]
HALF_HOUR, UTC = 1800, datetime.timezone.utc
NAMES = ["Europe/Berlin", "America/New_York", "Asia/Kolkata", "Australia/Lord_Howe", "Etc/GMT+7"]
OFFSETS = {"UTC": 0, "+00:00": 0, "+02:00": 120, "-02:30": -150, "+13:45": 825, "-23:59": -1439}
WRONG = ["", "utc+2", "+2:00", "+24:00", "+02:60", "+0200", "02:00", "Mars/Phobos", "/etc/localtime", "../zoneinfo/UTC", "Europe"]


def around(change):
    """The seconds of statements before and after a change of the offset."""
    return range(change - 8 * HALF_HOUR, change + 9 * HALF_HOUR, HALF_HOUR)


def times(program, path, name, zone, words):
    """A time on clocks in a zone selects what is committed from then on, or before; returns the number of runs."""
    all_seconds, runs = [it for change in CHANGES for it in around(change)], 0
    for change in CHANGES:
        local = datetime.datetime.fromtimestamp(change - change % 86400, UTC).replace(tzinfo=None)
        for count in range(0, 60, 7):
            clock = local + datetime.timedelta(minutes=30 * count - 480)
            seconds = clock.replace(tzinfo=zone).timestamp()
            for option, wanted in (
                ("--start-datetime", [it for it in all_seconds if it >= seconds]),
                ("--stop-datetime", [it for it in all_seconds if it < seconds]),
            ):
                found = [it["ts"] for it in lines_of(program, option, str(clock), *words, path)]
                expect(found == wanted, f"{option} {clock} in {name}: {found}, not {wanted}")
                runs += 1
    return runs


def without_memory(program, folder, path):
    """Each allocation of a run with a time zone fails in turn: its status is 3, or 0 if it goes on; returns how many ran."""
    refusing, mark, number = folder / "refuse.so", folder / "mark", 0
    source = Path(__file__).with_name("refuse.c")
    subprocess.run([os.environ.get("CC", "cc"), "-shared", "-fPIC", "-O1", "-o", refusing, source, "-ldl"], check=True)
    words = [program, "events", "--time-zone", "Europe/Berlin", "--start-datetime", "2026-11-29", path]
    said = set()
    while True:
        number += 1
        mark.unlink(missing_ok=True)
        counts = {"REFUSE_REQUEST": str(number), "REFUSE_MARK": str(mark), "MEMORY_COUNTS": str(folder / "counts")}
        ran = subprocess.run(words, capture_output=True, text=True, env={**os.environ, **counts, "LD_PRELOAD": str(refusing)})
        if not mark.exists():
            expect(ran.returncode == 0 and 3 in said, f"no allocation failed: {said}")
            return number
        is_right = ran.returncode == 0 or (ran.returncode == 3 and "out of memory" in ran.stderr)
        expect(is_right, f"allocation {number} fails: {ran}")
        said.add(ran.returncode)


def zones(program, folder):
    """Compares times in zones with those of Python; returns the number of runs."""
    path, file, runs = folder / "zones", io.BytesIO(), 0
    log = logs.GENERATE.Log(file, 0, 1)
    for change in CHANGES:
        for log.seconds in around(change):
            log.query(b"shop", b"CREATE TABLE t (a INT)")
    path.write_bytes(file.getvalue())
    runs += times(program, path, "no zone", UTC, [])
    for name, minutes in OFFSETS.items():
        zone = datetime.timezone(datetime.timedelta(minutes=minutes))
        runs += times(program, path, name, zone, ["--time-zone", name])
    for name in set(NAMES) & zoneinfo.available_timezones():
        runs += times(program, path, name, zoneinfo.ZoneInfo(name), [f"--time-zone={name}"])
    for name in WRONG:
        for command in ("json", "check", "events"):
            ran = subprocess.run([program, command, "--time-zone", name, path], capture_output=True, text=True)
            is_said = "--time-zone" in ran.stderr and "Europe/Berlin" in ran.stderr
            expect(ran.returncode == 2 and is_said and not ran.stdout, f"{command} --time-zone {name}: {ran}")
    words = ["--time-zone", "+02:00", "--start-datetime", "2001-10-28 04:00:00", path]
    said = [subprocess.run([program, command, *words], text=True, capture_output=True) for command in ("check", "events")]
    late = [it for change in CHANGES for it in around(change) if it >= CHANGES[1] + 2 * HALF_HOUR]
    expect(f"selected transactions: {len(late)}," in said[0].stdout, f"check of a time in a zone: {said[0]}")
    expect(len(said[1].stdout.splitlines()) == len(late), f"events of a time in a zone: {said[1]}")
    if "Europe/Berlin" in zoneinfo.available_timezones():
        runs += without_memory(program, folder, path)
    return runs
