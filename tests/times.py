#!/usr/bin/env python3
"""Measure the table of times that README.md has: python3 tests/times.py [--write]

Proves every crate from nothing, two at a time (`rt ci --anew`, on a copy of the crates without their must-fail edits), and prints a table;
--write also puts it into README.md.

The prover is a process for each crate, and what is measured is what the kernel notes of it, looked at every tenth of a second: the time from its
start to the last look, and its largest resident set (VmHWM), so that only the last tenth is missed.
"""
import os
import pathlib
import re
import shutil
import subprocess
import sys
import tempfile
import time

import sizes

PAUSE = 0.1
HIGHEST = re.compile(r"^VmHWM:\s*(\d+) kB$", re.M)
TICKS = os.sysconf("SC_CLK_TCK")


def crate_of(process, copy):
    """The crate that a process proves, or None: others may be proving elsewhere on the machine, and what compiles a proved program is no prover."""
    words = (process / "cmdline").read_text().split("\0")
    if "--crate-name" not in words[:-1] or "--crate-checked" in words or copy not in (process / "cwd").resolve().parents:
        return None
    return words[words.index("--crate-name") + 1]


def look(seconds, most, copy):
    """Notes by crate how long the provers running now have run, and the most memory in kB that they have had."""
    for process in pathlib.Path("/proc").glob("[0-9]*"):
        try:
            crate = crate_of(process, copy)
            highest = crate and HIGHEST.search((process / "status").read_text())
            # the 22nd field is when it began; the second may hold blanks and parentheses
            began = highest and int((process / "stat").read_text().rpartition(")")[2].split()[19]) / TICKS
        except (OSError, UnicodeDecodeError):
            continue  # it has ended, or is another's
        if highest:
            # a crate may have several processes at a time, of which the first runs longest
            seconds[crate] = max(seconds.get(crate, 0), time.clock_gettime(time.CLOCK_BOOTTIME) - began)
            most[crate] = max(most.get(crate, 0), int(highest[1]))


def prove(copy):
    """The seconds and the most memory in kB of each crate."""
    seconds, most = {}, {}
    shutil.copy(sizes.ROOT / "crates.txt", copy)
    if (sizes.ROOT / "HANDLES").exists():
        shutil.copy(sizes.ROOT / "HANDLES", copy)
    shutil.copytree(sizes.ROOT / "crates", copy / "crates", ignore=shutil.ignore_patterns("out", "must-fail"))
    with tempfile.TemporaryFile("w+") as said:
        proving = subprocess.Popen(["rt", "ci", "--anew"], cwd=copy, env=os.environ | {"RT_JOBS": "2"}, stdout=said, stderr=said)
        while proving.poll() is None:
            look(seconds, most, copy)
            time.sleep(PAUSE)
        said.seek(0)
        text = said.read()
    if proving.returncode != 0:
        sys.exit(text + "times.py: not every crate was proved")
    return seconds, most


def main(words):
    if words not in ([], ["--write"]):
        sys.exit("usage: python3 tests/times.py [--write]")
    with tempfile.TemporaryDirectory(prefix="tekoweapa-times-") as name:
        seconds, most = prove(pathlib.Path(name).resolve())
    # to ten MB: runs differ by that and more
    rows = [(f"`{crate}`", round(seconds[crate]), round(most[crate] / 10240) * 10) for crate in sizes.crates()]
    table = sizes.table(("crate", "seconds", "MB"), rows + [("all", sum(row[1] for row in rows), "")])
    print("\n".join(table))
    if words:
        sizes.put(sizes.README, "times", table)
    return 0


if __name__ == "__main__":
    sys.exit(main(sys.argv[1:]))
