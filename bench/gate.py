#!/usr/bin/env python3
"""Runs `rt ci` and tells what each crate took of it: processor minutes (user and system) for its proof, its tests and its must-fail edits.

The numbers are read from /proc each second, so what ends within a second counts too low. What an earlier run keeps is not done again, and
counts nothing. Usage, at the top of a clone: bench/gate.py [names of crates]
"""

import collections
import os
import subprocess
import sys
import time

TICKS = os.sysconf("SC_CLK_TCK")
KINDS = ("proof", "tests", "edits")


def processes_of(run):
    """The processes below one, by number, with their words."""
    parents, words = {}, {}
    for number in filter(str.isdigit, os.listdir("/proc")):
        try:
            with open(f"/proc/{number}/stat") as file:
                parents[int(number)] = int(file.read().rsplit(")", 1)[1].split()[1])
            with open(f"/proc/{number}/cmdline") as file:
                words[int(number)] = file.read().split("\0")
        except OSError:
            continue
    below = {run}
    while more := {it for it, of in parents.items() if of in below} - below:
        below |= more
    return {it: words[it] for it in below if it in words}


def spent(number):
    """Seconds of processor, and when the process began."""
    with open(f"/proc/{number}/stat") as file:
        fields = file.read().rsplit(")", 1)[1].split()
    return sum(map(int, fields[11:15])) / TICKS, fields[19]


def kind_of(number, words):
    if "--test" in words:
        return "tests"
    return "edits" if "/rt-edit" in os.readlink(f"/proc/{number}/cwd") else "proof"


def watch(run):
    seen = {}
    while run.poll() is None:
        for number, words in processes_of(run.pid).items():
            if "--crate-name" not in words:
                continue
            try:
                seconds, began = spent(number)
                crate = words[words.index("--crate-name") + 1]
                seen[number, began] = crate, kind_of(number, words), seconds
            except OSError:
                continue
        time.sleep(1)
    return seen.values()


def table(seen):
    crates = collections.defaultdict(collections.Counter)
    for crate, kind, seconds in seen:
        crates[crate][kind] += seconds / 60
    yield "| Crate | Proof | Tests | Edits |"
    yield "|---|---|---|---|"
    for crate, spent_on in sorted(crates.items(), key=lambda it: -sum(it[1].values())):
        yield f"| `{crate}` | " + " | ".join(f"{spent_on[it]:.1f}" if spent_on[it] >= 0.05 else "" for it in KINDS) + " |"
    whole = sum(crates.values(), collections.Counter())
    yield "| all | " + " | ".join(f"{whole[it]:.0f}" for it in KINDS) + " |"


def main():
    began = time.monotonic()
    run = subprocess.Popen(["rt", "ci", *sys.argv[1:]])
    for row in table(watch(run)):
        print(row)
    print(f"{(time.monotonic() - began) / 60:.0f} minutes by the clock on {os.cpu_count()} processors")
    return run.returncode


if __name__ == "__main__":
    sys.exit(main())
