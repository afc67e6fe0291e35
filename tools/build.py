#!/usr/bin/env python3
"""Proves every crate below the program on all processors, builds the program, and shows on one line how far it is.

The work is done by `rt ci` in a copy of the crates, without their must-fail edits, since it is not the gate. Some kits keep beside the
toolchain what `rt ci` has proved: with them a build that was stopped goes on where it was. Usage: tools/build.py
"""

import os
import pathlib
import re
import shutil
import subprocess
import sys
import tempfile
import time

HERE = pathlib.Path(__file__).resolve().parent.parent
PROGRAM = "ggvax"
# Processor minutes of a crate that the table of the gate does not name.
USUAL = 0.2
# Seconds between two looks at the work, and between two lines where standard error is no terminal.
LOOK, SAY = 1, 60


def libraries():
    """Each crate of crates.txt with the crates that it stands on."""
    found = {}
    for line in (HERE / "crates.txt").read_text().splitlines():
        name, is_row, names = line.partition("#")[0].partition(":")
        if is_row:
            found[name.split()[0]] = names.split()
    return found


def crates_below(name, rows):
    """The crates that one stands on, each behind those below it, and itself as the last."""
    seen = {}

    def visit(it):
        if it in rows and it not in seen:
            for below in rows[it]:
                visit(below)
            seen[it] = rows[it]

    visit(name)
    return seen


def weights(names):
    """Processor minutes of each crate's proof and tests, as the table in docs/BENCHMARKS.md has them."""
    table = {}
    for row in re.findall(r"^\| `(\w+)` \| ([\d.]*) \| ([\d.]*) \|", (HERE / "docs/BENCHMARKS.md").read_text(), re.M):
        table[row[0]] = sum(float(it or 0) for it in row[1:])
    return {it: table.get(it, USUAL) for it in names}


def copy_of(rows, to):
    """Copies the crates and what says how they stand on each other."""
    for name in rows:
        shutil.copytree(HERE / "crates" / name, to / "crates" / name, ignore=shutil.ignore_patterns("out", "must-fail"))
    (to / "crates.txt").write_text("".join(f"{name}: {' '.join(below)}\n" for name, below in rows.items()))
    shutil.copy(HERE / "HANDLES", to)


def at_work(folder):
    """The crates of a copy that the prover works on now."""
    found = set()
    for process in pathlib.Path("/proc").glob("[0-9]*"):
        try:
            words = (process / "cmdline").read_text().split("\0")
            if "--crate-name" in words and os.readlink(process / "cwd").startswith(str(folder)):
                found.add(words[words.index("--crate-name") + 1])
        except (OSError, UnicodeDecodeError):
            continue
    return sorted(found)


class Progress:
    """What is done of a build, by what `rt ci` says."""

    def __init__(self, names):
        self.weights, self.began = weights(names), time.monotonic()
        self.kept, self.proved, self.said = set(), set(), 0

    def read(self, line):
        if found := re.match(r"rt: (\w+) (is kept|proved$)", line):
            (self.kept if found[2] == "is kept" else self.proved).add(found[1])

    def weight(self, names):
        return sum(self.weights.get(it, 0) for it in names)

    def minutes_left(self, gone):
        """By the pace so far; before that shows, as if each processor did a minute's work in two."""
        done, left = self.weight(self.proved), self.weight(self.weights.keys() - self.kept - self.proved)
        return left * gone / done if done > 2 else 2 * left / (os.cpu_count() or 1)

    def line(self, now):
        gone = (time.monotonic() - self.began) / 60
        done = len(self.kept | self.proved)
        return (
            f"{PROGRAM}: {done} of {len(self.weights)} crates are proved; {gone:.0f} minutes gone, some {self.minutes_left(gone):.0f} left"
            f"{'; now ' * bool(now)}{', '.join(now)}"
        )

    def show(self, folder):
        text = self.line(at_work(folder))
        if sys.stderr.isatty():
            width = shutil.get_terminal_size().columns - 1
            print(f"\r\033[K{text[:width]}", end="", file=sys.stderr, flush=True)
        elif time.monotonic() - self.said > SAY:
            self.said = time.monotonic()
            print(text, file=sys.stderr, flush=True)


def failures(log):
    """What `rt ci` said of the crates that it refused, or all of it where it names none."""
    failed = [part for part in re.split(r"^== ", log, flags=re.M) if "NOT PROVED" in part or "error" in part]
    return "\n".join(failed) or log


def prove(folder, rows):
    """Runs `rt ci` in a copy, and gives what it said and its status."""
    progress, log = Progress(rows), folder / "log"
    with open(log, "w+", errors="replace") as to, open(log, errors="replace") as heard:
        run = subprocess.Popen(["rt", "ci"], cwd=folder / "copy", stdin=subprocess.DEVNULL, stdout=to, stderr=subprocess.STDOUT)
        try:
            while run.poll() is None:
                for line in heard:
                    progress.read(line)
                progress.show(folder)
                time.sleep(LOOK)
        except KeyboardInterrupt:
            run.terminate()
            run.wait()
            sys.exit("\nggvax: the build was stopped")
    if sys.stderr.isatty():
        print("\r\033[K", end="", file=sys.stderr)
    return log.read_text(errors="replace"), run.returncode


def main():
    rows = crates_below(PROGRAM, libraries())
    with tempfile.TemporaryDirectory(prefix="ggvax-build-") as made:
        folder = pathlib.Path(made).resolve()
        copy_of(rows, folder / "copy")
        log, status = prove(folder, rows)
        if status:
            print(failures(log), file=sys.stderr)
            return 1
        out = HERE / "crates" / PROGRAM / "out"
        out.mkdir(exist_ok=True)
        shutil.copy(folder / "copy/crates" / PROGRAM / "out" / PROGRAM, out / f"{PROGRAM}.new")
        os.replace(out / f"{PROGRAM}.new", out / PROGRAM)
    return 0


if __name__ == "__main__":
    sys.exit(main())
