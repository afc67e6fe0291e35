#!/bin/sh
# Compiles generated programs by several descriptions, runs their texts, and compares each run with the run of the source by its meaning.
# Before that it tells how many instructions the programs of examples/ execute, and times `ggvax compile` on 100 and on 1,000 functions and
# on a 1 MiB source.
# Usage: bench/compile.sh [PROGRAMS [SEED [ALONE]]]; PROGRAMS (default 2000) generated programs from the seed SEED (default 1) on.
#
# What is compared: each compilation checks its description anew, so the programs stand 50 in a source, each with a mark of its own before
# its names; the source's `main` reads a byte and calls the `main` of the program with that number. The source is compiled once by each
# description, and its text and the source itself are run once for each of its programs, on the program's number and up to 40 bytes of
# input. A run that ends or traps by the meaning must leave the same output and the same end; of one that becomes wild or deep, or goes on
# behind 20,000 turns of loops and calls, the output up to that moment must come. Two of three programs may trap, be wild, be deep or go on.
# Besides, of each way to end the first ALONE (default 3) programs are compiled, run and compared as they are, each a source of its own.
# The descriptions: the shipped one; the same with two registers, so that values are saved; bench/reloads.gg; and the same with three
# registers, so that values are reloaded.
#
# C_REFERENCE names the folder of a Cargo project whose command `gen SEED --memory-locals [--free]` writes a C program: where it isn't set
# or isn't there, no generated program is compared. BUILT may name a folder with a `ggvax` that was built before; else it is built here.
set -eu
. "$(dirname -- "$0")/common.sh"
programs=${1:-2000}
seed=${2:-1}
alone=${3:-3}

plain=$(plain_of "${C_REFERENCE:-}")
[ -n "$plain" ] || echo "C_REFERENCE names no folder of a generator: no generated program is compared"
program=$(program_of ggvax)
[ -n "$program" ] || skip "BUILT names a folder without ggvax"
cp "$here/examples/vax.gg" "$here/bench/reloads.gg" "$work"
sed 's/^pool .*/pool r0 r1/' "$work/vax.gg" >"$work/vax-two.gg"
sed 's/^pool .*/pool r0 r1 r2/' "$work/reloads.gg" >"$work/reloads-three.gg"

python3 - "$program" "$plain" "$work" "$here/examples" "$programs" "$seed" "$alone" <<'PY'
import glob
import os
import random
import re
import shutil
import sys

from common import Done, functions, put
from generated import DONE, ENDS, REFUSED, Program, difference, joined, least_steps, left_out, steps_of

program, plain, work, examples = sys.argv[1:5]
programs, first_seed, alone = (int(word) for word in sys.argv[5:8])
DESCRIPTIONS = ("vax.gg", "vax-two.gg", "reloads.gg", "reloads-three.gg")
IN_A_SOURCE = 50
TURNS = 20_000
os.chdir(work)


def as_they_are(some):
    return "".join(one.source for one in some.values())


def compiled(description):
    """What compiling source.c left; its text is then in text.s."""
    done = Done([program, "compile", description, "source.c"])
    if done.status == DONE:
        put("text.s", done.written)
    return done


def frame_words(text):
    return sum(int(words) // 4 for words in re.findall(rb"^\tsubl2\t\$(\d+),sp$", text, re.M))


class Tally:
    """What was compared by each description: texts, runs, and the words of all frames; what differs, and what was refused."""

    def __init__(self):
        self.wrong, self.refused, self.ends = 0, 0, {}
        self.texts, self.runs, self.frames = ({description: 0 for description in DESCRIPTIONS} for _ in range(3))

    def differs(self, line):
        self.wrong += 1
        print(line, flush=True)

    def run_all(self, some, description, text, meanings):
        """The runs of a text on each program's input."""
        self.texts[description] += 1
        self.frames[description] += frame_words(text)
        for number, (given, meaning) in meanings.items():
            run = Done([program, "run", "text.s", str(steps_of(meaning))], given)
            self.runs[description] += 1
            line = difference(meaning, run)
            if line:
                self.differs(f"{' '.join(some[number].words)} by {description}: {line}")

    def compare(self, some, source_of, given_of):
        """Compiles the source of some programs by each description, and runs it; the answer is how each program ends by its meaning. A
        program whose frame would be too long is left out: the refusal names it."""
        some, meanings = dict(some), None
        for description in DESCRIPTIONS:
            put("source.c", source_of(some))
            done = compiled(description)
            while done.status == REFUSED and some:
                del some[left_out(some, done)]
                self.refused += 1
                put("source.c", source_of(some))
                done = compiled(description)
            if meanings is None:
                givens = {number: given_of(number, one) for number, one in some.items()}
                meanings = {number: (given, Done([program, "meaning", "source.c", str(TURNS)], given)) for number, given in givens.items()}
            if done.status != DONE:
                self.differs(f"{[one.words for one in some.values()]} by {description}: {done.status} {done.report!r}")
                continue
            self.run_all(some, description, done.written, meanings)
        return {number: meaning.status for number, (_, meaning) in meanings.items()}


def compare():
    chance = random.Random(first_seed)
    tally, by_end = Tally(), {}
    for turn in range(0, programs, IN_A_SOURCE):
        some = {number: Program(plain, first_seed, turn + number, chance) for number in range(min(IN_A_SOURCE, programs - turn))}
        for number, end in tally.compare(some, joined, lambda number, one: bytes([number]) + one.given).items():
            by_end.setdefault(end, []).append(some[number])
        print(f"{turn + len(some)} programs: {tally.wrong} differ so far", file=sys.stderr, flush=True)
    together = sum(tally.texts.values())
    for end in sorted(by_end):
        for one in by_end[end][:alone]:
            tally.compare({0: one}, as_they_are, lambda _, one: one.given)
    told = ", ".join(f"{len(some)} {ENDS[end]}" for end, some in sorted(by_end.items()))
    print(f"{programs} programs ({told}; {tally.refused} refused): {together} texts of many, {sum(tally.texts.values()) - together} of one")
    for description in DESCRIPTIONS:
        runs, texts, words = tally.runs[description], tally.texts[description], tally.frames[description]
        print(f"  {description}: {runs} runs of {texts} texts, whose frames have {words} words")
    print(f"{tally.wrong} differ", flush=True)
    return tally.wrong


def least_used(words, rounds):
    """The least processor seconds of some runs, and the most MiB."""
    done = [Done(words) for _ in range(rounds)]
    assert all(one.status == DONE for one in done), done[0].report
    return min(one.seconds for one in done), max(one.peak for one in done)


def compare_speed():
    """Each compilation checks its description first, which takes most of the time: on long sources the time behind that is told too."""
    check, _ = least_used([program, "check", "vax.gg"], 5)
    times, behind, peak = {}, {}, 0
    sources = {"100": functions(100), "1000": functions(1_000), "half": functions(length=524_288), "all": functions()}
    for name, (source, count) in sources.items():
        put("timed.c", source)
        times[name], peak = least_used([program, "compile", "vax.gg", "timed.c"], 5)
        behind[name] = times[name] - check
        line = f"{count} functions, {len(source)} bytes: {times[name]:.2f} s of processor, {peak:.0f} MiB"
        if shutil.which("gcc"):
            theirs, _ = least_used(["gcc", "-w", "-O0", "-S", "-o", "timed.s", "timed.c"], 2)
            line += f", {times[name] / theirs:.2f} times gcc -O0 -S"
        print(line, flush=True)
    print(f"1,000 functions against 100: {times['1000'] / times['100']:.1f} times (at most 12)")
    print(f"behind the check's {check:.2f} s: {behind['half']:.2f} s for 512 KiB, {behind['all']:.2f} s for 1 MiB,", end=" ")
    print(f"{behind['all'] / behind['half']:.1f} times; at most 60 s and 2,048 MiB", flush=True)
    return times["1000"] > 12 * times["100"] or times["all"] > 60 or peak > 2048


def count_examples():
    print("| Program | Text, in bytes | Instructions |")
    print("|---|---|---|")
    for path in sorted(glob.glob(f"{examples}/*.c")):
        shutil.copy(path, "source.c")
        done = compiled("vax.gg")
        told = f"{done.report.decode().strip()} |"
        if done.status == DONE:
            told = f"{len(done.written):,} | {least_steps(program, 'text.s', b'AB'):,}"
        print(f"| `{os.path.basename(path)}` | {told} |", flush=True)


count_examples()
slow = compare_speed()
wrong = compare() if plain and programs else 0
sys.exit(1 if wrong or slow else 0)
PY
