#!/bin/sh
# Tries the passes over code by `example_pass`, which runs those that its words name: each alone, all four in each order, and each twice in
# a row. The texts to which they lead, and the numbers of changes, must be those of a plain Rust program; and a text must run as the texts
# that are made of it.
# Usage: bench/passes.sh [TEXTS [PROGRAMS [SEED [MIB]]]]; TEXTS (default 1000) generated texts and PROGRAMS (default 2000) generated C
# programs from the seed SEED (default 1) on, and texts of MIB (default 64) mebibytes.
#
# What is compared: a generated text is run before and behind the passes on one input; where its run isn't spent, both must leave the same
# output, report and status, and else the output before must come. Of generated programs 20 stand in a source, which is compiled once with
# no pass; each program is run on its input by the source's meaning, by that text and by each one that the passes make of it, and all must
# do the same (see bench/compile.sh). The four in their order must lead to the text that `ggvax compile` writes. The plain program, whose
# time grows with the square of a text, makes of such a text what each pass alone makes of it, and of a generated one what each list does.
# Then the script tells how many instructions the programs of examples/ execute without passes and behind them, and times each pass on long
# texts: the time behind that of reading and writing a text is told beside the time of reading it.
#
# No command compiles without the passes: that does `unpassed`, `ggvax` with an empty list of them. It is made of a copy of the crates in
# which the lines that fill the list are left out, and `rt try` builds it once and runs it on all sources: as it is written, and not proved.
#
# VAX_REFERENCE names the folder of a plain runner, a Cargo project whose commands are `run A N` and `gentext S`, `genwild S`, and whose
# modules are those that bench/passes_plain.rs names; C_REFERENCE that of a Cargo project whose command `gen SEED --memory-locals [--free]`
# writes a C program. Where one isn't set or isn't there, nothing is compared with it. BUILT may name a folder with programs that were
# built before, `unpassed` among them; without `ggvax` there nothing is compiled.
set -eu
. "$(dirname -- "$0")/common.sh"
texts=${1:-1000}
programs=${2:-2000}
seed=${3:-1}
mebibytes=${4:-64}

rewriter=$(program_of example_pass)
[ -n "$rewriter" ] || skip "BUILT names a folder without example_pass"
program=$(program_of ggvax)
[ -n "$program" ] || echo "there is no ggvax: no program is compiled"
# The program `unpassed`, or the folder of its crate.
unpassed=
if [ -n "${BUILT:-}" ]; then
    unpassed=$(program_of unpassed)
fi
if [ -n "$program" ] && [ -z "$unpassed" ]; then
    mkdir "$work/copy"
    (cd "$here" && tar -cf - --exclude=out --exclude=must-fail crates crates.txt HANDLES) | tar -xf - -C "$work/copy"
    unpassed=$work/copy/crates/ggvax
    sed -i '/^ *passes\.push(/d' "$unpassed/src/main.rt"
fi
runner=$(plain_of "${VAX_REFERENCE:-}")
passes=
if [ -n "$runner" ]; then
    cp "$runner" "$work/runner"
    runner=$work/runner
    rm -r "$work/plain"
    passes=$(plain_of "$VAX_REFERENCE" passes_plain.rs)
    cp "$passes" "$work/passes"
    passes=$work/passes
    rm -r "$work/plain"
else
    echo "VAX_REFERENCE names no folder of a plain runner: no text is compared"
fi
generator=$(plain_of "${C_REFERENCE:-}")
[ -n "$generator" ] || echo "C_REFERENCE names no folder of a generator: no generated program is compared"

python3 - "$rewriter" "$program" "$unpassed" "$runner" "$passes" "$generator" "$work" "$here/examples" \
    "$texts" "$programs" "$seed" "$mebibytes" <<'PY'
import glob
import itertools
import os
import random
import re
import shutil
import subprocess
import sys

from common import Done, answer, listed, put, written
from generated import DONE, ENDS, REFUSED, SPENT, Program, difference, joined, least_steps, left_out, steps_of

rewriter, program, unpassed, runner, plain, generator, work, examples = sys.argv[1:9]
texts, programs, first_seed, mebibytes = (int(word) for word in sys.argv[9:13])
# The shipped passes, in the order in which they are shipped.
PASSES = ("chain", "next", "dead", "test")
ALONE = [[name] for name in PASSES]
LISTS = ALONE + [list(order) for order in itertools.permutations(PASSES)] + [[name, name] for name in PASSES]
IN_A_SOURCE = 20
TURNS = 20_000
os.chdir(work)


def rewritten(names, text):
    """The text to which the passes lead from a text, and how many changes each has made."""
    status, made, report = answer([rewriter, *names], text)
    assert status == 0, (names, report)
    return made, [int(line.split(b": ")[1]) for line in report.splitlines()]


def by_plain(path, lists):
    """The same by the plain program, of the text in a file and for each of some lists."""
    told = written([plain, path, *("+".join(names) for names in lists)])
    for names in lists:
        line, _, told = told.partition(b"\n")
        *changes, length = (int(word) for word in line.split())
        yield told[:length], changes
        told = told[length:]
    assert not told


class Tally:
    """How many texts were rewritten, in how many ways and with how many changes by each pass alone, and what differs."""

    def __init__(self):
        self.texts, self.made, self.wrong = 0, 0, 0
        self.changes = dict.fromkeys(PASSES, 0)

    def differs(self, line):
        self.wrong += 1
        print(line, flush=True)

    def all_made(self, what, text, compared, shipped=None):
        """The texts that the lists make of a text, each once, by the first list that makes it. Of the first lists, those that are compared
        with the plain program, it has the same texts; those that are shipped, in their order, make the text that is given for them."""
        put("before.s", text)
        wanted = by_plain("before.s", compared) if plain else []
        made = {}
        for names, plain_one in itertools.zip_longest(LISTS, wanted):
            mine = rewritten(names, text)
            if plain_one and mine != plain_one:
                same = "other numbers" if mine[0] == plain_one[0] else "another text"
                self.differs(f"{what} by {'+'.join(names)}: {same}, {mine[1]}, wanted {plain_one[1]}")
            if names == list(PASSES) and shipped not in (None, mine[0]):
                self.differs(f"{what} by {'+'.join(names)}: not the text that is compiled")
            if len(names) == 1:
                self.changes[names[0]] += sum(mine[1])
            made.setdefault(mine[0], names)
        self.texts, self.made = self.texts + 1, self.made + len(made)
        return made

    def told(self, what):
        changes = ", ".join(f"{count} by {name}" for name, count in self.changes.items())
        return f"{self.texts} {what} by {len(LISTS)} lists: {self.made} texts were made, each pass alone made {changes}"


def compare_texts():
    """Generated texts, rewritten, and run before and behind that."""
    chance, tally, statuses = random.Random(first_seed), Tally(), {}
    for turn in range(texts):
        words = [("gentext", "genwild")[turn % 2], str(first_seed + turn)]
        text = written([runner, *words])
        given = bytes(chance.randrange(256) for _ in range(chance.randrange(41)))
        put("text.s", text)
        before = answer([runner, "run", "text.s", "100000"], given)
        statuses[before[0]] = statuses.get(before[0], 0) + 1
        for made, names in tally.all_made(" ".join(words), text, LISTS).items():
            put("text.s", made)
            behind = answer([runner, "run", "text.s", "100000"], given)
            same = behind[1].startswith(before[1]) if before[0] == SPENT else behind == before
            if not same:
                tally.differs(f"{' '.join(words)} by {'+'.join(names)}: {behind[0]} {behind[2]!r}, before {before[0]} {before[2]!r}")
    print(f"{tally.told('generated texts')} ({listed(statuses, ' of status ')}); {tally.wrong} differ", flush=True)
    return tally.wrong


def compiled(some):
    """The text that `compile` writes of a source of some programs, without those whose frames would be too long."""
    while some:
        put("source.c", joined(some))
        done = Done([program, "compile", "vax.gg", "source.c"])
        if done.status != REFUSED:
            assert done.status == DONE, done.report
            return done.written
        del some[left_out(some, done)]
    return b""


def generated_sources():
    """Sources of generated programs, each with its programs and the text that `compile` writes of it. They stand in the folder of sources,
    where they are named by their first program."""
    chance, made = random.Random(first_seed), {}
    for turn in range(0, programs, IN_A_SOURCE):
        numbers = range(min(IN_A_SOURCE, programs - turn))
        some = {number: Program(generator, first_seed, turn + number, chance) for number in numbers}
        text = compiled(some)
        if some:
            shutil.move("source.c", f"sources/{turn}.c")
            made[f"{turn}.c"] = some, text
    return made


def selected_texts():
    """The text of each source of the folder with no pass, by its name."""
    words, names = ["compile", "vax.gg", "/dev/stdin"], sorted(os.listdir("sources"))
    if os.path.isfile(unpassed):
        return {name: Done([unpassed, *words], open(f"sources/{name}", "rb").read()).written for name in names}
    flags = ["--steps", "1000000000", "--seconds", "3600", "--data", f"vax.gg={work}/vax.gg", "--cases", f"{work}/sources"]
    told = subprocess.run(["rt", "try", *flags, "--", *words], cwd=unpassed, stdout=subprocess.PIPE).stdout
    _, *parts = re.split(rb"^== (.*)\n", told, flags=re.M)
    found = {name.decode(): text for name, text in zip(parts[::2], parts[1::2])}
    assert sorted(found) == names, sorted(found)
    return found


def compare_both_sides(tally, source, some, shipped, text, ends):
    """The runs of each text that is made of some programs' text, and of that text, against the runs of their source."""
    meanings = {}
    for number, one in some.items():
        given = bytes([number]) + one.given
        meanings[number] = given, Done([program, "meaning", source, str(TURNS)], given)
        ends[meanings[number][1].status] = ends.get(meanings[number][1].status, 0) + 1
    made = tally.all_made(str([one.words for one in some.values()]), text, ALONE, shipped)
    made.setdefault(text, ["none"])
    runs = 0
    for made_one, names in made.items():
        put("text.s", made_one)
        for number, (given, meaning) in meanings.items():
            runs += 1
            line = difference(meaning, Done([program, "run", "text.s", str(steps_of(meaning))], given))
            if line:
                tally.differs(f"{' '.join(some[number].words)} by {'+'.join(names)}: {line}")
    return runs


def compare_programs(sources, selected):
    """The runs of generated programs by their meaning, by the texts of no pass, and by those that the passes make of them."""
    tally, ends, runs = Tally(), {}, 0
    for name, (some, shipped) in sources.items():
        runs += compare_both_sides(tally, f"sources/{name}", some, shipped, selected[name], ends)
        print(f"{sum(ends.values())} programs: {tally.wrong} differ so far", file=sys.stderr, flush=True)
    told = ", ".join(f"{count} {ENDS[end]}" for end, count in sorted(ends.items()))
    print(f"{tally.told('sources')}; {runs} runs of {sum(ends.values())} programs ({told}); {tally.wrong} differ", flush=True)
    return tally.wrong


def count_examples(selected):
    """Instructions of the programs of examples/, without passes, behind each alone, and behind those that are shipped, in order."""
    lists = [[], *([name] for name in PASSES), list(PASSES)]
    print(f"| Program | none | {' | '.join(PASSES)} | {', '.join(PASSES)} |")
    print("|---|" + "---|" * len(lists))
    for path in sorted(glob.glob(f"{examples}/*.c")):
        text, counts = selected[os.path.basename(path)], []
        for names in lists if text else []:
            put("text.s", rewritten(names, text)[0])
            counts.append(f"{least_steps(program, 'text.s', b'AB'):,}")
        print(f"| `{os.path.basename(path)}` | {' | '.join(counts)} |", flush=True)


HEAD = "\t.data\n\t.text\n\t.globl\t_main\n_main:\n\t.word\t0\n"
# Functions with something for each pass; a chain of jumps through all labels; jumps that all lead to the label at the end.
PARTS = {
    "functions": "_f{n}:\n\t.word\t0\n\tsubl2\t$8,sp\n\taddl3\t$1,$2,r0\n\ttstl\tr0\n\tjeql\tL{n}0\n\tmovl\tr0,-4(fp)\n\tjbr\tL{n}1\n"
    "L{n}0:\n\tjbr\tL{n}1\nL{n}1:\n\tmovl\t$0,r0\n\tret\n\tclrl\tr0\n\tret\n",
    "a chain": "L{n}:\n\tjbr\tL{m}\n",
    "jumps": "\tjbr\tL\n",
}


def long_text(part):
    """A text of so many mebibytes."""
    most, made, size = mebibytes * 1_048_576 - len(HEAD) - 32, [], 0
    for number in itertools.count():
        piece = part.format(n=number, m=number + 1)
        if size + len(piece) > most:
            return HEAD + "".join(made) + f"L{number}:\nL:\n\tret\n"
        made.append(piece)
        size += len(piece)


def time_passes():
    """The processor seconds of each pass on long texts, beside those of reading one. A text is read whole where its last line is wrong."""
    for what, part in PARTS.items():
        text = long_text(part).encode()
        reading = Done([rewriter], text + b"?\n")
        assert reading.status != 0
        whole = Done([rewriter], text)
        assert whole.written == text
        print(f"{what}, {len(text):,} bytes: read in {reading.seconds:.2f} s with {reading.peak:.0f} MiB, written in", end=" ")
        print(f"{whole.seconds - reading.seconds:.2f} s", flush=True)
        for name in PASSES:
            done = Done([rewriter, name], text)
            spent = done.seconds - whole.seconds
            changes = done.report.decode().strip().split(": ")[1]
            print(f"  {name}: {changes} changes in {spent:.2f} s, {spent / reading.seconds:.2f} times the reading,", end=" ")
            print(f"{done.peak:.0f} MiB", flush=True)


shutil.copy(f"{examples}/vax.gg", "vax.gg")
wrong = compare_texts() if runner and texts else 0
if program:
    os.mkdir("sources")
    sources = generated_sources() if generator and programs else {}
    for path in glob.glob(f"{examples}/*.c"):
        shutil.copy(path, "sources")
    selected = selected_texts()
    wrong += compare_programs(sources, selected) if sources else 0
    count_examples(selected)
if mebibytes:
    time_passes()
sys.exit(1 if wrong else 0)
PY
