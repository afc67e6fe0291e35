#!/bin/sh
# Compares `ggdesk lowering`, which lowers C sources to trees, with a plain Rust lowering of the same scheme: the trees of generated
# programs, what those programs and their trees do, and the processor times on sources of 100 KiB and of 1 MiB of one mix.
# Usage: bench/lower.sh [PROGRAMS [SEED]]; PROGRAMS (default 2000) generated programs from the seed SEED (default 1) on.
# C_REFERENCE names the folder of the plain lowering, a Cargo project whose modules read, type and lower sources and generate programs.
# Where it isn't set or isn't there, only the worked programs of `ggdesk`'s script are run, and the two sizes are compared.
# Every second program has memory locals. Before it is built, the plain lowering is told four differences, all in functions with such
# locals: the end of the second stack's area, which results are saved, first values of one or two bytes, and addresses that are read and
# then assigned to.
set -eu
. "$(dirname -- "$0")/common.sh"
programs=${1:-2000}
seed=${2:-1}

plain=
if copy_plain "${C_REFERENCE:-}" lower_plain.rs; then
    # It writes the end of the second stack's area as one leaf; here it is a sum.
    sed -i 's/leaf(T::Gaddr, Att::Object(sp + 1, STACK2)),/tok(T::Plus), leaf(T::Gaddr, Att::Object(sp + 1, 0)), num(STACK2),/
        # The result of a function with memory locals: it saves each that is not stable; here those that read memory are saved.
        s/let w = if self\.stable(&w) { w } else { self\.save(w) };/let w = if has_indir(\&w) { self.save(w) } else { w };/
        # The first value of a memory local of one or two bytes: it only narrows what is stored; here the value is converted before.
        s/ s\.emit(store(&pl, ty, v));/ s.emit(store(\&pl, ty, conv(ty, v)));/
        # An address that is read and then assigned to: it writes that of a memory local twice; here any but a leaf is saved.
        /fn small(/,/^    }/s/self\.f\.has_mem/false/' "$work/plain/src/lower.rs"
    plain=$(build_plain)
else
    echo "C_REFERENCE names no folder of a plain lowering: answers are not compared"
fi
program=$(program_of ggdesk)
[ -n "$program" ] || skip "BUILT names a folder without ggdesk"

python3 - "$program" "$plain" "$work" "$here/crates/ggdesk/stdin" "$programs" "$seed" <<'PY'
import re
import resource
import sys

from common import answered, functions as source_of, listed, put, written

program, plain, work, worked = sys.argv[1:5]
programs, first_seed = int(sys.argv[5]), int(sys.argv[6])
ROUNDS = 15
MORE = 10
TURNS = 10_000
AREA = 262_144  # the length of the second stack's area


def told(words):
    return written(words).decode("latin-1")


def lowered(rows):
    """What `ggdesk` writes of sources; an empty line stands behind each, or a line that says what is done with it."""
    return answered(program, "lowering", rows.encode("latin-1"))


def functions(lines):
    """The functions of a listing: the words of their heads, and their items."""
    found = []
    for line in lines:
        words = line.split()
        if line.lstrip().startswith("function "):
            found.append((words[1:], []))
        elif words and found:
            found[-1][1].append(words)
    return found


def number(word, head):
    return int(word[len(head) + 1 : -1]) if word.startswith(head + "[") else None


class Meeting:
    """Two functions walked side by side: temporaries and labels may have other numbers, and are met in pairs. A pair of temporaries
    holds at a label where it holds on every way there."""

    def __init__(self, automatic):
        self.automatic, self.labels, self.coming = automatic, {}, {}
        self.temporaries, self.reached = {}, True

    def word(self, mine, other):
        slot, that = number(mine, "Loc"), number(other, "Loc")
        if slot is not None and that is not None:
            return self.temporaries.get(slot) == that if slot >= self.automatic else slot == that
        value, that = number(mine, "Const"), number(other, "Const")
        if value is not None and that is not None:
            return (value - that) % 2**32 == 0
        label, that = re.search(r"L\d+", mine), re.search(r"L\d+", other)
        if label and that:
            return self.label(label.group(), that.group()) and label.start() == that.start()
        return mine == other

    def label(self, mine, other):
        if mine not in self.labels and other in self.labels.values():
            return False
        return self.labels.setdefault(mine, other) == other

    def begins(self, mine, other):
        """A local becomes a value."""
        if mine < self.automatic or other < self.automatic:
            return mine == other
        self.temporaries = {slot: that for slot, that in self.temporaries.items() if that != other}
        self.temporaries[mine] = other
        return True

    def arrives(self, label):
        ways = self.coming.get(label, []) + ([self.temporaries] if self.reached else [])
        met = set.intersection(*(set(way.items()) for way in ways)) if ways else set()
        self.temporaries, self.reached = dict(met), True

    def leaves(self, words):
        if words[0].startswith(("Cbr[", "Jump[")):
            label = re.search(r"L\d+", " ".join(words[:2])).group()
            self.coming.setdefault(label, []).append(dict(self.temporaries))
        if words[0].startswith("Jump[") or words[0] == "Ret":
            self.temporaries, self.reached = {}, False

    def item(self, mine, other):
        if len(mine) != len(other):
            return False
        if mine[0].startswith("Save[") and other[0].startswith("Save["):
            return self.begins(number(mine[0], "Save"), number(other[0], "Save"))
        if mine[0] == other[0] == "AssignL" and mine[1].startswith("Loc[") and other[1].startswith("Loc["):
            return all(map(self.word, mine[2:], other[2:])) and self.begins(number(mine[1], "Loc"), number(other[1], "Loc"))
        if not all(map(self.word, mine, other)):
            return False
        if mine[0].endswith(":"):
            self.arrives(mine[0][:-1])
        self.leaves(mine)
        return True


def same_function(mine, other):
    head, items = mine
    # name, args N, locals N, need N, automatic N
    wanted, expected = other
    if items[-1] != ["Ret", "Zero"] or head != wanted[: len(head)]:
        return False
    meeting = Meeting(int(wanted[-1]))
    return len(items) == len(expected) and all(map(meeting.item, items, expected))


def blocks(text):
    return [block.split("\n") for block in text.rstrip("\n").split("\n\n")]


def compare_trees(rows, table):
    wrong = 0
    ours, theirs = blocks(lowered(rows)), blocks(told([plain, "show", table]))
    assert len(ours) == len(theirs) == programs, (len(ours), len(theirs))
    items, blocked = 0, 0
    for mine, other in zip(ours, theirs):
        both = functions(line for line in mine if line.startswith("  ")), functions(other)
        items += sum(len(f[1]) for f in both[0])
        blocked += any(f"Const[{AREA}]" in item for f in both[0] for item in f[1] if item[0].startswith("Cbr[Geu"))
        if len(both[0]) != len(both[1]) or not both[0] or not all(map(same_function, *both)):
            wrong += 1
            print(f"{mine[0]}: the trees differ")
    print(f"{programs} programs of {items} items, {blocked} with memory locals: the trees of {wrong} differ")
    return wrong


def agrees(line):
    found = re.fullmatch(r"  source (.*), trees (.*), (.*)", line)
    if not found:
        return False
    source, trees, output = found.groups()
    if source.startswith("ended") or source == "trapped":
        return trees == source and output == "the same output"
    return output in ("the same output", "more output")


def compare_runs(rows):
    """Runs each program of a table and its trees; a source that is refused has no run."""
    lines = lowered("".join(f"{row}\n=> run {TURNS}\n" for row in rows.rstrip("\n").split("\n\n"))).rstrip("\n").split("\n")
    wrong, ends = 0, {}
    for turn, line in enumerate(lines):
        end = line.split()[1].rstrip(",") if line.startswith("  source ") else "refused"
        ends[end] = ends.get(end, 0) + 1
        if end != "refused" and not agrees(line):
            wrong += 1
            print(f"program {turn}:{line}")
    print(f"{len(lines)} programs ({listed(ends)}): the runs of {wrong} differ")
    return wrong


def worked_programs(given):
    """The sources with worked meanings: the rows that begin with `source`, then a source, its number and its input, with `@` between."""
    with open(given) as file:
        rows = (line.split("@") for line in file.read().splitlines())
        return "\n\n".join(row[1] for row in rows if row[0] == "source") + "\n"


def processor():
    """The seconds of processor time of all programs that were run."""
    used = resource.getrusage(resource.RUSAGE_CHILDREN)
    return used.ru_utime + used.ru_stime


def spent(lower, path, count):
    begin = processor()
    answers = lower(path, count)
    assert re.fullmatch(r" *\d+ items\n", answers), answers
    return processor() - begin


def count_ours(path, count):
    with open(path) as file:
        return lowered(f"{file.read()}=> count {count}\n")


def measure(runners, paths):
    """For each runner and source the least seconds of reading, typing and lowering once, and those of one lowering alone. The rounds go
    over all of them, so that other work on the machine meets them alike."""
    counts = {"once": 1, "again": 1 + MORE}
    least = {}
    for _ in range(ROUNDS):
        for who, runner in runners.items():
            for name, path in paths.items():
                for turn, count in counts.items():
                    seconds = spent(runner, path, count)
                    least[who, name, turn] = min(seconds, least.get((who, name, turn), seconds))
    alone = {(who, name): (least[who, name, "again"] - least[who, name, "once"]) / MORE for who in runners for name in paths}
    return {(who, name): (least[who, name, "once"], alone[who, name]) for who in runners for name in paths}


def compare_times():
    """The growth of lowering alone is told and not judged: trees of 1 MiB no longer fit the processor's cache, for either program."""
    runners = {"ggdesk": count_ours}
    if plain:
        runners["plain"] = lambda path, count: told([plain, path, "count", str(count)])
    paths, slow = {}, 0
    for name, length in (("100 KiB", 102_400), ("1 MiB", 1_048_576)):
        paths[name] = f"{work}/{length}.c"
        put(paths[name], source_of(length=length)[0])
    found = measure(runners, paths)
    for name in paths if plain else ():
        for what, ours, theirs in zip(("whole", "lowering alone"), found["ggdesk", name], found["plain", name]):
            print(f"{name}, {what}: {ours:.4f} s against {theirs:.4f} s, {ours / theirs:.2f} times (at most 4)")
            slow += name == "1 MiB" and ours > 4 * theirs
    for who in runners:
        whole, alone = (large / small for small, large in zip(found[who, "100 KiB"], found[who, "1 MiB"]))
        print(f"1 MiB against 100 KiB, {who}: whole {whole:.1f} times (at most 12), lowering alone {alone:.1f}")
        slow += who == "ggdesk" and whole > 12
    return slow


wrong = compare_runs(worked_programs(worked))
if plain:
    table = f"{work}/table.txt"
    rows = told([plain, "generate", str(first_seed), str(programs)])
    put(table, rows.encode("latin-1"))
    wrong += compare_trees(rows, table) + compare_runs(rows)
sys.exit(1 if compare_times() or wrong else 0)
PY
