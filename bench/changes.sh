#!/bin/sh
# Counts what changes save of which nothing is proved: the programs of examples/, as they are and with `register` before the automatic
# scalars that they declare in lines of their own, compiled by `ggvax`, and behind the changes `forward`, `dead` and `test` of
# `example_validated`, in this order. A text must run alike before and behind them.
# How many instructions a run executes is the least number of steps with which `ggvax run` tells its end.
# Usage: bench/changes.sh
#
# BUILT may name a folder with a `ggvax` and an `example_validated` that were built before.
set -eu
. "$(dirname -- "$0")/common.sh"

program=$(program_of ggvax)
[ -n "$program" ] || skip "BUILT names a folder without ggvax"
changer=$(program_of example_validated)
[ -n "$changer" ] || skip "BUILT names a folder without example_validated"

python3 - "$program" "$changer" "$work" "$here/examples" <<'PY'
import os
import re
import sys

from common import answer, put, written

program, changer, work, examples = sys.argv[1:5]
DECLARED = re.compile(r"^(\s+)((?:int|char|short)\s+[^;(){}\[\]]*;)\s*$")
STEPS = 1_000_000_000
GIVEN = {"echo": b"AB", "reverse": b"AB"}


def registered(source):
    """The source with `register` before the declarations that have a line of their own, no array, and no name to which & is applied."""
    addressed, lines = set(re.findall(r"&\s*([A-Za-z_]\w*)", source)), []
    for line in source.split("\n"):
        found = DECLARED.match(line)
        if found and not set(re.findall(r"[A-Za-z_]\w*", found.group(2))) & addressed:
            line = f"{found.group(1)}register {found.group(2)}"
        lines.append(line)
    return "\n".join(lines)


def executed(path, given):
    """What a text's run answers, and how many instructions it executes: with fewer steps it answers otherwise."""
    def run(steps):
        return answer([program, "run", path, str(steps)], given)

    told, low, high = run(STEPS), 0, 1
    while run(high) != told:
        low, high = high, 2 * high
    while high - low > 1:
        middle = (low + high) // 2
        low, high = (low, middle) if run(middle) == told else (middle, high)
    return told, high


def counted(name, source):
    """The instructions of a program's text and of the changed one, and of the runs of both."""
    path, given = os.path.join(work, name), GIVEN.get(name, b"")
    put(path + ".c", source)
    text = written([program, "compile", f"{examples}/vax.gg", path + ".c"])
    put(path + ".s", text)
    status, changed, _ = answer([changer, "forward", "dead", "test"], text)
    assert status == 0, name
    put(path + ".changed.s", changed)
    (one, before), (other, behind) = executed(path + ".s", given), executed(path + ".changed.s", given)
    assert one[:2] == other[:2], name
    return f"{before:,} | {behind:,}"


print("| Program | Instructions | Behind the changes | With `register` | Behind the changes |")
print("|---|---|---|---|---|")
for name in ("echo", "hanoi", "parentheses", "printing", "queens", "quicksort", "reverse", "sieve", "sums"):
    with open(f"{examples}/{name}.c") as file:
        source = file.read()
    given = ", on the input `AB`" if name in GIVEN else ""
    print(f"| `{name}.c`{given} | {counted(name, source)} | {counted(name, registered(source))} |", flush=True)
PY
