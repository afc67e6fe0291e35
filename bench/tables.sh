#!/bin/sh
# Times `ggdesk tables` on the shipped description, which it reads and builds, and on a hostile one with too many item sets, which it
# refuses, against a plain Rust program on the same two.
# Usage: bench/tables.sh [ROUNDS]; the least of ROUNDS (default 20) runs counts for each.
# MD_REFERENCE names the folder of the plain program, a Cargo project whose command `states F` builds the item sets of the description
# in the file F and writes `states N .., rules R, ..`. Where it isn't set or isn't there, nothing is compared.
set -eu
. "$(dirname -- "$0")/common.sh"
rounds=${1:-20}

plain=$(plain_of "${MD_REFERENCE:-}")
[ -n "$plain" ] || skip "MD_REFERENCE names no folder of a plain program"
program=$(program_of ggdesk)
[ -n "$program" ] || skip "BUILT names a folder without ggdesk"

python3 - "$program" "$here/crates/gg_texts/src/vax.rt" "$plain" "$work" "$rounds" <<'PY'
import re
import sys

from common import answer, answered, least, put

program, texts, plain, work = sys.argv[1:5]
rounds = int(sys.argv[5])

HEAD = """version 1
target vax
pool r0
class reg Reg
class stmt Nothing
spill value b movb %1,%0
spill value w movw %1,%0
spill value l movl %1,%0
spill place b movab %1,%0
spill place w movaw %1,%0
spill place l moval %1,%0
spill ea movab %1,%0
reload movl %1,%0
"""
END = "rule stmt : Ret reg\n  do movl %2,r0\n  do ret\n  give nothing\n"


def hostile():
    """A rule for each number below 999: ten unary tokens are its binary digits."""
    rules = []
    for number in range(999):
        digits = " ".join("Com" if digit == "1" else "Neg" for digit in f"{number:010b}")
        rules.append(f"rule reg : {digits} Plus One Plus One One\n  give fresh\n")
    return HEAD + "".join(rules) + END


def shipped():
    """The text of the constant."""
    with open(texts) as file:
        return re.search(r'"(#.*)";', file.read(), re.S).group(1)


def counted(path):
    """The plain program's least seconds, and what it writes."""
    taken, done = least(rounds, lambda: answer([plain, "states", path]))
    assert done[0] == 0, done
    return taken, done[1].decode().strip()


def found_of(text):
    """The least seconds of `ggdesk`, and what it finds: its last line."""
    taken, told = least(rounds, lambda: answered(program, "tables", (text + "=>\n").encode()))
    return taken, told.rstrip("\n").split("\n")[-1].removeprefix("=> ")


slow = 0
for name, text, most in (("shipped", shipped(), 5), ("hostile", hostile(), 10)):
    path = f"{work}/{name}.gg"
    put(path, text)
    theirs, wanted = counted(path)
    ours, told = found_of(text)
    found = re.match(r"states (\d+) .*rules (\d+)", wanted)
    states, rules = int(found.group(1)), int(found.group(2))
    expected = f"{rules} rules, {states} item sets" if states <= 4096 else "more than 4096 item sets"
    assert told == expected, (told, expected)
    print(f"{name}: {told}; {ours / theirs:.1f} times the plain program's time (at most {most})")
    slow += ours > most * theirs
sys.exit(1 if slow else 0)
PY
