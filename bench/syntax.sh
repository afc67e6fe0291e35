#!/bin/sh
# Compares `ggdesk syntax`, which reads the tokens and phrases of a C source, with a plain Rust reader: the answers on 1,000 generated
# sources, which must be equal, and the times on sources of 100 KiB and of 1 MiB of one mix.
# Usage: bench/syntax.sh [SOURCES [SEED]]; SOURCES (default 1000) generated sources from the seed SEED (default 1) on.
# C_REFERENCE names the folder of the plain reader, a Cargo project whose commands are `read S`, `gen S` and `genbad S`. Where it isn't
# set or isn't there, only the two sizes are compared.
set -eu
. "$(dirname -- "$0")/common.sh"
sources=${1:-1000}
seed=${2:-1}

plain=$(plain_of "${C_REFERENCE:-}")
[ -n "$plain" ] || echo "C_REFERENCE names no folder of a plain reader: answers are not compared"
program=$(program_of ggdesk)
[ -n "$program" ] || skip "BUILT names a folder without ggdesk"

python3 - "$program" "$plain" "$work" "$sources" "$seed" <<'PY'
import re
import sys

from common import answered, functions, least, listed, put, written

program, plain, work = sys.argv[1:4]
sources, first_seed = int(sys.argv[4]), int(sys.argv[5])
ROUNDS = 7
KINDS = ("BadByte", "BadNumber", "LongName", "BadEscape", "BadChar", "Unclosed", "NotHere", "TooDeep")
PARTS = (
    "int f{n}(int a, char *b){{int i; for(i=0;i<a;i++){{b[i]=(char)(a*i+{n});if(b[i]>100)return b[i]-i;else a^=i<<2;}}return a;}}\n",
    "static short t{n}[4]={{1,-2,{n},'x',}};\n",
    "/* {n} */ void g{n}(void){{char *s=\"some text \\n {n}\"; while(*s) putchar(*s++);}}\n",
    "int u{n}(int x){{return x?f{n}(x-1,(char*)0)%7:(x&0xff)|(x>>3)&~x;}}\n",
)
# The text ends in a block: each reader reads all of it and answers the place of the end.
TAIL = "int main(){"


def ours(source):
    """Where the source first goes wrong. A row is one line, and its answer has a mark more, before the first wrong byte."""
    row = source.decode().replace("\n", "`")
    kind, _, marked = answered(program, "syntax", f"{row}\n".encode()).removesuffix("\n").partition(" ")
    if kind == "ok":
        return "ok\n"
    at = next(at for at in re.finditer("@", marked) if marked[: at.start()] + marked[at.end() :] == row).start()
    line = row.count("`", 0, at)
    return f"{line + 1}:{at - row.rfind('`', 0, at)}: {kind}\n"


def theirs(path):
    return written([plain, "read", path]).decode()


def reading(line):
    """The plain reader goes on to types: their faults are none of tokens and phrases."""
    return line if line == "ok\n" or line.split()[-1] in KINDS else "ok\n"


def compare_answers():
    path = f"{work}/source.c"
    wrong, kinds = 0, {}
    for turn in range(sources):
        kind = ("gen", "genbad", "genbad")[turn % 3]
        source = written([plain, kind, str(first_seed + turn)])
        put(path, source)
        mine, wanted = ours(source), reading(theirs(path))
        kinds[wanted.split()[-1]] = kinds.get(wanted.split()[-1], 0) + 1
        if mine != wanted:
            wrong += 1
            print(f"{kind} {first_seed + turn}: {mine!r}, wanted {wanted!r}")
    print(f"{sources} sources ({listed(kinds, ' of ')}): {wrong} differ")
    return wrong


def seconds(run):
    taken, line = least(ROUNDS, run)
    assert line.endswith(": NotHere\n"), line
    return taken


def compare_times():
    times, slow = {}, False
    for name, length in (("100 KiB", 102_400), ("1 MiB", 1_048_576)):
        path = f"{work}/{length}.c"
        source = functions(length=length, parts=PARTS, tail=TAIL, number=lambda turn: turn % 997)[0].encode()
        put(path, source)
        times[name] = seconds(lambda: ours(source))
        if plain:
            other = seconds(lambda: theirs(path))
            print(f"{name}: {times[name]:.3f} s against {other:.3f} s, {times[name] / other:.2f} times (at most 3)")
            slow = slow or (length > 1_000_000 and times[name] > 3 * other)
    ratio = times["1 MiB"] / times["100 KiB"]
    print(f"1 MiB against 100 KiB: {ratio:.1f} times (at most 12)")
    return slow or ratio > 12


wrong = compare_answers() if plain else 0
sys.exit(1 if compare_times() or wrong else 0)
PY
