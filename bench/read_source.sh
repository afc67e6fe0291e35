#!/bin/sh
# Times `read_source`, which reads a C source with its types and its layout, on sources of 100 KiB and of 1 MiB of one mix, the larger
# with about 10,000 functions. The command `meaning` reads each source and then makes a single call, whose time is nothing beside.
# Usage: bench/read_source.sh
# C_REFERENCE names the folder of a plain reader, a Cargo project whose command is `read S`. Where it isn't set or isn't there, only the
# two sizes are compared.
set -eu
. "$(dirname -- "$0")/common.sh"

plain=$(plain_of "${C_REFERENCE:-}")
program=$(program_of ggvax)
[ -n "$program" ] || skip "BUILT names a folder without ggvax"

python3 - "$program" "$plain" "$work" <<'PY'
import sys

from common import answer, functions, least, put

program, plain, work = sys.argv[1:4]
ROUNDS = 7
PARTS = (
    "int f{n}(int a,char*b){{int i;for(i=0;i<a;i++){{b[i]=(char)(a*i+{n});if(b[i]>100)return b[i]-i;}}return a;}}\n",
    "short t{n}[4]={{1,-2,{n},'x',}};\n",
    "void g{n}(){{char*s;s=\"some text {n}\";while(*s)putchar(*s++);}}\n",
    "int u{n}(int x){{return x?f{n}(x-1,(char*)0)%7:(x&255)|(x>>3)&~x;}}\n",
)


def seconds(words, wanted):
    """The least seconds of some runs, each of which writes or tells what is wanted."""
    taken, done = least(ROUNDS, lambda: answer(words))
    assert done[0] == 0 and wanted in done[1:], done
    return taken


times, slow = {}, False
for name, length in (("100 KiB", 102_400), ("1 MiB", 1_048_576)):
    path = f"{work}/{length}.c"
    text, parts = functions(length=length, parts=PARTS, number=lambda turn: turn // len(PARTS))
    put(path, text)
    times[name] = seconds([program, "meaning", path, "1"], b"ended 0\n")
    told = f"{name}, {parts * 3 // 4} functions: {times[name]:.3f} s"
    if plain:
        theirs = seconds([plain, "read", path], b"ok\n")
        told += f" against {theirs:.3f} s, {times[name] / theirs:.2f} times (at most 4)"
        slow = slow or (length > 1_000_000 and times[name] > 4 * theirs)
    print(told)
ratio = times["1 MiB"] / times["100 KiB"]
print(f"1 MiB against 100 KiB: {ratio:.1f} times (at most 12)")
sys.exit(1 if slow or ratio > 12 else 0)
PY
