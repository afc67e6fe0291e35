#!/bin/sh
# Generated sources of many functions, as the command `load` makes, compiles and runs them by the shipped description. The report of 1,000
# functions must be the same twice; its time, less that of one function, which is the description's check, may be at most 12 times that of 100,
# less the same; and the text of 1,000 functions must have its size in the report. Where a gcc is there, it says how the compiling of 1,000
# functions compares with gcc's at -O0, both from reading the source to writing the text; where none is there, that is skipped.
# Usage: bench/load.sh. It builds the program first, which needs its proof.
set -eu
. "$(dirname -- "$0")/common.sh"

program=$(program_of ggvax)
[ -n "$program" ] || skip "BUILT names a folder without ggvax"

python3 - "$program" "$here/crates/ggvax/data/vax.gg" "$work" <<'PY'
import os
import shutil
import sys

from common import answer, least, put

program, description, work = sys.argv[1:]


def source(k):
    """The source of k functions, as docs/commands.md says."""
    lines = ["int t[64];"]
    lines += [f"int f{i}(int x){{int y;y=x*{2 * i + 1}+{i};t[x&63]=t[y&63]+y;return y^(y>>3);}}" for i in range(k)]
    lines += ["int main(){int s;s=1;"]
    lines += [f"s=f{i}(s+{i});" for i in range(k)]
    lines += ["while(s){putchar(65+(s&15));s=(s>>4)&268435455;}", "putchar(10);return 0;}"]
    return "".join(line + "\n" for line in lines)


def best(words, times=3):
    """The least seconds of some runs, and what each of them answers."""
    taken, done = least(times, lambda: answer(words))
    return taken, *done


def load(k):
    taken, status, out, report = best([program, "load", description, str(k)])
    report = report.decode()
    print(f"load {k}: {taken:.2f} s, {report.strip()}")
    assert status == 0, f"status {status}"
    size = len(source(k))
    assert report.startswith(f"load {k}: source {size} bytes, "), "the source's size"
    assert report.endswith(f" output {len(out)} bytes, ended 0\n"), "the output's size"
    return taken, report


ground, _ = load(1)
few, _ = load(100)
many, report = load(1000)
share = (many - ground) / max(few - ground, 0.001)
print(f"1,000 functions take {share:.1f} times as long as 100, the description's check apart")
assert share <= 12

path = f"{work}/load.c"
put(path, source(1000))
taken, status, text, _ = best([program, "compile", description, path])
assert status == 0
assert f", text {len(text)} bytes, " in report, "the text's size"
compiling = taken - best([program, "check", description])[0]
if shutil.which("gcc") is None:
    print(f"compiling took {compiling:.2f} s; no gcc is there")
else:
    plain = best(["gcc", "-w", "-O0", "-S", "-o", os.devnull, path])[0]
    print(f"compiling took {compiling:.2f} s, gcc -O0 {plain:.2f} s: {compiling / plain:.1f} times")
PY
