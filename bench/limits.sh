#!/bin/sh
# What the commands take of files of the greatest lengths, each of one shape that is heavy for some part (bench/shapes.py): processor
# seconds, memory, and how large the stack became. Each run has a stack of 2 MiB, must end with a status other than 2 and by no signal, and
# within 60 seconds and 4 GiB. The table is written in the form of docs/BENCHMARKS.md.
# Usage: bench/limits.sh [LENGTH [WORD]]: sources and texts have at most LENGTH bytes (default 67,108,864, the most that a text has; a
# source has at most 1,048,576); with WORD only the shapes whose command and name have it.
# It needs a C compiler for the stacks.
set -eu
. "$(dirname -- "$0")/common.sh"

program=$(program_of ggvax)
[ -n "$program" ] || skip "BUILT names a folder without ggvax"
command -v "${CC:-cc}" >/dev/null || skip "there is no C compiler"

python3 - "$program" "$(preloaded peak)" "$here/examples/vax.gg" "$work" "${1:-67108864}" "${2:-}" <<'PY'
import os
import resource
import sys

from common import Done, put
from shapes import DEEP, SOURCES, TEXTS, descriptions, filled

program, library, description, work, length, word = sys.argv[1:]
os.chdir(work)
SECONDS, GIB, STACK = 60, 4, 2048
bad, highest = [], {}


def limits():
    resource.setrlimit(resource.RLIMIT_STACK, (STACK << 10, STACK << 10))
    resource.setrlimit(resource.RLIMIT_CPU, (4 * SECONDS, 4 * SECONDS))


def see(name, *words):
    """Runs a command on the file, and tells a row of the table. The answer is what was written."""
    row = f"`{words[0]}` | {name}"
    if word not in row:
        return b""
    put("peak", "0 0")
    done = Done([program, *words], env={"LD_PRELOAD": library, "PEAK": "peak"}, preexec_fn=limits)
    with open("peak") as file:
        held, stack = map(int, file.read().split())
    said = done.report.decode(errors="replace").split("\n")[0].removeprefix("ggvax: ")
    print(f"| {row} | {f'{done.status} {said}'.strip()} | {done.seconds:.1f} | {held >> 10} | {stack} |", flush=True)
    highest[words[0]] = max(highest.get(words[0], (0, "")), (stack, name))
    if done.status < 0 or done.status == 2 or done.seconds > SECONDS or held > GIB << 20 or stack >= STACK:
        bad.append(row)
    return done.written


def shapes():
    with open(description) as file:
        for name, made in descriptions(file.read()).items():
            put("shape", made)
            see(name, "check", "shape")
    for name, shape in {**SOURCES, **DEEP}.items():
        put("shape", filled(*shape, min(int(length), 1_048_576)))
        see(name, "meaning", "shape", "1000")
        see(name, "compile", description, "shape")
    for name, shape in TEXTS.items():
        put("shape", filled(*shape, int(length)))
        see(name, "run", "shape", "1000")
        image = see(name, "image", "shape")
        if image:
            put("shape.img", image)
            see(name, "text", "shape.img")


print("| Command | Shape | Answer | Seconds | MiB | KiB of stack |\n|---|---|---|---|---|---|")
shapes()
for command, (stack, name) in highest.items():
    print(f"{command}: at most {stack} KiB of stack ({name})")
print(f"{len(bad)} over the limits: {', '.join(bad)}" if bad else "none over the limits")
sys.exit(1 if bad else 0)
PY
