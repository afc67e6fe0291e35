#!/bin/sh
# Types the commands of the pages that a reader follows, and compares what the programs say with what the pages say: the lines that begin
# with a `$` of README.md, docs/first-description.md, docs/commands.md and docs/desk.md. Standard output and standard error are taken as one.
# It tells each command whose answer is another one, and how many were typed. First it compares the picture of the item sets with their
# graph (bench/picture.py).
# Usage: bench/tutorial.sh [PAGE ..] (default: these four)
# BUILT may name a folder with programs that were built before; where it lacks `ggdesk`, the commands that need it are left out.
set -eu
. "$(dirname -- "$0")/common.sh"
[ $# -gt 0 ] || set -- README.md docs/first-description.md docs/commands.md docs/desk.md

python3 "$here/bench/picture.py"
program=$(program_of ggvax)
[ -n "$program" ] || skip "BUILT names a folder without ggvax"
desk=$(program_of ggdesk)
[ -n "$desk" ] || echo "there is no ggdesk: what needs it is left out"

python3 - "$here" "$work" "$program" "$desk" "$@" <<'PY'
import difflib
import os
import re
import subprocess
import sys

from common import put

here, work, program, desk, *pages = sys.argv[1:]


def commands(page):
    """Each command of a page, with the lines of its answer. What a here-document holds belongs to its command, and so does what stands
    behind a backslash at the line's end."""
    with open(f"{here}/{page}") as file:
        blocks = re.findall(r"^```\n(.*?)^```$", file.read(), re.M | re.S)
    for block in blocks:
        typed, answer, end = [], [], None
        for line in block.splitlines():
            if end is not None:
                typed.append(line)
                end = None if line == end else end
            elif typed and not answer and typed[-1].endswith("\\"):
                typed.append(line)
            elif line.startswith("$ "):
                if typed:
                    yield "\n".join(typed), answer
                typed, answer = [line[2:]], []
                found = re.search(r"<<'(\w+)'", line)
                end = found and found[1]
            elif typed:
                answer.append(line)
        if typed:
            yield "\n".join(typed), answer


def answers(page, typed):
    """What one shell answers the commands, in a folder where the page's programs and examples are."""
    folder = f"{work}/{os.path.basename(page)}.d"
    os.mkdir(folder)
    os.symlink(program, f"{folder}/ggvax")
    os.symlink(f"{here}/examples", f"{folder}/examples")
    os.mkdir(f"{folder}/bin")
    if desk:
        os.symlink(desk, f"{folder}/bin/ggdesk")
    script = "".join(f"{{\n{it}\n}} >answer.{turn} 2>&1\n" for turn, it in enumerate(typed))
    put(f"{folder}/script", script)
    path = f"{folder}/bin:{os.environ['PATH']}"
    subprocess.run(["sh", "script"], cwd=folder, env={**os.environ, "PATH": path}, stdin=subprocess.DEVNULL)
    for turn in range(len(typed)):
        with open(f"{folder}/answer.{turn}", errors="replace") as file:
            yield file.read().splitlines()


def without_desk(rows):
    """The commands that need no desk: none that names it, or a function that does."""
    names = {"ggdesk"}
    for typed, answer in rows:
        if names & set(re.findall(r"\w+", typed.partition("\n")[0])):
            names.update(re.findall(r"^(\w+)\(\)", typed))
        else:
            yield typed, answer


same, others = 0, 0
for page in pages:
    rows = list(commands(page))
    if not desk:
        rows = list(without_desk(rows))
    for (typed, wanted), found in zip(rows, answers(page, [typed for typed, _ in rows])):
        if found == wanted:
            same += 1
            continue
        others += 1
        print(f"{page}: {typed.splitlines()[0]}")
        print("\n".join(difflib.unified_diff(wanted, found, "the page", "the program", lineterm="")))
print(f"{same + others} commands typed, {others} answered otherwise")
sys.exit(1 if others else 0)
PY
