#!/bin/sh
# Refuses a command one of its requests for memory: each of the first 300, each whose number is a power of two, and each of the last 20; and
# then that one with all behind it. Each run must end with status 2, or with the answer of the run that gets all its memory. What it wrote
# is a front of what that run writes, and at status 2 it told a front of the line of that status.
# Usage: bench/refused.sh [SECONDS [SEED]]; behind those, for SECONDS (default 0), requests picked at random from the seed SEED (default 1).
# It needs a C compiler, and a program that has its memory from the system's C library.
set -eu
. "$(dirname -- "$0")/common.sh"

program=$(program_of ggvax)
[ -n "$program" ] || skip "BUILT names a folder without ggvax"
command -v "${CC:-cc}" >/dev/null || skip "there is no C compiler"

python3 - "$program" "$(preloaded refuse)" "$here/examples/vax.gg" "$work" "${1:-0}" "${2:-1}" <<'PY'
import os
import random
import sys
import time

from common import FIBONACCI, HI, answer, put, written

program, library, description, work = sys.argv[1:5]
seconds, seed = float(sys.argv[5]), sys.argv[6]
os.chdir(work)
FIRST, LAST = 300, 20
NO_MEMORY = b"ggvax: no memory\n"
put("fib.c", FIBONACCI)
put("hi.s", HI)
put("hi.img", written([program, "image", "hi.s"]))
COMMANDS = (
    ("check", description),
    ("compile", description, "fib.c"),
    ("run", "hi.s", "7"),
    ("meaning", "fib.c", "1000000"),
    ("load", description, "1"),
    ("image", "hi.s"),
    ("text", "hi.img"),
)


def called(words, **more):
    return answer([program, *words], timeout=120, env={"LD_PRELOAD": library, **more})


class Command:
    """A command's words, its answer, how many requests it makes, and how the runs ended that were refused some."""

    def __init__(self, words):
        self.words = words
        self.wanted = called(words, REQUESTS="requests")
        with open("requests") as file:
            self.requests = int(file.read())
        self.ended = {"alone": [0, 0], "with all behind it": [0, 0]}
        self.wrong = 0

    def numbers(self):
        powers = {1 << k for k in range(self.requests.bit_length())}
        numbers = powers | set(range(1, FIRST + 1)) | set(range(self.requests - LAST + 1, self.requests + 1))
        return sorted(n for n in numbers if 1 <= n <= self.requests)

    def refuse(self, number):
        for how, mark in zip(self.ended, ("", "-")):
            status, out, report = found = called(self.words, REFUSE=f"{number}{mark}")
            front = self.wanted[1].startswith(out) and NO_MEMORY.startswith(report)
            if found == self.wanted or status == 2 and front:
                self.ended[how][found == self.wanted] += 1
            else:
                self.wrong += 1
                print(f"{' '.join(self.words)}: request {number}{mark} refused: {found}")

    def tell(self):
        ends = (f"{how}: {short} of status 2, {same} as ever" for how, (short, same) in self.ended.items())
        print(f"{self.words[0]}, {self.requests} requests, refused {'; '.join(ends)}")


commands = [Command(words) for words in COMMANDS]
for command in commands:
    for number in command.numbers():
        command.refuse(number)
chance, end = random.Random(seed), time.monotonic() + seconds
while time.monotonic() < end:
    command = chance.choice(commands)
    command.refuse(chance.randint(1, command.requests))
for command in commands:
    command.tell()
wrong = sum(command.wrong for command in commands)
print(f"{wrong} runs ended otherwise")
sys.exit(1 if wrong else 0)
PY
