#!/bin/sh
# Gives the commands files that are nearly right, for a stated time: descriptions, sources, texts and images that bench/mutants.py changes.
# Each run must end within 20 seconds of processor and 3 GiB, on a stack of 2 MiB, with a status that docs/commands.md gives its command
# other than 2; by no signal. A refusal is asked for twice and must be the same. What is accepted is used: by a description that is accepted
# the generated source of two functions must end alike on both sides, the text of an image must be the text that it was made of, and the
# image of a text the image. First come the files of bench/hostile/, the smallest that once gave trouble.
# Usage: bench/hostile.sh [SECONDS [SEED]] (default 60 and 1). A file that gives trouble is made smaller, and stays in bench/hostile/.
set -eu
. "$(dirname -- "$0")/common.sh"

program=$(program_of ggvax)
[ -n "$program" ] || skip "BUILT names a folder without ggvax"

python3 - "$program" "$here" "$work" "${1:-60}" "${2:-1}" <<'PY'
import hashlib
import os
import random
import resource
import sys
import time

from common import PARTS, Done, functions, listed, put, written
from mutants import mutant

program, here, work = sys.argv[1:4]
seconds, seed = float(sys.argv[4]), sys.argv[5]
os.chdir(work)
SECONDS, MIB, STACK = 20, 3 * 1024, 2 << 20
VAX = f"{here}/examples/vax.gg"
OF_DESCRIPTION = {0, 6, 8, 9, 10, 11, 12, 13}
STATUSES = {
    "check": OF_DESCRIPTION,
    "compile": OF_DESCRIPTION | {7, 14},
    "load": OF_DESCRIPTION | {16},
    "run": {0, 6, 15, 16, 17, 20},
    "meaning": {0, 6, 7, 16, 17, 18, 19},
    "image": {0, 6, 15},
    "text": {0, 6, 23},
}


class Trouble(Exception):
    pass


ended, longest, largest = {}, (0, ""), (0, "")


def limits():
    """The limits of a run; the address space has room above what is wanted, so that a run over it is seen."""
    for which, most in (("CPU", SECONDS + 5), ("AS", (MIB + 1024) << 20), ("STACK", STACK), ("CORE", 0)):
        resource.setrlimit(getattr(resource, f"RLIMIT_{which}"), (most, most))


def once(words, given):
    global longest, largest
    done = Done([program, *words], given, preexec_fn=limits)
    longest, largest = max(longest, (done.seconds, words[0])), max(largest, (done.peak, words[0]))
    if done.status not in STATUSES[words[0]]:
        raise Trouble(f"{words[0]}: status {done.status}, {done.report[:200]}")
    if done.seconds > SECONDS or done.peak > MIB:
        raise Trouble(f"{words[0]}: {done.seconds:.1f} s, {done.peak:.0f} MiB")
    return done


def run(*words, given=b""):
    """A run whose refusal is asked for twice."""
    done = once(words, given)
    ended.setdefault(words[0], {}).setdefault(done.status, 0)
    ended[words[0]][done.status] += 1
    if done.status:
        again = once(words, given)
        if (again.status, again.written, again.report) != (done.status, done.written, done.report):
            raise Trouble(f"{words[0]}: {done.status} {done.report[:80]}, then {again.status} {again.report[:80]}")
    return done


def try_description(name, _):
    if run("check", name).status == 0 and run("load", name, "2").status != 0:
        raise Trouble("load of a description that check accepts")


def try_source(name, chance):
    given = chance.randbytes(chance.randrange(40))
    meaning = run("meaning", name, "20000", given=given)
    if chance.random() < 0.05:
        text = run("compile", VAX, name)
        if text.status == 0:
            put("compiled.s", text.written)
            side = run("run", "compiled.s", "2000000", given=given)
            if meaning.status == 0 and (side.status, side.written, side.report) != (0, meaning.written, meaning.report):
                raise Trouble(f"both sides: {meaning.report}, {side.report}")


def try_text(name, chance):
    run("run", name, "20000", given=chance.randbytes(chance.randrange(40)))
    image = run("image", name)
    if image.status == 0:
        put("made.img", image.written)
        if run("text", "made.img").written != open(name, "rb").read():
            raise Trouble("the text of a text's image is another")


def try_image(name, chance):
    text = run("text", name)
    if text.status == 0:
        put("made.s", text.written)
        if run("image", "made.s").written != open(name, "rb").read():
            raise Trouble("the image of an image's text is another")
        run("run", "made.s", "20000", given=chance.randbytes(chance.randrange(40)))


TRIED = {"gg": try_description, "c": try_source, "s": try_text, "img": try_image}


def trouble_of(kind, data, turn):
    """What is wrong with the runs of a file, or nothing. Inputs, and whether a source is compiled, go by the turn."""
    put(f"tried.{kind}", data)
    try:
        TRIED[kind](f"tried.{kind}", random.Random(turn))
    except Trouble as trouble:
        return str(trouble)
    return None


def smaller(kind, data, turn, most=60):
    """The file without the pieces, halves first and then ever smaller ones, without which it gives trouble too."""
    end, size = time.monotonic() + most, max(1, len(data) // 2)
    while size and time.monotonic() < end:
        at = 0
        while at < len(data) and time.monotonic() < end:
            rest = data[:at] + data[at + size :]
            if trouble_of(kind, rest, turn):
                data = rest
            else:
                at += size
        size //= 2
    return data


def keep(kind, data, turn, trouble):
    data = smaller(kind, data, turn)
    name = f"{here}/bench/hostile/{hashlib.sha256(data).hexdigest()[:8]}.{kind}"
    put(name, data)
    print(f"{name}: {trouble}", flush=True)


def seeds():
    """Right files of each kind."""
    def read(name):
        with open(f"{here}/{name}", "rb") as file:
            return file.read()

    examples = sorted(os.listdir(f"{here}/examples"))
    found = {"gg": [read(f"examples/{name}") for name in examples if name.endswith(".gg")] + [read("bench/reloads.gg")]}
    found["c"] = [read(f"examples/{name}") for name in examples if name.endswith(".c")]
    found["c"] += [functions(1, parts=[part])[0].encode() for part in PARTS] + [functions(5)[0].encode()]
    found["s"], found["img"] = [], []
    for name in ("hanoi.c", "printing.c", "queens.c", "wild.c"):
        put("seed.c", read(f"examples/{name}"))
        found["s"].append(written([program, "compile", VAX, "seed.c"]))
    for text in found["s"]:
        put("seed.s", text)
        found["img"].append(written([program, "image", "seed.s"]))
    return found


chance, files, bad = random.Random(seed), 0, 0
for name in sorted(os.listdir(f"{here}/bench/hostile")):
    with open(f"{here}/bench/hostile/{name}", "rb") as file:
        trouble = trouble_of(name.rsplit(".", 1)[1], file.read(), seed)
    bad += bool(trouble)
    print(f"bench/hostile/{name}: {trouble or 'as it should'}")
right, end = seeds(), time.monotonic() + seconds
while time.monotonic() < end:
    kind = chance.choice(("gg", "c", "c", "c", "s", "s", "s", "img", "img", "img"))
    data = mutant(chance, kind, right[kind])
    files += 1
    turn = f"{seed} {files}"
    trouble = trouble_of(kind, data, turn)
    if trouble:
        bad += 1
        keep(kind, data, turn, trouble)
for words, statuses in ended.items():
    print(f"{words}: {listed(statuses, ' of status ')}")
print(f"{files} files, {bad} gave trouble; at most {longest[0]:.1f} s ({longest[1]}) and {largest[0]:.0f} MiB ({largest[1]})")
sys.exit(1 if bad else 0)
PY
