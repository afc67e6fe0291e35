#!/bin/sh
# Compares `ggvax run` with a plain Rust runner of the same texts: the answers on 1,000 generated texts, which must be equal, and the
# instructions a second on six texts; it tells how long a text of one instruction takes too.
# Usage: bench/run.sh [TEXTS [SEED]]; TEXTS (default 1000) generated texts from the seed SEED (default 1) on.
# VAX_REFERENCE names the folder of the plain runner, a Cargo project whose commands are `run A N` and `gentext S`, `genwild S`,
# `genbad S`. Where it isn't set or isn't there, nothing is compared.
set -eu
. "$(dirname -- "$0")/common.sh"
texts=${1:-1000}
seed=${2:-1}

plain=$(plain_of "${VAX_REFERENCE:-}")
[ -n "$plain" ] || skip "VAX_REFERENCE names no folder of a plain runner"
program=$(program_of ggvax)
[ -n "$program" ] || skip "BUILT names a folder without ggvax"

python3 - "$program" "$plain" "$work" "$texts" "$seed" <<'PY'
import os
import sys

from common import Done, answer, compare_runs, put, written

program, plain, work = sys.argv[1:4]
texts, first_seed = int(sys.argv[4]), int(sys.argv[5])
os.chdir(work)
HEAD = "\t.text\n\t.globl\t_main\n_main:\n\t.word\t0\n"


def ours(path, count, given):
    return answer([program, "run", path, str(count)], given)


def theirs(path, count, given):
    return answer([plain, "run", path, str(count)], given)


def generate(turn, seed):
    """The word of a text of one of three kinds, and the text."""
    kind = ("gentext", "genwild", "genbad")[turn % 3]
    return kind, written([plain, kind, seed])


LOOPS = {
    "registers": "\tmovl\t$4000000,r1\nL1:\n\taddl2\tr1,r0\n\txorl2\t$85,r0\n\tsubl2\t$1,r1\n\ttstl\tr1\n\tjneq\tL1\n\tret\n",
    "stack": "\tmovl\t$3000000,r1\nL1:\n\tpushl\tr1\n\taddl2\t$3,(sp)\n\tmovl\t(sp)+,r2\n\tdecl\tr1\n\tjneq\tL1\n\tret\n",
    "calls": "\tmovl\t$600000,r6\nL1:\n\tpushl\tr6\n\tcalls\t$1,_f\n\tdecl\tr6\n\tjneq\tL1\n\tret\n"
    "_f:\n\t.word\t4\n\tmovl\t4(ap),r2\n\tmull2\tr2,r2\n\tmovl\tr2,r0\n\tret\n",
    # Up to 4,002 calls are live at once.
    "recursion": "\tmovl\t$1000,r6\nL1:\n\tpushl\t$4000\n\tcalls\t$1,_f\n\tdecl\tr6\n\tjneq\tL1\n\tret\n"
    "_f:\n\t.word\t0\n\tsubl3\t$1,4(ap),r0\n\tjlss\tL2\n\tpushl\tr0\n\tcalls\t$1,_f\nL2:\n\tret\n",
    "multiplications, divisions and shifts": "\tmovl\t$3000000,r6\n\tmovl\t$77777,r2\nL1:\n\tmull2\t$12345,r2\n\tdivl3\t$7,r2,r3\n"
    "\tashl\t$-3,r3,r4\n\tmull3\tr3,r4,r5\n\tashl\t$2,r5,r2\n\tdivl2\t$3,r2\n\tdecl\tr6\n\tjneq\tL1\n\tret\n",
    "data area": "\tmovl\t$3000000,r6\nL1:\n\tbicl3\t$-1024,r6,r1\n\taddl3\t_a[r1],_b,_a[r1]\n\tmovl\t_a[r1],r2\n\taddl2\tr2,_b\n"
    "\tcvtwl\t_c,r3\n\tmovb\t_d,_c\n\tdecl\tr6\n\tjneq\tL1\n\tret\n",
}
# The data areas of loops that have one.
AREAS = {"data area": "_a:\n\t.space\t4096\n_b:\n\t.long\t7\n_c:\n\t.word\t3\n_d:\n\t.byte\t5\n"}
STEPS = 20_000_000
ROUNDS = 3


def seconds(runner, path):
    """The least processor seconds of so many steps of a text."""
    runs = [Done([runner, "run", path, str(STEPS)]) for _ in range(ROUNDS)]
    assert all(done.status in (0, 16) for done in runs), [done.report for done in runs]
    return min(done.seconds for done in runs)


def compare_speed():
    """Processor seconds of the same steps; the plain runner is the baseline."""
    slow = 0
    for name, body in LOOPS.items():
        path = f"{work}/loop.s"
        put(path, f"\t.data\n{AREAS.get(name, '')}{HEAD}{body}")
        wanted, mine = seconds(plain, path), seconds(program, path)
        ratio = wanted / mine
        slow += ratio < 1 / 3
        print(f"{name}: {mine:.2f} s against {wanted:.2f} s, {ratio:.2f} of the plain runner's speed (at least 0.33)")
    return slow


def tell_start():
    """Processor milliseconds of a text of one instruction, which are those of the program's start."""
    path = f"{work}/start.s"
    put(path, f"\t.data\n{HEAD}\tret\n")
    wanted, mine = seconds(plain, path), seconds(program, path)
    print(f"start: {1000 * mine:.1f} ms against {1000 * wanted:.1f} ms")


wrong = compare_runs("texts", texts, first_seed, generate, f"{work}/text.s", ours, theirs)
slow = compare_speed()
tell_start()
sys.exit(1 if wrong or slow else 0)
PY
