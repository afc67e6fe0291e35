#!/bin/sh
# Compares `ggvax meaning` with a plain Rust interpreter of the same sources: the answers on generated programs and on broken ones,
# which must be equal, and the seconds on a sieve, queens, a sort and a recursive function.
# Usage: bench/meaning.sh [PROGRAMS [SEED]]; PROGRAMS (default 200) generated programs from the seed SEED (default 1) on.
# C_REFERENCE names the folder of the plain interpreter, a Cargo project whose commands are `meaning S N INPUT`, `gen SEED` and
# `genbad SEED`, each with the word `--memory-locals`. Where it isn't set or isn't there, nothing is compared.
set -eu
. "$(dirname -- "$0")/common.sh"
programs=${1:-200}
seed=${2:-1}

plain=$(plain_of "${C_REFERENCE:-}")
[ -n "$plain" ] || skip "C_REFERENCE names no folder of a plain interpreter"
program=$(program_of ggvax)
[ -n "$program" ] || skip "BUILT names a folder without ggvax"

python3 - "$program" "$plain" "$work" "$programs" "$seed" <<'PY'
import sys

from common import answer, compare_runs, least, put, written

program, plain, work = sys.argv[1:4]
programs, first_seed = int(sys.argv[4]), int(sys.argv[5])


def ours(path, count, given):
    return answer([program, "meaning", path, str(count)], given)


def theirs(path, count, given):
    put(f"{work}/input", given)
    return answer([plain, "meaning", path, str(count), f"{work}/input", "--memory-locals"], b"")


def generate(turn, seed):
    """The words of a program of one of four kinds, and its source."""
    kind, *more = (["gen"], ["gen", "--free"], ["gen"], ["genbad"])[turn % 4]
    return " ".join([kind, *more]), written([plain, kind, seed, "--memory-locals", *more])


SOURCES = {
    "sieve": "char a[300000];int main(){int i,j,n;n=0;for(i=2;i<300000;i++){if(a[i])continue;n++;for(j=i+i;j<300000;j+=i)a[j]=1;}return n;}",
    "queens": "int q[9];int n;int free(int r,int c){int i;for(i=0;i<r;i++)if(q[i]==c||q[i]-c==r-i||c-q[i]==r-i)return 0;return 1;}"
    "void place(int r){int c;if(r==8){n++;return;}for(c=0;c<8;c++)if(free(r,c)){q[r]=c;place(r+1);}}int main(){place(0);return n;}",
    "sort": "int v[2000];int main(){int i,j,t;t=1;for(i=0;i<2000;i++){t=t*1103515245+12345;v[i]=t>>16&0x7fff;}"
    "for(i=1;i<2000;i++){t=v[i];for(j=i;j>0&&v[j-1]>t;j--)v[j]=v[j-1];v[j]=t;}for(i=1;i<2000;i++)if(v[i-1]>v[i])return 0;return v[0];}",
    "fib": "int fib(int n){if(n<2)return n;return fib(n-1)+fib(n-2);}int main(){return fib(24);}",
}
COUNT = 1_000_000_000
ROUNDS = 3


def seconds(run, path):
    taken, done = least(ROUNDS, lambda: run(path, COUNT, b""))
    assert done[0] == 0, done
    return taken


def compare_speed():
    """Seconds of the same runs; the plain interpreter is the baseline."""
    slow = 0
    for name, source in SOURCES.items():
        path = f"{work}/{name}.c"
        put(path, source)
        wanted, mine = seconds(theirs, path), seconds(ours, path)
        slow += mine > 4 * wanted
        print(f"{name}: {mine:.3f} s against {wanted:.3f} s, {mine / wanted:.1f} times (at most 4)")
    return slow


wrong = compare_runs("programs", programs, first_seed, generate, f"{work}/source.c", ours, theirs)
slow = compare_speed()
sys.exit(1 if wrong or slow else 0)
PY
