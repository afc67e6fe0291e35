#!/bin/sh
# Compares the programs of examples/ with and without `register` before the automatic scalars that they declare in lines of their own: the
# bytes of their texts, and how many instructions, operands in memory and registers saved at calls are executed until the run ends. Both
# texts must run alike.
# Then it compiles generated programs in which a third of the automatic scalars is `register`, by bench/compile.sh with its four
# descriptions, and compares their runs with those of the sources by their meaning.
# Usage: bench/homes.sh [PROGRAMS [SEED]]; PROGRAMS (default 1000) generated programs from the seed SEED (default 1) on.
#
# VAX_REFERENCE names the folder of a plain runner, a Cargo project with the command `run A N`, in whose src/machine.rs each operand in
# memory is `Place::Mem` and each saved register is pushed to `saved`: a copy of it counts both. C_REFERENCE names that of a generator, a
# Cargo project with the command `gen SEED --memory-locals [--free]`: in a copy one in three scalars is `register`, where it has one in ten.
# Where one isn't set or isn't there, its part is left out. BUILT may name a folder with a `ggvax` that was built before.
set -eu
. "$(dirname -- "$0")/common.sh"
programs=${1:-1000}
seed=${2:-1}

program=$(program_of ggvax)
[ -n "$program" ] || skip "BUILT names a folder without ggvax"

if copy_plain "${VAX_REFERENCE:-}"; then
    python3 - "$work/plain/src/machine.rs" <<'PY'
import sys

path = sys.argv[1]
with open(path) as file:
    text = file.read()
COUNT = "fetch_add(1, std::sync::atomic::Ordering::Relaxed);"
for old, new in (
    ("        Ok(Place::Mem(a))\n", f"        MEMORY.{COUNT}\n        Ok(Place::Mem(a))\n"),
    ("saved.push(self.regs[r as usize]);", f"SAVED.{COUNT} saved.push(self.regs[r as usize]);"),
    ("Turn::Ended(s) => return (out, End::Ended(s), k),", "Turn::Ended(s) => { eprintln!(\"\\ncounts {k} {MEMORY:?} {SAVED:?}\"); return (out, End::Ended(s), k) }"),
    ("pub fn run(m: &mut Machine", "pub static MEMORY: std::sync::atomic::AtomicU64 = std::sync::atomic::AtomicU64::new(0);\n"
     "pub static SAVED: std::sync::atomic::AtomicU64 = std::sync::atomic::AtomicU64::new(0);\n\npub fn run(m: &mut Machine"),
):
    assert text.count(old) == 1, old
    text = text.replace(old, new)
with open(path, "w") as file:
    file.write(text)
PY
    counter=$(build_plain)
    python3 - "$program" "$counter" "$work" "$here/examples" <<'PY'
import os
import re
import subprocess
import sys

from common import answer, put

program, counter, work, examples = sys.argv[1:5]
DECLARED = re.compile(r"^(\s+)((?:int|char|short)\s+[^;(){}\[\]]*;)\s*$")


def registered(source):
    """The source with `register` before the declarations that have a line of their own, no array, and no name to which & is applied."""
    addressed, lines = set(re.findall(r"&\s*([A-Za-z_]\w*)", source)), []
    for line in source.split("\n"):
        found = DECLARED.match(line)
        if found and not set(re.findall(r"[A-Za-z_]\w*", found.group(2))) & addressed:
            line = f"{found.group(1)}register {found.group(2)}"
        lines.append(line)
    return "\n".join(lines)


def counted(name, source, given):
    path = os.path.join(work, name)
    put(path + ".c", source)
    text = subprocess.run([program, "compile", f"{examples}/vax.gg", path + ".c"], stdout=subprocess.PIPE, stderr=subprocess.PIPE, check=True).stdout
    put(path + ".s", text)
    status, out, _ = answer([program, "run", path + ".s", "1000000000"], given)
    told = answer([counter, "run", path + ".s", "1000000000"], given)
    assert (status, out) == told[:2], name
    return (status, out), [len(text), *map(int, told[2].split(b"counts ")[1].split()[:3])]


print("| Program | Text, in bytes | Instructions | Operands in memory | Registers saved |")
print("|---|---|---|---|---|")
for name in ("printing", "queens", "quicksort", "sieve"):
    with open(f"{examples}/{name}.c") as file:
        source = file.read()
    (one, plain), (other, homed) = counted("plain", source, b""), counted("homed", registered(source), b"")
    assert one == other, name
    print(f"| `{name}.c` | " + " | ".join(f"{a:,}, {b:,}" for a, b in zip(plain, homed)) + " |", flush=True)
PY
    rm -rf "$work/plain" "$work/target"
else
    echo "VAX_REFERENCE names no folder of a plain runner: nothing is counted"
fi

if copy_plain "${C_REFERENCE:-}"; then
    grep -q 'let reg = if self.rng.chance(10) { "register " }' "$work/plain/src/gen.rs"
    sed -i 's/let reg = if self.rng.chance(10) { "register " }/let reg = if self.rng.chance(33) { "register " }/' "$work/plain/src/gen.rs"
    C_REFERENCE=$work/plain BUILT=$(dirname -- "$program") sh "$here/bench/compile.sh" "$programs" "$seed"
else
    echo "C_REFERENCE names no folder of a generator: no generated program is compared"
fi
