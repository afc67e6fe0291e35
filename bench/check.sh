#!/bin/sh
# Compares `ggvax check` with a plain Rust program: on the shipped rules (in version 1), on random small ones, which have a rule for each
# token and some patterns more, and on changed ones, from which rules are dropped and to which chain rules, restrictions and classes that
# turn in a circle are added. Both must say the same: that a description is accepted, and then which rule isn't shown; or that some tree
# blocks or loops, and then the plain program parses the tree that `ggvax check` tells to that very end. Where `ggdesk` is there, the
# numbers of tuples must be the same too. The shipped description may take at most 1.5 times the plain program's processor time, and 64 MiB.
# Usage: bench/check.sh [SMALL [CHANGED [RULES]]]; so many small (default 500) and so many changed descriptions (default 20: each takes as
# long as the shipped one). With RULES, a description of so many rules comes last, with some millions of tuples: it may take at most 1 GiB.
# MD_REFERENCE names the folder of the plain program, a Cargo project with the modules that bench/descriptions_plain.rs names: where it
# isn't set or isn't there, nothing is compared. BUILT may name a folder with programs that were built before; else they are built here.
set -eu
. "$(dirname -- "$0")/common.sh"
small=${1:-500}
changed=${2:-20}
rules=${3:-0}

plain=$(plain_of "${MD_REFERENCE:-}" descriptions_plain.rs)
[ -n "$plain" ] || skip "MD_REFERENCE names no folder of a plain program"
program=$(program_of ggvax)
counter=$(program_of ggdesk)
[ -n "$program" ] || echo "there is no ggvax: what it says is not compared"
[ -n "$counter" ] || echo "there is no ggdesk: the numbers of tuples are not compared"

python3 - "$program" "$counter" "$plain" "$work" "$here/examples/vax1.gg" "$small" "$changed" "$rules" <<'PY'
import itertools
import os
import random
import re
import sys

from common import Done, listed, put

program, counter, plain, work, shipped = sys.argv[1:6]
smalls, changes, many = int(sys.argv[6]), int(sys.argv[7]), int(sys.argv[8])
os.chdir(work)
random.seed(1)
ROUNDS = 5
OK, FULL, BLOCKS, LOOPS, POOL_SMALL, UNSHOWN = 0, 9, 10, 11, 12, 13


def parts(text):
    """The lines before the rules, and the lines of each rule."""
    head, rules = [], []
    for line in text.split("\n"):
        if line.startswith("rule "):
            rules.append([line])
        elif rules and line.startswith(" "):
            rules[-1].append(line)
        elif not rules:
            head.append(line)
    return head, rules


def placed(rules, rule):
    rules.insert(random.randrange(len(rules) + 1), rule)


def changed(head, rules):
    """Some rules less, some chains more, some rules restricted, or two classes that become each other."""
    head, rules = list(head), [list(rule) for rule in rules]
    for _ in range(random.randint(0, 2)):
        del rules[random.randrange(len(rules))]
    if random.random() < 0.3:
        placed(rules, ["rule rval : reg", "  give %1"])
    if random.random() < 0.3:
        placed(rules, ["rule reg : rval", "  do movl %1,%0", "  give fresh"])
    if random.random() < 0.3:
        at = next(n for n, line in enumerate(head) if line.startswith("class stmt"))
        head[at:at] = ["class pp Value l", "class qq Value l"]
        for rule in ("pp : qq", "qq : pp", "qq : Loc", "rval : pp", "rval : qq", "qq : rval", "pp : reg"):
            if random.random() < 0.7:
                placed(rules, [f"rule {rule}", "  give %1"])
    if random.random() < 0.3:
        for rule in rules:
            symbols = rule[0].split()[3:]
            constants = [n + 1 for n, symbol in enumerate(symbols) if symbol in ("con", "Const")]
            if constants and random.random() < 0.3:
                rule.insert(1, f"  if range {constants[0]} 0 63")
    return "\n".join(head + [line for rule in rules for line in rule]) + "\n"


SMALL = """version 1
target vax
pool r0 r1 r2 r3 r4 r5
class reg Reg
class val Value l
class wval Value w
class bval Value b
class lpl Place l
class wpl Place w
class bpl Place b
class con Con
class ea Ea
class stmt Nothing
spill value b movb %1,%0
spill value w movw %1,%0
spill value l movl %1,%0
spill place b movab %1,%0
spill place w movaw %1,%0
spill place l moval %1,%0
spill ea movab %1,%0
reload movl %1,%0
"""
CONSTANTS = "Zero One Two Four Eight Const".split()
UNARY = "Neg Com".split()
BINARY = "Plus Minus Mul Div Mod And Or Xor Lsh Rsh".split()
EACH = (
    [f"con : {token}" for token in CONSTANTS]
    + [f"val : {token} val" for token in UNARY]
    + [f"val : {token} val val" for token in BINARY]
    + "val : con|val : reg|reg : val|val : Gaddr|lpl : Loc|lpl : Arg|lpl : IndirL val|val : lpl".split("|")
    + "bpl : IndirB val|bval : bpl|wpl : IndirW val|wval : wpl".split("|")
    + "val : Sxb bval|val : Zxb bval|val : Sxw wval|val : Zxw wval|bval : Ncb val|wval : Ncw val".split("|")
    + "stmt : AssignB bpl bval|stmt : AssignW wpl wval|stmt : AssignL lpl val|stmt : Cbr val val|stmt : Push val|stmt : Ret val".split("|")
    + "stmt : Call|stmt : Save|stmt : Jump".split("|")
)


def pattern(depth):
    """A random tree pattern of a longword."""
    if depth == 0 or random.random() < 0.3:
        return [random.choice(["val", "reg", "con", "lpl", random.choice(CONSTANTS), "Gaddr", "Loc"])]
    if random.random() < 0.4:
        return [random.choice(UNARY)] + pattern(depth - 1)
    if random.random() < 0.3:
        return ["IndirL"] + pattern(depth - 1)
    return [random.choice(BINARY)] + pattern(depth - 1) + pattern(depth - 1)


def rule_of(line):
    """The rule's lines: what it gives doesn't matter here."""
    left, right = line.split(" : ")
    held = [n + 1 for n, symbol in enumerate(right.split()) if symbol[0].islower() or symbol in ("Const", "Gaddr", "Loc", "Arg")]
    given = "%1" if left == "con" else f"%{held[-1]}" if held else "$0"
    lines = [f"rule {line}"]
    constants = [n + 1 for n, symbol in enumerate(right.split()) if symbol in ("con", "Const")]
    if constants and random.random() < 0.1:
        lines.append(f"  if range {constants[0]} 0 63")
    if left == "stmt":
        return lines + ["  do ret", "  give nothing"]
    if left == "reg":
        return lines + [f"  do movl {f'%{held[-1]}' if held else '$0'},%0", "  give fresh"]
    return lines + [f"  give {given}"]


def small():
    """A rule for each token, now and then one less, and some patterns."""
    lines = [line for line in EACH if random.random() > 0.005]
    for _ in range(random.randint(0, 5)):
        right = pattern(3)
        if len(right) > 1:
            lines.append(f"{random.choice(['val', 'reg', 'val'])} : {' '.join(right)}")
    random.shuffle(lines)
    return SMALL + "\n".join("\n".join(rule_of(line)) for line in lines) + "\n"


def long_rules(count):
    """So many rules, up to 850, whose patterns have five to eight signs and complements before a value: they make many tuples."""
    words = [" ".join(word) for size in (8, 7, 6, 5) for word in itertools.product(UNARY, repeat=size)]
    values = [f"rule reg : {word} rval\n  do movl %{word.count(' ') + 2},%0\n  give fresh" for word in words[100:]]
    pushes = [f"rule stmt : Push {word} rval\n  do pushl %{word.count(' ') + 3}\n  give nothing" for word in words]
    return (values + pushes)[:count]


class Told(Done):
    """The same, with what it wrote and told as text."""

    def __init__(self, words, given=""):
        super().__init__(words, given)
        self.told, self.report = self.written.decode(), self.report.decode()


def difference(text):
    """How `ggvax check` ends, and what the plain program says otherwise, or nothing."""
    put("d.gg", text)
    mine = Told([program, "check", "d.gg"])
    other = Told([plain, "check", "d.gg"]).told.rstrip("\n").split("\n")
    first, _, rest = mine.report.removeprefix("ggvax: ").partition("\n")
    if mine.status in (OK, POOL_SMALL, UNSHOWN):
        kind, wanted = ("shown" if mine.status == OK else "not shown"), "\n".join(other[2:])
        same = other[1:2] == ["accepted"] and (wanted + "\n" if wanted else "") == mine.report.removeprefix("ggvax: ")
    elif mine.status in (BLOCKS, LOOPS):
        put("sample", rest)
        kind, end = first, Told([plain, "replay", "d.gg", "sample"]).told
        same = other[-1].startswith("refused") and kind in other[-1].split() and end.startswith(f"{kind} at ")
        other.append(f"its own parse of the tree: {end.rstrip()}")
    else:
        kind, same = first, first == other[-1] or mine.status == FULL and other[-1].startswith("too many")
    return kind, None if same else f"{mine.status}: {mine.report}against: " + "\n".join(other)


def tuples(texts):
    """The numbers of tuples by `ggdesk check` of each description that it accepts."""
    told = Told([counter, "check"], "=\n".join(texts)).told
    return [int(number) for number in re.findall(r"^accepted: \d+ item sets, (\d+) tuples$", told, re.M)]


def plain_tuples(texts):
    found = []
    for text in texts:
        put("d.gg", text)
        told = Told([plain, "check", "d.gg"]).told
        found += [int(number) for number in re.findall(r"(\d+) tuples\naccepted", told)]
    return found


def compare(what, texts):
    """The number of descriptions of which something else is said."""
    kinds, wrong = {}, 0
    for number, text in enumerate(texts):
        kind, other = difference(text)
        kinds[kind] = kinds.get(kind, 0) + 1
        if other:
            wrong += 1
            print(f"{what} {number}: {other}")
            put(f"{what}{number}.gg", text)
    print(f"{len(texts)} {what} descriptions ({listed(kinds)}): {wrong} differ", flush=True)
    return wrong


def compare_tuples(what, texts, at_once):
    wrong, counted = 0, 0
    for at in range(0, len(texts), at_once):
        some = texts[at : at + at_once]
        mine, other = tuples(some), plain_tuples(some)
        counted += len(mine)
        if mine != other:
            wrong += 1
            print(f"{what} {at} and behind: the numbers of tuples differ: {mine} against {other}")
    same = "some differ" if wrong else "all the same"
    print(f"the numbers of tuples of {counted} {what} descriptions that are accepted: {same}", flush=True)
    return wrong


def compare_speed(text):
    """The shipped description, each as often; the plain program does the same work."""
    put("vax.gg", text)
    mine = [Told([program, "check", "vax.gg"]) for _ in range(ROUNDS)]
    other = [Told([plain, "check", "vax.gg"]) for _ in range(ROUNDS)]
    least, wanted = min(done.seconds for done in mine), min(done.seconds for done in other)
    peak = max(done.peak for done in mine)
    print(f"the shipped description: {mine[0].told.rstrip()}, {other[0].told.split(chr(10))[0]}")
    print(f"  {least:.2f} s of processor against {wanted:.2f} s, {least / wanted:.1f} times (at most 1.5),", end=" ")
    print(f"{peak:.0f} MiB (at most 64)", flush=True)
    return least > 1.5 * wanted or peak > 64


def check_many(head, rules):
    """A description with so many rules, all trees of which are parsed; the templates of the added ones aren't shown."""
    put("many.gg", "\n".join(head + ["\n".join(rule) for rule in rules] + long_rules(many - len(rules))) + "\n")
    mine, other = Told([program, "check", "many.gg"]), Told([plain, "check", "many.gg"])
    said = mine.report.split("\n")[0]
    print(f"{many} rules: {said}; {other.told.split(chr(10))[0]}:", end=" ")
    print(f"{mine.seconds:.0f} s of processor against {other.seconds:.0f} s, {mine.peak / 1024:.2f} GiB (at most 1)", flush=True)
    return mine.status != UNSHOWN or mine.peak > 1024


text = open(shipped).read()
head, rules = parts(text)
some_small, some_changed = [small() for _ in range(smalls)], [changed(head, rules) for _ in range(changes)]
bad = []
if program:
    bad += [compare_speed(text), compare("small", some_small), compare("changed", some_changed)]
if counter:
    bad += [compare_tuples("small", some_small, 40), compare_tuples("changed", [text] + some_changed, 1)]
if program and many:
    bad.append(check_many(head, rules))
sys.exit(1 if any(bad) else 0)
PY
