#!/bin/sh
# Compares what is said of templates with what a plain Rust program says: the effects of pattern and template in normal form, or the fault
# and its line. By `ggdesk templates`, which tells it of every rule: of the shipped ones (in version 1), of random templates of one to three
# lines, and of changed shipped descriptions, in whose lines operands are exchanged, sizes and holes are others, or lines are left out. By
# `ggvax check`, which tells the first refusal behind the check of the tables: of changed descriptions like bench/reloads.gg, which has few
# rules more than one for each token.
# Usage: bench/show.sh [TEMPLATES [CHANGED [WHOLE]]]; so many random templates (default 1000), changed shipped descriptions (default 100)
# and changed descriptions for `ggvax check` (default 100).
# MD_REFERENCE names the folder of the plain program, a Cargo project with the modules that bench/descriptions_plain.rs names: where it
# isn't set or isn't there, nothing is compared. BUILT may name a folder with programs that were built before; else they are built here.
set -eu
. "$(dirname -- "$0")/common.sh"
templates=${1:-1000}
changed=${2:-100}
whole=${3:-100}

plain=$(plain_of "${MD_REFERENCE:-}" descriptions_plain.rs)
[ -n "$plain" ] || skip "MD_REFERENCE names no folder of a plain program"
program=$(program_of ggvax)
teller=$(program_of ggdesk)
[ -n "$program" ] || echo "there is no ggvax: first refusals are not compared"
[ -n "$teller" ] || echo "there is no ggdesk: the effects of every rule are not compared"

python3 - "$program" "$teller" "$plain" "$work" "$here" "$templates" "$changed" "$whole" <<'PY'
import os
import random
import re
import subprocess
import sys

program, teller, plain, work, here = sys.argv[1:6]
templates, changes, wholes = (int(word) for word in sys.argv[6:9])
os.chdir(work)
random.seed(1)

VALUES = (
    "Plus reg rval|Plus rval rval|Plus con reg|Mul ea rval|Plus ea Mul Four reg|Sxb bval|Zxw wval|Minus Loc con|And Const rval|Plus reg reg"
    "|IndirL reg|IndirL Plus con reg|Or lpl lpl|Sxb bpl|Div rval reg|Lsh rval con|Neg Arg|Com rval|Mod reg reg"
).split("|")
STATEMENTS = (
    "AssignL lpl rval|AssignL IndirL reg rval|AssignB bpl bval|AssignB bpl Ncb rval|AssignW wpl wval|AssignL Loc Plus Arg con|Cbr rval rval"
    "|Cbr And rval reg Zero|Cbr reg con|Push Plus con reg|Ret rval|Cbr Sxb bval Sxb bval|AssignL lpl Div rval con"
).split("|")
ONE = "clrl clrw clrb incl decl tstb tstw tstl pushl".split()
TWO = (
    "movb movw movl mnegl mcoml cvtbl cvtwl cvtlb cvtlw movzbl movzwl movab movaw moval addl2 subl2 mull2 divl2 bisl2 bicl2 xorl2 bitl"
    " cmpb cmpw cmpl"
).split()
THREE = "addl3 subl3 mull3 divl3 bisl3 bicl3 xorl3 ashl".split()
HELD = "reg rval wval bval lpl wpl bpl con ea Loc Arg Const Four Zero".split()


def operand(symbols, held):
    """A hole of the pattern in one of the forms that its symbol may have, or now and then a number or a register."""
    if random.random() < 0.06:
        return random.choice(["$3", "$-32", "*$65540", "r0"])
    at = random.choice(held)
    hole, symbol = f"%{at + 1}", symbols[at]
    registers = [f"%{other + 1}" for other in held if symbols[other] == "reg"]
    forms = [hole]
    if symbol == "reg":
        forms += [hole, f"({hole})", f"8({hole})"]
    if symbol in ("con", "Const", "Four", "Zero"):
        forms = [f"${hole}", f"${hole}", f"$-{hole}", f"*${hole}"] + [f"{hole}({register})" for register in registers]
    if symbol == "ea":
        forms += [f"{hole}[{register}]" for register in registers]
    if symbol == "Loc":
        forms.append(f"*{hole}")
    return random.choice(forms)


def lines_of_template(symbols, held, has_zero):
    """One to three lines. The register of the result is mostly written before it is read, and the last line mostly writes the result."""
    lines, written = [], False
    count = random.choice((1, 1, 2, 2, 3))
    for number in range(count):
        operands = random.choice((1, 2, 2, 3))
        read = [("%0" if written and random.random() < 0.5 else operand(symbols, held)) for _ in range(operands - 1)]
        target = operand(symbols, held)
        if has_zero and random.random() < 0.8:
            target, written = "%0", True
        if symbols[0].startswith("Assign") and number == count - 1:
            target = "%2" if symbols[1] in HELD else f"(%{held[0] + 1})"
        lines.append(f"{random.choice((ONE, TWO, THREE)[operands - 1])} {','.join([*read, target])}")
    return lines


def template():
    """A rule with a random template."""
    is_statement = random.random() < 0.35
    pattern = random.choice(STATEMENTS if is_statement else VALUES)
    symbols = pattern.split()
    held = [at for at, symbol in enumerate(symbols) if symbol in HELD]
    give = random.choice(["scratch", "nothing"] if is_statement else ["fresh", "reuse"])
    lines = lines_of_template(symbols, held, give != "nothing")
    if symbols[0] == "Cbr":
        compared = ",".join(operand(symbols, held) for _ in range(2))
        lines[-1] = random.choice([f"cmpl {compared}", f"cmpb {compared}", f"bitl {compared}", f"tstl {operand(symbols, held)}"])
        lines.append("j%1 %L")
    if symbols[0] == "Ret":
        lines[-1:] = [f"movl {operand(symbols, held)},r0", "ret"]
    if symbols[0] == "Push":
        lines[-1] = f"pushl {random.choice(['%0', operand(symbols, held)])}" if give == "scratch" else f"pushl {operand(symbols, held)}"
    signed = "  if signed 1\n" if symbols[0] == "Cbr" and random.random() < 0.5 else ""
    left = "stmt" if is_statement else "reg"
    return f"rule {left} : {pattern}\n{signed}" + "".join(f"  do {line}\n" for line in lines) + f"  give {give}\n"


def changed_line(line):
    """A line of a template with one thing changed."""
    choice = random.randrange(4)
    if choice == 0:
        operands = re.split(r"(?<=[ ,])|(?=,)", line)
        places = [n for n, part in enumerate(operands) if "%" in part]
        if len(places) > 1:
            a, b = random.sample(places, 2)
            operands[a], operands[b] = operands[b], operands[a]
            return "".join(operands)
    if choice == 1:
        return re.sub(r"%([1-9])", lambda m: "%" + random.choice("123456"), line, count=1)
    if choice == 2:
        return re.sub(r"(?<=[a-z])[bwl](?=[23]? )", lambda m: random.choice("bwl"), line, count=1)
    return re.sub(r"%([0-9])(?![(\w])", random.choice([r"(%\1)", r"$%\1", r"*%\1", "r0", "%0"]), line, count=1)


def changed(text, most):
    """A description with up to so many lines changed, and now and then fewer registers."""
    lines = text.split("\n")
    for _ in range(random.randint(1, most)):
        at = random.choice([n for n, line in enumerate(lines) if line.startswith(("  do ", "  give %", "  give (", "spill ", "reload "))])
        if lines[at].startswith("  do ") and random.random() < 0.1:
            del lines[at]
        else:
            mark = "do " if lines[at].startswith("  do ") else " " if lines[at].startswith("  give") else "mov"
            head, mark, body = lines[at].rpartition(mark)
            lines[at] = head + mark + changed_line(body)
    if random.random() < 0.05:
        lines = [re.sub(r"^pool .*", "pool " + random.choice(["r0", "r0 r1"]), line) for line in lines]
    return "\n".join(lines)


def told(words, text):
    with open("d.gg", "w") as file:
        file.write(text)
    with open("d.gg") as given:
        return subprocess.run(words, stdin=given, stdout=subprocess.PIPE, stderr=subprocess.PIPE)


def lines_of(done):
    return done.stdout.decode().rstrip("\n").split("\n")


def is_read(text):
    return not lines_of(told([plain, "show", "d.gg"], text))[0].startswith("description line ")


class Tally:
    """How many of each kind there are, and what differs."""

    def __init__(self):
        self.kinds, self.wrong = {}, 0

    def add(self, kind, mine, other, text):
        self.kinds[kind] = self.kinds.get(kind, 0) + 1
        if mine != other:
            self.wrong += 1
            print(f"differ:\n{mine}\nagainst\n{other}\nof\n{text}", flush=True)

    def tell(self, what):
        kinds = ", ".join(f"{n} {kind}" for kind, n in sorted(self.kinds.items()))
        print(f"{what}: {kinds}; {self.wrong} differ", flush=True)
        return self.wrong


def kind_of(line):
    fault = re.search(r"line \d+: (\w+)$", line)
    return fault.group(1) if fault else "with another effect" if "but found" in line else "shown"


def compare_rules(tally, text):
    """Every rule of a description, and its lines that save and reload."""
    # Its first line names the subject.
    mine, other = lines_of(told([teller, "templates"], text))[1:], lines_of(told([plain, "show", "d.gg"], text))
    if len(mine) != len(other):
        return tally.add("of another number", mine[:1], other[:1], text)
    for one, that in zip(mine, other):
        tally.add(kind_of(that), one, that, "" if one == that else text)


def compare_first(tally, text):
    """The first refusal by `ggvax check`, where the tables are built and no tree stops the parse."""
    mine, other = told([program, "check", "d.gg"], text), lines_of(told([plain, "check", "d.gg"], text))
    said = mine.stderr.decode().removeprefix("ggvax: ").rstrip("\n")
    if mine.returncode == 8:
        return tally.add("no description", said, other[0], text)
    kind = "accepted" if not said else "another effect" if "\n" in said else re.sub(r"\d+", "N", said)
    tally.add(kind, said, "\n".join(other[2:]), text)


def shipped_rules(text):
    tally = Tally()
    compare_rules(tally, text)
    return tally.tell("the shipped description's rules and lines that save and reload")


def random_templates(head):
    """So many templates that can be read, in descriptions of 500 rules."""
    tally, rules = Tally(), []
    while len(rules) < templates:
        rule = template()
        if is_read(head + rule):
            rules.append(rule)
    for at in range(0, templates, 500):
        compare_rules(tally, head + "".join(rules[at : at + 500]))
    return tally.tell(f"{templates} random templates, each description with the lines that save and reload")


def changed_descriptions(text):
    tally, made = Tally(), 0
    while made < changes:
        other = changed(text, 8)
        if is_read(other):
            made += 1
            compare_rules(tally, other)
    return tally.tell(f"the rules of {changes} changed shipped descriptions")


def first_refusals(text):
    tally = Tally()
    for _ in range(wholes):
        compare_first(tally, changed(text, 2))
    return tally.tell(f"{wholes} changed descriptions by `ggvax check`")


shipped, by_token = open(f"{here}/examples/vax1.gg").read(), open(f"{here}/bench/reloads.gg").read()
head = by_token[: by_token.index("rule ")]
bad = []
if teller:
    bad += [shipped_rules(shipped), random_templates(head), changed_descriptions(shipped)]
if program:
    bad.append(first_refusals(by_token))
sys.exit(1 if any(bad) else 0)
PY
