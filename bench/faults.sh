#!/bin/sh
# Looks up each input of the tables of docs/faults.md, with its report, in the stored run of `ggdesk`, and names what doesn't stand there.
# It reads the stored files alone, which `rt ci` compares with what the program writes. Then it looks up each row's words in the table of
# `ggdesk why`, names what only one of the two has, and counts the kinds that the stored answers of `ggdesk why` say. Two kinds whose
# inputs are long are asked of the program, where BUILT names a folder that has it.
# Usage: bench/faults.sh
set -eu
. "$(dirname -- "$0")/common.sh"

python3 - "$here" "$work" "${BUILT:+$(program_of ggdesk)}" <<'PY'
import difflib
import re
import subprocess
import sys

HERE, WORK, PROGRAM = sys.argv[1:4]
POOLS = {"": "", "text": "", "source": "", "1": "pool r0\n", "2": "pool r0 r1\n", "3": "pool r0 r1 r2\n"}


def stored(subject, name="stdin"):
    """The rows of a subject, or what is written of them: of all its sections."""
    with open(f"{HERE}/crates/ggdesk/{name}") as file:
        _, *parts = re.split(r"^== (.*)\n", file.read(), flags=re.M)
    return "".join(rows for head, rows in zip(parts[::2], parts[1::2]) if head == subject)


def lines_of(text):
    return [line.strip() for line in text.strip().split("\n")]


def of_types():
    """A row is told with its kind and a mark at the fault's place."""
    for line in stored("types", "stdout").split("\n"):
        kind, _, marked = line.partition(" ")
        for mark in re.finditer("@", marked):
            yield marked[: mark.start()] + marked[mark.end() :], kind


def of_commands():
    """Rows of the whole program show how calls fail, and stand in no table."""
    for row, answer in zip(stored("commands").split("\n"), stored("commands", "stdout").split("\n")):
        kind, _, given = row.partition("@")
        if kind in POOLS and row:
            yield POOLS[kind] + given.split("@")[0], answer


def of_tables():
    """Each case is told with its lines; those before `=> front` are no case, and pictures are no lines of one."""
    case = []
    for line in stored("tables", "stdout").split("\n"):
        if line == "=> front":
            case = []
        elif line.startswith(("=> sets", "=> stack", "=> shipped", "  |", "  v ", "  x ", "  = ")):
            continue
        elif line.startswith("=> "):
            yield "\n".join(case), line
            case = []
        else:
            case.append(line.strip())


def of_check():
    """The whole description, or its rules and classes less and more than the shipped one's."""
    with open(f"{HERE}/examples/vax1.gg") as file:
        shipped = lines_of(file.read())
    answers = re.findall(r"^accepted.*|^(?:blocks|loops)\n(?:  .*\n)*", stored("check", "stdout"), re.M)
    for text, answer in zip(re.split(r"^=\n", stored("check"), flags=re.M), answers):
        lines = lines_of(text)
        changes = difflib.unified_diff(shipped, lines, n=0, lineterm="")
        named = [f"{line[0]} {line[1:]}" for line in changes if line[1:5] in ("rule", "clas")]
        yield "\n".join(named if len(named) < 20 else lines), answer


def of_templates():
    """The lines that save and reload, and the rules, each with the next answer."""
    items = []
    for line in lines_of(stored("templates")):
        if line.startswith(("spill", "reload", "rule")):
            items.append([line])
        elif items and not line.startswith("#"):
            items[-1].append(line)
    return zip(map("\n".join, items), stored("templates", "stdout").split("\n"))


def spans(cell):
    return re.findall("`([^`]+)`", cell)


def is_stored(reports, shown):
    """Whether some row is the input, whose answer has all the reports."""
    whole = re.compile(".+".join(map(re.escape, shown.split("…"))), re.S)
    return any(whole.fullmatch(row) and all(report in answer for report in reports) for row, answer in ROWS)


def of_page():
    """The reports and the input of each row of the page's tables; a row whose last cell is empty goes on with the one before."""
    with open(f"{HERE}/docs/faults.md") as file:
        lines = [line.rstrip("\n") for line in file if line.startswith("| ")]
    rows = []
    for report, shown, _, way in (re.split(r" *\| *", line)[1:-1] for line in lines):
        if not way or not report:
            rows[-1] = (rows[-1][0] + report, rows[-1][1] + shown)
        elif "`" in report:
            rows.append((report, shown))
    return rows


ROWS = [row for rows in (of_types, of_commands, of_tables, of_check, of_templates) for row in rows()]
page = of_page()
missing = [(report, shown) for report, shown in page if not is_stored(spans(report), "\n".join(spans(shown)))]
for report, shown in missing:
    print(f"not in the stored run: {shown}, answered by {report}")
print(f"{len(page) - len(missing)} of {len(page)} inputs of docs/faults.md stand in the stored run")


def of_advice():
    """Why and the way out, of each row of the table of `ggdesk why`."""
    with open(f"{HERE}/crates/desk_page/src/advice.rt") as file:
        texts = re.findall(r'"((?:[^"\\]|\\.)*)"', file.read())
    plain = [re.sub(r"\\(.)", r"\1", text) for text in texts]
    return set(zip(plain[1::3], plain[2::3]))


def of_words():
    """The same of each row of the page's tables; a row whose last cell is empty goes on with the one before."""
    with open(f"{HERE}/docs/faults.md") as file:
        rows = [re.split(r" *\| *", line.rstrip("\n"))[1:-1] for line in file if line.startswith("| ")]
    return {tuple(row[2:]) for row in rows if len(row) == 4 and all(row[2:]) and row[3] != "The way out"}


def long_inputs():
    """A description with too many item sets, and one in which two classes become each other."""
    digits = [format(number, "010b").replace("0", " Neg").replace("1", " Com") for number in range(584)]
    rules = "".join(f"rule reg :{digit} Plus One Plus One One\n  give fresh\n" for digit in digits)
    case = next(case for case in stored("tables").split("=>\n") if "^ 584\n" in case and "rule reg : One\n" in case)
    yield case.replace("^ 584\n", rules)
    yield next(case for case in re.split(r"^=\n", stored("check"), flags=re.M) if "rule qq : pp\n" in case)


def of_desk():
    """Why and the way out, of each answer of `ggdesk why`."""
    told = stored("desk", "stdout")
    for text in long_inputs() if PROGRAM else ():
        with open(f"{WORK}/long.gg", "w") as file:
            file.write(text)
        told += subprocess.run([PROGRAM, "why", "long.gg"], cwd=WORK, text=True, stdout=subprocess.PIPE).stdout
    return set(re.findall(r"^  why: (.*)\n  way out: (.*)$", told, re.M))


# A check with so many summaries, and bytes that are no image, have no row on the page.
UNSEEN = {pair for pair in of_advice() if pair[0].startswith(("there are too many ways", "the file is no code's image"))}
told, words = of_advice(), of_words()
for pair in sorted(words - told):
    print("not in the table of `ggdesk why`:", *pair)
for pair in sorted(told - words - UNSEEN):
    print("not on the page:", *pair)
said = told & of_desk()
for pair in sorted(told - said):
    print("not said:", *pair)
print(f"{len(said)} of {len(told)} kinds are said by `ggdesk why`")
few = len(told) - len(said) > (1 if PROGRAM else 3)
sys.exit(1 if missing or not page or words - told or told - words - UNSEEN or few else 0)
PY
