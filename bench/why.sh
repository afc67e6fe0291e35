#!/bin/sh
# Makes a file of each input of the tables of docs/faults.md and asks `ggdesk why` of it. It tells each row of which the program says
# something else: another kind, other words, another way out, another tree that stops the parse, or other effects. Then it asks of bytes
# that are no image, and counts.
# Usage: bench/why.sh
# BUILT may name a folder with a `ggdesk` that was built before.
set -eu
. "$(dirname -- "$0")/common.sh"

desk=$(program_of ggdesk)
[ -n "$desk" ] || skip "BUILT names a folder without ggdesk"

python3 - "$here" "$work" "$desk" <<'PY'
import re
import subprocess
import sys

from common import put

HERE, WORK, DESK = sys.argv[1:4]


def read(path):
    with open(f"{HERE}/{path}") as file:
        return file.read()


def spans(cell):
    return re.findall("`([^`]+)`", cell)


class Row:
    """A row of the page: the heading over it, the report, the input's lines, why, and the way out. A row that lacks its last cell goes on
    with the one before."""

    def __init__(self, heading, cells):
        self.heading, self.why, self.way = heading, cells[2], cells[3]
        self.report, self.shown = spans(cells[0]), spans(cells[1])

    def take(self, cells):
        self.report += spans(cells[0])
        self.shown += spans(cells[1])


def rows_of(page):
    rows, heading = [], ""
    for line in page.splitlines():
        cells = re.split(r" *\| *", line)[1:-1]
        if line.startswith("## "):
            heading = line
        elif len(cells) == 4 and not cells[3]:
            rows[-1].take(cells)
        elif len(cells) == 4 and "`" in cells[0]:
            rows.append(Row(heading, cells))
    return rows


PAGE = read("docs/faults.md")
# The lines before a rule, which the page shows once.
BASE = re.search(r"^```\n(version 1\n.*?)^```", PAGE, re.M | re.S)[1].splitlines()


def filled(source):
    """A source with what a `…` stands for: brackets, more than 200, or declarations up to the last number."""
    source = re.sub(r"([()])\1*…\1+", lambda found: found[1] * 201, source)
    return re.sub(r"int a1;…int a(\d+);", lambda found: "".join(f"int a{n};" for n in range(1, int(found[1]) + 1)), source)


def front(line, following):
    """The lines of the base behind one, up to the first that begins as the following one does."""
    behind = BASE[BASE.index(line) + 1 :]
    words = following.split()
    for count in range(len(words), 0, -1):
        starts = [turn for turn, it in enumerate(behind) if it.split()[:count] == words[:count]]
        if starts:
            return behind[: starts[0]]
    return behind


def long_rules(count):
    """Rules that share no item set behind their first symbols."""
    for number in range(count):
        digits = format(number, "010b").replace("0", " Neg").replace("1", " Com")
        yield f"rule reg :{digits} Plus One Plus One One"
        yield "give fresh"


def described(shown):
    """The lines of a description that is shown whole, or by the lines behind the base. A second `…` stands for a return's rule."""
    if not shown or shown[0] not in ("version 1", "version 2"):
        return BASE + shown
    lines = []
    for turn, line in enumerate(shown):
        if line.startswith("^ "):
            lines += long_rules(int(line[2:]))
        elif line == "…" and turn == 1:
            following = "rule" if shown[2].startswith("^ ") else shown[2]
            lines += front(lines[-1], following)
        else:
            lines += ["rule stmt : Ret reg", "do movl %2,r0", "do ret", "give nothing"] if line == "…" else [line]
    return lines


def rules_of(lines):
    """A description's lines up to its first rule, and its rules, each with its lines."""
    rules, head = [], []
    for line in lines:
        if line.startswith("rule "):
            rules.append([])
        (rules[-1] if rules else head).append(line)
    return head, rules


def changed(shown):
    """The description with each rule by itself, without those after a `-`; those after a `+` come before the others, and give `%1`."""
    head, rules = rules_of(read("examples/vax1.gg").splitlines())
    out = {line[2:] for line in shown if line[0] == "-"}
    rules = [rule for rule in rules if rule[0] not in out]
    place = next(turn for turn, line in enumerate(head) if line.startswith("class stmt"))
    head[place:place] = [line[2:] for line in shown if line.startswith("+ class")]
    rules[:0] = [[line[2:], "give %1"] for line in shown if line.startswith("+ rule")]
    return head + [line for rule in rules for line in rule]


def with_rule(shown):
    """The shipped description with another line that saves, another pool, or one more rule."""
    lines = read("examples/vax.gg").splitlines()
    kind = shown[0].split()[: 3 if shown[0].startswith("spill") else 1]
    if kind[0] == "rule":
        return lines + shown
    return [shown[0] if line.split()[: len(kind)] == kind else line for line in lines]


def file_of(row):
    """The name and the text of the row's input."""
    if "C source" in row.heading or "compiled" in row.heading:
        return "row.c", filled(row.shown[0])
    if "assembly" in row.heading:
        return "row.s", row.shown[0].replace("~", "\t").replace("/", "\n")
    if "rules" in row.heading:
        lines = with_rule(row.shown)
    elif row.shown and row.shown[0][0] in "+-":
        lines = changed(row.shown)
    elif "MissingVersion" in row.report:
        lines = []
    else:
        lines = described(row.shown)
    return "row.gg", "".join(f"{line}\n" for line in lines)


def why(name, text):
    put(f"{WORK}/{name}", text)
    return subprocess.run([DESK, "why", name], cwd=WORK, text=True, stdout=subprocess.PIPE, stderr=subprocess.STDOUT).stdout


def tree_of(nodes):
    """A report's tree, a node a line, as tokens in prefix order."""
    trees = []
    for token, *kids in (node.split()[1:] for node in nodes):
        trees.append(" ".join([token] + [trees[int(kid)] for kid in kids if kid.isdigit()]))
    return trees[-1]


def wanted_of(row):
    """What must be said beside the words: the report, with its place as `why` has it."""
    kind, *more = row.report
    if kind in ("blocks", "loops"):
        return [f"{kind}: {tree_of(more)}"]
    if kind.startswith("value"):
        return [f"wanted {kind}", f"found {more[0]}"]
    needs = re.fullmatch(r"(rule \d+) (needs \d+ registers)", kind)
    return needs.groups()[::-1] if needs else [re.sub(r"^line (\d+): ", r":\1: ", kind)]


def lacks(answer, wanted, words):
    """What an answer doesn't say, and what words it says besides. A rule more or less may leave a tree that stops the parse."""
    plain = re.sub(r"=[yn]+", "", re.sub(r" +", " ", answer))
    told = set(re.findall(r"^  why: (.*)\n  way out: (.*)$", answer, re.M))
    missing = [it for it in wanted if it not in plain] + [words] * (words not in told)
    return missing, [it for it in told - {words} if not it[0].startswith(("no rule goes on", "classes become each other"))]


rows = rows_of(PAGE)
wrong = 0
for row in rows:
    name, text = file_of(row)
    answer = why(name, text)
    missing, others = lacks(answer, wanted_of(row), (row.why, row.way))
    # Of the tables' inputs the rules may be refused too.
    if missing or others and "tables" not in row.heading:
        wrong += 1
        print(f"{' '.join(row.report)} of {' / '.join(row.shown)}: lacks {missing}, says {others}")
        print("\n".join(answer.splitlines()[:6]))
image = why("row.img", "no image")
if "no image" not in image or "`ggvax image A` writes the image of a text" not in image:
    wrong += 1
    print(f"no image: {image}")
print(f"{len(rows)} rows of docs/faults.md and bytes that are no image: {wrong} said otherwise")
sys.exit(1 if wrong or not rows else 0)
PY
