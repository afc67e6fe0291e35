"""Generated C programs: many in one source, and what their texts' runs have otherwise than their meaning."""
import re

from common import Done, written

STEPS, STEPS_BEHIND = 20_000_000, 2_000_000
DONE, REFUSED, SPENT, TRAPPED, WILD, DEEP = 0, 14, 16, 17, 18, 19
ENDS = {DONE: "end", SPENT: "go on", TRAPPED: "trap", WILD: "are wild", DEEP: "are deep"}
KEPT = set("int char short unsigned void static register if else while do for break continue return sizeof putchar getchar".split())
WORD = re.compile(r"""//[^\n]*|/\*.*?\*/|"(?:\\.|[^"\\])*"|'(?:\\.|[^'\\])*'|\w+""", re.S)


class Program:
    """The generated program of a seed, the words that generate it, and an input. Two of three may trap, be wild, be deep or go on."""

    def __init__(self, plain, first_seed, turn, chance):
        self.words = ["gen", str(first_seed + turn), "--memory-locals"] + (["--free"] if turn % 3 else [])
        self.source = written([plain, *self.words]).decode()
        self.given = bytes(chance.randrange(256) for _ in range(chance.randrange(41)))

    def marked(self, mark):
        """The source with a mark before each name that it declares."""

        def changed(found):
            word = found.group()
            return mark + word if re.match(r"[A-Za-z_]", word) and word not in KEPT else word

        return WORD.sub(changed, self.source)


def joined(some):
    """One source of programs by their numbers, which calls the program whose number it reads."""
    parts = [one.marked(f"p{number}_") for number, one in some.items()]
    calls = [f"  if (n == {number}) return p{number}_main();\n" for number in some]
    return "\n".join(parts) + "int main() {\n  int n;\n  n = getchar();\n" + "".join(calls) + "  return 0 - 1;\n}\n"


def left_out(some, done):
    """The number of the program whose frame would be too long, by the refusal of the source of some programs."""
    found = re.match(rb"ggvax: p(\d+)_", done.report)
    return int(found.group(1)) if found else next(iter(some))


def steps_of(meaning):
    """With how many steps a text is run, by how its source ends."""
    return STEPS_BEHIND if meaning.status == SPENT else STEPS


def difference(meaning, run):
    """What a text's run has otherwise than the source's, or nothing."""
    front = run.written.startswith(meaning.written)
    if meaning.status in (WILD, DEEP, SPENT):
        same = front or (run.status == SPENT and meaning.written.startswith(run.written))
    else:
        same = (run.status, run.written, run.report) == (meaning.status, meaning.written, meaning.report)
    if same:
        return None
    output = "the output begins so" if front else "the output differs"
    return f"{run.status} {run.report!r}, by its meaning {meaning.status} {meaning.report!r}, {output}"


def least_steps(program, text, given):
    """The least number of instructions with which the run of the text in a file is not spent."""
    low, high = 0, STEPS
    while high - low > 1:
        middle = (low + high) // 2
        if Done([program, "run", text, str(middle)], given).status == SPENT:
            low = middle
        else:
            high = middle
    return high
