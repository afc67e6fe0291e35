"""Files of any length, each of one shape that is heavy for some part of a command. A shape is a head, parts and a tail."""
import itertools

from common import PARTS, TAIL

DESCRIPTION = 262_144


def filled(head, parts, tail, length):
    """The head, as many of the parts as there is room for, and the tail."""
    made, size = [head], len(head) + len(tail)
    for part in parts:
        size += len(part)
        if size > length:
            break
        made.append(part)
    return "".join(made) + tail


def source(parts, head="", tail=TAIL):
    return head, parts, tail


def forever(part):
    return itertools.repeat(part)


def counted(part):
    return (part.format(n=n) for n in itertools.count())


def statements(part, head="int x;int*p;int f(int a){return a;}"):
    """One function of such statements."""
    return source(forever(part), head + "int main(){int a;a=0;", "return 0;}\n")


def expression(inside):
    """Functions that each give back such an expression."""
    return source(counted("int f{n}(int a){{return " + inside + ";}}\n"), "int x[9];int*p;int g(int a){return a;}")


def nested(inside):
    return source(counted("int f{n}(int a){{" + inside + "return a;}}\n"))


def levels(opening, closing, core, most):
    return opening * most + core + closing * most


# The statement or expression at the deepest level that there may be, once for each kind of level.
DEEP = {
    "198 if": nested(levels("if(a)", "", "a=1;", 198)),
    "198 else if": nested(levels("if(a)a=2;else ", "", "a=1;", 198)),
    "198 while": nested(levels("while(a)", "", "a=0;", 198)),
    "198 do": nested(levels("do ", "while(a);", "a=0;", 198)),
    "198 for": nested(levels("for(;a;)", "", "a=0;", 198)),
    "198 blocks": nested(levels("{{", "}}", "a=1;", 198)),
    "198 brackets": expression(levels("(", ")", "a", 198)),
    "198 signs": expression(levels("-~", "", "a", 99)),
    "198 negations": expression(levels("!", "", "a", 198)),
    "197 casts": expression(levels("(char)", "", "a", 197)),
    "99 calls": expression(levels("g(", ")", "a", 99)),
    "99 indexes": expression(levels("x[", "]", "a", 99)),
    "198 sums": expression("a" + "+a" * 198),
    "99 sums in brackets": expression(levels("a+(", ")", "a", 99)),
    "198 assignments": expression("a=" * 198 + "a"),
    "198 commas": expression("a" + ",a" * 198),
    "198 choices": expression("a?a:" * 198 + "a"),
    "198 ands": expression("a" + "&&a" * 198),
    "99 ands and ors in brackets": expression("a" + "&&(a||(a" * 49 + "))" * 49),
}
SOURCES = {
    "functions": source(PARTS[n % len(PARTS)].format(n=n) for n in itertools.count()),
    "one line": source(PARTS[n % len(PARTS)].format(n=n).replace("\n", " ") for n in itertools.count()),
    "one function": statements("a=a*3+f(a);"),
    "one function of loops": statements("while(a>5)if(a<9)a--;else break;"),
    "one function of calls in conditions": statements("if(f(a)&&f(2)||x)a=f(a)?f(3):4;"),
    "one expression": source(forever("+1"), "int main(){return 1", ";}\n"),
    "one initialiser": source(forever("1,"), "char a[]={", "1};int main(){return a[3];}\n"),
    "one literal": source(forever("a"), 'char a[]="', '";int main(){return a[3];}\n'),
    "one name over its length": source(forever("a"), "int ", ";int main(){return 0;}\n"),
    "10,000 globals": source(
        itertools.chain(
            (f"int g{n};" for n in range(10_000)),
            ["int main(){"],
            itertools.cycle(f"g{n}+=g{n // 2};" for n in range(10_000)),
        ),
        tail="return 0;}\n",
    ),
    "30,000 literals": source(
        itertools.chain((f'"{n}",' for n in range(30_000)), ["0};int main(){char*q;"], forever('q="and another";')),
        "char*s[30001]={",
        "return 0;}\n",
    ),
    "a name of 63 bytes": statements(f"{'n' * 63}={'n' * 63}+1;", f"int {'n' * 63};"),
    "names that differ at their end": source(counted("int " + "n" * 56 + "{n};")),
    "blocks with a local": statements("{int b;b=a;}"),
    "functions of 32 parameters": source(counted("int f{n}(" + ",".join(f"int a{n}" for n in range(32)) + "){{return a31;}}\n")),
    "declarations of one function": source(forever("int f(int a);"), tail="int f(int a){return a;}int main(){return f(0);}\n"),
    "locals of one function": source(counted("int a{n};"), "int main(){", "return 0;}\n"),
    "marks": source(forever("(")),
    "blanks": source(forever(" ")),
    "line feeds": source(forever("\n")),
}

HEAD = """version 1
target vax
pool r0
class reg Reg
class stmt Nothing
spill value b movb %1,%0
spill value w movw %1,%0
spill value l movl %1,%0
spill place b movab %1,%0
spill place w movaw %1,%0
spill place l moval %1,%0
spill ea movab %1,%0
reload movl %1,%0
"""
RETURNS = "rule stmt : Ret reg\n  do movl %2,r0\n  do ret\n  give nothing\n"


def digits(number, size=10):
    return " ".join("Com" if digit == "1" else "Neg" for digit in f"{number:0{size}b}")


def rules(parts, head=HEAD, tail=RETURNS):
    return filled(head, parts, tail, DESCRIPTION)


def with_patterns(shipped):
    """The shipped description with as many rules more as there may be, of five to eight signs and complements before a value."""
    words = [" ".join(word) for size in (8, 7, 6, 5) for word in itertools.product(("Neg", "Com"), repeat=size)]
    more = [f"rule reg : {word} rval\n  do movl %{word.count(' ') + 2},%0\n  give fresh\n" for word in words]
    more += [f"rule stmt : Push {word} rval\n  do pushl %{word.count(' ') + 3}\n  give nothing\n" for word in words]
    return shipped + "".join(more[: 1000 - 150])


def descriptions(shipped):
    classes = [f"c{n}" for n in range(62)]
    declared = HEAD.replace("class stmt", "".join(f"class {name} Value l\n" for name in classes) + "class stmt")
    chains = (f"rule {a} : {b}\n  give %1\n" for a, b in itertools.permutations(classes, 2))
    return {
        "999 rules of 15 symbols": rules(f"rule reg : {digits(n)} Plus One Plus One One\n  give fresh\n" for n in range(999)),
        "999 rules of 16 symbols": rules(f"rule reg : {digits(n, 15)} One\n  give fresh\n" for n in range(999)),
        "the shipped one with 850 patterns more": with_patterns(shipped),
        "996 chain rules of 62 classes": rules(itertools.islice(chains, 996), declared, "rule c0 : One\n  give $%1\n" + RETURNS),
        "rules of 8 lines and 4 restrictions": filled(
            shipped,
            (
                f"rule reg : Plus reg Plus Const {digits(n % 16, 4)} Const\n  if range 4 0 {n}\n"
                + "  if range 4 -9 9\n" * 3
                + "  do addl3 %4,%2,%0\n" * 8
                + "  give reuse\n"
                for n in range(850)
            ),
            "",
            DESCRIPTION,
        ),
        "a line of 250,000 bytes in a rule": shipped + f"rule reg : Const\n  do movl $%1,{'r' * 250_000}\n  give fresh\n",
        "operands of many holes": shipped + f"rule reg : Const\n  do movl {'%1' * 120_000},%0\n  give fresh\n",
        "lines copied for three sizes": HEAD.replace("version 1", "version 2") + "each b w l\n" + RETURNS + "# @^~\n" * 43_000,
        "one word": "a" * DESCRIPTION,
        "blanks": " " * DESCRIPTION,
        "line feeds": "\n" * DESCRIPTION,
        "comments": "#\n" * (DESCRIPTION // 2),
    }


START = "\t.data\n\t.text\n\t.globl\t_main\n_main:\n\t.word\t0\n\tret\n"


DATA = "\t.data\n"
FAR = START + "L0:\n" + "\tclrl\tr0\n" * 70 + "L1:\n"
TEXTS = {
    "`ret`": (START, forever("\tret\n"), ""),
    "instructions of three operands": (START, forever("\taddl3\t8(fp)[r1],-4(fp)[r2],*4(ap)[r3]\n"), ""),
    "labels": (START, counted("L{n}:\n"), ""),
    "labels of 64 bytes": (START, counted("_" + "n" * 55 + "{n:08}:\n"), ""),
    "jumps to labels": (START, (f"L{n}:\n\tjbr\tL{n // 2}\n" for n in itertools.count()), ""),
    # Each jump just reaches its label until the one before it grows; the first is too far from its own.
    "jumps that grow one after the other": (
        FAR,
        (f"L{n + 2}:\n\tjbr\tL{n}\n" + "\tclrl\tr0\n" * 30 + "\tret\n" for n in itertools.count()),
        "",
    ),
    "jumps that grow, close by": (FAR, (f"L{n + 2}:\n\tjbr\tL{max(0, n - 61)}\n" for n in itertools.count()), ""),
    "lines of `.globl`": (START, forever("\t.globl\t_main\n"), ""),
    "bytes of the data area": (DATA, forever("\t.byte\t1\n"), START[len(DATA) :]),
    "longs of the data area with names": (DATA + "_a:\n", forever("\t.long\t_a\n"), START[len(DATA) :]),
    "one line": (DATA + "\t", forever("a"), "\n"),
    "blanks": ("", forever(" "), ""),
    "line feeds": ("", forever("\n"), ""),
}
