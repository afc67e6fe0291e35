"""What the Python of the scripts in this folder shares: programs that are run and timed, and sources of a wanted size."""
import os
import random
import subprocess
import time

PARTS = (
    "int f{n}(int a,char*b){{int i;for(i=0;i<a;i++){{b[i]=(char)(a*i+{n});if(b[i]>100)return b[i]-i;else a^=i<<2;}}return a;}}\n",
    "int t{n};short u{n}(short x,int y){{while(x>0&&y!={n}||!y){{x-=y++;if(x==y)continue;t{n}+=x*y;}}return x+t{n};}}\n",
    "void g{n}(void){{char*s;s=\"some text {n}\";while(*s)putchar(*s++);}}\n",
    "int h{n}(int x){{return x?h{n}(x-1)%7:(x&0xff)|(x>>3)&~x;}}\n",
    "int k{n}(int*p,int*q,int i){{p[i]=q[i+1]/(i+1)+p[-i];*p++=*q--;return p<q?p-q:k{n}(p,q,i-1)+k{n}(q,p,p[i]);}}\n",
)
TAIL = "int main(){return 0;}\n"
# A text that writes `Hi` and ends with 0 at its seventh instruction, and a source that writes the tenth Fibonacci number.
HI = (
    "\t.data\n\t.text\n\t.globl\t_main\n_main:\n\t.word\t0\n\tpushl\t$72\n\tcalls\t$1,_putchar\n\tpushl\t$105\n"
    "\tcalls\t$1,_putchar\n\tpushl\t$0\n\tmovl\t(sp)+,r0\n\tret\n"
)
FIBONACCI = (
    "int fib(int n){if(n<2)return n;return fib(n-1)+fib(n-2);}"
    "void put(int n){if(n<0){putchar('-');n=-n;}if(n>9)put(n/10);putchar('0'+n%10);}"
    "int main(){put(fib(10));putchar('\\n');return 0;}"
)


def functions(count=None, length=1_048_576, parts=PARTS, tail=TAIL, number=lambda turn: turn):
    """A source of so many parts in turn, or of as many as the length in bytes has room for, with the tail at its end, and how many. The
    names in a part have a number by its turn."""
    made, size = [], len(tail)
    while count is None or len(made) < count:
        part = parts[len(made) % len(parts)].format(n=number(len(made)))
        if size + len(part) > length:
            break
        made.append(part)
        size += len(part)
    return "".join(made) + tail, len(made)


def put(path, content):
    with open(path, "wb") as file:
        file.write(content if isinstance(content, bytes) else content.encode())


def written(words):
    """What a program writes, which must succeed."""
    return subprocess.run(words, stdout=subprocess.PIPE, check=True).stdout


def answer(words, given=b"", **more):
    """A program's status, what it wrote and what it told."""
    done = subprocess.run(words, input=given, stdout=subprocess.PIPE, stderr=subprocess.PIPE, **more)
    return done.returncode, done.stdout, done.stderr


def answered(desk, subject, rows):
    """What `ggdesk` writes of the rows of a subject."""
    told = subprocess.run([desk, subject], input=rows, stdout=subprocess.PIPE, check=True).stdout
    heading, _, answers = told.decode("latin-1").partition("\n")
    assert heading == f"== {subject}", heading
    return answers


class Done:
    """What a program left: its status, what it wrote and told, its processor seconds, and the most MiB that it held. It leaves files in
    the folder where it is run."""

    def __init__(self, words, given=b"", **more):
        put("given", given)
        with open("given", "rb") as given, open("written", "wb") as written, open("report", "wb") as report:
            child = subprocess.Popen(words, stdin=given, stdout=written, stderr=report, **more)
            _, status, used = os.wait4(child.pid, 0)
        self.status = child.returncode = os.waitstatus_to_exitcode(status)
        self.written, self.report = open("written", "rb").read(), open("report", "rb").read()
        self.seconds, self.peak = used.ru_utime + used.ru_stime, used.ru_maxrss / 1024


def least(rounds, run):
    """The least seconds of some calls, and their answer, which must be the same each time."""
    best, first = None, None
    for _ in range(rounds):
        begin = time.perf_counter()
        found = run()
        spent = time.perf_counter() - begin
        best, first = (spent, found) if best is None else (min(best, spent), first)
        assert found == first, (found, first)
    return best, first


def listed(counts, between=" "):
    """Counts in the order of what is counted."""
    return ", ".join(f"{n}{between}{what}" for what, n in sorted(counts.items()))


def compare_runs(what, number, first_seed, generate, path, ours, theirs):
    """Compares the runs of so many generated texts, each with an input of up to 40 bytes, and with few counted steps and with many. The
    answer is how many differ."""
    chance = random.Random(first_seed)
    wrong, statuses = 0, {}
    for turn in range(number):
        words, made = generate(turn, str(first_seed + turn))
        put(path, made)
        given = bytes(chance.randrange(256) for _ in range(chance.randrange(41)))
        count = chance.choice((1, 7, 50, 1000, 100_000))
        mine, wanted = ours(path, count, given), theirs(path, count, given)
        statuses[wanted[0]] = statuses.get(wanted[0], 0) + 1
        if mine != wanted:
            wrong += 1
            print(f"{words} {first_seed + turn}, {count}: {mine[0]} {mine[2]!r}, wanted {wanted[0]} {wanted[2]!r}")
    print(f"{number} {what} ({listed(statuses, ' of status ')}): {wrong} differ")
    return wrong
