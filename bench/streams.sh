#!/bin/sh
# Runs the commands on streams as they are: closed, full, without a reader, endless, slow, cut off by signals; with folders, pipes and
# shrinking files in place of files, and names of any bytes. Each answer is one of docs/commands.md.
# Usage: bench/streams.sh. It needs a C compiler for what signals and shrinking files do; where there is none, that is left out.
set -eu
. "$(dirname -- "$0")/common.sh"

program=$(program_of ggvax)
[ -n "$program" ] || skip "BUILT names a folder without ggvax"
library=
if command -v "${CC:-cc}" >/dev/null; then
    library=$(preloaded streams)
fi

python3 - "$program" "$library" "$here/examples/vax.gg" "$work" <<'PY'
import fcntl
import os
import resource
import signal
import subprocess
import sys
import termios
import threading
import time

from common import HI, answer, put, written

program, library, description, work = sys.argv[1:]
os.chdir(work)
DONE, USAGE, FILE, INPUT, WRITE, LONG, CUT, SPENT = 0, 1, 3, 4, 5, 6, 15, 16
USAGES = "ggvax: usage: check D | compile D S | run A N | meaning S N | load D K | image A | text I | check32 D | run32 A N\n"
FAILED, LONG_INPUT = "ggvax: output failed\n", "ggvax: input is too long\n"
ECHO = "int main(){int c;while((c=getchar())!=-1)putchar(c);return 0;}"
MANY = "int main(){int i;for(i=0;i<300000;i++)putchar(65+i%26);return 0;}"
OK = "ok: 150 rules, 327 states\n"
put("hi.s", HI)
put("echo.c", ECHO)
put("many.c", MANY)
put("hi.img", written([program, "image", "hi.s"]))
ECHO_TEXT = answer([program, "compile", description, "echo.c"])[1]
put(b"\xff\xfe.s", HI)
put("a name\nof two lines.s", HI)
os.symlink("loop.s", "loop.s")
os.mkfifo("pipe.s")
wrong = counted = 0


def see(what, found, status, out="", report=""):
    """Compares an answer with the one that is wanted."""
    global wrong, counted
    wanted = (status, out if isinstance(out, bytes) else out.encode(), report.encode())
    counted += 1
    if found != wanted:
        wrong += 1
        print(f"{what}: {found}, wanted {wanted}")


def redirected(how, *words):
    """The answer of a command whose streams the shell redirects."""
    return answer(["sh", "-c", f'exec "$@" {how}', "sh", program, *words], timeout=60)


RUN, CHECK, NONE = ("run", "hi.s", "7"), ("check", description), ("check", "none")
ENDED, SPENT_6, UNREAD = "ended 0\n", "spent 6\n", "ggvax: cannot read {}\n"
REDIRECTIONS = (
    # Closed streams: what touches them fails, and what doesn't is as ever.
    ("<&-", RUN, INPUT, "", "ggvax: input failed\n"),
    ("<&-", ("meaning", "echo.c", "7"), INPUT, "", "ggvax: input failed\n"),
    ("<&-", CHECK, DONE, OK, ""),
    ("<&-", ("text", "hi.img"), DONE, HI, ""),
    (">&-", RUN, WRITE, "", FAILED),
    (">&-", CHECK, WRITE, "", FAILED),
    (">&-", ("run", "hi.s", "1"), SPENT, "", "spent 1\n"),
    ("2>&-", RUN, WRITE, "Hi", ""),
    ("2>&-", ("run", "hi.s", "6"), SPENT, "Hi", ""),
    ("2>&-", CHECK, DONE, OK, ""),
    ("2>&-", NONE, FILE, "", ""),
    ("2>&-", ("compile", description, "echo.c"), WRITE, ECHO_TEXT, ""),
    ("2>&-", ("load", description, "1"), WRITE, "B\n", ""),
    (">&- 2>&-", RUN, WRITE, "", ""),
    ("<&- >&- 2>&-", RUN, INPUT, "", ""),
    ("<&- >&- 2>&-", NONE, FILE, "", ""),
    # Full ones.
    (">/dev/full", RUN, WRITE, "", FAILED),
    (">/dev/full", ("meaning", "many.c", "1000000"), WRITE, "", FAILED),
    (">/dev/full", ("image", "hi.s"), WRITE, "", FAILED),
    ("2>/dev/full", RUN, WRITE, "Hi", ""),
    ("2>/dev/full", NONE, FILE, "", ""),
    (">/dev/full 2>/dev/full", CHECK, WRITE, "", ""),
    # Streams that can't be read or written, an endless one, and one that gives nothing yet.
    ("<.", RUN, INPUT, "", "ggvax: input failed\n"),
    ("0>hi.out", RUN, INPUT, "", "ggvax: input failed\n"),
    ("</dev/zero", RUN, LONG, "", LONG_INPUT),
    ("</dev/null", RUN, DONE, "Hi", ENDED),
    (">hi.out <hi.s", RUN, DONE, "", ENDED),
    ("1<hi.s", RUN, WRITE, "", FAILED),
    ("2<hi.s", RUN, WRITE, "Hi", ""),
)
for how, words, *wanted in REDIRECTIONS:
    see(f"{' '.join(words)} {how}", redirected(how, *words), *wanted)

FILES = (
    (("check", "."), FILE, UNREAD.format(".")),
    (("run", "./", "7"), FILE, UNREAD.format("./")),
    (("image", "hi.s/"), FILE, UNREAD.format("hi.s/")),
    (("text", "loop.s"), FILE, UNREAD.format("loop.s")),
    (("run", "n" * 255, "7"), FILE, UNREAD.format("n" * 255)),
    (("run", "n" * 256, "7"), FILE, UNREAD.format("n" * 256)),
    (("run", "n/" * 5000, "7"), FILE, UNREAD.format("n/" * 5000)),
    (("check", "/proc/self/mem"), FILE, UNREAD.format("/proc/self/mem")),
    (("check", "/dev/zero"), LONG, "ggvax: /dev/zero is too long\n"),
    (("meaning", "/dev/zero", "7"), LONG, "ggvax: /dev/zero is too long\n"),
    (("check", "/dev/null"), 8, "ggvax: description line 1: MissingVersion\n"),
    (("run", "/dev/null", "7"), CUT, "ggvax: line 1: Cut\n"),
    ((b"run", b"\xff\xfe.s", b"7"), USAGE, USAGES),
    ((b"\xffrun", b"hi.s", b"7"), USAGE, USAGES),
    ((b"run", b"hi.s", b"7", b"\xc3"), USAGE, USAGES),
    (("run", "\u00e4.s", "7"), FILE, UNREAD.format("\u00e4.s")),
)
for words, status, report in FILES:
    see(words, answer([program, *words], timeout=60), status, "", report)
see("a name of two lines", answer([program, "run", "a name\nof two lines.s", "7"]), DONE, "Hi", ENDED)


class Running:
    """A command in the background, with pipes as its streams."""

    def __init__(self, *words, **more):
        pipes = {name: subprocess.PIPE for name in ("stdin", "stdout", "stderr")}
        self.child = subprocess.Popen([program, *words], bufsize=0, **pipes, **more)

    def feed(self, content, pause):
        """Feeds the input a byte at a time."""
        threading.Thread(target=slowly, args=(self.child.stdin, content, pause)).start()
        self.child.stdin = None

    def close(self):
        """Ends the input."""
        self.child.stdin.close()
        self.child.stdin = None

    def wait_until_full(self):
        """Waits until the output's pipe holds all that it can, and long enough for the next write."""
        held, room = bytearray(4), fcntl.fcntl(self.child.stdout, fcntl.F_GETPIPE_SZ)
        while int.from_bytes(held, sys.byteorder) < room:
            time.sleep(0.01)
            fcntl.ioctl(self.child.stdout, termios.FIONREAD, held)
        time.sleep(1)

    def answer(self):
        out, report = self.child.communicate(timeout=60)
        return self.child.returncode, out, report


def slowly(stream, content, pause):
    for byte in content:
        stream.write(bytes([byte]))
        stream.flush()
        time.sleep(pause)
    stream.close()


def without_reader(words, stream="stdout"):
    """The answer of a command of which the reader of one output left before it began."""
    reader, writer = os.pipe()
    os.close(reader)
    outputs = {"stdout": subprocess.PIPE, "stderr": subprocess.PIPE, stream: writer}
    done = subprocess.run([program, *words], stdin=subprocess.DEVNULL, **outputs)
    os.close(writer)
    return done.returncode, done.stdout or b"", done.stderr or b""


def limited(words, length):
    """The answer of a command whose output is a file that takes so many bytes, where no signal tells so."""

    def limit():
        signal.signal(signal.SIGXFSZ, signal.SIG_IGN)
        resource.setrlimit(resource.RLIMIT_FSIZE, (length, length))

    with open("limited", "wb") as out:
        done = subprocess.run([program, *words], stdin=subprocess.DEVNULL, stdout=out, stderr=subprocess.PIPE, preexec_fn=limit)
    with open("limited", "rb") as out:
        return done.returncode, out.read(), done.stderr


def through_pipe(content, *words, **more):
    """The answer of a command that reads the content from a pipe in place of a file, a byte at a time."""
    run = Running(*words, **more)
    run.close()
    time.sleep(0.1)
    with open("pipe.s", "wb") as pipe:
        slowly(pipe, content, 0.002)
    return run.answer()


# Pipes: without a reader, with one that leaves, and slow ones.
see("no reader", without_reader(RUN), WRITE, "", FAILED)
see("no reader of the report", without_reader(RUN, "stderr"), WRITE, "Hi")
see("no reader, nothing written", without_reader(("run", "hi.s", "1")), SPENT, "", "spent 1\n")
gone = Running("meaning", "many.c", "1000000")
gone.close()
gone.child.stdout.read(1)
gone.child.stdout.close()
gone.child.stdout = None
see("the reader leaves", (gone.child.wait(60), b"", gone.child.stderr.read()), WRITE, "", FAILED)
given = bytes(range(256))
slow = Running("meaning", "echo.c", "1000")
slow.feed(given, 0.001)
see("a slow input", slow.answer(), DONE, given, ENDED)
see("a slow file", through_pipe(HI.encode(), "run", "pipe.s", "7"), DONE, "Hi", ENDED)
see("a slow file that ends early", through_pipe(HI[:72].encode(), "run", "pipe.s", "7"), CUT, "", "ggvax: line 7: Cut\n")

# A file that takes so many bytes and no more: what is in it is a front.
fronts = 0
for words in (("image", "hi.s"), ("text", "hi.img"), RUN):
    whole = answer([program, *words])
    for length in range(len(whole[1])):
        see(f"{words[0]}, {length} bytes", limited(words, length), WRITE, whole[1][:length], FAILED)
        fronts += 1
    see(f"{words[0]}, all bytes", limited(words, len(whole[1])), whole[0], whole[1], whole[2].decode())
print(f"{fronts} outputs are full behind some bytes")

if library:
    preload = {"LD_PRELOAD": library}
    # A file that is cut to nothing when some of its bytes were read counts as those.
    for length in range(len(HI)):
        put("shrinks.s", HI)
        put("front.s", HI[:length])
        found = answer([program, "run", "shrinks.s", "7"], env={"SHRINK": str(length), **preload})
        status, out, report = answer([program, "run", "front.s", "7"])
        see(f"a file shrinks behind {length} bytes", found, status, out, report.decode())
    print(f"{len(HI)} files shrink while they are read")

    # A signal every millisecond breaks off what waits: it is done again.
    interrupted, counts = {"env": {"INTERRUPTED": "interrupted", **preload}}, []

    def see_interrupted(what, found, out):
        see(what, found, DONE, out, ENDED)
        with open("interrupted") as file:
            counts.append([int(count) for count in file.read().split()])

    slow = Running("meaning", "echo.c", "1000", **interrupted)
    slow.feed(given, 0.005)
    see_interrupted("an input and signals", slow.answer(), given)
    see_interrupted("a file and signals", through_pipe(HI.encode(), "run", "pipe.s", "7", **interrupted), "Hi")
    full = Running("meaning", "many.c", "1000000", **interrupted)
    full.close()
    full.wait_until_full()
    see_interrupted("an output and signals", full.answer(), bytes(65 + i % 26 for i in range(300000)))
    opens, reads, writes = map(sum, zip(*counts))
    print(f"signals broke off {opens} opens, {reads} reads and {writes} writes")
    wrong += not (opens and reads and writes)

print(f"{counted} answers, {wrong} wrong")
sys.exit(1 if wrong else 0)
PY
