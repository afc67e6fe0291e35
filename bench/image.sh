#!/bin/sh
# Compares `ggvax image`, `ggvax text` and `ggdesk images` with a plain Rust program: the images of generated texts and of compiled programs
# byte for byte, and whether each is read back as its text; and what is said of changed images: that they are none, or the one text whose
# image they are. Without the plain program it tells how long the images of examples/ are, how long a long text and chains of branches take,
# of which each lengthens the one before it, and what a count of what isn't there costs.
# Usage: bench/image.sh [TEXTS [CHANGED [SEED [MEBIBYTES]]]]; TEXTS (default 2000) generated texts and as many compiled programs from the
# seed SEED (default 1) on, CHANGED (default 200000) changed images of them, and a long text of MEBIBYTES (default 64) MiB.
# VAX_REFERENCE names the folder of the plain program, a Cargo project whose commands are `image A`, `text I`, `gentext S`, `gensim S` and
# `genwild S`. Where it isn't set or isn't there, nothing is compared. C_REFERENCE names the folder of a Cargo project whose command
# `gen SEED [--free]` writes a C program: where it isn't set or isn't there, no program is compiled.
set -eu
. "$(dirname -- "$0")/common.sh"
texts=${1:-2000}
changed=${2:-200000}
seed=${3:-1}
long=${4:-64}

program=$(program_of ggvax)
[ -n "$program" ] || skip "BUILT names a folder without ggvax"
desk=$(program_of ggdesk)
[ -n "$desk" ] || echo "there is no ggdesk: no changed image is read"
plain=
if copy_plain "${VAX_REFERENCE:-}"; then
    # The plain program gets a command that answers rows of bytes.
    cp "$here/bench/image_rows.rs" "$work/plain/src/rows.rs"
    sed -i 's/^mod text;$/mod rows;\n&/; s/^ *\["echo", a\] => .*$/["rows"] => text_done(rows::answers()),\n&/' "$work/plain/src/main.rs"
    mv "$(build_plain)" "$work/images"
    plain=$work/images
    rm -rf "$work/plain" "$work/target"
else
    echo "VAX_REFERENCE names no folder of a plain program: nothing is compared"
fi
generator=$(plain_of "${C_REFERENCE:-}")
[ -n "$generator" ] || echo "C_REFERENCE names no folder of a generator: no program is compiled"

python3 - "$program" "$desk" "$plain" "$generator" "$work" "$here/examples" "$texts" "$changed" "$seed" "$long" <<'PY'
import glob
import os
import random
import subprocess
import sys
from concurrent.futures import ThreadPoolExecutor

from common import Done, answer, answered, put, written

program, desk, plain, generator, work, examples = sys.argv[1:7]
texts, changed, first_seed, long = (int(word) for word in sys.argv[7:11])
DONE, FRAME_FULL, NO_IMAGE = 0, 14, 23
CHANGED_MOST = 4096  # images of up to so many bytes are changed
ROOM = 8192  # KiB of memory in which the command reads a changed image
BATCH = 1000  # of which the command reads the first alone, and those that are images
HEAD = "\t.data\n\t.text\n\t.globl\t_main\n_main:\n\t.word\t0\n"
os.chdir(work)
chance = random.Random(first_seed)


def in_batches(count, make, judge):
    """What is said of so many things, which are made one after another, and judged side by side."""
    with ThreadPoolExecutor(os.cpu_count()) as threads:
        for begin in range(0, count, BATCH):
            yield from threads.map(judge, [make(turn) for turn in range(begin, min(count, begin + BATCH))])


def tell(what, judged):
    """Tells how many of them differ, with the first lines that say how, and the answer is how many."""
    judged = list(judged)
    wrong = [line for line in judged if line]
    for line in wrong[:5]:
        print(line)
    print(f"{len(judged)} {what}: {len(wrong)} differ", flush=True)
    return len(wrong)


# Texts and their images.
pool = []


def judge_text(named):
    """What is wrong with the answers about a text, or nothing. Small images are kept, so that they can be changed."""
    name, text = named
    path = f"{name}.s"
    put(path, text)
    mine, wanted = answer([program, "image", path]), answer([plain, "image", path])
    if mine != wanted:
        return f"{name}: {mine[0]} {mine[2]!r} and {len(mine[1])} bytes, wanted {wanted[0]} {wanted[2]!r} and {len(wanted[1])} bytes"
    os.remove(path)
    if mine[0] != DONE:
        return None
    put(f"{name}.img", mine[1])
    again = answer([program, "text", f"{name}.img"])
    os.remove(f"{name}.img")
    if len(mine[1]) <= CHANGED_MOST:
        pool.append(mine[1])
    return None if again == (DONE, text, b"") else f"{name}: its image is read with {again[0]} {again[2]!r}, and {len(again[1])} bytes"


def generated(turn):
    kind = ("gentext", "gensim", "genwild")[turn % 3]
    return f"{kind}-{first_seed + turn}", written([plain, kind, str(first_seed + turn)])


def judge_program(words):
    name = "-".join(words)
    put(f"{name}.c", written([generator, *words]))
    status, text, report = answer([program, "compile", f"{examples}/vax.gg", f"{name}.c"])
    os.remove(f"{name}.c")
    if status == DONE:
        return judge_text((name, text))
    return None if status == FRAME_FULL else f"{name}: {status} {report!r}"


def words_of(turn):
    return ["gen", str(first_seed + turn)] + (["--free"] if turn % 3 else [])


# Changed images.
def counts_of(image):
    """Where the length of the text and the counts of marks, refs and items of the data area stand."""

    def number(at):
        return int.from_bytes(image[at : at + 4], "little")

    places = [4, 8 + number(4)]
    at = places[-1] + 4
    for _ in range(number(places[-1])):
        at += 5 if image[at + 4] == 2 else 6 + image[at + 5]
    places.append(at)
    at += 4
    for _ in range(number(places[-1])):
        at += 9 + image[at + 4]
    return [*places, at]


def change(image, others):
    """An image with some bytes changed, put in, left out, repeated, or taken from another one, or with another count."""
    places, image = counts_of(image), bytearray(image)
    for _ in range(chance.choice((1, 1, 1, 2, 3))):
        at, kind = chance.randrange(len(image) + 1), chance.randrange(9)
        if kind == 0 and at < len(image):
            image[at] ^= 1 << chance.randrange(8)
        elif kind == 1 and at < len(image):
            image[at] = chance.randrange(256)
        elif kind == 2:
            image[at:at] = bytes(chance.randrange(256) for _ in range(chance.choice((1, 1, 2, 4))))
        elif kind == 3:
            del image[at : at + chance.choice((1, 1, 2, 4, 9))]
        elif kind == 4:
            del image[at:]
        elif kind == 5:
            image[at:at] = image[at : at + chance.choice((1, 4, 9, 16))]
        elif kind == 6:
            other = chance.choice(others)
            begin = chance.randrange(len(other) + 1)
            image[at : at + 8] = other[begin : begin + 8]
        elif kind == 7:
            place = chance.choice(places)
            image[place : place + 4] = chance.choice((0, 1, 2**16, 2**31, 2**32 - 1)).to_bytes(4, "little")
        elif kind == 8:
            near = (int.from_bytes(image[at : at + 4], "little") + chance.choice((-2, -1, 1, 2))) % 2**32
            image[at : at + 4] = near.to_bytes(4, "little")
    return bytes(image)


def with_input(words, given):
    return subprocess.run(words, input=given, stdout=subprocess.PIPE, check=True).stdout.decode("latin-1")


def read_within(room, path):
    """The command's answer about an image, in so many KiB of memory."""
    return answer(["sh", "-c", f'ulimit -v {room} && exec "$0" text "$1"', program, path])


def judge_changed(name, image, told):
    """What is wrong with the command's answer about a changed image of which this is told, or nothing. It is read in little memory, and an
    image's text has that image."""
    put(f"{name}.img", image)
    status, text, report = read_within(ROOM, f"{name}.img")
    os.remove(f"{name}.img")
    if status == NO_IMAGE:
        return None if told == "no image" else f"{image.hex()}: {report!r}, wanted {told}"
    if status != DONE or told != text.decode().replace("\t", "~").replace("\n", "|"):
        return f"{image.hex()}: {status} {report!r}, wanted {told}"
    put(f"{name}.s", text)
    again = answer([program, "image", f"{name}.s"])
    os.remove(f"{name}.s")
    return None if again == (DONE, image, b"") else f"{image.hex()}: the image of its text is another one"


def compare_changed():
    """Compares what is told of changed images; the command reads some of them."""
    wrong, read, images = 0, 0, 0
    with ThreadPoolExecutor(os.cpu_count()) as threads:
        for begin in range(0, changed, BATCH):
            some = [change(chance.choice(pool), pool) for _ in range(min(BATCH, changed - begin))]
            rows = "".join(f"bytes {image.hex()}\n" for image in some).encode()
            mine, wanted = answered(desk, "images", rows), with_input([plain, "rows"], rows)
            pairs = list(zip(mine.splitlines(), wanted.splitlines(), strict=True))
            told = [line.rpartition(" -> ")[2] for _, line in pairs]
            asked = [at for at, text in enumerate(told) if at == 0 or text != "no image"]
            lines = list(threads.map(lambda at: judge_changed(f"changed{at}", some[at], told[at]), asked))
            lines += [f"{line}, wanted {text}" for line, text in pairs if line != text]
            read, images = read + len(asked), images + sum(text != "no image" for text in told)
            wrong += sum(line is not None for line in lines)
            for line in [line for line in lines if line][:3]:
                print(line[-2000:])
    print(f"{changed} changed images, of which {images} are images: {wrong} differ;", end=" ")
    print(f"the command read {read} of them, in {ROOM // 1024} MiB each", flush=True)
    return wrong


def compare():
    wrong = tell("generated texts", in_batches(texts, generated, judge_text))
    if generator:
        wrong += tell("compiled programs", in_batches(texts, words_of, judge_program))
    return wrong + (compare_changed() if pool and desk else 0)


# Long texts.
def fill(length):
    """Instructions of so many bytes, an even number or at least 3."""
    return ("\tmovl\tr0,r1\n" if length % 2 else "") + "\tclrl\tr0\n" * ((length - 3 * (length % 2)) // 2)


def forward(count, link, reach, own):
    """Branches in links of so many bytes each, which have so many themselves. The label of each is just as far behind it as it reaches,
    but that of the last one is a byte further: so the last one grows, and then each because the one behind it did."""
    at = own + reach - link
    parts = [HEAD]
    for turn in range(count):
        parts += [f"\tjbr\tL{turn}\n", fill(at - own), f"L{turn - 1}:\n" if turn else "", fill(link - at)]
    return "".join(parts) + fill(at + 1) + f"L{count - 1}:\n\tret\n"


def backward(count, link, reach, own):
    """The same with each label in front of its branch: the first one grows, and then each because the one in front of it did."""
    at = reach + 1 - link
    parts = [HEAD, "L0:\n", fill(at + 1)]
    for turn in range(count):
        parts += [fill(link - at), f"L{turn + 1}:\n", fill(at - own), f"\tjbr\tL{turn}\n"]
    return "".join(parts) + "\tret\n"


def ordinary(length):
    """A text of about so many bytes, with a label and three branches for each nine instructions."""
    count = length // 152
    block = (
        "L{0}:\n\tmovl\t4(ap),r1\n\taddl3\t$100,-8(fp),r2\n\tcmpl\tr1,r2\n\tjgtr\tL{1}\n\tmovl\tr2,300(r3)\n\tjeql\tL{2}\n"
        "\tpushl\t$64\n\tcalls\t$1,_putchar\n\tjlssu\tL{3}\n"
    )
    made = (block.format(k, (k + 1) % count, max(k - 5, 0), (k + 9) % count) for k in range(count))
    return HEAD + "".join(made) + "\tret\n"


def measure(name, text, rounds=1):
    """Tells how long a text's image takes, how long reading and loading the text take, and how long its image is read; the answer is the
    seconds of the image, and how many times those of reading they are."""
    put("long.s", text)
    image = [Done([program, "image", "long.s"]) for _ in range(rounds)]
    run = [Done([program, "run", "long.s", "1"]) for _ in range(rounds)]
    assert image[0].status == DONE, image[0].report
    put("long.img", image[0].written)
    back = [Done([program, "text", "long.img"]) for _ in range(rounds)]
    assert back[0].written == text.encode(), back[0].report
    spent, reading, reread = (min(done.seconds for done in some) for some in (image, run, back))
    print(f"{name}: {len(text):,} bytes, its image {len(image[0].written):,}: {spent:.2f} s, {image[0].peak:.0f} MiB,", end=" ")
    print(f"{spent / reading:.1f} times its reading and loading; read back in {reread:.2f} s, {back[0].peak:.0f} MiB", flush=True)
    return spent, spent / reading


def compare_long():
    """The image of a long text takes at most three times its reading and loading, and a chain twice as long at most three times as long."""
    _, ratio = measure(f"text of {long} MiB", ordinary(long * 1_048_576))
    slow = ratio > 3
    for name, made in (("forward", forward), ("backward", backward)):
        for count, link, reach, own in ((20_000, 100, 127, 2), (150, 20_000, 32_767, 3)):
            half, _ = measure(f"{count // 2} branches {name} of {reach} bytes", made(count // 2, link, reach, own))
            whole, _ = measure(f"{count} branches {name} of {reach} bytes", made(count, link, reach, own))
            print(f"  twice the branches: {whole / half:.1f} times (at most 3)", flush=True)
            slow |= whole > 3 * half
    return slow


def compare_counts():
    """A count of what isn't there takes no more memory than what is there: each such image is refused in eight times its length."""
    put("counts.s", ordinary(4 * 1_048_576))
    image = written([program, "image", "counts.s"])
    room = 4096 + 8 * len(image) // 1024
    wrong = 0
    for place in counts_of(image):
        put("counts.img", image[:place] + b"\xff" * 4 + image[place + 4 :])
        status, _, report = read_within(room, "counts.img")
        if status != NO_IMAGE:
            wrong += 1
            print(f"a count of 4,294,967,295 at {place} of {len(image)} bytes: {status} {report!r}")
    print(f"4 counts of 4,294,967,295 in an image of {len(image):,} bytes, each read in {room:,} KiB: {wrong} differ", flush=True)
    return wrong


def tell_examples():
    print("| Program | Text, in bytes | Image, in bytes |")
    print("|---|---|---|")
    for path in sorted(glob.glob(f"{examples}/*.c")):
        put("example.s", answer([program, "compile", f"{examples}/vax.gg", path])[1])
        image = written([program, "image", "example.s"])
        print(f"| `{os.path.basename(path)}` | {os.path.getsize('example.s'):,} | {len(image):,} |", flush=True)


tell_examples()
wrong = compare_counts() + (compare() if plain else 0)
slow = compare_long()
sys.exit(1 if wrong or slow else 0)
PY
