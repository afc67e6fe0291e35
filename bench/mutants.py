"""Files that are nearly right: descriptions, sources, texts and images, changed in bytes, numbers, words, lines and rules."""
import re

EDGES = [0, 1, 2, 7, 8, 31, 32, 63, 64, 127, 128, 255, 256, 1024, 32767, 32768, 65535, 65536, 1048575, 1048576, 1048577]
EDGES += [2147483647, 2147483648, 4294967295, 4294967296, 10**20]
WORD = re.compile(rb"[A-Za-z_][A-Za-z_0-9]*|\d+|\S")
NUMBER = re.compile(rb"-?\d+")


def at_word(chance, data, pattern, put):
    """The data with one of its words, or of its numbers, put anew."""
    found = list(pattern.finditer(data))
    if not found:
        return data
    word = chance.choice(found)
    return data[: word.start()] + put(word.group()) + data[word.end() :]


def change_bytes(chance, data, _):
    data = bytearray(data)
    for _ in range(chance.randint(1, 4)):
        at = chance.randrange(len(data) + 1)
        some = data[at : at + chance.choice((1, 2, 4, 30))]
        how = chance.randrange(5)
        if how == 0:
            del data[at : at + len(some)]
        elif how == 1:
            data[at:at] = some * chance.choice((1, 2, 50))
        elif how == 2:
            data[at:at] = chance.randbytes(chance.randint(1, 4))
        elif at < len(data):
            data[at] = data[at] ^ 1 << chance.randrange(8) if how == 3 else chance.choice((0, 9, 10, 32, 37, 127, 255))
    return bytes(data)


def change_number(chance, data, _):
    return at_word(chance, data, NUMBER, lambda _: b"%d" % (chance.choice((1, 1, -1)) * chance.choice(EDGES)))


def change_word(chance, data, other):
    words = WORD.findall(chance.choice((data, other))) or [b"x"]
    return at_word(chance, data, WORD, lambda _: chance.choice(words))


def cut(chance, data, other):
    """A front of the data, alone or with a tail of the other."""
    tail = chance.choice((b"", other[chance.randrange(len(other) + 1) :]))
    return data[: chance.randrange(len(data) + 1)] + tail


def change_parts(chance, parts, others):
    """The parts with one dropped, doubled or often repeated, two exchanged, or one of the others put in."""
    parts = list(parts)
    at, to = chance.randrange(len(parts)), chance.randrange(len(parts))
    how = chance.randrange(5)
    if how == 0:
        del parts[at]
    elif how == 1:
        parts[to:to] = [parts[at]] * chance.choice((1, 1, 8, 70))
    elif how == 2:
        parts[at], parts[to] = parts[to], parts[at]
    else:
        parts[to:to] = [chance.choice(others or parts)]
    return parts


def change_lines(chance, data, other):
    lines = data.splitlines(keepends=True)
    return b"".join(change_parts(chance, lines, other.splitlines(keepends=True))) if lines else other


def parted(data):
    """What stands before the rules of a description, and its rules."""
    head, *rules = re.split(rb"^(?=rule )", data, flags=re.M)
    return head, rules


def change_rules(chance, data, other):
    head, rules = parted(data)
    return head + b"".join(change_parts(chance, rules, parted(other)[1])) if rules else other


def make_rule(chance, data, _):
    """A rule more: one of the rules in whose pattern a class is replaced by the pattern of a rule of that class, once or twice."""
    head, rules = parted(data)
    patterns = [rule.split(b"\n", 1)[0].split()[1:] for rule in rules]
    patterns = [words for words in patterns if len(words) > 2]
    if not patterns:
        return data
    rule = chance.choice(rules)
    first, _, rest = rule.partition(b"\n")
    words = first.split()
    for _ in range(chance.randint(1, 2)):
        at = chance.randrange(2, len(words) + 1) if len(words) > 2 else len(words)
        fitting = [right for left, _, *right in patterns if words[at : at + 1] == [left]]
        if fitting:
            words[at : at + 1] = chance.choice(fitting)
    rules.insert(chance.randrange(len(rules) + 1), b" ".join(words) + b"\n" + rest)
    return head + b"".join(rules)


WAYS = {
    "gg": [change_bytes, change_number, change_word, change_lines, change_rules, change_rules, make_rule, make_rule, cut],
    "c": [change_bytes, change_number, change_word, change_word, change_lines, cut],
    "s": [change_bytes, change_number, change_word, change_word, change_lines, change_lines, cut],
    "img": [change_bytes, change_bytes, cut],
}


def mutant(chance, kind, seeds):
    """One of the seeds of that kind of file, changed one to three times."""
    data = chance.choice(seeds)
    for _ in range(chance.choice((1, 1, 1, 1, 2, 3))):
        data = chance.choice(WAYS[kind])(chance, data, chance.choice(seeds))
    return data
