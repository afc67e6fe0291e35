#!/usr/bin/env python3
"""Prints the man page ggvax(1), made from docs/commands.md, or ggdesk(1), made from docs/desk.md.

Usage: tools/man.py >ggvax.1; tools/man.py ggdesk >ggdesk.1
"""

import pathlib
import re
import sys

HERE = pathlib.Path(__file__).resolve().parent.parent
# Of each program its page, that page's title, what the program is, and its words.
PAGES = {
    "ggvax": (
        "commands.md",
        "Commands",
        "a retargetable code generator for the VAX-11, whose output is proved to do what its source does",
        "check D | compile D S | run A N | meaning S N | load D K | image A | text I | check32 D | run32 A N",
    ),
    "ggdesk": (
        "desk.md",
        "The desk",
        "says what the parts of ggvax(1) make of a file",
        "why NAME | trees S | rules D [S] | sets D | dot D | parse D | code D S",
    ),
}
HEAD = """.TH {} 1
.SH NAME
{} \\- {}
.SH SYNOPSIS
.B {}
{}
.SH DESCRIPTION"""


def spelled(text):
    """A text of Markdown in the man page's letters: what stands in backquotes or stars is bold, a link is its words."""
    text = re.sub(r"\[([^]]*)\]\([^)]*\)", r"\1", text).replace("\\|", "|").replace("\\", "\\e").replace("-", "\\-")
    text = re.sub(r"`([^`]*)`", r"\\fB\1\\fR", text)
    text = re.sub(r"\*\*([^*]*)\*\*", r"\\fB\1\\fR", text)
    return "\\&" + text if text[:1] in (".", "'") else text


def cells(line):
    return [it.strip() for it in re.split(r"(?<!\\)\|", line)[1:-1]]


def table(lines):
    """A paragraph for each row, under its first cell; a row whose first cell is empty goes on with the one before it."""
    for line in lines[2:]:
        first, *others = cells(line)
        if first:
            yield f".TP\n{spelled(first)}"
        else:
            yield ".br"
        yield "\n.br\n".join(spelled(it) for it in others if it)


def listed(lines):
    """A list's items, each behind its mark; what goes on with an item is indented."""
    for line in lines:
        found = re.match(r"(- |\d+\. )(.*)", line)
        if found:
            mark = "\\(bu" if found[1] == "- " else found[1].strip()
            yield f".IP {mark} 3\n{spelled(found[2])}"
        else:
            yield spelled(line.strip())


def blocks(text):
    """The page's parts: headings, tables, texts that stand as they are, lists, and paragraphs."""
    for part in re.findall(r"```\n.*?\n```|(?:[^\n]+\n?)+", text, re.S):
        lines = part.strip("\n").split("\n")
        if lines[0] == "```":
            yield ".PP\n.nf\n.RS\n" + "\n".join(spelled("`" + it + "`") if it else "" for it in lines[1:-1]) + "\n.RE\n.fi"
        elif lines[0].startswith("#"):
            yield f".SH {lines[0].lstrip('# ').upper()}"
        elif lines[0].startswith("|"):
            yield "\n".join(table(lines))
        elif re.match(r"(- |\d+\. )", lines[0]):
            yield "\n".join(listed(lines))
        else:
            yield ".PP\n" + spelled(" ".join(lines))


def main(name="ggvax"):
    page, title, what, words = PAGES[name]
    text = (HERE / "docs" / page).read_text()
    parts = [it for it in blocks(text) if it != f".SH {title.upper()}"]
    print("\n".join([HEAD.format(name.upper(), name, what, name, words), *parts]))
    return 0


if __name__ == "__main__":
    sys.exit(main(*sys.argv[1:]))
