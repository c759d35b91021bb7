#!/usr/bin/env python3
"""Makes the manual page from the texts that `metab help` prints: contrib/manual.py >docs/metab.1."""
import pathlib
import re

TEXTS = pathlib.Path(__file__).resolve().parent.parent / "docs" / "help"
# A line of a list is a head, two blanks at least, and a text, which may go on under itself.
ITEM = re.compile(r"  (\S+(?: \S+)*)  +(\S.*)")
HEAD = r""".\" Made by contrib/manual.py from docs/help; change those.
.TH METAB 1 2026-12-02
.SH NAME
metab \- decides words in metabelian quotients
.SH SYNOPSIS"""
TAIL = r""".SH SEE ALSO
In the repository: docs/guide.md, a tutorial; docs/texts.md, all formats; docs/format.md, all refusals;
docs/proved.md, what is proved."""


def roff(text):
    """The text as it must be written for roff to print it."""
    for plain, written in (("\\", r"\e"), ("-", r"\-"), ("'", r"\(aq"), ("^", r"\(ha"), ("~", r"\(ti")):
        text = text.replace(plain, written)
    return text


def part(lines):
    """A part of a text, which ends at an empty line: a heading, a list, lines as they stand, or running text."""
    if len(lines) == 1 and re.fullmatch(r"[A-Z][a-z]+", lines[0]):
        return [".PP", f".B {lines[0]}"]
    if not lines[0].startswith("  "):
        return [".PP", *map(roff, lines)]
    if not ITEM.fullmatch(lines[0]):
        return [".PP", ".EX", *map(roff, lines), ".EE"]
    made = []
    for line in lines:
        item = None if line.startswith("   ") else ITEM.fullmatch(line)
        made += [".TP", f".B {roff(item[1])}", roff(item[2])] if item else [roff(line.strip())]
    return made


def section(parts):
    """The lines of these parts behind a heading, where running text needs no mark."""
    lines = sum((part(it.split("\n")) for it in parts), [])
    return lines[1:] if lines[0] == ".PP" else lines


def parts_of(text):
    return text.strip("\n").split("\n\n")


def main():
    texts = {path.stem: path.read_text(encoding="ascii") for path in sorted(TEXTS.glob("*.txt"))}
    # The last part of the general text leads to the list of the commands, which here is the synopsis.
    general = parts_of(texts.pop("metab"))[1:-1]
    calls = {name: text.partition("\n") for name, text in texts.items()}
    lines = [HEAD]
    for call, _, _ in calls.values():
        lines += [".nf", roff(call), ".fi"]
    lines += [".SH DESCRIPTION", *section(general), ".SH COMMANDS"]
    for call, _, text in calls.values():
        lines += [f".SS {roff(call)}", *section(parts_of(text))]
    print(*lines, TAIL, sep="\n")


if __name__ == "__main__":
    main()
