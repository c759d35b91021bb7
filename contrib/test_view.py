#!/usr/bin/env python3
"""Tests `metab view`, which needs no program: reports from the examples and from here, and texts that are no reports."""
import os
import pty
import subprocess
import sys
import tempfile

TOP = os.path.dirname(os.path.dirname(os.path.abspath(__file__)))
METAB = os.path.join(TOP, "metab")

# A report of version 2, over a presentation with one generator, with a question that is answered twice.
SECOND = """metab report 2
pres <a | >
items 3
entry 0 from 0 gen + : +1*a.a'@a -1*1@a
live 1 1 2 trivial a : unknown 1
end spent 1 0 1 S
close 1 1 trivial a : not-trivial
done
"""

# What is seen of a text: the status, and a part of what is printed.
TEXTS = [
    (SECOND, 0, "  1  not-trivial  trivial a\n                  at first unknown, by 2 items\n"),
    (SECOND, 0, "the budget of 1 commit was spent before the S task of the entries 0 and 1\n"),
    (SECOND, 0, "1 question: 1 not-trivial; 1 of 3 entries, not sealed; 0 proofs\n"),
    ("", 3, "line 1: a report begins with"),
    ("metab report 1\n", 3, "line 2: here stands 'pres'"),
    ("metab report 2\npres <a | >\nseal\n", 3, "line 3: here stands 'items'"),
    ("metab report 1\npres <a | >\nlive 1 1\n", 3, "line 3 is no line of a report: 'live 1 1'"),
    ("metab report 1\npres <a | >\nlive 1 1 1 trivial a : maybe\n", 3, "line 3: no verdict is 'maybe'"),
    ("metab report 1\npres <a | >\nseal\n", 3, "it ends behind line 3, without 'done'"),
    ("metab report 1\npres <a | >\ndone\n", 3, "it has no line 'end'"),
    ("metab report 1\npres <a | >\nend sealed\ndone\nend sealed\n", 3, "line 5: something stands behind 'done'"),
    ("refused words\n", 3, "line 1: a report begins with"),
]


def viewed(text):
    with tempfile.NamedTemporaryFile("w", suffix=".report", encoding="ascii") as file:
        file.write(text)
        file.flush()
        ran = subprocess.run([METAB, "view", file.name], capture_output=True, text=True)
    return ran.returncode, ran.stdout + ran.stderr


def on_a_terminal(changes):
    """What `view` prints of an example where its output is a terminal."""
    ours, theirs = pty.openpty()
    subprocess.run([METAB, "view", os.path.join(TOP, "examples", "trefoil.report")], stdout=theirs,
                   env={"PATH": os.environ["PATH"], "TERM": "xterm", **changes})
    os.close(theirs)
    printed = os.read(ours, 100_000).decode()
    os.close(ours)
    return printed


def main():
    wrong = []
    for text, status, part in TEXTS:
        got, printed = viewed(text)
        if got != status or part not in printed:
            wrong.append(f"status {got}, wanted {status}, with {part!r} in {printed!r}")
    green, colourless = "\x1b[32mtrivial    \x1b[0m", ({"NO_COLOR": "1"}, {"TERM": "dumb"})
    if green not in on_a_terminal({}) or any("\x1b" in on_a_terminal(changes) for changes in colourless):
        wrong.append("verdicts are coloured where they shouldn't be, or the other way round")
    for why in wrong:
        print(why)
    count = len(TEXTS) + 1
    print(f"view: {count - len(wrong)} passed, {len(wrong)} failed")
    return 1 if wrong else 0


if __name__ == "__main__":
    sys.exit(main())
