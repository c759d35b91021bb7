#!/usr/bin/env python3
"""Tests flat certificates: contrib/test_flat.py PROGRAM.

For each answer `trivial` of the reports in examples, `flat` writes a certificate, which `sum` and contrib/check_flat.py, each by
itself, find to show that the word is trivial. With one coefficient changed neither does.
"""
import os
import pathlib
import re
import subprocess
import sys
import tempfile

TOP = pathlib.Path(__file__).resolve().parent.parent
CHECK = TOP / "contrib" / "check_flat.py"
ANSWER = re.compile(r"(?:live (\d+) (\d+) \d+|close (\d+) (\d+)) (?:trivial|normal|equal) (.*) : trivial")


def answers(report):
    """The presentation of a report, and the session, question and word of each word that is answered `trivial`."""
    lines = report.read_text(encoding="ascii").split("\n")
    found = []
    for session, number, closing, closed, words in filter(None, (a and a.groups() for a in map(ANSWER.fullmatch, lines))):
        left, equals, right = words.partition(" = ")
        found.append((session or closing, number or closed, f"({left}) ({right})^-1" if equals else words))
    return lines[1].removeprefix("pres "), found


def says(folder, *words):
    return subprocess.run(words, cwd=folder, capture_output=True, text=True).stdout


def wrong_with(program, folder, report):
    """The number of answers of a report, and what is wrong with those that fail."""
    presentation, asked = answers(report)
    wrong = []
    for name, text in (("p", presentation + "\n"), ("r", report.read_text(encoding="ascii"))):
        (folder / name).write_text(text)
    for session, number, word in asked:
        flat = says(folder, program, "flat", "p", "r", session, number, "1")
        for text, due in ((flat, True), (re.sub(r"^\+1\*", "+2*", flat, count=1, flags=re.M), "\n+1*" not in flat)):
            (folder / "f").write_text(text)
            found = [says(folder, *check, "p", word, "f").strip() == "trivial" for check in ((program, "sum"), (CHECK,))]
            if found != [due, due]:
                wrong.append(f"{report.name}: session {session}, question {number}: sum and check_flat.py find {found}, due is {due}")
    return len(asked), wrong


def main():
    program = os.path.abspath(sys.argv[1])
    count, wrong = 0, []
    with tempfile.TemporaryDirectory() as folder:
        for report in sorted((TOP / "examples").glob("**/*.report")):
            more, others = wrong_with(program, pathlib.Path(folder), report)
            count, wrong = count + more, wrong + others
    for why in wrong:
        print(why)
    print(f"flat certificates of examples: {count} tried, {len(wrong)} wrong")
    return 1 if wrong or not count else 0


if __name__ == "__main__":
    sys.exit(main())
