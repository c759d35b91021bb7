#!/usr/bin/env python3
"""Prints a report of metab for people: `metab view REPORT`. It tells what the report says, and decides nothing."""
import collections
import os
import re
import sys

COLOURS = {"trivial": 32, "extends": 32, "not-trivial": 31, "fails": 31, "normal": 36, "unknown": 33, "stop": 33}
OPEN = ("unknown", "stop")
# So many terms of a normal form are shown, and so many bytes of a presentation or question.
TERMS = 8
WIDTH = 100

NUMBER = r"(\d+)"
STOP = r"(?:wide \d+ \S+|long \d+ \d+|deep|steep \d+)"
LINES = {kind: re.compile(form) for kind, form in {
    "entry": rf"entry {NUMBER} (?:from {NUMBER} )?(?:gen [+-]|sum \S.*) : \S.*",
    "seal": "seal",
    "live": rf"live {NUMBER} {NUMBER} {NUMBER} (\S.*) : (\S.*)",
    "proof": rf"proof {NUMBER} \S.*",
    "end": rf"end (sealed|stopped \d+ \d+ [GS] {STOP}|full (?:entries|terms|steps) \d+|spent \d+ \d+ \d+ [GS])",
    "close": rf"close {NUMBER} {NUMBER} (\S.*) : (\S.*)",
    "done": "done",
}.items()}
VERDICT = re.compile(rf"trivial|not-trivial|normal \S.*|extends|fails \d+|unknown \d+|stop \d+ {STOP}")

Reply = collections.namedtuple("Reply", "question verdict front")


class Unreadable(Exception):
    """Why a text is no report."""


class Report:
    """What the lines of a report say, with the replies of each question in the order of the lines."""

    def __init__(self, text):
        self.entries = self.proofs = 0
        self.end = self.items = None
        self.replies = collections.defaultdict(list)
        lines = text.split("\n")
        self.head(lines)
        first = 3 if self.items is None else 4
        for number, line in enumerate(lines[first - 1:], first):
            if self.take(number, line) == "done":
                break
        else:
            raise Unreadable("it ends without the line 'done'")
        if number + 1 != len(lines) or lines[-1]:
            # Behind the line end of the last line stands nothing.
            raise Unreadable(f"line {number + 1}: something stands behind 'done'")
        if self.end is None:
            raise Unreadable("it has no line 'end'")

    def head(self, lines):
        version = re.fullmatch("metab report ([12])", lines[0])
        if not version:
            raise Unreadable("line 1: a report begins with 'metab report 1' or 'metab report 2'")
        if len(lines) < 2 or not lines[1].startswith("pres <"):
            raise Unreadable("line 2: here stands 'pres' and the presentation")
        self.presentation = lines[1][len("pres "):]
        if version[1] == "2":
            found = re.fullmatch(f"items {NUMBER}", lines[2] if len(lines) > 2 else "")
            if not found:
                raise Unreadable("line 3: here stands 'items' and their number")
            self.items = int(found[1])

    def take(self, number, line):
        """Takes a line in, and returns its kind."""
        if not line:
            raise Unreadable(f"it ends behind line {number - 1}, without 'done': it wasn't written whole")
        kind = line.split(" ", 1)[0]
        found = LINES[kind].fullmatch(line) if kind in LINES else None
        if not found:
            raise Unreadable(f"line {number} is no line of a report: {line[:60]!r}")
        if kind in ("entry", "proof"):
            self.entries += kind == "entry"
            self.proofs += kind == "proof"
        elif kind == "end":
            self.end = found[1]
        elif kind in ("live", "close"):
            session, place, *front, question, verdict = found.groups()
            if not VERDICT.fullmatch(verdict):
                raise Unreadable(f"line {number}: no verdict is {verdict[:60]!r}")
            self.replies[int(session), int(place)].append(Reply(question, verdict, *front or [None]))
        return kind


def told_stop(words):
    """A limit that one computation has met."""
    kind, *rest = words
    if kind == "wide":
        return f"in step {rest[0]} a coefficient left the range of 128 bits, at {rest[1]}"
    if kind == "long":
        return f"in step {rest[0]} a vector had {rest[1]} terms, and 50,000 are the most"
    if kind == "steep":
        return f"a monomial had degree {rest[0]}, and 60,000 is the most"
    return "100,000 steps were made, and more were due"


def told_end(words):
    """Why the basis is not sealed."""
    kind, *rest = words
    if kind == "stopped":
        return f"the {rest[2]} task of the entries {rest[0]} and {rest[1]} met a limit: {told_stop(rest[3:])}"
    if kind == "full":
        return f"the limit on {rest[0]} was met: the next result would have made them {rest[1]}"
    return f"the budget of {counted(int(rest[0]), 'commit')} was spent before the {rest[3]} task of the entries {rest[1]} and {rest[2]}"


def told_verdict(question, verdict):
    """What stands under a verdict, or None where it says all by itself."""
    word, *rest = verdict.split(" ")
    of = f"the image of relator {rest[0]}" if rest and question.startswith("hom ") else "the word"
    if word == "normal":
        more = len(rest) - TERMS
        return " ".join(rest[:TERMS]) + (f" .. and {more} more terms" if more > 0 else "")
    if word == "fails":
        return f"{of} is not trivial"
    if word == "unknown":
        return f"the basis isn't sealed, and doesn't show {of} to be trivial"
    return f"{of}: {told_stop(rest[1:])}" if word == "stop" else None


def clipped(text):
    return text if len(text) <= WIDTH else f"{text[:WIDTH]} .. ({len(text)} bytes in all)"


def counted(number, noun):
    plural = noun[:-1] + "ies" if noun.endswith("y") else noun + "s"
    return f"{number} {noun if number == 1 else plural}"


def shown(report, paint):
    """The lines that are printed."""
    yield clipped(report.presentation)
    width = max((len(last.verdict.split(" ")[0]) for *_, last in report.replies.values()), default=0)
    places = max((len(str(place)) for _, place in report.replies), default=0)
    sessions = sorted({session for session, _ in report.replies})
    margin = " " * (places + width + 6)
    counts = collections.Counter()
    for session in sessions:
        yield ""
        if len(sessions) > 1:
            yield f"session {session}"
        for (_, place), replies in sorted(it for it in report.replies.items() if it[0][0] == session):
            question, verdict, _ = replies[-1]
            word = verdict.split(" ")[0]
            counts[word] += 1
            yield f"  {place:>{places}}  {paint(word, word.ljust(width))}  {clipped(question)}"
            first = replies[0].verdict.split(" ")[0]
            if len(replies) > 1 and first != word:
                yield f"{margin}at first {first}, by {counted(int(replies[0].front), 'item')}"
            under = told_verdict(question, verdict)
            if under:
                yield margin + under
    yield ""
    if report.end != "sealed":
        yield paint("stop", f"not sealed: {told_end(report.end.split(' '))}")
    yield summary(report, counts)


def summary(report, counts):
    answers = counted(sum(counts.values()), "question")
    if counts:
        answers += ": " + ", ".join(f"{counts[word]} {word}" for word in COLOURS if counts[word])
    entries = counted(report.entries, "entry")
    if report.items is not None:
        entries = f"{report.entries} of {counted(report.items - (report.end == 'sealed'), 'entry')}"
    return f"{answers}; {entries}, {'sealed' if report.end == 'sealed' else 'not sealed'}; {counted(report.proofs, 'proof')}"


def painter():
    """Colours a text by the word of a verdict, where a terminal shows it and nobody has asked for none."""
    if not sys.stdout.isatty() or "NO_COLOR" in os.environ or os.environ.get("TERM") == "dumb":
        return lambda _, text: text
    return lambda word, text: f"\x1b[{COLOURS[word]}m{text}\x1b[0m"


def fail(status, why):
    print(f"metab view: {why}", file=sys.stderr)
    sys.exit(status)


def main(words):
    if len(words) != 1:
        fail(2, "usage: metab view REPORT")
    try:
        with open(words[0], encoding="ascii", newline="") as file:
            report = Report(file.read())
    except OSError as why:
        fail(4, f"{words[0]} can't be read: {why.strerror}")
    except UnicodeDecodeError:
        fail(3, f"{words[0]} is no report: it has bytes that are no ASCII text")
    except Unreadable as why:
        fail(3, f"{words[0]} is no report of metab: {why}")
    try:
        print("\n".join(shown(report, painter())), flush=True)
    except BrokenPipeError:
        # Whoever read this has read enough.
        os.dup2(os.open(os.devnull, os.O_WRONLY), sys.stdout.fileno())


if __name__ == "__main__":
    main(sys.argv[1:])
