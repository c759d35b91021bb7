"""Runs of the program, with their time and memory."""
import os
import subprocess
import tempfile
import time
from collections import namedtuple

TOP = os.path.dirname(os.path.dirname(os.path.abspath(__file__)))
PROGRAM = os.path.join(TOP, "crates", "metab_cli", "out", "metab_cli")
TIME = "/usr/bin/time"
RUNS = 5

Run = namedtuple("Run", "seconds memory status answer")


def built():
    """Sees that the program is there: where it isn't, ./metab builds it."""
    if not os.access(PROGRAM, os.X_OK):
        subprocess.run([os.path.join(TOP, "metab")], stdout=subprocess.DEVNULL)


def timed(folder, words):
    """Seconds, peak memory in MB, status and answer of one run in a folder."""
    with tempfile.NamedTemporaryFile("r") as memory:
        # A child of this program counts this program's memory as its own, so the run is started by a small one, if it is there.
        by = [TIME, "-f", "%M", "-o", memory.name] if os.access(TIME, os.X_OK) else []
        start = time.perf_counter()
        ran = subprocess.Popen([*by, PROGRAM, *words], cwd=folder, stdout=subprocess.PIPE, stdin=subprocess.DEVNULL)
        answer = ran.stdout.read().decode("latin1")
        _, status, usage = os.wait4(ran.pid, 0)
        seconds = time.perf_counter() - start
        lines = memory.read().split()
    peak = int(lines[-1]) if lines else usage.ru_maxrss
    return Run(seconds, peak / 1024, os.waitstatus_to_exitcode(status), answer)


def best(folder, words):
    """The fastest of all runs in a folder."""
    return min((timed(folder, words) for _ in range(RUNS)), key=lambda run: run.seconds)


def last_answers(report):
    """The last answer to each question of a report, by the numbers of session and question."""
    answers = {}
    for line in report.splitlines():
        if line.startswith(("live ", "close ")):
            _, session, question, *_ = line.split()
            answers[session, question] = line.rsplit(" : ", 1)[1]
    return answers


def end_of(report):
    """The word for how the log of a report ends."""
    return next((line.split()[1] for line in report.splitlines() if line.startswith("end ")), "")
