#!/usr/bin/env python3
"""Tests the script metab and the completion in bash, which needs no program and no kit.

The script is copied to a folder where `rt` is a stand-in that says what rt would say and proves nothing.
"""
import os
import pty
import shutil
import subprocess
import sys
import tempfile

TOP = os.path.dirname(os.path.dirname(os.path.abspath(__file__)))

CRATES = "# what stands here\nlow:\nmiddle: low\nmetab_cli: middle\n"
RT = """#!/bin/sh
case $1 in
    all) cat "$SAID" ;;
    run) [ -e "$BROKEN" ] || { printf '#!/bin/sh\\necho ran "$@"\\n[ "$2" != bad ] || exit 2\\n' >out/metab_cli; chmod +x out/metab_cli; } ;;
    version) echo stand-in ;;
esac
"""
PROVED = """== low
fn low::first: proved
logic=proved functions=1
== middle
rt: middle: begins with what a check kept
== metab_cli
logic=proved functions=1
== summary
low: ok
"""
BROKEN = """== low
logic=proved functions=1
== middle
src/lib.rt:12:5: error[unknown-name]: cannot find value
logic=not-proved
== summary
middle: failed (1)
metab_cli: not run, since middle failed
"""


class Copy:
    """A copy of the script with the stand-in."""

    def __init__(self, folder, said, is_broken=False):
        self.folder = folder
        for part in ("crates/metab_cli/src", "bin", "contrib"):
            os.makedirs(os.path.join(folder, part))
        shutil.copy(os.path.join(TOP, "metab"), folder)
        shutil.copytree(os.path.join(TOP, "docs", "help"), os.path.join(folder, "docs", "help"))
        for name, text in (("crates.txt", CRATES), ("said", said), ("bin/rt", RT), ("crates/metab_cli/src/main.rt", "")):
            with open(os.path.join(folder, name), "w", encoding="ascii") as file:
                file.write(text)
        os.chmod(os.path.join(folder, "bin", "rt"), 0o755)
        if is_broken:
            open(os.path.join(folder, "broken"), "w").close()

    def run(self, *words, has_rt=True):
        path = "/usr/bin:/bin"
        env = {"PATH": f"{self.folder}/bin:{path}" if has_rt else path, "SAID": f"{self.folder}/said",
               "BROKEN": f"{self.folder}/broken", "METAB_JOBS": "2"}
        ran = subprocess.run([f"{self.folder}/metab", *words], env=env, capture_output=True, text=True)
        return ran.returncode, ran.stdout, ran.stderr

    def told_on_a_terminal(self, *words):
        ours, theirs = pty.openpty()
        ran = subprocess.run([f"{self.folder}/metab", *words], stdout=subprocess.DEVNULL, stderr=theirs)
        # So that there is something to read in any case.
        os.write(theirs, b".")
        os.close(theirs)
        told = os.read(ours, 10_000).decode()
        os.close(ours)
        return ran.returncode, told


def cases():
    """What is tried, what came of it, and whether that is right."""
    with tempfile.TemporaryDirectory() as folder:
        copy = Copy(folder, PROVED)
        status, _, told = copy.run("fox", "p", has_rt=False)
        yield "no kit", told, status == 1 and "needs 'rt'" in told
        status, printed, told = copy.run("solo", "--budget", "0", "a b")
        yield "a first build", told, (status, printed) == (0, "ran solo --budget 0 a b\n")
        lines = [line.split("  ", 1)[-1] for line in told.splitlines()[1:]]
        yield "its lines", told, lines == ["low is proved, 2 of 3 left", "middle is done, 1 of 3 left",
                                           "metab_cli is proved, 0 of 3 left", "the program is built"]
        yield "a second run", None, copy.run("gen", "1") == (0, "ran gen 1\n", "")
        yield "the path", None, copy.run("--where") == (0, f"{folder}/crates/metab_cli/out/metab_cli\n", "")
        yield "--where with words", None, copy.run("--where", "x")[1] == "ran --where x\n"
        yield "words that are refused", None, copy.run("solo", "bad") == (2, "ran solo bad\n", "")
        hints = [copy.told_on_a_terminal(*words) for words in (["solo", "bad"], ["so", "bad"], ["solo", "good"])]
        yield "hints on a terminal", hints, [status for status, _ in hints] == [2, 2, 0] and (
            "'metab help solo'" in hints[0][1] and "'metab help' lists" in hints[1][1] and hints[2][1] == ".")
        status, printed, _ = copy.run("help")
        yield "help", printed, status == 0 and printed.endswith("  metab --where\n") and "  metab solo [" in printed
        yield "help solo", None, copy.run("help", "solo")[1].startswith("metab solo [")
        yield "help for nothing", None, copy.run("help", "nothing")[0] == 2 and copy.run("help", "a", "b")[0] == 2
    with tempfile.TemporaryDirectory() as folder:
        status, printed, told = Copy(folder, BROKEN, True).run("--where")
        yield "a broken build", told, (status, printed) == (1, "") and all(part in told for part in (
            "low is proved, 2 of 3 left", "middle IS NOT PROVED, 1 of 3 left", "cannot find value", "it prints: stand-in"))
    for words, wanted in ((["metab", "so"], "solo"), (["metab", "help", "fo"], "fox"), (["metab", "--"], "--where"),
                          (["metab", "solo", "--b"], "--budget"), (["metab", "check", "--"], ""), (["metab", "solo", "x"], "")):
        commands = 'source "$0"; COMP_WORDS=("$@"); COMP_CWORD=$(($# - 1)); _metab; echo "${COMPREPLY[*]}"'
        ran = subprocess.run(["bash", "-c", commands, os.path.join(TOP, "contrib", "metab.bash"), *words],
                             capture_output=True, text=True)
        yield f"completing {words}", ran.stdout + ran.stderr, ran.stdout == wanted + "\n"


def main():
    found = list(cases())
    wrong = [(what, seen) for what, seen, is_right in found if not is_right]
    for what, seen in wrong:
        print(f"{what}: {seen}")
    print(f"script: {len(found) - len(wrong)} passed, {len(wrong)} failed")
    return 1 if wrong else 0


if __name__ == "__main__":
    sys.exit(main())
