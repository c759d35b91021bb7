"""Times programs of this folder, alone or beside the same code in plain Rust.

A program prints a line for each of its rows, in their order and as often as it repeats them: a word, the nanoseconds and
the answer, which is `none` where it leaves the row out.
"""
import os
import subprocess
import sys
import tempfile

from building import BENCH, build

RUNS = 3


def plain(folder, name):
    """The program NAME.rs, built in the folder."""
    made = os.path.join(folder, "rust")
    flags = ["--edition", "2024", "-C", "opt-level=3", "-C", "target-cpu=x86-64-v2"]
    subprocess.run(["rustc", *flags, "-o", made, os.path.join(BENCH, f"{name}.rs")], check=True)
    return made


def best(commands, names):
    """For each command and row the least nanoseconds, and the answer."""
    times = [{} for _ in commands]
    for _ in range(RUNS):
        for found, command in zip(times, commands):
            lines = subprocess.run(command, check=True, capture_output=True, text=True).stdout.splitlines()
            for number, line in enumerate(lines):
                _, ns, answer = line.split()
                row = number % len(names)
                if answer == "none":
                    continue
                old = found.get(row, (float("inf"), answer))
                if old[1] != answer:
                    sys.exit(f"{names[row]}: two answers, {old[1]} and {answer}")
                found[row] = min(old, (int(ns), answer))
    for row, name in enumerate(names):
        if len({found[row][1] for found in times if row in found}) > 1:
            sys.exit(f"{name}: the answers differ")
    return times


def beside(name, uses, rows, proofs=None):
    """Prints the nanoseconds of one operation here and in plain Rust, and their ratio. A row is a name, and how many
    operations its line stands for."""
    with tempfile.TemporaryDirectory() as folder:
        commands = [[build(folder, name, uses, proofs)], [plain(folder, name)]]
        here, rust = best(commands, [row for row, _ in rows])
    print(f"{'operation':<28} {'Rattle ns':>12} {'Rust ns':>12} {'ratio':>6}")
    for row, (name, operations) in enumerate(rows):
        mine, other = here[row][0] / operations, rust[row][0] / operations
        print(f"{name:<28} {mine:>12.1f} {other:>12.1f} {mine / other:>6.2f}")
