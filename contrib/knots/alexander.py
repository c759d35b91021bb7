#!/usr/bin/env python3
"""Prints the Alexander polynomial of a knot by the Fox vectors of metab.

usage: alexander.py METAB PRES

In the file PRES stands a presentation of a knot's group by meridians, all of which go to t, as knot.py writes it; METAB is
the program. The polynomial is printed by its coefficients from the constant one on.
"""
import re
import subprocess
import sys

TERM = re.compile(r"([+-]\d+)\*([^@]+)@(\w+)")


def row(vector, names):
    """A Fox vector with t for each generator: for each component a dictionary from exponents of t to coefficients."""
    found = {name: {} for name in names}
    for coefficient, monomial, name in TERM.findall(vector):
        factors = [] if monomial == "1" else [re.fullmatch(r"\w+?('?)(?:\^(\d+))?", it) for it in monomial.split(".")]
        power = sum(int(it[2] or 1) * (-1 if it[1] else 1) for it in factors)
        found[name][power] = found[name].get(power, 0) + int(coefficient)
    return [found[name] for name in names]


def determinant(matrix):
    """The determinant of a square matrix of integers, by divisions without rests (Bareiss)."""
    matrix, before, sign = [list(line) for line in matrix], 1, 1
    for at in range(len(matrix)):
        pivot = next((n for n in range(at, len(matrix)) if matrix[n][at]), None)
        if pivot is None:
            return 0
        if pivot != at:
            matrix[at], matrix[pivot], sign = matrix[pivot], matrix[at], -sign
        for line in matrix[at + 1:]:
            for n in range(len(matrix) - 1, at - 1, -1):
                line[n] = (line[n] * matrix[at][at] - line[at] * matrix[at][n]) // before
        before = matrix[at][at]
    return sign * before


def polynomial(rows):
    """The determinant of a square matrix over Z[t, 1/t] up to a unit: its coefficients, the last one positive.

    It is computed at t = 2^bits, where all its coefficients can be read off as digits.
    """
    bound, least = 1, [min(min(entry, default=0) for entry in line) for line in rows]
    for line in rows:
        bound *= sum(abs(k) for entry in line for k in entry.values())
    bits = bound.bit_length() + 1
    value = determinant([[sum(k << bits * (power - low) for power, k in entry.items()) for entry in line]
                         for line, low in zip(rows, least)])
    found = []
    while value:
        digit = (value + (1 << bits - 1)) % (1 << bits) - (1 << bits - 1)
        found.append(digit)
        value = (value - digit) >> bits
    while found and not found[0]:
        found.pop(0)
    return [-k for k in found] if found and found[-1] < 0 else found


def relators(text):
    """The names and the relators of a presentation whose words have no commas in them."""
    names, words = re.fullmatch(r"\s*<([^|]*)\|([^>]*)>\s*", text).groups()
    turned = (re.sub(r"=(.*)", r"(\1)^-1", word) for word in words.split(",") if word.strip())
    return [name.strip() for name in names.split(",")], list(turned)


def alexander(metab, pres):
    with open(pres, encoding="ascii") as file:
        names, words = relators(file.read())
    rows = []
    for word in words[:len(names) - 1]:
        ran = subprocess.run([metab, "fox", pres, word], capture_output=True, text=True, check=True)
        rows.append(row(ran.stdout.splitlines()[1], names)[:-1])
    # With fewer relators the polynomial is 0, as it is for a link that is split.
    return polynomial(rows) if len(rows) == len(names) - 1 else []


if __name__ == "__main__":
    if len(sys.argv) != 3:
        sys.exit(__doc__.split("\n\n")[1])
    print(*alexander(*sys.argv[1:]) or [0])
