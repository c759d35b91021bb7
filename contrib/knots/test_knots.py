#!/usr/bin/env python3
"""Tests knot.py by what is known of knots: test_knots.py METAB.

Alexander polynomials come from the Fox vectors that the program prints, and are held against the table of Rolfsen (1976) and,
for braids, against the Burau representation. Verdicts are held against the orders of meridians and the Fox colourings that the
polynomials and determinants give.
"""
import os
import random
import subprocess
import sys
import tempfile

import alexander
import knot

# Each name has its codes and its polynomial.
KNOTS = [
    ("3_1", ["braid 1 1 1", "pd X[1,4,2,5] X[3,6,4,1] X[5,2,6,3]", "two-bridge 3/1", "pretzel 1 1 1"], [1, -1, 1]),
    ("4_1", ["braid 1 -2 1 -2", "pd X[4,2,5,1] X[8,6,1,5] X[6,3,7,4] X[2,7,3,8]", "two-bridge 5/2"], [1, -3, 1]),
    ("5_1", ["braid 1 1 1 1 1", "pd X[1,6,2,7] X[3,8,4,9] X[5,10,6,1] X[7,2,8,3] X[9,4,10,5]", "two-bridge 5/1",
             "pretzel -2 3 1"], [1, -1, 1, -1, 1]),
    ("5_2", ["braid 1 1 1 2 -1 2", "pd X[1,4,2,5] X[3,8,4,9] X[5,10,6,1] X[9,6,10,7] X[7,2,8,3]", "two-bridge 7/2",
             "pretzel 1 1 3"], [2, -3, 2]),
    ("6_1", ["pd X[1,4,2,5] X[7,10,8,11] X[3,9,4,8] X[9,3,10,2] X[5,12,6,1] X[11,6,12,7]", "two-bridge 9/2",
             "two-bridge 9/4"], [2, -5, 2]),
    ("6_2", ["pd X[1,4,2,5] X[5,10,6,11] X[3,9,4,8] X[9,3,10,2] X[7,12,8,1] X[11,6,12,7]", "two-bridge 11/3",
             "two-bridge 11/4", "braid 1 1 1 -2 1 -2"], [1, -3, 3, -3, 1]),
    ("6_3", ["pd X[4,2,5,1] X[8,4,9,3] X[12,9,1,10] X[10,5,11,6] X[6,11,7,12] X[2,8,3,7]", "two-bridge 13/5",
             "braid 1 1 -2 1 -2 -2"], [1, -3, 5, -3, 1]),
    ("7_2", ["two-bridge 11/5"], [3, -5, 3]),
    ("7_3", ["two-bridge 13/4"], [2, -3, 3, -3, 2]),
    ("7_4", ["two-bridge 15/4"], [4, -7, 4]),
    ("7_5", ["two-bridge 17/7"], [2, -4, 5, -4, 2]),
    ("7_6", ["two-bridge 19/7"], [1, -5, 7, -5, 1]),
    ("7_7", ["two-bridge 21/8"], [1, -5, 9, -5, 1]),
    ("8_18", ["braid 1 -2 1 -2 1 -2 1 -2"], [1, -5, 10, -13, 10, -5, 1]),
    ("8_19", ["braid 1 2 1 2 1 2 1 2", "pretzel -2 3 3"], [1, -1, 0, 1, 0, -1, 1]),
    ("9_46", ["pretzel 3 3 -3"], [2, -5, 2]),
    ("10_124", ["braid 1 2 1 2 1 2 1 2 1 2", "pretzel -2 3 5"], [1, -1, 0, 1, -1, 1, 0, -1, 1]),
    ("P(-2,3,7)", ["pretzel -2 3 7"], [1, -1, 0, 1, -1, 1, -1, 1, 0, -1, 1]),
    ("P(-3,5,7)", ["pretzel -3 5 7"], [1]),
    ("Hopf link", ["braid 1 1", "pd X[4,1,3,2] X[2,3,1,4]", "two-bridge 2/1"], [-1, 1]),
    ("unknot", ["braid 1", "braid 1 2 -3", "pretzel 1 -2", "pd X[1,2,2,1]", "pd X[2,2,1,1]"], [1]),
    ("two circles, one over the other", ["braid 1 -1", "pd X[1,4,2,3] X[2,4,1,3]"], []),
]

# A code, a power of the first meridian, and whether that is central in the metabelian quotient: it is where the polynomial
# divides t^power - 1.
CENTRAL = [
    ("braid 1 1 1", 6, True), ("braid 1 1 1", 3, False), ("two-bridge 5/1", 10, True), ("two-bridge 5/1", 6, False),
    ("two-bridge 5/2", 60, False), ("pretzel -2 3 3", 12, True), ("pretzel -3 5 7", 1, True), ("two-bridge 7/2", 42, False),
]

# A code and a prime: there are colourings with so many colours, not all arcs of one, where it divides the determinant.
COLOURS = [("braid 1 1 1", 3, True), ("braid 1 1 1", 5, False), ("two-bridge 5/2", 5, True), ("two-bridge 5/2", 3, False),
           ("two-bridge 7/2", 7, True), ("two-bridge 15/4", 3, True), ("two-bridge 15/4", 5, True)]

REFUSED = ["braid 1 0", "pd X[1,2,3]", "pd X[1,2,3,4]", "two-bridge 4/2", "two-bridge 5", "pretzel 3 0", "braid a",
           "pretzel " + "3 " * 9, "chain 1 2"]


class Tester:
    def __init__(self, metab):
        self.metab = os.path.abspath(metab)
        self.passed = self.failed = 0

    def expect(self, what, got, wanted):
        self.passed += got == wanted
        self.failed += got != wanted
        if got != wanted:
            print(f"{what}: {got}, wanted {wanted}")

    def verdicts(self, presentation, questions):
        with tempfile.TemporaryDirectory() as folder:
            for name, text in (("pres", presentation), ("session", "\n".join(questions))):
                with open(os.path.join(folder, name), "w", encoding="ascii") as file:
                    file.write(text)
            ran = subprocess.run([self.metab, "solo", "pres", "session"], cwd=folder, capture_output=True, text=True)
        return [line.rsplit(" : ", 1)[1].split()[0] for line in ran.stdout.splitlines() if line.startswith("live ")]

    def polynomial(self, presentation):
        with tempfile.NamedTemporaryFile("w", suffix=".pres", encoding="ascii") as file:
            file.write(presentation)
            file.flush()
            return alexander.alexander(self.metab, file.name)


def presentation(code, is_few):
    kind, *words = code.split()
    return knot.presentation(kind, words, is_few)


def burau(letters, strands):
    """det(1 - B) (1 - t) / (1 - t^strands) of the reduced Burau matrix B, which is the polynomial of the closure."""
    size = strands - 1

    def times(one, other):
        made = [[{} for _ in range(size)] for _ in range(size)]
        for i in range(size):
            for j in range(size):
                for m in range(size):
                    for p, k in one[i][m].items():
                        for q, l in other[m][j].items():
                            made[i][j][p + q] = made[i][j].get(p + q, 0) + k * l
        return made

    def generator(letter):
        made, at = [[{0: int(i == j)} for j in range(size)] for i in range(size)], abs(letter) - 1
        made[at][at] = {1: -1} if letter > 0 else {-1: -1}
        if at > 0:
            made[at][at - 1] = {1: 1} if letter > 0 else {0: 1}
        if at < size - 1:
            made[at][at + 1] = {0: 1} if letter > 0 else {-1: 1}
        return made

    product = [[{0: int(i == j)} for j in range(size)] for i in range(size)]
    for letter in letters:
        product = times(product, generator(letter))
    less = [[{p: int(i == j and p == 0) - product[i][j].get(p, 0) for p in {0, *product[i][j]}} for j in range(size)]
            for i in range(size)]
    # (1 + t + .. ) times the polynomial is the determinant; it is divided out from the lowest coefficient on.
    left = alexander.polynomial(less)
    found = []
    for at in range(max(len(left) - size, 0)):
        found.append(left[at])
        for n in range(strands):
            left[at + n] -= found[-1]
    return [-k for k in found] if found and found[-1] < 0 else found


def dihedral(order):
    return f"<s, r | s^2, r^{order}, s r s r>"


def main():
    tester = Tester(sys.argv[1])
    for name, codes, wanted in KNOTS:
        for code in codes:
            for is_few in (False, True):
                tester.expect(f"{name} as {code}", tester.polynomial(presentation(code, is_few)), wanted)
    chosen = random.Random(1)
    for _ in range(20):
        strands = chosen.randint(3, 4)
        # Each strand is in a crossing, so that the closure isn't split, where the polynomial is 0.
        letters = [*range(1, strands)] + [chosen.choice((1, -1)) * chosen.randint(1, strands - 1) for _ in range(7)]
        code = "braid " + " ".join(map(str, letters))
        for is_few in (False, True):
            tester.expect(code, tester.polynomial(presentation(code, is_few)), burau(letters, strands))
    for code, power, is_central in CENTRAL:
        pres = presentation(code, True)
        names = alexander.relators(pres)[0]
        got = tester.verdicts(pres, [f"trivial [{names[0]}^{power}, {name}]" for name in names])
        tester.expect(f"{code}, power {power}", set(got) == {"trivial"}, is_central)
    for code, prime, is_coloured in COLOURS:
        pres = presentation(code, True)
        names = alexander.relators(pres)[0]
        # A colouring sends meridians to reflections; the first may be any, and the last another.
        images = [[0] * (len(names) - 1) + [1]] if len(names) == 2 else []
        questions = [f"hom {pres} -> " + ", ".join(f"s r^{at}" for at in image) for image in images]
        tester.expect(f"{code}, {prime} colours", tester.verdicts(dihedral(prime), questions) == ["extends"], is_coloured)
    for code in REFUSED:
        try:
            tester.expect(f"refused {code}", presentation(code, False), None)
        except knot.Refused:
            tester.passed += 1
    print(f"knots: {tester.passed} passed, {tester.failed} failed")
    return 1 if tester.failed or not tester.passed else 0


if __name__ == "__main__":
    sys.exit(main())
