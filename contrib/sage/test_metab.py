"""Holds verdicts of metab against Sage's own computations in finite groups: contrib/sage/test PROGRAM runs it in Sage."""
import random
import sys

from sage.all import FreeGroup

from metab import metab_presentation, metab_solve, metab_word


def main(program):
    free = FreeGroup("a, b")
    a, b = free.gens()
    found = [(metab_word(a * b / a / b), "a b a^-1 b^-1"), (metab_presentation(free / [a**3, a / b**2]), "<a, b | a^3, a b^-2>")]
    groups = [free / [a**2, b**3, (a * b)**3], free / [a**2, b**3, (a * b)**4], free / [a**4, a**2 / b**2, b * a / b * a],
              free / [a**7, b**3, b * a / b / a**2]]
    chosen = random.Random(1)
    for group in groups:
        whole = group.as_permutation_group()
        kernel = whole.derived_series()[2:] or [whole.subgroup([])]
        # The permutation group's generators are the images of a and b.
        words = [group([chosen.choice((-2, -1, 1, 2)) for _ in range(9)]) for _ in range(40)]
        words += [u * v / u / v for u, v in zip(words[:20], words[20:])]
        for word, verdict in zip(words, metab_solve(program, group, [("trivial", word) for word in words])):
            image = whole.one()
            for letter in word.Tietze():
                image *= whole.gens()[abs(letter) - 1] ** (1 if letter > 0 else -1)
            found.append((verdict, "trivial" if image in kernel[0] else "not-trivial"))
    wrong = [it for it in found if it[0] != it[1]]
    for got, wanted in wrong:
        print(f"{got}, wanted {wanted}")
    print(f"sage: {len(found) - len(wrong)} passed, {len(wrong)} failed")
    return 1 if wrong else 0


sys.exit(main(sys.argv[1]))
