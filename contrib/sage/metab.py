"""metab from Sage: load("contrib/sage/metab.py")

    metab_word(w)                     the text of a word, an element of a free or finitely presented group
    metab_presentation(G, m=None)     the text of a finitely presented group, with the modulus m
    metab_solve(program, G, questions, m=None)
                                      the verdicts of metab on questions about G: a list of texts

program is the path of metab, as "./metab" where Sage was started beside it. A question is one of

    ("trivial", w)   ("equal", u, v)   ("normal", w)   ("hom", H, images)

with elements of G, and for the last a finitely presented group H and an element of G for each of its generators.
"""
import itertools
import os
import re
import subprocess
import tempfile


def _names(group):
    """The names of a group's generators: its own where metab reads them all, else x1, x2, .."""
    names = [str(name) for name in group.variable_names()]
    readable = all(re.fullmatch("[A-Za-z][A-Za-z0-9_]*", name) for name in names)
    return names if readable else [f"x{g}" for g in range(1, len(names) + 1)]


def metab_word(word, names=None):
    names = names or _names(word.parent())
    runs = ((letter, len(list(same))) for letter, same in itertools.groupby(map(int, word.Tietze())))
    powers = [(names[abs(letter) - 1], count if letter > 0 else -count) for letter, count in runs]
    return " ".join(name if power == 1 else f"{name}^{power}" for name, power in powers) or "1"


def metab_presentation(group, m=None):
    names = _names(group)
    relators = ", ".join(metab_word(relator, names) for relator in group.relations())
    return f"<{', '.join(names)} | {relators}>" + (f" modulus {m}" if m else "")


def _question(question, names):
    kind, *rest = question
    if kind == "hom":
        source, images = rest
        return f"hom {metab_presentation(source)} -> " + ", ".join(metab_word(image, names) for image in images)
    return f"{kind} " + " = ".join(metab_word(word, names) for word in rest)


def metab_solve(program, group, questions, m=None):
    names = _names(group)
    with tempfile.TemporaryDirectory() as folder:
        pres, session = os.path.join(folder, "pres"), os.path.join(folder, "session")
        with open(pres, "w") as file:
            file.write(metab_presentation(group, m))
        with open(session, "w") as file:
            file.writelines(_question(question, names) + "\n" for question in questions)
        ran = subprocess.run([program, "solo", pres, session], stdout=subprocess.PIPE, universal_newlines=True)
    if ran.returncode not in (0, 1):
        raise ValueError(f"metab ended with status {ran.returncode}: {ran.stdout}")
    # A question's last line has its verdict, behind the only colon.
    verdicts = {}
    for line in ran.stdout.splitlines():
        if line.startswith(("live ", "close ")):
            verdicts[int(line.split()[2])] = line.split(" : ")[1]
    return [verdicts[number] for number in sorted(verdicts)]
