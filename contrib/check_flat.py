#!/usr/bin/env python3
"""Whether a flat certificate shows that a word is trivial: check_flat.py PRES WORD FLAT. It uses nothing of metab."""
import collections, re, sys


def inverse(word):
    return [(g, -e) for g, e in reversed(word)]


def read_word(tokens, names):
    """Takes a word off the tokens: a list of letters, each the number of a generator and 1 or -1."""
    letters = []
    while tokens and tokens[0] not in (">", ",", "|", "=", ")", "]"):
        token = tokens.pop(0)
        if token == "[":
            u, _, v, _ = read_word(tokens, names), tokens.pop(0), read_word(tokens, names), tokens.pop(0)
            factor = u + v + inverse(u) + inverse(v)
        elif token == "(":
            factor, _ = read_word(tokens, names), tokens.pop(0)
        else:
            factor = [] if token in "1*" else [(names.index(token), 1)]
        while tokens and tokens[0] == "^":
            sign, number = re.fullmatch(r"\^(-?)(\d+)", tokens.pop(0) + tokens.pop(0)).groups()
            factor = (inverse(factor) if sign else factor) * int(number)
        letters += factor
    return letters


def fox(word, n):
    """The Fox vector, as terms (integer vector, component, coefficient), and the exponent sums."""
    at, terms = [0] * n, []
    for g, e in word:
        at[g] += min(e, 0)
        terms.append((tuple(at), g, e))
        at[g] += max(e, 0)
    return terms, tuple(at)


def main(pres, text, flat):
    split = lambda text: re.findall(r"[A-Za-z]\w*|-?\d+|\S", text)
    names, relators, modulus = re.fullmatch(r"\s*<([^|]*)\|(.*)>(?:\s*modulus\s*(\d+))?\s*", open(pres).read(), re.S).groups()
    names, tokens, words, turned = re.findall(r"\w+", names), split(relators), [], False
    while tokens:
        word = read_word(tokens, names)
        words[-1:] = [words[-1] + inverse(word)] if turned else words[-1:] + [word]
        turned = tokens[:1] == ["="] and bool(tokens.pop(0)) or bool(tokens) and not tokens.pop(0)
    n, left = len(names), collections.Counter()
    read = lambda text: fox(read_word(split(text), names), n)
    for line in ["-1*1 word"] + open(flat).read().split("\n")[1:-2]:
        k, power, kind, *rest = re.split(r"[* ]", line)
        by, c = read(power.replace("'", "^-1").replace(".", " "))[1], rest and kind != "rel" and names.index(rest[-1])
        terms, a = read(text) if kind == "word" else fox(words[int(rest[0]) - 1] if kind != "mod" else [], n)
        terms = {"bin": [(a, c, 1), ((0,) * n, c, -1)], "mod": [((0,) * n, c, int(modulus or 0))]}.get(kind, terms)
        for at, component, q in terms:
            left[tuple(map(sum, zip(by, at))), component] += int(k) * q
    print("not trivial by this" if any(left.values()) else "trivial")


main(*sys.argv[1:])
