"""Words, Fox vectors and a text for Singular: what bench/run needs to put the same reductions before another program.

It shares nothing with the crates, so that it can be held against them: a word is a list of pairs of a generator's number
and a sign, a vector is a dictionary from (exponents, component) to coefficients, where the exponents of a generator and of
its inverse stand side by side.
"""
import re

TOKENS = re.compile(r"\s*([A-Za-z_][A-Za-z0-9_]*|\d+|->|[-^()\[\],=<>|*])")


class Reader:
    """Reads words, relators and presentations."""

    def __init__(self, text, names=None):
        self.tokens = TOKENS.findall(text)
        self.at = 0
        self.names = names

    def next(self):
        return self.tokens[self.at] if self.at < len(self.tokens) else ""

    def take(self, token):
        if self.next() != token:
            return False
        self.at += 1
        return True

    def word(self):
        found = []
        while self.next() and self.next() not in (",", "]", ")", "=", ">", "|", "->"):
            if not self.take("*"):
                found += self.powered()
        return found

    def powered(self):
        found = self.atom()
        while self.take("^"):
            sign = -1 if self.take("-") else 1
            found = power(found, sign * int(self.tokens[self.at]))
            self.at += 1
        return found

    def atom(self):
        if self.take("("):
            found = self.word()
            self.take(")")
            return found
        if self.take("["):
            left = self.word()
            self.take(",")
            right = self.word()
            self.take("]")
            return left + right + inverse(left) + inverse(right)
        token = self.tokens[self.at]
        self.at += 1
        return [] if token == "1" else [(self.names.index(token), 1)]

    def relator(self):
        left = self.word()
        return left + inverse(self.word()) if self.take("=") else left

    def words(self, end):
        found = []
        while not self.take(end) and self.next():
            found.append(self.relator())
            self.take(",")
        return found

    def presentation(self):
        self.take("<")
        self.names = []
        while not self.take("|"):
            self.names.append(self.tokens[self.at])
            self.at += 1
            self.take(",")
        return self.names, self.words(">")


def inverse(word):
    return [(g, -sign) for g, sign in reversed(word)]


def power(word, exponent):
    return word * exponent if exponent >= 0 else inverse(word) * -exponent


def fox(word, rank):
    """The Fox vector of a word: for a letter g behind the prefix u the term u at g, for its inverse the term -u/g at g."""
    vector = {}
    sums = [0] * rank
    for g, sign in word:
        if sign < 0:
            sums[g] -= 1
        exponents = tuple(e for s in sums for e in (max(s, 0), max(-s, 0)))
        if sign > 0:
            sums[g] += 1
        vector[exponents, g] = vector.get((exponents, g), 0) + sign
    return {place: c for place, c in vector.items() if c}


def sums_of(word, rank):
    """The exponents of a word's class: for each generator its sum, and for its inverse the negated sum, where these are positive."""
    sums = [sum(sign for g, sign in word if g == number) for number in range(rank)]
    return tuple(e for s in sums for e in (max(s, 0), max(-s, 0)))


def generators(relators, rank):
    """The generators of the module: the relators' vectors and binomials, and x x' - 1 for each generator and component."""
    found = [fox(relator, rank) for relator in relators]
    zero = (0,) * (2 * rank)
    ones = [sums_of(relator, rank) for relator in relators]
    ones += [tuple(1 if k // 2 == g else 0 for k in range(2 * rank)) for g in range(rank)]
    for one in ones:
        if one != zero:
            found += [{(one, component): 1, (zero, component): -1} for component in range(rank)]
    return [vector for vector in found if vector]


def substituted(word, images):
    return [letter for g, sign in word for letter in (images[g] if sign > 0 else inverse(images[g]))]


def subjects(line, names):
    """The words whose vectors a question asks to reduce."""
    keyword, rest = line.split(None, 1)
    if keyword == "hom":
        source, images = rest.split("->")
        found, relators = Reader(source).presentation()
        reader = Reader(images, names)
        by = []
        for _ in found:
            by.append(reader.word())
            reader.take(",")
        return [substituted(relator, by) for relator in relators]
    return [Reader(rest, names).relator()]


def singular_vector(vector):
    terms = []
    for (exponents, component), c in vector.items():
        factors = "".join(f"*x({k + 1})^{e}" for k, e in enumerate(exponents) if e)
        terms.append(f"({c}){factors}*gen({component + 1})")
    return "+".join(terms) if terms else "0*gen(1)"


def singular_text(presentation, session):
    """A text for Singular that prints the milliseconds of the strong basis and of all reductions."""
    names, relators = Reader(presentation).presentation()
    rank = len(names)
    module = generators(relators, rank)
    vectors = [fox(word, rank) for line in session.splitlines() for word in subjects(line, names)]
    lines = ['system("--ticks-per-sec",1000);', f"ring r = ZZ,(x(1..{2 * rank})),(dp,C);", "list l;", "vector v;"]
    lines += [f"l[{k}] = {singular_vector(vector)};" for k, vector in enumerate(vectors, 1)]
    lines.append("module m = " + ",\n".join(singular_vector(vector) for vector in module) + ";")
    lines += ["int t = rtimer;", "module g = std(m);", "int s = rtimer;", "int k; int n;"]
    lines += [f"for (k = 1; k <= {len(vectors)}; k++) {{ v = reduce(l[k], g); if (v == 0) {{ n++; }} }}", "int e = rtimer;"]
    lines += ['"result", size(g), s - t, e - s, n;', "quit;"]
    return "\n".join(lines) + "\n"
