#!/usr/bin/env python3
"""Writes a presentation of the group of a knot or link.

usage: knot.py [--few] braid LETTERS     the closure of a braid:   knot.py braid 1 -2 1 -2
       knot.py [--few] pd CROSSINGS      a planar diagram code:    knot.py pd 'X[1,4,2,5] X[3,6,4,1] X[5,2,6,3]'
       knot.py [--few] pretzel TWISTS    columns of half twists:   knot.py pretzel -2 3 7
       knot.py two-bridge P/Q            a two-bridge fraction:    knot.py two-bridge 5/2

The first three give Wirtinger's presentation: a generator for each arc, and a relation for each crossing but one, which
follows from the others. With --few it is written over as few of these generators as lead to all others, crossing by
crossing: that mostly completes sooner, and keeps larger knots within 24 generators. A knot and its mirror image have isomorphic
groups, so it plays no part which of the two a code means.
"""
import collections
import itertools
import math
import re
import sys

GENERATORS = 24
RELATORS = 64
# So many sets of arcs are tried as generators.
SETS = 200_000

# At a crossing the arc `under` ends, and `out` goes on behind the arc `over`: out = over^-sign under over^sign.
Crossing = collections.namedtuple("Crossing", "over sign under out")


class Refused(Exception):
    """Why a code means no knot, or none that fits into a presentation."""


class Joined:
    """Numbers, some of which are names of the same arc."""

    def __init__(self):
        self.to = {}

    def of(self, name):
        while name in self.to:
            name = self.to[name]
        return name

    def join(self, one, other):
        one, other = self.of(one), self.of(other)
        if one != other:
            self.to[other] = one


def numbered(crossings, names, joined):
    """The number of arcs, and the crossings with arcs from 0 on in the order of their names."""
    arcs = {name: at for at, name in enumerate(dict.fromkeys(map(joined.of, names)))}
    at = lambda name: arcs[joined.of(name)]
    return len(arcs), [Crossing(at(over), sign, at(under), at(out)) for over, sign, under, out in crossings]


def of_braid(letters):
    """The closure of a braid: the letter k takes strand k+1 over strand k, and -k strand k over strand k+1."""
    if 0 in letters:
        raise Refused("a letter of a braid is a number other than 0")
    strands = max(map(abs, letters), default=0) + 1
    here, crossings = list(range(strands)), []
    for out, letter in enumerate(letters, strands):
        left, right = here[abs(letter) - 1:abs(letter) + 1]
        over, under = (right, left) if letter > 0 else (left, right)
        crossings.append((over, 1 if letter > 0 else -1, under, out))
        here[abs(letter) - 1:abs(letter) + 1] = [over, out] if letter > 0 else [out, over]
    joined = Joined()
    for top, bottom in enumerate(here):
        joined.join(top, bottom)
    return numbered(crossings, range(strands + len(letters)), joined)


def over_ways(quadruples):
    """For each crossing (i, j, k, l) of a planar diagram code whether the edge over it runs from j to l.

    Each edge begins at one crossing and ends at one. From the edges under crossings, which run from i to k, this decides
    all edges but those of components that are over at each crossing; there the greater number follows, or either will do.
    """
    ends, begins, ways = set(), set(), [None] * len(quadruples)
    for i, _, k, _ in quadruples:
        ends.add(i)
        begins.add(k)
    while None in ways:
        sure = [n for n, way in enumerate(ways) if way is None and set(quadruples[n][1::2]) & (ends | begins)]
        at = sure[0] if sure else ways.index(None)
        _, j, _, l = quadruples[at]
        if j == l:
            ways[at] = True
        elif sure:
            ways[at] = j in begins or l in ends
        else:
            ways[at] = l == j + 1 or j > l + 1
        one, other = (j, l) if ways[at] else (l, j)
        if one in ends and one != other or other in begins and one != other:
            raise Refused(f"no way along the edges {j} and {l} is possible in crossing {at + 1}")
        ends.add(one)
        begins.add(other)
    return ways


def of_pd(quadruples):
    """A planar diagram code: for each crossing its edges, counterclockwise, from the one that ends under it."""
    counts = collections.Counter(itertools.chain(*quadruples))
    if any(count != 2 for count in counts.values()):
        raise Refused("in a planar diagram code each edge stands twice")
    joined, crossings = Joined(), []
    for (i, j, k, l), way in zip(quadruples, over_ways(quadruples)):
        joined.join(j, l)
        crossings.append((j, -1 if way else 1, i, k))
    return numbered(crossings, sorted(counts), joined)


def of_pretzel(twists):
    """A pretzel: columns of half twists side by side, joined at the top and at the bottom."""
    if len(twists) < 2 or 0 in twists:
        raise Refused("a pretzel has two columns at least, none of them with 0 half twists")
    # A port is a column, a crossing of it, and one of the corners sw, se, ne, nw in this order, counterclockwise.
    last = [abs(twist) - 1 for twist in twists]
    links = {}
    for column, count in enumerate(last):
        after = (column + 1) % len(twists)
        pairs = [((column, 0, 2), (after, 0, 3)), ((column, count, 1), (after, last[after], 0))]
        pairs += [((column, at, low), (column, at + 1, high)) for at in range(count) for low, high in ((0, 3), (1, 2))]
        for one, other in pairs:
            links[one], links[other] = other, one
    edges, entered = {}, {}
    for start in sorted(links):
        port = start
        while port not in edges:
            # An edge runs from the port to the one it is linked to, through that crossing, and goes on at the other side.
            edges[port] = edges[links[port]] = len(edges) // 2 + 1
            column, at, corner = links[port]
            entered[column, at, corner % 2] = corner
            port = column, at, (corner + 2) % 4
    code = []
    for column, twist in enumerate(twists):
        for at in range(abs(twist)):
            first = entered[column, at, 0 if twist > 0 else 1]
            code.append([edges[column, at, (first + turn) % 4] for turn in range(4)])
    return of_pd(code)


def two_bridge(p, q):
    """Schubert's presentation with two meridians and one relation."""
    if p < 2 or math.gcd(p, q) != 1:
        raise Refused("a two-bridge fraction P/Q has P above 1 and Q prime to it")
    q -= p if q % 2 == 0 else 0
    word = " ".join("yx"[(i + 1) % 2] + ("" if i * q // p % 2 == 0 else "^-1") for i in range(1, p))
    return f"<x, y | x {word} = {word} {'x' if p % 2 == 0 else 'y'}>"


def product(*words):
    """The product of words, which are lists of a generator's number from 1 on with a sign, freely reduced."""
    made = []
    for letter in itertools.chain(*words):
        if made and made[-1] == -letter:
            made.pop()
        else:
            made.append(letter)
    return made


def inverse(word):
    return [-letter for letter in reversed(word)]


def written(word):
    runs = ((letter, len(list(same))) for letter, same in itertools.groupby(word))
    powers = ((abs(letter), count if letter > 0 else -count) for letter, count in runs)
    return " ".join(f"x{g}" + (f"^{power}" if power != 1 else "") for g, power in powers) or "1"


def presented(generators, relations):
    """The text of a presentation, whose relations are texts."""
    if generators > GENERATORS or len(relations) > RELATORS:
        raise Refused(f"{generators} generators and {len(relations)} relators are too many for metab; --few makes fewer")
    names = ", ".join(f"x{g + 1}" for g in range(generators))
    return f"<{names} | {', '.join(relations)}>"


def wirtinger(arcs, crossings):
    """A generator for each arc, a relation for each crossing but the last."""
    relations = []
    for over, sign, under, out in crossings[:-1]:
        before, behind = (under, out) if sign > 0 else (out, under)
        relations.append(f"x{over + 1} x{behind + 1} = x{before + 1} x{over + 1}")
    return presented(arcs, relations)


def spread(words, crossings):
    """Gives each arc that the crossings lead to its word, the shortest first; returns the crossings that led to none."""
    left = list(crossings)
    while True:
        found = []
        for crossing in left:
            over, sign, under, out = crossing
            for known, new, turn in ((under, out, -sign), (out, under, sign)):
                if over in words and known in words and new not in words:
                    by = words[over] if turn > 0 else inverse(words[over])
                    found.append((product(by, words[known], inverse(by)), new, crossing))
        if not found:
            return left
        word, new, crossing = min(found, key=lambda it: len(it[0]))
        words[new] = word
        left.remove(crossing)


def seeds(arcs, crossings):
    """As few arcs as lead to all others."""
    tried = itertools.chain(*(itertools.combinations(range(arcs), size) for size in range(1, arcs + 1)))
    for chosen in itertools.islice(tried, SETS):
        known, before = set(chosen), 0
        while before < len(known):
            before = len(known)
            for over, _, under, out in crossings:
                if over in known and (under in known or out in known):
                    known |= {under, out}
        if len(known) == arcs:
            return chosen
    raise Refused("no few generators were found")


def few(arcs, crossings):
    """Wirtinger's presentation over as few of its generators as lead to the others."""
    chosen = seeds(arcs, crossings)
    words = {arc: [g + 1] for g, arc in enumerate(chosen)}
    relations = []
    for over, sign, under, out in spread(words, crossings):
        by = words[over] if sign > 0 else inverse(words[over])
        relations.append((product(inverse(by), words[under], by), words[out]))
    # One crossing follows from the others, and the longest is left out; so are relations between equal words.
    relations = sorted(relations, key=lambda it: len(it[0]) + len(it[1]))[:-1]
    return presented(len(chosen), [f"{written(u)} = {written(v)}" for u, v in relations if u != v])


def presentation(kind, words, is_few=False):
    """The presentation of a code, whose words are those of the command line."""
    text = " ".join(words)
    if kind == "two-bridge":
        fraction = re.fullmatch(r"\s*(\d+)\s*/\s*(-?\d+)\s*", text)
        if not fraction:
            raise Refused("a two-bridge fraction is P/Q, as 5/2")
        return two_bridge(int(fraction[1]), int(fraction[2]))
    if kind not in ("braid", "pd", "pretzel"):
        raise Refused(f"{kind!r} is none of braid, pd, pretzel, two-bridge")
    if re.search(r"[^-\d\s,\[\]XPD();]", text):
        raise Refused(f"{text!r} is no list of numbers")
    numbers = [int(number) for number in re.findall(r"-?\d+", text)]
    if kind == "pd":
        if not numbers or len(numbers) % 4:
            raise Refused("a planar diagram code has four edges for each crossing")
        numbers = [numbers[at:at + 4] for at in range(0, len(numbers), 4)]
    diagram = {"braid": of_braid, "pd": of_pd, "pretzel": of_pretzel}[kind](numbers)
    return (few if is_few else wirtinger)(*diagram)


def main(words):
    is_few = "--few" in words
    words = [word for word in words if word != "--few"]
    if len(words) < 2:
        sys.exit(__doc__.split("\n\n")[1])
    try:
        print(presentation(words[0], words[1:], is_few))
    except Refused as why:
        sys.exit(f"knot.py: {why}")


if __name__ == "__main__":
    main(sys.argv[1:])
