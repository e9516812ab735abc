"""Writes the list glob.txt: pattern, tab, path, tab, 1 or 0.

The meaning of patterns: `?` is one byte but `/`; `*` is a run of bytes without `/`, perhaps
empty; `**`, a whole component, is any number of components, and where it is last any rest of the
path that is not empty. A leading dot is ordinary. A pattern matches the whole path.

Each answer is made twice, by two methods that share no code:
- by_pieces cuts pattern and path at every `/` (empty pieces count) and fills tables, one over the
  two lists of pieces and one over the bytes of two pieces;
- by_places reads the path once, byte by byte, and keeps the set of places of the pattern that can
  be reached.
The list is refused if they differ anywhere.

    python3 make_glob.py glob.txt
"""

import itertools
import sys

LONGEST = 512


# ----------------------------------------------------------------------------------------------
# The meaning, by pieces


def piece_fits(pattern, text):
    """Whether one piece of a pattern, without `**`, matches one piece of a path."""
    # fits[j]: the part of the pattern read so far matches the first j bytes.
    fits = [True] + [False] * len(text)
    for p in pattern:
        if p == ord("*"):
            fits = list(itertools.accumulate(fits, lambda before, now: before or now))
        else:
            fits = [False] + [
                fits[j] and (p == ord("?") or p == text[j]) for j in range(len(text))
            ]
    return fits[len(text)]


def by_pieces(pattern, path):
    wanted = pattern.split(b"/")
    given = path.split(b"/")
    n = len(given)
    # fits[j]: the pieces of the pattern from i on match the pieces of the path from j on.
    fits = [False] * n + [True]
    known = {}
    for i in range(len(wanted) - 1, -1, -1):
        piece = wanted[i]
        if piece == b"**" and i == len(wanted) - 1:
            fits = [b"/".join(given[j:]) != b"" for j in range(n + 1)]
        elif piece == b"**":
            fits = [any(fits[j:]) for j in range(n + 1)]
        else:
            after = fits
            fits = []
            for j in range(n):
                if after[j + 1]:
                    pair = (piece, given[j])
                    if pair not in known:
                        known[pair] = piece_fits(piece, given[j])
                    fits.append(known[pair])
                else:
                    fits.append(False)
            fits.append(False)
    return fits[0]


# ----------------------------------------------------------------------------------------------
# The meaning again, by places

BYTE, ONE, RUN, FOLDERS, REST = range(5)


def steps_of(pattern):
    """The pattern as a list of steps. FOLDERS is `**/`, REST a last `**`."""
    steps = []
    i = 0
    while i < len(pattern):
        starts = i == 0 or pattern[i - 1] == ord("/")
        if starts and pattern[i:] == b"**":
            steps.append((REST, 0))
            i += 2
        elif starts and pattern[i : i + 3] == b"**/":
            steps.append((FOLDERS, 0))
            i += 3
        elif pattern[i] == ord("*"):
            steps.append((RUN, 0))
            i += 1
        elif pattern[i] == ord("?"):
            steps.append((ONE, 0))
            i += 1
        else:
            steps.append((BYTE, pattern[i]))
            i += 1
    return steps


def by_places(pattern, path):
    steps = steps_of(pattern)
    end = len(steps)

    def close(places):
        """Adds the places that are reached without a byte. A place is a step and whether the
        reading is in the middle of it."""
        todo = list(places)
        seen = set(places)
        while todo:
            at, middle = todo.pop()
            if at == end:
                continue
            kind = steps[at][0]
            free = kind == RUN or (kind == FOLDERS and not middle) or (kind == REST and middle)
            if free and (at + 1, False) not in seen:
                seen.add((at + 1, False))
                todo.append((at + 1, False))
        return seen

    places = close({(0, False)})
    for byte in path:
        slash = byte == ord("/")
        next_places = set()
        for at, _ in places:
            if at == end:
                continue
            kind, wanted = steps[at]
            if kind == BYTE and byte == wanted:
                next_places.add((at + 1, False))
            elif kind == ONE and not slash:
                next_places.add((at + 1, False))
            elif kind == RUN and not slash:
                next_places.add((at, False))
            elif kind == FOLDERS:
                next_places.add((at, not slash))
            elif kind == REST:
                next_places.add((at, True))
        places = close(next_places)
    return (end, False) in places


def accepted(pattern):
    """Two adjacent stars are a whole component."""
    return all(piece == b"**" or b"**" not in piece for piece in pattern.split(b"/"))


def answer(pattern, path):
    assert accepted(pattern), pattern
    first = by_pieces(pattern, path)
    second = by_places(pattern, path)
    if first != second:
        sys.exit("the two methods differ: %r on %r" % (pattern, path))
    return first


# ----------------------------------------------------------------------------------------------
# Chance with a fixed seed (splitmix64), so that the list comes out the same each time


class Chance:
    def __init__(self, seed):
        self.state = seed

    def next(self):
        mask = (1 << 64) - 1
        self.state = (self.state + 0x9E3779B97F4A7C15) & mask
        z = self.state
        z = ((z ^ (z >> 30)) * 0xBF58476D1CE4E5B9) & mask
        z = ((z ^ (z >> 27)) * 0x94D049BB133111EB) & mask
        return z ^ (z >> 31)

    def below(self, end):
        return self.next() % end

    def within(self, low, high):
        return low + self.below(high - low + 1)

    def often(self, percent):
        return self.below(100) < percent

    def pick(self, items):
        return items[self.below(len(items))]

    def shuffled(self, items):
        items = list(items)
        for i in range(len(items) - 1, 0, -1):
            j = self.below(i + 1)
            items[i], items[j] = items[j], items[i]
        return items


# ----------------------------------------------------------------------------------------------
# Short ones: a choice of all pairs


def all_texts(alphabet, longest):
    for n in range(longest + 1):
        for letters in itertools.product(alphabet, repeat=n):
            yield bytes(letters)


def short_pairs(chance, wanted):
    """All accepted patterns of up to four bytes over `/ a * ?`, each with paths of up to four
    bytes over `/ a b`; about as many that match as that do not (each that matches, if they are
    fewer than half)."""
    patterns = [p for p in all_texts(b"/a*?", 4) if accepted(p)]
    paths = list(all_texts(b"/ab", 4))
    yes = {p: [] for p in patterns}
    no = {p: [] for p in patterns}
    for p in patterns:
        for t in paths:
            (yes if answer(p, t) else no)[p].append(t)

    chosen = set()
    # Round by round one path for each pattern, so that no pattern is left out and those with few
    # matches keep them all.
    for kind in (yes, no):
        share = wanted // 2 if kind is yes else wanted - len(chosen)
        queues = {p: chance.shuffled(kind[p]) for p in patterns}
        if kind is no:
            # Paths about as long as the pattern are the better counterexamples: they come first.
            for p in patterns:
                queues[p].sort(key=lambda t: abs(len(t) - len(p)) > 1)
        left = share
        while left > 0 and any(queues.values()):
            for p in patterns:
                if queues[p] and left > 0:
                    chosen.add((p, queues[p].pop(0)))
                    left -= 1
    order = {p: i for i, p in enumerate(patterns)}
    place = {t: i for i, t in enumerate(paths)}
    return sorted(chosen, key=lambda pair: (order[pair[0]], place[pair[1]])), len(patterns)


# ----------------------------------------------------------------------------------------------
# Named ones

NAMED = [
    # Empty pieces count: `//a` matches no normal path.
    ("//a", "/a"),
    ("//a", "//a"),
    ("//a", "a"),
    ("//a", "/x/a"),
    ("/a", "//a"),
    ("/*/a", "//a"),
    ("/?/a", "//a"),
    ("/**/a", "//a"),
    ("/**//a", "/a"),
    ("/**//a", "//a"),
    ("/**//a", "/x/a"),
    ("/**//a", "/x//a"),
    ("/p//**/*", "/p/x.ts"),
    ("/p//**/*", "/p//x.ts"),
    ("/p//*", "/p/x.ts"),
    ("/p/**//*", "/p/x.ts"),
    ("/p/**//*", "/p//x.ts"),
    # Exclude and include with and without a named extension.
    ("/p/**/*.vue", "/p/src/a.vue"),
    ("/p/**/*.vue", "/p/a.vue"),
    ("/p/**/*.vue", "/p/.vue"),
    ("/p/**/*.vue", "/p/src/a.ts"),
    ("/p/src", "/p/src/a.vue"),
    ("/p/src/**/*", "/p/src/a.vue"),
    ("/p/src/**/*", "/p/src"),
    ("/p/src/**/*", "/p/src/"),
    ("/p/src/**/*", "/p/srcs/a.ts"),
    ("/p/src", "/p/src"),
    ("/p/src/", "/p/src"),
    ("/p/src/", "/p/src/"),
    # A dot or a wildcard in the last piece.
    ("/p/x.*", "/p/x.*"),
    ("/p/x.*", "/p/x.vue"),
    ("/p/x.*", "/p/x."),
    ("/p/x.*", "/p/x"),
    ("/p/x.*", "/p/x.d/a.ts"),
    ("/p/x.*/**/*", "/p/x.d/a.ts"),
    ("/p/x?", "/p/x?"),
    ("/p/x?", "/p/xy"),
    ("/p/x?", "/p/x"),
    ("/p/x?", "/p/x/"),
    ("/p/x?y", "/p/x/y"),
    ("/p/v1.2", "/p/v1.2/a.ts"),
    ("/p/.x", "/p/.x/a.ts"),
    # Extensions, and a leading dot is ordinary.
    ("/p/x.", "/p/x."),
    ("/p/*.", "/p/x."),
    ("/p/*.ts", "/p/.ts"),
    ("/p/*.ts", "/p/..ts"),
    ("/p/*.ts", "/p/x.TS"),
    ("/p/*.TS", "/p/x.TS"),
    ("/p/*.TS", "/p/x.ts"),
    ("*.TS", "x.TS"),
    ("/p/*.js", "/p/x.js"),
    ("/p/*.js", "/p/x.jsx"),
    ("/p/**/*", "/p/.git/x.ts"),
    ("/p/**/*", "/p/.x"),
    ("/p/*", "/p/.x"),
    ("/p/?x", "/p/.x"),
    ("/p/**/.*", "/p/a/.x"),
    ("/p/**/.*", "/p/a/x"),
    ("/p/*/x", "/p/./x"),
    ("/p/**/x", "/p/../x"),
    ("*", "."),
    ("*", ".."),
    ("?", "."),
    # Paths equal by components, but not by text.
    ("/p/./k.ts", "/p/k.ts"),
    ("/p/./k.ts", "/p/./k.ts"),
    ("//p/k.ts", "/p/k.ts"),
    ("/p/k.ts/", "/p/k.ts"),
    ("/p/k.ts", "/p/k.ts"),
    ("/p/k.ts", "/p/k.ts/"),
    ("/p/x/../k.ts", "/p/k.ts"),
    ("/p/K.ts", "/p/k.ts"),
    # What the empty item, `.` and a final slash become.
    ("/q/**/*", "/q/z.ts"),
    ("/q/**/*", "/q/"),
    ("/q/**/*", "/q"),
    ("/q/**/*", "/z.ts"),
    ("/**/*", "/z.ts"),
    ("/**/*", "/a/z.ts"),
    ("/**/*", "/"),
    ("/**/*", "//"),
    ("/**/*", ""),
    ("/nothing/**/*", "/a/b/x.ts"),
    ("/a/b/**/*", "/a/b/x.ts"),
    # `**` first, in the middle, last, alone, twice.
    ("**", ""),
    ("**", "/"),
    ("**", "a"),
    ("**", "/a"),
    ("**", "a/"),
    ("**", "//"),
    ("/**", ""),
    ("/**", "/"),
    ("/**", "//"),
    ("/**", "/a"),
    ("/**", "a"),
    ("/a/**", "/a"),
    ("/a/**", "/a/"),
    ("/a/**", "/a//"),
    ("/a/**", "/a/b"),
    ("/a/**", "/a/b/"),
    ("/a/**", "/a/b/c"),
    ("/a/**", "/ab"),
    ("/a/**/b", "/a/b"),
    ("/a/**/b", "/a//b"),
    ("/a/**/b", "/a/x/b"),
    ("/a/**/b", "/a/x/y/b"),
    ("/a/**/b", "/ab"),
    ("/a/**/b", "/a/xb"),
    ("/a/**/b", "/a/b/b"),
    ("/a/**/b", "/a/b/c"),
    ("/a/**/", "/a"),
    ("/a/**/", "/a/"),
    ("/a/**/", "/a/b"),
    ("/a/**/", "/a/b/"),
    ("/a/**/", "/a//"),
    ("**/", ""),
    ("**/", "/"),
    ("**/", "a"),
    ("**/", "a/"),
    ("**/a", "a"),
    ("**/a", "/a"),
    ("**/a", "b/a"),
    ("**/a", "ba"),
    ("**/a", "b/ba"),
    ("**/*", ""),
    ("**/*", "a"),
    ("**/*", "/"),
    ("**/**", ""),
    ("**/**", "/"),
    ("**/**", "a"),
    ("**/**", "a/"),
    ("**/**", "a/b"),
    ("/**/**", "/"),
    ("/**/**", "/a"),
    ("/a/**/**", "/a"),
    ("/a/**/**", "/a/"),
    ("/a/**/**", "/a/b"),
    ("/a/**/**/b", "/a/b"),
    ("/a/**/**/b", "/a/x/b"),
    ("*/**", ""),
    ("*/**", "/"),
    ("*/**", "a/"),
    ("*/**", "a/b"),
    ("*/**", "/a"),
    ("**/*/**", "/"),
    ("**/*/**", "a"),
    ("**/*/**", "a/b"),
    ("/a/**/*", "/a/"),
    ("/a/**/*", "/a"),
    ("/a/*/**", "/a/b"),
    ("/a/*/**", "/a/b/"),
    ("/a/*/**", "/a/b/c"),
    # Stars inside a piece.
    ("", ""),
    ("", "a"),
    ("*", ""),
    ("?", ""),
    ("ab*bc", "abc"),
    ("ab*bc", "abbc"),
    ("ab*bc", "abxbc"),
    ("ab*bc", "ab/bc"),
    ("a*a", "a"),
    ("a*a", "aa"),
    ("*a*", "a"),
    ("*ab", "aab"),
    ("*aab", "aaab"),
    ("*.d.ts", "x.d.d.ts"),
    ("*?", ""),
    ("*?", "a"),
    ("?*", "a"),
    ("?*?", "a"),
    ("?*?", "ab"),
    ("*/", "/"),
    ("*/", "a/"),
    ("/*", "/"),
    ("/*", "/a/"),
    ("/*/", "//"),
    ("/*/", "/a/"),
    # Bytes that mean nothing in a pattern, or only in other ones.
    ("/p/$x^(y)|z+.ts", "/p/$x^(y)|z+.ts"),
    ("/p/x.ts", "/p/xyts"),
    ("/p/*.ts", "/p/xyts"),
    ("/p/*", "/p/{a,b}"),
    ("/p/*", "/p/[ab]"),
    ("/p/?x", "/p/!x"),
    ("/p/*", "/p/*"),
    ("/p/a*", "/p/a**"),
    ("/p/\x61", "/p/a"),
    ("/p/~", "/p/~"),
    ("/p/ x", "/p/ x"),
]


# ----------------------------------------------------------------------------------------------
# Longer ones

BASES = ["/p", "/u/w", "/home/me/app", "/r/packages/core", "/t/st", "/p/.hidden", ""]
ITEMS = [
    "src/**/*", "**/*", "*", "**/*.ts", "src/**/*.ts", "src/**/*.tsx", "src/**/*.spec.ts",
    "**/*.spec.ts", "**/*.test.*", "src/*.d.ts", "types/**/*.d.ts", "**/*.vue", "src/**/*.vue",
    "packages/*/src/**/*", "packages/*/test/*.ts", "packages/**/src", "**/node_modules/*",
    "**/node_modules/**", "node_modules/**/*", "**/.*/", "**/.*/**/*", "dist/**", "**/__tests__/**",
    "**/__mocks__/*.ts", "tests/**/*.test.tsx", "*.config.ts", "vite.config.*", ".eslintrc.*",
    "src", "src/", "lib/*.js", "lib/**/*.min.js", "app/*/page.tsx", "app/**/page.tsx",
    "**/src/**/*.ts", "**/src/**/index.?s", "a?c/*.t?", "**/**/x", "**/a/**/b/**", "**/a/*/b",
    "src/**/fix*/**/*.ts", "**/*-*.ts", "??/*.ts", "*/*/*.ts", "*/**", "**/*/", "src/**/*_*_*.ts",
    "env.d.ts", "**/*.stories.@f", "src/v?/**/api*.ts", "**/?", "**/*.*", "**/*.*.*", ".*/**",
]
PARTS = [
    "src", "lib", "a", "b", "ab", "aa", ".git", "index.ts", "node_modules", "x.d.ts", "", ".",
    "*", "*", "**", "**", "**", "*.ts", "*.d.ts", "?", "??", "a*", "*a", "*a*", "a*b", "?*", "*?",
    ".*", "*.*", "x?z", "*a*b*", "?a?",
]
NAMES = [
    "src", "lib", "a", "b", "ab", "aa", "aab", "abab", "index.ts", "x.ts", "y.tsx", "x.d.ts",
    "x.spec.ts", "view.vue", ".git", ".x", "node_modules", "packages", "core", "test", "__tests__",
    "page.tsx", "v1", "x-y.ts", "a_b_c.ts", "*", "x.TS", "main.min.js", "deep", "fixtures",
]
LETTERS = b"aab..bxyzts-_*0~ "


def fill(chance, pattern):
    """A path that the pattern matches, put together from the pattern's own pieces."""
    pieces = pattern.split(b"/")
    out = []
    for i, piece in enumerate(pieces):
        if piece == b"**":
            least = 1 if i == len(pieces) - 1 else 0
            for _ in range(max(least, chance.below(4))):
                out.append(chance.pick(NAMES).encode())
            continue
        text = bytearray()
        for p in piece:
            if p == ord("*"):
                if chance.often(20):
                    text += chance.pick(NAMES).encode()
                else:
                    text += bytes(chance.pick(LETTERS) for _ in range(chance.below(5)))
            elif p == ord("?"):
                text.append(chance.pick(LETTERS))
            else:
                text.append(p)
        out.append(bytes(text))
    return b"/".join(out)


def spoil(chance, path):
    """The path with one small change."""
    kind = chance.below(9)
    i = chance.below(len(path) + 1)
    if kind == 0:
        return path[:i] + path[i + 1 :]
    if kind == 1:
        return path[:i] + bytes([chance.pick(LETTERS)]) + path[i:]
    if kind == 2:
        return path[:i] + bytes([chance.pick(b"/ab.x")]) + path[i + 1 :]
    if kind == 3:
        return path[:i] + b"/" + path[i:]
    if kind == 4:
        return path + b"/"
    if kind == 5:
        return path + b"/" + chance.pick(NAMES).encode()
    pieces = path.split(b"/")
    j = chance.below(len(pieces))
    if kind == 6:
        return b"/".join(pieces[:j] + pieces[j + 1 :])
    if kind == 7:
        return b"/".join(pieces[:j] + [chance.pick(NAMES).encode()] + pieces[j:])
    return path.swapcase()


def real_pattern(chance):
    return (chance.pick(BASES) + "/" + chance.pick(ITEMS)).encode()


def built_pattern(chance):
    start = chance.pick(["/", "/", "/", ""])
    return (start + "/".join(chance.pick(PARTS) for _ in range(chance.within(1, 6)))).encode()


def starry_pattern(chance):
    """Many stars in few letters."""
    pieces = []
    for _ in range(chance.within(1, 3)):
        if chance.often(25):
            pieces.append(b"**")
            continue
        piece = bytes(chance.pick(b"*ab?a*") for _ in range(chance.within(2, 10)))
        while b"**" in piece:
            piece = piece.replace(b"**", b"*")
        pieces.append(piece)
    return b"/".join(pieces)


def long_pairs(chance, wanted, seen):
    """Pairs of a pattern and a path made for it, half of them spoiled."""
    chosen = []
    counts = [0, 0]
    while len(chosen) < wanted:
        kind = chance.below(10)
        if kind < 5:
            pattern = real_pattern(chance)
        elif kind < 8:
            pattern = built_pattern(chance)
        else:
            pattern = starry_pattern(chance)
        if not accepted(pattern):
            continue
        path = fill(chance, pattern)
        assert answer(pattern, path)
        if chance.often(55):
            for _ in range(chance.within(1, 2)):
                path = spoil(chance, path)
        elif chance.often(5):
            path = fill(chance, real_pattern(chance))
        pair = (pattern, path)
        if pair in seen or len(pattern) > LONGEST or len(path) > LONGEST:
            continue
        fits = answer(pattern, path)
        if counts[fits] > counts[not fits] + 30:
            continue
        counts[fits] += 1
        seen.add(pair)
        chosen.append(pair)
    return chosen


def hostile_pairs():
    """Pairs on which a matcher that tries everything does not come to an end, and the longest
    ones."""
    pairs = []

    # Of middling length.
    for n in (3, 5, 8, 12, 16, 24):
        for last in (b"b", b"a", b"", b"/b"):
            pairs.append((b"*a" * n + b"*b", b"a" * (2 * n) + last))
        for last in (b"b", b"a", b"c", b"a/b"):
            pairs.append((b"a*" * n + b"b", b"a" * (3 * n) + last))
        for last in (b"b", b"a", b"/b", b"b/"):
            pairs.append((b"**/a/" * n + b"b", b"a/" * (2 * n) + last))
            pairs.append((b"**/*/" * n + b"b", b"a/" * (2 * n) + last))
            pairs.append((b"/**/*a*" * n + b"/b", b"/aa" * (2 * n) + b"/" + last))
        for extra in (-1, 0, 1):
            pairs.append((b"?*" * n, b"a" * (n + extra)))
            pairs.append((b"*?" * n + b"/x", b"a" * (n + extra) + b"/x"))
            pairs.append((b"*/" * n + b"*", b"a/" * (n + extra) + b"a"))
            pairs.append((b"**/" * n + b"*" + b"/*" * 3, b"a/" * (3 + extra) + b"a"))
            pairs.append((b"**/" * n + b"**", b"a/" * (1 + extra)))
            pairs.append((b"**/*/" * n + b"**", b"a/" * (n + extra) + b"a"))

    # The longest, 512 bytes on both sides or nearly so.
    stars = b"*a" * 256
    pairs += [
        (stars, b"a" * LONGEST),
        (stars, b"a" * (LONGEST - 1) + b"b"),
        (stars[:-1] + b"b", b"a" * LONGEST),
        (stars[:-1] + b"b", b"a" * (LONGEST - 1) + b"b"),
        (stars[:-1] + b"b", b"a" * 255 + b"b"),
        (stars[:-1] + b"b", b"a" * 254 + b"b"),
        (b"*a" * 255 + b"*b", b"a" * 256 + b"/" + b"a" * 254 + b"b"),
        (b"?" * LONGEST, b"a" * LONGEST),
        (b"?" * LONGEST, b"a" * (LONGEST - 1)),
        (b"?" * LONGEST, b"a" * 300 + b"/" + b"a" * 211),
        (b"a" * LONGEST, b"a" * LONGEST),
        (b"a" * LONGEST, b"a" * (LONGEST - 1) + b"b"),
        (b"*" + b"a" * 255 + b"*" + b"a" * 255, b"a" * LONGEST),
        (b"*" + b"a" * 255 + b"b*" + b"a" * 254, b"a" * LONGEST),
        (b"*" + b"a" * 255 + b"*" + b"a" * 255, b"a" * 509),
        (b"**/a/" * 102 + b"**", b"a/" * 255 + b"a"),
        (b"**/a/" * 102 + b"/b", b"a/" * 255 + b"b"),
        (b"**/a/" * 102 + b"b", b"a/" * 255 + b"b"),
        (b"**/a/" * 102 + b"b", b"a/" * 255 + b"a"),
        (b"**/a/" * 102 + b"b", b"a/" * 102 + b"b"),
        (b"**/a/" * 102 + b"b", b"a/" * 101 + b"b"),
        (b"**/*/" * 102 + b"b", b"a/" * 255 + b"b"),
        (b"**/*/" * 102 + b"b", b"/" * 511 + b"a"),
        (b"**/*/" * 102 + b"*b", b"/" * 511 + b"b"),
        (b"/**/*a*a*b" * 51, b"/aaab" * 102),
        (b"/**/*a*a*b" * 51, b"/aaaa" * 102),
        (b"/**/*a*a*b" * 51 + b"/c", b"/aaab" * 102 + b"/d"),
        (b"**/" * 170 + b"*b", b"a/" * 255 + b"ab"),
        (b"**/" * 170 + b"*b", b"a/" * 255 + b"ba"),
        (b"**/" * 170 + b"**", b"a/" * 256),
        (b"**/" * 170 + b"**", b""),
        (b"*/" * 255 + b"*", b"/" * 255),
        (b"*/" * 255 + b"*", b"/" * 254),
        (b"/*" * 256, b"/a" * 256),
        (b"/*" * 256, b"/a" * 255),
        (b"/home/me/app/**/" + b"*a" * 248, b"/home/me/app/" + b"ba" * 249 + b"b"),
    ]
    return pairs


def main():
    (target,) = sys.argv[1:]
    chance = Chance(0x676C6F6273746172)

    short, patterns = short_pairs(chance, 6000)
    seen = set(short)
    parts = [("short", short)]
    for title, pairs in (
        ("named", [(p.encode(), t.encode()) for p, t in NAMED]),
        ("hostile", hostile_pairs()),
    ):
        fresh = []
        for pair in pairs:
            if pair not in seen:
                seen.add(pair)
                fresh.append(pair)
        parts.append((title, fresh))
    parts.append(("by chance", long_pairs(chance, 2700, seen)))

    out = bytearray()
    told = []
    for title, pairs in parts:
        matching = 0
        for pattern, path in pairs:
            assert len(pattern) <= LONGEST and len(path) <= LONGEST
            assert all(0x20 <= b <= 0x7E and b != 0x5C for b in pattern + path)
            assert not any(b in b"{}[]!" for b in pattern)
            fits = answer(pattern, path)
            matching += fits
            out += pattern + b"\t" + path + (b"\t1\n" if fits else b"\t0\n")
        told.append("%d %s (%d match)" % (len(pairs), title, matching))
    with open(target, "wb") as file:
        file.write(out)
    lines = sum(len(pairs) for _, pairs in parts)
    print("glob.txt: %d lines of %d short patterns and others: %s, %d bytes"
          % (lines, patterns, ", ".join(told), len(out)))


if __name__ == "__main__":
    main()
