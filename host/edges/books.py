#!/usr/bin/env python3
"""books.py OUT COUNT SEED: writes the list of books, entry by entry, for `verdicts` to fill in.

A verdict that document 01 gives outright is written here by hand; `verdicts` holds it to its own. A number of 255 is left to it.
An entry is a kind (1 byte), the size of its body (2 bytes, low first) and the body. The kinds:
    0  a group's name
    1  a book begins, empty
    2  more commands: how often (2 bytes), and the bytes
    3  more text: the same
    4  a verdict: bytes of commands (3), bytes of text (3), number (1), place (2), records (1), sum of the index (4)
    5  damage of the commands: place (2), sum of the verdicts with each byte there, from FF down (4)
    6  damage of the text: the same
"""
import os
import struct
import sys

sys.path.insert(0, os.path.join(os.path.dirname(os.path.abspath(__file__)), '..', 'judge', 'gen'))
from book import Writer  # noqa: E402
from generate import Maker  # noqa: E402

BEGIN, FILES, FILE, INCLUDE, INCLUDE_ITEM, EXCLUDE, EXCLUDE_ITEM, EXTENDS, BASE_URL = range(1, 10)
PATHS, KEY, TARGET, REFERENCE, ROOT_DIRS, ROOT_DIR, OUT_DIR, DECLARATION_DIR, FLAG, TEXT_OPTION, END = range(10, 21)
WIDTHS = {c: 4 for c in range(1, 21)}
WIDTHS.update({c: 0 for c in (FILES, INCLUDE, EXCLUDE, PATHS, ROOT_DIRS, END)})
WIDTHS.update({FLAG: 2, TEXT_OPTION: 5})
ONCE = [(FILES,), (INCLUDE,), (EXCLUDE,), (BASE_URL, 'u'), (PATHS,), (ROOT_DIRS,), (OUT_DIR, 'o'), (DECLARATION_DIR, 'd')]
ASK = 255


class List:
    def __init__(self):
        self.out = bytearray()
        self.made = None

    def entry(self, kind, body=b''):
        self.out += struct.pack('<BH', kind, len(body)) + body

    def group(self, name):
        self.made = None
        self.entry(0, name.encode())

    def bytes(self, kind, data):
        """Runs of one byte or of five are written as a repeat. Repeats may also be given outright, as pairs of how often and what."""
        if isinstance(data, list):
            for times, part in data:
                for some in [60000] * (times // 60000) + [times % 60000]:
                    if some:
                        self.entry(kind, struct.pack('<H', some) + part)
            return
        at, plain = 0, 0
        while at < len(data):
            period, end = next(((p, e) for p in (1, 5) for e in [run(data, at, p)] if e - at > 24), (0, at + 1))
            if period:
                if plain < at:
                    self.entry(kind, struct.pack('<H', 1) + data[plain:at])
                self.entry(kind, struct.pack('<H', (end - at) // period) + data[at:at + period])
                plain = end
            at = end
        if plain < len(data):
            self.entry(kind, struct.pack('<H', 1) + data[plain:])

    def book(self, commands, text):
        if self.made == (commands, text):
            return
        self.made = (commands, text)
        self.entry(1)
        self.bytes(2, commands)
        self.bytes(3, text)

    def verdict(self, commands, text, number=ASK, place=0, count=0):
        self.book(commands, text)
        self.cut(size(commands), size(text), number, place, count)

    def cut(self, m, n, number=ASK, place=0, count=0):
        self.entry(4, m.to_bytes(3, 'little') + n.to_bytes(3, 'little') + struct.pack('<BHBI', number, place, count, 0))

    def damage(self, kind, place):
        self.entry(kind, struct.pack('<HI', place, 0))


def run(data, at, period):
    """Where the whole repeats of the first bytes from a place on end."""
    first = data[at:at + period]
    while len(first) == period and data[at:at + period] == first:
        at += period
    return at


def size(data):
    return sum(times * len(part) for times, part in data) if isinstance(data, list) else len(data)


def write(commands, text=b''):
    """Commands and text of commands given as tuples, and the offset of each command."""
    writer = Writer()
    writer.text += text
    for command in commands:
        if isinstance(command, bytes):
            writer.raw(command)
        else:
            writer.put(*command)
    return bytes(writer.commands), bytes(writer.text), writer.offsets


def good(out, commands):
    c, t, _ = write(commands)
    out.verdict(c, t, 0, 0, sum(x[0] == BEGIN for x in commands))


def bad(out, number, commands, which=None, text=b''):
    """The command that is refused is the last, or the one of the number given."""
    c, t, at = write(commands, text)
    out.verdict(c, t, number, at[len(at) - 1 if which is None else which])


def record(path, *commands):
    return [(BEGIN, path)] + list(commands) + [(END,)]


def kinds(value, path):
    """For each kind of string: what comes before its command in a record, and the command."""
    yield [], (BEGIN, path)
    for before, command in (((FILES,), FILE), ((INCLUDE,), INCLUDE_ITEM), ((EXCLUDE,), EXCLUDE_ITEM), (None, EXTENDS), (None, BASE_URL),
                            ((PATHS,), KEY), (((PATHS,), (KEY, 'k')), TARGET), (None, REFERENCE), ((ROOT_DIRS,), ROOT_DIR), (None, OUT_DIR), (None, DECLARATION_DIR)):
        before = [] if before is None else [before] if isinstance(before[0], int) else list(before)
        yield [(BEGIN, '/p')] + before, (command, value)
    for number in range(7):
        yield [(BEGIN, '/p')], (TEXT_OPTION, number, value)


def lengths(out):
    out.group('lengths')
    for n in (511, 512, 513, 600):
        for before, command in kinds('a' * n, '/' + 'a' * (n - 1)):
            if n <= 512:
                good(out, before + [command, (END,)])
            else:
                bad(out, 4, before + [command, (END,)], len(before))
    for before, command in list(kinds('', ''))[1:]:
        good(out, before + [command, (END,)])
    bad(out, 4, [(BEGIN, '')])
    # A long string that breaks another rule too, and long ones of components, stars and slashes.
    for before, command in kinds('/a' * 256, '/a' * 256):
        good(out, before + [command, (END,)])
    for before, command in kinds('/a' * 256 + '/', '/a' * 256 + '/'):
        bad(out, 4, before + [command, (END,)], len(before))
    for item in (INCLUDE_ITEM, EXCLUDE_ITEM):
        good(out, record('/p', (item - 1,), (item, '**/' * 170 + '**')))
        good(out, record('/p', (item - 1,), (item, '**/' * 170 + '*?')))
        bad(out, 4, [(BEGIN, '/p'), (item - 1,), (item, '**/' * 170 + '***')])
        bad(out, 4, [(BEGIN, '/p'), (item - 1,), (item, '**/' * 169 + 'a****')])
        good(out, record('/p', (item - 1,), (item, '${configDir}' + '*/' * 250)))
        bad(out, 4, [(BEGIN, '/p'), (item - 1,), (item, '${configDir}' + '*/' * 250 + 'a')])


def edges_of_text(out):
    """A string leaves the text where its end passes it, also at length 0."""
    out.group('text-ends')
    for n in (2, 3, 512, 65535):
        text = [(1, b'/p'), (n - 2, b'a')] if n > 2 else b'/p'
        for start in sorted({0, 1, 2, n - 512, n - 2, n - 1, n, n + 1, 65534, 65535}):
            for length in (0, 1, 2, 3, 511, 512, 513, 65535):
                if not 0 <= start <= 65535:
                    continue
                for before, command in ((b'', OUT_DIR), (b'\x02', FILE)):
                    head = b'\x01\0\0\2\0' + before
                    c = head + struct.pack('<BHH', command, start, length) + b'\x14'
                    if start + length <= n and length <= 512:
                        out.verdict(c, text, 0, 0, 1)
                    else:
                        out.verdict(c, text, 4, len(head))
    out.verdict(b'\x01\0\0\1\0\x14', b'', 4, 0)
    out.verdict(b'\x01\0\0\0\0\x14', b'', 4, 0)


def bytes_of_strings(out):
    """Each byte at the beginning, inside and at the end of each kind of string."""
    out.group('bytes')
    for value, places in (('abc', (0, 1, 2)), ('a/*/b', (1, 2, 3)), ('**/a', (0, 1, 2)), ('/a/.b', (0, 1, 2, 3, 4)), ('${configDir}**/c', (11, 12, 13, 14))):
        for before, command in kinds(value, '/a/.b'):
            # the string stands alone in the text, after what comes before it
            c, t, at = write(before + [command, (END,)])
            string = command[-1].encode()
            out.book(c, t)
            for place in places:
                if place < len(string):
                    out.damage(6, t.rindex(string) + place)


def many_records(out):
    out.group('records')
    for n in (1, 2, 63, 64, 65, 66):
        commands = [c for i in range(n) for c in record('/r/%d' % i)]
        if n <= 64:
            good(out, commands)
        else:
            bad(out, 5, commands, 128)
    full = [c for i in range(64) for c in record('/r/%d' % i)]
    bad(out, 5, full + [(BEGIN, '/r/7'), (END,)], 128)          # 5 before 6
    bad(out, 5, full + [(BEGIN, '/r'), (END,)], 128)
    bad(out, 4, full + [(BEGIN, '/r/'), (END,)], 128)           # 4 before 5
    bad(out, 3, full + [(END,)], 128)
    bad(out, 2, full + [b'\0'], 128)
    bad(out, 2, full + [b'\1\0\0\2'], 128)                      # 2 before 5
    bad(out, 6, full[:-2] + [(BEGIN, '/r/0'), (END,)], 126)
    bad(out, 6, full[:-2] + [(BEGIN, '/r'), (END,)], 126)
    bad(out, 6, full[:-2] + [(BEGIN, '/r/62/a'), (END,)], 126)


def one(command, n):
    """The n-th of a command that repeats; keys differ."""
    return (command, 'k%d' % n) if command == KEY else (command, './s')


LIMITS = [(FILES, FILE, 64), (INCLUDE, INCLUDE_ITEM, 64), (EXCLUDE, EXCLUDE_ITEM, 64), (None, EXTENDS, 8), (None, REFERENCE, 16), (PATHS, KEY, 32), (ROOT_DIRS, ROOT_DIR, 8)]


def limits(out):
    out.group('limits')
    for opener, command, most in LIMITS:
        before = [(BEGIN, '/p')] + ([] if opener is None else [(opener,)])
        full = before + [one(command, n) for n in range(most)]
        good(out, full[:-1] + [(END,)])
        good(out, full + [(END,)])
        bad(out, 5, full + [one(command, most), (END,)], len(full))
        # Other commands between do not matter, and a record counts for itself.
        others = [c for c in ONCE if c[0] != opener]
        good(out, full[:3] + others + full[3:] + [(END,)])
        bad(out, 5, full[:3] + others + full[3:] + [one(command, most), (END,)], len(full) + len(others))
        second = [(BEGIN, '/q')] + before[1:] + [one(command, n) for n in range(most)]
        good(out, full + [(END,)] + second + [(END,)])
        bad(out, 5, full + [(END,)] + second + [one(command, most), (END,)], len(full) + 1 + len(second))
        # one too many whose string breaks its rule, that is cut short, or whose key was given before
        bad(out, 4, full + [(command, 'a\\b'), (END,)], len(full))
        bad(out, 2, full + [bytes([command, 0, 0, 1])], len(full))
        if command == KEY:
            bad(out, 5, full + [(KEY, 'k0'), (END,)], len(full))
            bad(out, 6, full[:-1] + [(KEY, 'k0'), (END,)], len(full) - 1)
            bad(out, 6, full[:-1] + [(KEY, 'k30'), (END,)], len(full) - 1)
    keyed = [(BEGIN, '/p'), (PATHS,), (KEY, 'k')]
    targets = [(TARGET, 't')] * 8
    good(out, keyed + targets[1:] + [(END,)])
    good(out, keyed + targets + [(END,)])
    bad(out, 5, keyed + targets + [(TARGET, 't'), (END,)], 11)
    bad(out, 4, keyed + targets + [(TARGET, 'a\\b'), (END,)], 11)
    bad(out, 2, keyed + targets + [bytes([TARGET, 0, 0])], 11)
    bad(out, 3, keyed + targets + [(FILES,), (TARGET, 't'), (END,)], 12)
    good(out, keyed + targets + [(KEY, 'l')] + targets + [(END,)])
    bad(out, 5, keyed + targets + [(KEY, 'l')] + targets + [(TARGET, 't'), (END,)], 20)
    all_keys = [(BEGIN, '/p'), (PATHS,)] + [c for n in range(32) for c in [(KEY, 'k%d' % n)] + targets]
    good(out, all_keys + [(END,)])
    bad(out, 5, all_keys + [(TARGET, 't'), (END,)], len(all_keys))
    bad(out, 5, all_keys + [(KEY, 'l'), (END,)], len(all_keys))
    good(out, [(BEGIN, '/p'), (PATHS,)] + [(KEY, 'k%d' % n) for n in range(31)] + [(KEY, 'l')] + targets + [(END,)])
    # each flag and each text option, both ends of their ids
    flags = [(FLAG, n, n % 2) for n in range(11)]
    texts = [(TEXT_OPTION, n, 't') for n in range(7)]
    good(out, record('/p', *(flags + texts)))
    good(out, record('/p', *(texts[::-1] + flags[::-1])))
    # every limit at once, in several records
    whole = everything()
    good(out, record('/p', *whole))
    good(out, [c for n in range(12) for c in record('/p/%d' % n, *whole)])
    # keys of an earlier record are free again, in each of 64 records
    good(out, [c for n in range(64) for c in record('/p/%d' % n, (PATHS,), (KEY, 'k'), (KEY, 'l'))])


def everything():
    """The commands of a record with all that it may have."""
    out = []
    for opener, command, most in LIMITS:
        out += [] if opener is None else [(opener,)]
        for n in range(most):
            out += [one(command, n)] + ([(TARGET, 't')] * 8 if command == KEY else [])
    out += [c for c in ONCE if len(c) > 1]
    return out + [(FLAG, n, n % 2) for n in range(11)] + [(TEXT_OPTION, n, 't') for n in range(7)]


def exact(n):
    """An accepted book of n bytes of commands, as repeats: full records, then a shorter one."""
    text = bytearray()
    parts = []
    left = n
    count = 0
    while left:
        path = b'/p/%d' % count
        head = struct.pack('<BHH', BEGIN, len(text), len(path))
        text += path
        count += 1
        most = 5 + 3 * (1 + 64 * 5) + 1
        room = left if left <= most else min(most, left - 12)
        room -= 6
        parts.append((1, head))
        for opener in (FILES, INCLUDE, EXCLUDE):
            if room:
                items = min(64, (room - 1) // 5)
                parts.append((1, bytes([opener])))
                if items:
                    parts.append((items, struct.pack('<BHH', opener + 1, 1, 1)))
                room -= 1 + 5 * items
        for lone in (bytes([FLAG, 0, 1]), bytes([PATHS]), bytes([ROOT_DIRS])):
            if room >= len(lone):
                parts.append((1, lone))
                room -= len(lone)
        assert room == 0, room
        parts.append((1, b'\x14'))
        left = n - size(parts)
    assert size(parts) == n and count <= 64
    return parts, bytes(text), count


def slices(out):
    out.group('slices')
    for n in (32765, 32766, 32767, 32768):
        c, t, count = exact(n)
        out.verdict(c, t, 0, 0, count)
    over = exact(32768)
    out.verdict(over[0] + [(1, b'\x14')], over[1], 1, 0)
    out.verdict(over[0][:-1] + [(1, b'\x12')], over[1], 2, 32767)
    for n in (32767, 32768, 32769, 32999):
        for byte, number in ((0x14, 3), (0x00, 2), (0x02, 3), (0xFF, 2), (0x01, 4)):
            out.verdict([(n, bytes([byte]))], b'', 1 if n > 32768 else number, 0)
            out.verdict([(n, bytes([byte]))], [(65535, b'a')], 1 if n > 32768 else number, 0)
    small = b'\x01\0\0\2\0\x14'
    for n in (65534, 65535, 65536, 65999):
        text = [(1, b'/p'), (n - 2, b'\0')]
        out.verdict(small, text, *((1, 0) if n > 65535 else (0, 0, 1)))
        out.verdict(b'', text, *((1, 0) if n > 65535 else (0, 0, 0)))
        out.verdict(b'\0', text, 1 if n > 65535 else 2, 0)
    out.verdict(over[0] + [(1, b'\x14')], [(65536, b'a')], 1, 0)
    c, t, count = exact(32768)
    out.verdict(c, [(1, t), (65535 - len(t), b'a')], 0, 0, count)
    out.verdict(c, [(1, t), (65536 - len(t), b'a')], 1, 0)
    # a record left open at the very end
    out.verdict(c[:-1], t, 2, 32767)
    out.verdict(c[:-1] + [(1, b'\x10')], t, 2, 32767)


EVERY = [(FILES,), (FILE, 'a'), (INCLUDE,), (INCLUDE_ITEM, '**'), (EXCLUDE,), (EXCLUDE_ITEM, 'b?'), (EXTENDS, './e'), (BASE_URL, 'u'), (PATHS,), (KEY, 'k*'), (TARGET, 't'), (TARGET, ''), (REFERENCE, '/q'),
         (ROOT_DIRS,), (ROOT_DIR, 's'), (OUT_DIR, 'o'), (DECLARATION_DIR, 'd'), (FLAG, 10, 1), (TEXT_OPTION, 6, 'x')]


def plain_of(command):
    """A command that is good wherever its place is."""
    return {BEGIN: (BEGIN, '/z'), FLAG: (FLAG, 0, 0), TEXT_OPTION: (TEXT_OPTION, 0, 'x')}.get(command, (command, 'x') if WIDTHS[command] else (command,))


def refusals(out):
    out.group('refusals')
    # 2: unknown bytes, first, in a record, after one; operands cut short; left open
    for byte in [0] + list(range(21, 256)):
        bad(out, 2, [bytes([byte])])
        bad(out, 2, [(BEGIN, '/p'), bytes([byte])])
        bad(out, 2, record('/p') + [bytes([byte, 0, 0, 0, 0, 0])])
    for command in range(1, 21):
        for given in range(WIDTHS[command]):
            bad(out, 2, [(BEGIN, '/p')] + [bytes([command] + [0] * given)])
            bad(out, 2, [bytes([command] + [0] * given)])
            bad(out, 2, record('/p') + [bytes([command] + [255] * given)])
    for n in range(len(EVERY) + 1):
        c, t, _ = write([(BEGIN, '/p')] + EVERY[:n])
        out.verdict(c, t, 2, len(c))
        c, t, _ = write(record('/o') + [(BEGIN, '/p')] + EVERY[:n])
        out.verdict(c, t, 2, len(c))
    # 3: outside a record, first and after one; BEGIN inside
    for command in range(2, 21):
        bad(out, 3, [plain_of(command)])
        bad(out, 3, record('/p') + [plain_of(command)])
    for n in range(len(EVERY) + 1):
        bad(out, 3, [(BEGIN, '/p')] + EVERY[:n] + [(BEGIN, '/z')])
        good(out, record('/p', *EVERY[:n]))
        good(out, record('/p', *EVERY[:n]) + record('/z'))
    bad(out, 3, [(BEGIN, '/p'), (END,), (END,)])
    # items before their list, keys, targets
    for opener, item in ((FILES, FILE), (INCLUDE, INCLUDE_ITEM), (EXCLUDE, EXCLUDE_ITEM), (PATHS, KEY), (ROOT_DIRS, ROOT_DIR)):
        bad(out, 3, [(BEGIN, '/p'), (item, 'x')])
        bad(out, 3, record('/o', (opener,)) + [(BEGIN, '/p'), (item, 'x')])
        for other in (FILES, INCLUDE, EXCLUDE, PATHS, ROOT_DIRS):
            if other != opener:
                bad(out, 3, [(BEGIN, '/p'), (other,), (item, 'x')])
    bad(out, 3, [(BEGIN, '/p'), (TARGET, 't')])
    bad(out, 3, [(BEGIN, '/p'), (PATHS,), (TARGET, 't')])
    bad(out, 3, record('/o', (PATHS,), (KEY, 'k')) + [(BEGIN, '/p'), (PATHS,), (TARGET, 't')])
    for command in EVERY:
        if command[0] in (KEY, TARGET, PATHS):
            continue
        before = [(BEGIN, '/p'), (PATHS,)] + [(c,) for c in (FILES, INCLUDE, EXCLUDE, ROOT_DIRS) if c != command[0]]
        for between in ([(KEY, 'k')], [(KEY, 'k'), (TARGET, 't')]):
            bad(out, 3, before + between + [command, (TARGET, 't')])
            good(out, before + between + [command, (KEY, 'l'), (TARGET, 't'), (END,)])
    # what comes once, again at once and with all others between
    for command in ONCE + [(FLAG, n, 1) for n in range(11)] + [(TEXT_OPTION, n, 'x') for n in range(7)]:
        bad(out, 3, [(BEGIN, '/p'), command, command])
        others = [c for c in ONCE if c[0] != command[0]] + [(FLAG, n, 0) for n in range(11) if (FLAG, n) != command[:2]] + [(TEXT_OPTION, n, '') for n in range(7) if (TEXT_OPTION, n) != command[:2]]
        bad(out, 3, [(BEGIN, '/p'), command] + others + [command])
        good(out, record('/p', command) + record('/q', command))
    bad(out, 3, [(BEGIN, '/p'), (FLAG, 3, 0), (FLAG, 3, 1)])
    # ids and values out of range
    for number in (11, 12, 21, 32, 128, 255):
        bad(out, 3, [(BEGIN, '/p'), (FLAG, number, 0)])
    for number in range(11):
        for value in (2, 3, 128, 255):
            bad(out, 3, [(BEGIN, '/p'), (FLAG, number, value)])
    for number in (7, 8, 13, 32, 128, 255):
        bad(out, 3, [(BEGIN, '/p'), (TEXT_OPTION, number, 'x')])
    # 4: each rule of each kind
    for path in ('', '/', 'p', './p', '//', '/p/', '//p', '/p//q', '/.', '/..', '/./p', '/../p', '/p/.', '/p/..', '/p/./q', '/p/../q', '/p*', '/p?', '/p{', '/p}', '/p[', '/p]', '/p!', '/p#', '/p\\', '/p\x7f', '/p\x1f', '/\x00', '/p\x80', '/\xff', '*', '/*/p', ' /p'):
        bad(out, 4, [(BEGIN, path)])
        bad(out, 4, record('/o') + [(BEGIN, path)])
    for path in ('/p', '/...', '/.p', '/..p', '/p.', '/p..', '/p/...', '/ ', '/~', '/p q', '/"', '/p/.q/..r', '/$', '/p,', "/'", '/a|b', '/@/%&'):
        good(out, record(path))
    for item in (EXTENDS, REFERENCE):
        for value in ('//', '/p/', '//p', '/p//q', '/.', '/..', '/./p', '/../p', '/p/.', '/p/..', '/p/./q', '/p/../q', '/\\', 'p\\', '\x7f', '\n', '\xff'):
            bad(out, 4, [(BEGIN, '/p'), (item, value)])
        for value in ('', '/', '/p', '.', '..', './', '../', './/p', 'p', 'p/', 'p//q', '/p*', '/*?{}[]!#', '*', '/...', '/.p', '~', ' ', '${configDir}/'):
            good(out, record('/p', (item, value)))
    for item in (INCLUDE_ITEM, EXCLUDE_ITEM):
        for value in ('{', '}', '[', ']', '!', 'a{b', 'a}', '[a]', '!a', 'a!', '***', '****', 'a**', '**a', 'a**b', 'a/**b', 'a/b**', '**/a**', '***/a', 'a/***', '/***', '**?', '?**', '**.', '.**', '** ', '**/***', '${configDir}{', '${configDir}***', '${configDir}a**', '${configDir}**a', '${configDir}/a**',
                      '${configDir}${configDir}', '${configDi}', '/${configDir}', 'a${configDir}', '${configDir}}', '\\', 'a\x1f', '\x7f*', 'a/**\\'):
            bad(out, 4, [(BEGIN, '/p'), (item - 1,), (item, value)])
        for value in ('', '*', '**', '?', '**/', '/**', '/**/', '//**//', '**/**', '**/**/**', 'a*', '*a', 'a*b*c', '*/*', '*?*', '?*?', '**/*', '*/**', '**/a', 'a/**', 'a/**/b', './**', '${configDir}', '${configDir}**', '${configDir}**/', '${configDir}/**', '${configDir}*', '${configDir}/', '#', '/a//b/../.', '$', '* *', '~', '. .'):
            good(out, record('/p', (item - 1,), (item, value)))
    for before, command in kinds('', '/p'):
        if command[0] not in (BEGIN, INCLUDE_ITEM, EXCLUDE_ITEM, EXTENDS, REFERENCE):
            for value in ('\\', 'a\x1f', '\x7f', '\x80', '\0'):
                bad(out, 4, before + [command[:-1] + (value,)])
            for value in (' ', '~', '//', '/../.', '***', '{}[]!#?', '[', ']', '^'):
                good(out, before + [command[:-1] + (value,), (END,)])
    # 6: paths and keys
    for first, second in (('/p', '/p'), ('/p', '/p/q'), ('/p/q', '/p'), ('/p', '/p/q/r/s'), ('/p/q/r/s', '/p'), ('/a/b', '/a/b/.c'), ('/x y', '/x y/z'), ('/' + 'a' * 509, '/' + 'a' * 509 + '/b')):
        bad(out, 6, record(first) + [(BEGIN, second), (END,)], 2)
        bad(out, 6, record('/o') + record(first) + record('/n') + [(BEGIN, second), (END,)], 6)
        bad(out, 6, record(first, *EVERY) + record('/n') + [(BEGIN, second), (END,)], len(EVERY) + 4)
    for first, second in (('/p', '/pq'), ('/pq', '/p'), ('/p', '/q'), ('/p/a', '/p/b'), ('/p/ab', '/p/a'), ('/p.', '/p'), ('/p', '/p./q'), ('/p q', '/p'), ('/P', '/p'), ('/' + 'a' * 511, '/' + 'a' * 510), ('/' + 'a' * 511, '/' + 'a' * 510 + 'b')):
        good(out, record(first) + record(second))
        good(out, record(second, *EVERY) + record('/n') + record(first))
    for key in ('k', '', '*', 'k*', 'a' * 512, '/', ' '):
        bad(out, 6, [(BEGIN, '/p'), (PATHS,), (KEY, key), (KEY, key)])
        bad(out, 6, [(BEGIN, '/p'), (PATHS,), (KEY, 'x'), (KEY, key), (TARGET, 't'), (KEY, 'y'), (KEY, key)])
        good(out, record('/p', (PATHS,), (KEY, key)) + record('/q', (PATHS,), (KEY, key)))
        good(out, record('/p', (PATHS,), (KEY, key), (KEY, key[1:] + 'k'), (KEY, 'K' + key[1:])) if key != 'k' else record('/p', (PATHS,), (KEY, 'k'), (KEY, 'K')))
    # a key's text stored twice is the same key
    writer = Writer(spread=True)
    for command in [(BEGIN, '/p'), (PATHS,), (KEY, 'same'), (KEY, 'other'), (KEY, 'same')]:
        writer.put(*command)
    out.verdict(bytes(writer.commands), bytes(writer.text), 6, writer.offsets[-1])
    writer = Writer(spread=True)
    for command in [(BEGIN, '/p/a'), (END,), (BEGIN, '/p/a'), (END,)]:
        writer.put(*command)
    out.verdict(bytes(writer.commands), bytes(writer.text), 6, writer.offsets[2])


def pairs(out):
    out.group('pairs')
    # Two rules broken by one command: the lowest number.
    many = [c for n in range(64) for c in record('/r/%d' % n)]
    two = [
        (2, [(BEGIN, '/p'), bytes([BEGIN, 0, 0, 2])]), (2, [bytes([FILE, 0])]), (2, [(BEGIN, '/p'), bytes([FLAG, 11])]), (2, [(BEGIN, '/p'), bytes([TEXT_OPTION, 7, 0, 0, 0])]), (2, [(BEGIN, '/p'), (OUT_DIR, 'o'), bytes([OUT_DIR, 0, 0, 1])]),   # 2 and 3
        (2, [(BEGIN, '/p'), bytes([OUT_DIR, 255, 255, 255])]), (2, [bytes([BEGIN, 255, 255, 255])]), (2, [(BEGIN, '/p'), (INCLUDE,), bytes([INCLUDE_ITEM, 255, 255])]),                                        # 2 and 4
        (2, many + [bytes([BEGIN, 0, 0, 3])]), (2, [(BEGIN, '/p'), (FILES,)] + [(FILE, 'a')] * 64 + [bytes([FILE, 0, 0, 1])]), (2, [(BEGIN, '/p')] + [(EXTENDS, 'a')] * 8 + [bytes([EXTENDS, 0, 0, 1])]),       # 2 and 5
        (2, record('/p') + [bytes([BEGIN, 0, 0, 2])]), (2, [(BEGIN, '/p'), (PATHS,), (KEY, 'k'), bytes([KEY, 2, 0, 1])]),                                                                                           # 2 and 6
        (3, [(BEGIN, '/p'), (BEGIN, 'q')]), (3, [(BEGIN, '/p'), (FILE, '\\')]), (3, [(FILE, 'x' * 513)]), (3, [(BEGIN, '/p'), (OUT_DIR, 'o'), (OUT_DIR, '\\')]), (3, [(BEGIN, '/p'), (TEXT_OPTION, 7, '\x7f')]), (3, [(BEGIN, '/p'), (EXCLUDE_ITEM, '***')]), (3, [(EXTENDS, '//')]),   # 3 and 4
        (3, many[:-1] + [(BEGIN, '/r')]), (3, [(BEGIN, '/p'), (PATHS,), (KEY, 'k')] + [(TARGET, 't')] * 8 + [(FILES,), (TARGET, 't')]),                                                                            # 3 and 5
        (3, [(BEGIN, '/p'), (BEGIN, '/p')]), (3, [(BEGIN, '/p'), (BEGIN, '/p/q')]), (3, record('/p', (PATHS,), (KEY, 'k')) + [(KEY, 'k')]),                                                                         # 3 and 6
        (4, many + [(BEGIN, '/')]), (4, [(BEGIN, '/p'), (INCLUDE,)] + [(INCLUDE_ITEM, 'a')] * 64 + [(INCLUDE_ITEM, 'a**')]), (4, [(BEGIN, '/p'), (PATHS,)] + [(KEY, 'k%d' % n) for n in range(32)] + [(KEY, 'x' * 513)]), (4, [(BEGIN, '/p')] + [(REFERENCE, 'a')] * 16 + [(REFERENCE, '/..')]),   # 4 and 5
        (4, record('/p') + [(BEGIN, '/p/')]), (4, record('/p') + [(BEGIN, '/p/*')]), (4, record('/p') + [(BEGIN, '/')]), (4, record('/p') + [(BEGIN, '/p/../p')]), (4, record('/p') + [(BEGIN, '')]),            # 4 and 6
        (5, many + [(BEGIN, '/r/0')]), (5, many + [(BEGIN, '/r')]), (5, many + [(BEGIN, '/r/63/x')]), (5, [(BEGIN, '/p'), (PATHS,)] + [(KEY, 'k%d' % n) for n in range(32)] + [(KEY, 'k31')]),                    # 5 and 6
        (3, many[:-1] + [(BEGIN, '/r/0/')]), (4, many + [(BEGIN, '/r/0/')]), (2, many[:-1] + [bytes([BEGIN, 255, 255, 255])]),                                                                                       # three and more
    ]
    for number, commands in two:
        bad(out, number, commands)
    # Two commands that are each refused, in both orders: the first place.
    full = [(FILES,)] + [(FILE, 'a')] * 64 + [(PATHS,), (KEY, 'k')]
    faults = [(2, b'\0'), (2, b'\xff'), (3, (FILES,)), (3, (FLAG, 11, 0)), (3, (BEGIN, '/z')), (3, (TEXT_OPTION, 9, 'x')), (4, (OUT_DIR, '\\')), (4, (EXTENDS, '/.')), (5, (FILE, 'a')), (6, (KEY, 'k'))]
    for number, first in faults:
        for _, second in faults:
            bad(out, number, [(BEGIN, '/p')] + full + [first, second, (END,)], len(full) + 1)
            bad(out, number, record('/o', *EVERY) + [(BEGIN, '/p')] + full + [first, (END,), (BEGIN, '/o'), second, (END,)], len(full) + len(EVERY) + 3)
    # A refusal and a slice over its size: 1, wherever the other stands.
    for _, first in faults:
        c, t, _ = write([(BEGIN, '/p')] + full + [first, (END,)])
        out.verdict([(1, c), (32769 - len(c), b'\x14')], t, 1, 0)
        out.verdict(c, [(1, t), (65536 - len(t), b'a')], 1, 0)
    # A fault of an earlier record stands before a fault of a later one's BEGIN.
    for number, first in faults:
        bad(out, number, [(BEGIN, '/p')] + full + [first, (END,), (BEGIN, '/p'), (END,)], len(full) + 1)
    # A cut last command of a record left open: its own place.
    bad(out, 2, [(BEGIN, '/p'), bytes([FILE, 0, 0, 0])])
    bad(out, 2, [(BEGIN, '/p'), (FILES,), bytes([FILE, 0, 0, 0])])


def empty(out):
    out.group('empty')
    out.verdict(b'', b'', 0, 0, 0)
    out.verdict(b'', b'a', 0, 0, 0)
    out.verdict(b'', b'\0\xff\\', 0, 0, 0)
    out.verdict(b'', [(65535, b'\0')], 0, 0, 0)
    out.verdict(b'', [(65536, b'\0')], 1, 0)


WHOLE = record('/p/a', *EVERY) + record('/q/b', (EXTENDS, '/p/a'), (FLAG, 0, 0), (TEXT_OPTION, 0, 'y'), (FILES,), (ROOT_DIRS,), (PATHS,), (KEY, 'k*'), (KEY, '@/*'), (TARGET, './*')) + record('/p/ab')


def cuts(out):
    """Each beginning of the commands, and each of the text."""
    out.group('cuts')
    c, t, at = write(WHOLE)
    ends = {0: 0}
    for n, command in enumerate(WHOLE):
        if command[0] == END:
            ends[at[n] + 1] = len([x for x in WHOLE[:n + 1] if x[0] == END])
    out.book(c, t)
    starts = at + [len(c)]
    for m in range(len(c) + 1):
        if m in ends:
            out.cut(m, len(t), 0, 0, ends[m])
        else:
            out.cut(m, len(t), 2, max(s for s in starts if s <= m))
    for n in range(len(t) + 1):
        out.cut(len(c), n)
        out.cut(len(c) // 2, n)


def damage(out, name, commands):
    c, t, _ = write(commands)
    out.group(name + '-commands')
    out.book(c, t)
    for place in range(len(c)):
        out.damage(5, place)
    out.group(name + '-text')
    out.book(c, t)
    for place in range(len(t)):
        out.damage(6, place)


def made_up(out, count, seed):
    """Books as the differential runs have them; of each a second time with bytes changed, cut off or added."""
    for name in ('random', 'random-damaged'):
        out.group(name)
        for number in range(count):
            maker = Maker('%s-%d' % (seed, number))
            commands, text, _ = maker.make()
            if name == 'random-damaged':
                commands, text = maker.damaged(commands, text)
            if len(commands) <= 33000 and len(text) <= 66000:
                out.verdict(commands, text)


def main():
    path, count, seed = sys.argv[1], int(sys.argv[2]), sys.argv[3]
    out = List()
    empty(out)
    lengths(out)
    edges_of_text(out)
    bytes_of_strings(out)
    many_records(out)
    limits(out)
    slices(out)
    refusals(out)
    pairs(out)
    cuts(out)
    damage(out, 'damaged', WHOLE)
    made_up(out, count, seed)
    with open(path, 'wb') as file:
        file.write(out.out)


if __name__ == '__main__':
    main()
