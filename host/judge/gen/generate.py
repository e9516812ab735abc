#!/usr/bin/env python3
"""Books and questions for differential runs, the same for the same seed.

    generate.py OUT N [SEED [FIRST]]    writes the folders OUT/000000 .. (book.cmd, book.txt, questions)

Book number i of a seed does not depend on N or on the books before it. Most books are small and accepted, and lean
towards the edges of document 01; some 15 in a hundred are damaged or break a rule, and some questions are to be refused.
"""
import os
import random
import sys

sys.path.insert(0, os.path.dirname(os.path.abspath(__file__)))
from book import Writer, save  # noqa: E402

CD = '${configDir}'
FOLDERS = ['/p', '/p', '/p', '/p/src', '/p/src/a', '/p/b', '/q', '/q', '/', '/p/node_modules/m', '/ab', '/a', '/p/src/a/b', '/p b']
NAMES = ['tsconfig.json'] * 10 + ['d.json', 'd', 'base.json', 'base.json', 'r.json', 'A.json', 'B.json', 'x', '.json', 'tsconfig', '..d', '.x.json', 'a.ts', '....json']
PIECES = ['a', 'b', 'src', 'gen', 'u', 'w', 'x', 'k', '.', '..', '', 'a.ts', 'k.ts', 'a.b', '.a', '..a', 'node_modules', 'lib']
STEMS = ['a', 'k', 'x', 'src', '', '.', 'a.b', 'x.', 'index', 'ab', 'a*', 'x.d']
EXTENSIONS = ['.ts', '.ts', '.ts', '.ts', '.tsx', '.mts', '.cts', '.js', '.js', '.jsx', '.mjs', '.cjs', '.vue', '.json', '', '.', '.TS', '.d.ts', '.*', '.t']

FILES = ['a.ts', 'src/a.ts', './src/a.ts', 'src//a.ts', 'src/./a.ts', 'src/../k.ts', '/p/./k.ts', '//p/k.ts', '/p/k.ts/', 'k.ts', 'k.ts/', CD + '/k.ts', CD + '//k.ts/',
         CD + 'a.ts', CD, '../x.js', '../a.ts', '', '.', '..', 'a.js', 'x.vue', 'b/', '/p/src/../k.ts', '/', 'x', 'src', 'x.', '.ts', 'a.ts/.', '/p/src/a.ts']
PATTERNS = ['src', 'src/', 'src/*', 'src/**/*', '**/*', '**/*', '**', '*', '', '.', '..', '*.ts', 'src/*.vue', '**/*.vue', '**/*.ts', '?.ts', 'src/?', 'a?', 'x.*', 'a', 'b', 'b/',
            CD + '/src', CD + '**', CD + '/**/*', CD + '//src/../b/', CD, CD + '/', CD + '*', '/p/**/*', '/p/src', '//p/*', '/p//src', '/p/', 'src/a.ts', './src', './src/', '**/node_modules/**', '**/a*', '*/a', '*.js',
            '**/*.js', '.ts', '*.TS', 'src/**', '**/*.*', 'a*b*c', '**/**', '**/src/**/*', '/**/*', '/', '..//src', '../**/*.ts', 'src/../b/*', '*/', '**/', 'src/**/', '?', '??', '*?', '**/?.ts', 'x.', 'k.ts', '/p/./k.ts', '*/*.ts', 'nothing', '.a', '**/.a']
BASE_URLS = ['', '.', 'src', './', '..', '/u/w', '/u/w/', '//u//w', '/u/w/.', '/u/w/..', '/x*', 'x*', CD, CD + '/b', CD + '//b/../c/', CD + 'x', '/', 'a//b/', '${configDir', 'a/' + CD, './src/', '../src', '//', '/./', 'u', 'u', '*']
KEYS = ['*', 'a*', 'a*c', 'ab*', 'ab*bc', 'a*b*', '@f/*', '@f/*', '@f', '@f/band', '', '.x', './*', '/abs/*', '**', '*c', '*/x', 'k', 'x', '#a', 'a', 'abc', '@f/*/x', '@*', '@f*', 'k*', '*k', 'a**', 'a b*', '"*']
TARGETS = ['src/*', '../*', '', '*', '/u/../v', '/abs/*', CD + '/*', CD, CD + '//../*', CD + '*', 't/*/*', 'x', './x', 'src/', '..', '.', '/', '//a/*', 'a//b/../*', '*/..', '../../*', './*', 'filt/*', 'a/./*/', '/x*/y', '**', '*a*', './../*', 'a/../../*', '$', '${configDir']
ROOT_DIRS = ['src', 'gen', '/p/src', '/p/src/', '', '.', '..', '/p/./src', '//p/src', CD, CD + '/src', CD + '/src/', '/', 'src/a', '/p', '/q', './gen', '/p/gen', 'src/../gen', '/p/src//', '/p/src/.', 'node_modules']
DIRS = ['dist', '', '.', '..', '/o', '/o/', CD, CD + '/o', CD + '/../o/', './dist/', '../../../..', 'a//b', '/o/../d', 'x/..']
TEXTS = ['react', '', 'esnext', 'a=b', 'x y', '"', CD, "it's", '/']
SPECIFIERS = ['x', 'abc', 'a', 'ab', 'abbc', 'abc', 'ac', '@f/band', '@f', '@f/', '@f/a/x', '', '.', '..', './x', '../x', './', '../', '.x', './a/../b', '/abs/x', '/', '*', 'a*', '**', 'k', 'kk', 'pkg/sub', '#a', 'a/b', '../../..', './../src/a', './../../gen/x', 'a//b', 'a/./b/', 'x?y#z', '...', '..a', '../gen/x',
              './a.ts', 'axb*', '"q', ' ', 'src/a', 'a/..', 'a/../..']
BAD_ASKED = ['', 'relative', '/p/', '//p', '/p//a.ts', '/p/./a.ts', '/p/../a.ts', '/p/a.ts?', '/p/a#b', '/p/a\\b', '/p/\x7f', '/p/\x1f', '/' + 'a' * 512, './p', '/.', '/..', '/p\t', '/p/\xe9', '?', '/p/a.ts/']
BAD_SPECIFIERS = ['a\\b', 'x' * 513, '\x7f', 'a\x01', '\xc3\xa9', 'a\tb']


class Maker:
    def __init__(self, seed):
        self.r = random.Random(seed)

    def chance(self, percent):
        return self.r.random() * 100 < percent

    def noise(self, alphabet, most):
        return ''.join(self.r.choice(alphabet) for _ in range(self.r.randint(0, most)))

    def value(self, pool, percent=8):
        """One of the pool, or now and then a path or a text made up."""
        if not self.chance(percent):
            return self.r.choice(pool)
        if self.chance(50):
            return self.r.choice(['', '', '/', './', '../', CD, CD + '/', '//']) + '/'.join(self.r.choice(PIECES) for _ in range(self.r.randint(1, 4)))
        return self.noise('ab/.*', 8)

    def pattern(self):
        if self.chance(75):
            return self.value(PATTERNS, 0)
        pieces = ['*', '?', 'a', 'b', 'src', '**', '**', '.', '..', '', '*.ts', 'a*', '*a?', 'k.ts', '*.vue', '*.*', '?.ts', 'x?', '*.js']
        text = '/'.join(self.r.choice(pieces) for _ in range(self.r.randint(1, 4)))
        return self.r.choice(['', '', '', '/', '/p/', './', CD, CD + '/']) + text

    # ------------------------------------------------------------ names of configs

    def relative(self, origin, path):
        """The path as seen from a folder, with `..` where needed."""
        here = [piece for piece in origin.split('/') if piece]
        there = [piece for piece in path.split('/') if piece]
        while here and there and here[0] == there[0]:
            here, there = here[1:], there[1:]
        steps = ['..'] * len(here) + there
        return '/'.join(steps) if here else '/'.join(['.'] + steps)

    def name(self, origin, path, reference):
        """A name for a config: with or without .json, its folder, a detour, or absolute."""
        forms = [path] * 3
        if path.endswith('.json') and not path.endswith('/.json'):
            forms += [path[:-5]] * 2
        if path.endswith('/tsconfig.json'):
            forms += [path[:-14] or '/'] * 3
        form = self.r.choice(forms)
        if self.chance(15):
            return form
        name = self.relative(origin, form)
        if self.chance(10):
            name = name.replace('./', './/', 1)
        if self.chance(10):
            name = './b/../' + name
        if self.chance(5):
            name += self.r.choice(['/', '/.', '//', '/x/..'])
        if reference and name.startswith('./') and self.chance(40):
            name = name[2:]
        return name

    def broken_name(self, reference):
        if reference:
            return self.r.choice(['', './none', '/none', 'none', '..', '.', '../..', './tsconfig', 'tsconfig.json', './'])
        return self.r.choice(['', '', './none', '/none', 'pkg', '#pkg', '@s/pkg', '.', '..', './', '...', '.x', '..d', '/', './tsconfig.json', CD + '/x', '~', '../none'])

    # ------------------------------------------------------------ records

    def paths_of_records(self, count):
        paths = []
        for _ in range(count * 6):
            if len(paths) == count:
                break
            folder = self.r.choice(FOLDERS)
            name = 'tsconfig.json' if not paths and self.chance(60) else self.r.choice(NAMES) if count < 9 or self.chance(30) else 'c%d.json' % self.r.randint(0, 99)
            path = (folder if folder != '/' else '') + '/' + name
            if not any(p == path or p.startswith(path + '/') or path.startswith(p + '/') for p in paths):
                paths.append(path)
        return paths

    def record(self, paths, number, light):
        """Fields of one record."""
        path = paths[number]
        origin = path.rsplit('/', 1)[0] or '/'
        fields = {}
        later = paths[number + 1:]

        def names(count, reference):
            out = []
            for _ in range(count):
                if self.chance(5):
                    out.append(self.broken_name(reference))
                elif self.chance(4):
                    out.append(self.name(origin, self.r.choice(paths), reference))
                elif reference and self.chance(70) and len(paths) > 1:
                    out.append(self.name(origin, self.r.choice([p for p in paths if p != path]), reference))
                elif later:
                    out.append(self.name(origin, self.r.choice(later), reference))
                if out and self.chance(8):
                    out.append(self.r.choice(out))
            return out
        if self.chance(60):
            fields['extends'] = names(self.r.choice([1, 1, 1, 2, 2, 3, 4]), False)[:8]
        if self.chance(25):
            fields['references'] = [n for n in names(self.r.choice([1, 1, 2, 3]), True) if self.chance(90)]
        scale = 40 if light else 100
        for key, percent in (('files', 20), ('include', 35), ('exclude', 20)):
            if self.chance(percent * scale / 100):
                count = self.r.choice([0, 1, 1, 1, 2, 2, 3, 3])
                fields[key] = [self.value(FILES) if key == 'files' else self.pattern() for _ in range(count)]
        if self.chance(30 * scale / 100):
            fields['baseUrl'] = self.value(BASE_URLS)
        if self.chance(45 * scale / 100):
            keys = []
            for _ in range(self.r.choice([0, 1, 1, 2, 2, 3, 5])):
                key = self.value(KEYS)
                if key not in keys:
                    keys.append(key)
            fields['paths'] = [(key, [self.value(TARGETS) for _ in range(self.r.choice([0, 1, 1, 1, 2, 3]))]) for key in keys]
        if self.chance(30 * scale / 100):
            fields['rootDirs'] = [self.value(ROOT_DIRS) for _ in range(self.r.choice([0, 1, 2, 2, 3, 4]))]
        for key in ('outDir', 'declarationDir'):
            if self.chance(15 * scale / 100):
                fields[key] = self.value(DIRS)
        fields['flags'] = {n: self.r.randint(0, 1) for n in range(11) if self.chance(12 if n != 8 else 35)}
        fields['texts'] = {n: self.value(TEXTS, 5) for n in range(7) if self.chance(8)}
        return fields

    def sane(self, text):
        """An include or exclude item that the string rule accepts."""
        rest = text[len(CD):] if text.startswith(CD) else text
        return not any(c in rest for c in '{}[]!') and all(p == '**' or '**' not in p for p in rest.split('/'))

    def absolute(self, text):
        return not text.startswith('/') or text == '/' or not any(p in ('', '.', '..') for p in text[1:].split('/'))

    def commands(self, path, fields):
        """A record as commands in any order that the book allows."""
        streams = []
        for key, present, item in (('files', 2, 3), ('include', 4, 5), ('exclude', 6, 7), ('rootDirs', 14, 15)):
            if key in fields:
                items = [v for v in fields[key] if key not in ('include', 'exclude') or self.sane(v)]
                streams.append([[(present,)]] + [[(item, v)] for v in items])
        if 'paths' in fields:
            streams.append([[(10,)]] + [[(11, key)] + [(12, t) for t in targets] for key, targets in fields['paths']])
        streams.append([[(8, v)] for v in fields.get('extends', []) if self.absolute(v)])
        streams.append([[(13, v)] for v in fields.get('references', []) if self.absolute(v)])
        for key, command in (('baseUrl', 9), ('outDir', 16), ('declarationDir', 17)):
            if key in fields:
                streams.append([[(command, fields[key])]])
        for number, value in fields.get('flags', {}).items():
            streams.append([[(18, number, value)]])
        for number, value in fields.get('texts', {}).items():
            streams.append([[(19, number, value)]])
        out = [(1, path)]
        streams = [s for s in streams if s]
        mixed = self.chance(30)
        while streams:
            stream = self.r.choice(streams) if mixed else streams[0]
            out += stream.pop(0)
            streams = [s for s in streams if s]
        return out + [(20,)]

    # ------------------------------------------------------------ damage

    def broken(self, commands):
        """One rule of the book broken, by commands."""
        r = self.r
        at = r.randrange(len(commands))
        kind = r.randrange(14)
        command = commands[at]
        if kind == 0:
            return commands[:at] + commands[at + 1:]
        if kind == 1:
            return commands[:at] + [command] + commands[at:]
        if kind == 2:
            return commands[:at] + [r.choice([(2,), (4,), (6,), (10,), (14,), (20,), (3, 'a'), (5, 'a'), (7, 'a'), (11, 'k'), (12, 't'), (15, 'src'), (1, '/z/y'), (9, 'b'), (16, 'o'), (17, 'o'),
                                              (18, r.randint(0, 12), r.randint(0, 2)), (19, r.randint(0, 8), 't')])] + commands[at:]
        if kind == 3:
            other = r.randrange(len(commands))
            commands[at], commands[other] = commands[other], commands[at]
            return commands
        if kind == 4:
            return commands[:at]
        if kind == 5:       # one too many
            inside = [i for i, c in enumerate(commands) if c[0] == 20]
            if inside:
                end = r.choice(inside)
                extra = r.choice([[(8, './x')] * 9, [(13, './x')] * 17, [(2,)] + [(3, 'a')] * 65, [(4,)] + [(5, 'a')] * 65, [(6,)] + [(7, 'a')] * 65, [(14,)] + [(15, 'a')] * 9,
                                  [(10,)] + [(11, 'k%d' % n) for n in range(33)], [(10,), (11, 'q')] + [(12, 't')] * 9])
                return commands[:end] + extra + commands[end:]
            return commands
        if kind == 6:       # records beyond 64
            return commands + [c for n in range(r.choice([56, 64, 66])) for c in ((1, '/many/%d' % n), (20,))]
        if kind == 7:       # a path again, below or above
            paths = [c[1] for c in commands if c[0] == 1]
            path = r.choice(paths) if paths else '/p'
            new = r.choice([path, path + '/x', path.rsplit('/', 1)[0] or '/p', path + 'x'])
            return commands + [(1, new), (20,)]
        if kind in (8, 9, 10, 11, 12):      # a string against its rule
            places = [i for i, c in enumerate(commands) if len(c) > 1 and isinstance(c[-1], str)]
            if places:
                at = r.choice(places)
                bad = r.choice(['a\\b', 'a\x7f', '\x1f', 'x' * 513, '\xe9', '/a/', '//', '/a/../b', '/a*', '/[', '***', 'a**', '{a}', '!x', '/', 'rel', '/a?', '/a#', '', '\n', 'x' * 512, '/' + 'y' * 511, 'a' * 600])
                commands[at] = commands[at][:-1] + (bad,)
            return commands
        return commands + [commands[0]]

    def damaged(self, commands, text):
        """Bytes changed, cut off or added."""
        r = self.r
        commands, text = bytearray(commands), bytearray(text)
        for _ in range(r.choice([1, 1, 1, 2, 4])):
            kind = r.randrange(9)
            if kind == 0 and commands:
                commands[r.randrange(len(commands))] = r.randrange(256)
            elif kind == 1 and commands:
                commands[r.randrange(len(commands))] = r.randrange(24)
            elif kind == 2:
                del commands[r.randint(0, len(commands)):]
            elif kind == 3 and commands:
                del commands[r.randrange(len(commands))]
            elif kind == 4:
                commands.insert(r.randint(0, len(commands)), r.randrange(24))
            elif kind == 5 and text:
                text[r.randrange(len(text))] = r.choice([0, 31, 32, 47, 92, 127, 128, 42, 46, 35, 63])
            elif kind == 6:
                del text[r.randint(0, len(text)):]
            elif kind == 7:
                commands += bytes(r.randrange(24) for _ in range(r.randint(1, 6)))
            elif kind == 8 and self.chance(10):
                if self.chance(50):
                    commands += b'\x14' * (32768 + r.randint(-1, 1) - len(commands))
                else:
                    text += b' ' * (65535 + r.randint(0, 1) - len(text))
        return bytes(commands), bytes(text)

    # ------------------------------------------------------------ questions

    def asked_config(self, paths):
        if self.chance(6):
            return self.r.choice(BAD_ASKED)
        if self.chance(6) or not paths:
            return self.r.choice(['/', '/none', '/p', '/p/none', '/q/x', '/p/src', '/p/d', '/p/d.json', '/p/node_modules'])
        path = self.r.choice(paths)
        if path.endswith('/tsconfig.json') and self.chance(50):
            return path[:-14] or '/'
        if path.endswith('.json') and self.chance(25):
            return path[:-5]
        return path

    def meant(self, paths, items):
        """A file that an item of some list means, read from the folder of some config."""
        configs = [p for p in paths if p.endswith('/tsconfig.json')] or paths
        pieces = [] if self.chance(5) else self.r.choice(configs).split('/')[1:-1]
        item = self.r.choice(items).replace(CD, '')
        if item.startswith('/') and self.chance(80):
            pieces = []
        for piece in item.split('/'):
            if piece == '..':
                pieces = pieces[:-1]
            elif piece == '**':
                pieces = pieces + [self.r.choice(['a', 'b', 'src', '.a']) for _ in range(self.r.choice([0, 0, 1, 2]))]
            elif piece not in ('', '.'):
                piece = piece.replace('*', self.r.choice(['', 'a', 'k', 'x.y'])).replace('?', self.r.choice('ab.'))
                if piece not in ('', '.', '..'):
                    pieces = pieces + [piece]
        if not pieces or '.' not in pieces[-1] or self.chance(15):
            pieces = pieces + [self.r.choice(['a', 'k', 'x']) + ('.ts' if self.chance(60) else self.r.choice(EXTENSIONS))]
        return '/' + '/'.join(pieces)

    def asked_file(self, paths, items):
        if self.chance(4):
            return self.r.choice(BAD_ASKED)
        if items and paths and self.chance(60):
            return self.meant(paths, items)
        configs = [p[:-14] for p in paths if p.endswith('/tsconfig.json')]
        if configs and self.chance(40):
            below = self.r.choice(['', '', '', '/src', '/a', '/b', '/src/a'])
            return self.r.choice(configs) + below + '/' + self.r.choice(['a', 'k', 'ab', '.']) + self.r.choice(['.ts', '.ts', '.tsx', '.js', '.vue'])
        folders = FOLDERS + ['/p/src', '/p/src/b', '/p/gen', '/p/x', '/p/b/c', '/r', '/p/node_modules', '/p/a/b', '/b'] + [p.rsplit('/', 1)[0] for p in paths] * 2
        folder = self.r.choice(folders).rstrip('/')
        if self.chance(4):
            return folder or '/'
        if self.chance(5) and paths:
            return self.r.choice(paths)
        name = self.r.choice(STEMS) + self.r.choice(EXTENSIONS)
        if name in ('', '.', '..'):
            name = 'a.ts'
        return folder + '/' + name

    def specifier(self, keys):
        if self.chance(2):
            return self.r.choice(BAD_SPECIFIERS)
        if keys and self.chance(50):
            key = self.r.choice(keys)
            return key.replace('*', self.r.choice(['', 'x', 'b', 'a/b', '../z', 'bc', '*', './', 'c']), 1)
        return self.value(SPECIFIERS, 4)

    def questions(self, paths, keys, items):
        out = ['B ' + p for p in paths[:8] if self.chance(60)]
        for _ in range(self.r.randint(1, 3)):
            out.append('B ' + self.asked_config(paths))
        for _ in range(self.r.randint(3, 8)):
            out.append('O ' + self.asked_file(paths, items))
        for _ in range(self.r.randint(2, 6)):
            out.append('C %s\t%s' % (self.asked_config(paths), self.specifier(keys)))
        for _ in range(self.r.randint(2, 5)):
            if self.chance(3):
                folder = self.r.choice(BAD_ASKED)
            else:
                folder = self.r.choice(['/p', '/p/src', '/p/gen', '/p/src/a', '/q', '/', '/p/node_modules/m', '/p/b', '/p/src/a/b', '/u/w', '/node_modules', '/p/node_modulesx'])
            out.append('T %s\t%s\t%s' % (self.asked_config(paths), folder, self.specifier(keys)))
        # A line end inside a question would make it two.
        return [q.encode('latin-1').replace(b'\n', b'\x01') for q in out]

    def make(self):
        r = self.r
        if self.chance(1):
            return b'', b'', self.questions([], [], [])
        count = r.randint(1, 8) if not self.chance(2) else r.randint(9, 64)
        paths = self.paths_of_records(count)
        records = [self.record(paths, n, light=len(paths) > 8) for n in range(len(paths))]
        order = list(range(len(paths)))
        if self.chance(50):
            r.shuffle(order)
        commands = [c for n in order for c in self.commands(paths[n], records[n])]
        ruined = self.chance(15)
        if ruined and self.chance(60):
            commands = self.broken(commands)
            ruined = False
        writer = Writer(spread=self.chance(20))
        for command in commands:
            writer.put(*command)
        commands, text = bytes(writer.commands), bytes(writer.text)
        if ruined:
            commands, text = self.damaged(commands, text)
        keys = [key for fields in records for key, _ in fields.get('paths', [])]
        items = [item for fields in records for name in ('files', 'include', 'exclude') for item in fields.get(name, [''])]
        return commands, text, self.questions(paths, keys, items)


def main():
    if len(sys.argv) < 3:
        sys.exit(__doc__)
    out, count = sys.argv[1], int(sys.argv[2])
    seed = sys.argv[3] if len(sys.argv) > 3 else '1'
    first = int(sys.argv[4]) if len(sys.argv) > 4 else 0
    for number in range(first, first + count):
        save(os.path.join(out, '%06d' % number), *Maker('%s-%d' % (seed, number)).make())


if __name__ == '__main__':
    main()
