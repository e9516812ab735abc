#!/usr/bin/env python3
"""books.py FOLDER: the books of docs/SPEED.md's figures, each as NAME.cmd and NAME.txt, and NAME.ask with its question lines.
typical: a base config and 19 packages that extend it; each question needs two configs of the book. limits: the same with 63 packages, as large as the limits of a book let them be.
led, led-limits: the same two, where the base has an outDir of `${configDir}/dist`, whose brace a check that looks at the text as a whole meets.
layered: a preset, a base that extends it and 18 packages with four references each; a question needs seven. laden: the same with 62 packages as large as those of limits.
workspace: 20 configs with references, as a workspace of packages has them: a base with a key for each package, a root config of references alone, and packages that refer to the four
before them; a question needs six. wide: limits, where the config that is asked extends eight of the packages and refers to sixteen; a question needs 26.
ladder: 60 configs, each of which extends the two before it by two entries. rungs: the same with patterns and four keys in each. hostile: 64 patterns on which the matcher makes the most
steps, and a file that none of them matches. records-N: the typical book with N records."""
import sys


class Book:
    def __init__(self):
        self.commands, self.text = bytearray(), bytearray()

    def lone(self, *command):
        self.commands += bytes(command)

    def put(self, command, string, *ids):
        start, n = len(self.text), len(string)
        self.text += string.encode()
        self.commands += bytes([command, *ids, start % 256, start // 256, n % 256, n // 256])


def base(book, led=False):
    book.put(1, '/repo/tsconfig.base.json')
    book.put(9, '.')
    book.lone(10)
    book.put(11, '@shared/*')
    book.put(12, 'packages/shared/src/*')
    if led:
        book.put(16, '${configDir}/dist')
    book.lone(18, 0, 1, 20)


def usual(book, n):
    book.put(1, f'/repo/packages/part-{n:02}/tsconfig.json')
    book.put(8, '../../tsconfig.base.json')
    book.lone(4)
    book.put(5, 'src/**/*')
    book.lone(6)
    book.put(7, 'dist')
    book.lone(10)
    book.put(11, f'@part-{n:02}/*')
    book.put(12, 'src/*')
    book.put(16, 'dist')
    book.lone(18, 0, 1, 20)


def shared(book, count):
    """The base config of a workspace: a key for each package."""
    book.put(1, '/repo/tsconfig.base.json')
    book.put(9, '.')
    book.lone(10)
    for n in range(count):
        book.put(11, f'@repo/part-{n:02}/*')
        book.put(12, f'packages/part-{n:02}/src/*')
    book.lone(18, 0, 0)
    for id, value in ((0, 'react-jsx'), (4, 'node'), (5, 'esnext')):
        book.put(19, value, id)
    book.lone(20)


def solution(book, count):
    """The root config of a workspace: nothing but references."""
    book.put(1, '/repo/tsconfig.json')
    book.lone(2)
    for n in range(count):
        book.put(13, f'packages/part-{n:02}')
    book.lone(20)


def member(book, n):
    """A package of a workspace, with the packages that it needs as references."""
    book.put(1, f'/repo/packages/part-{n:02}/tsconfig.json')
    book.put(8, '../../tsconfig.base.json')
    book.lone(4)
    book.put(5, 'src/**/*')
    book.lone(6)
    book.put(7, 'dist')
    book.put(7, '**/*.test.ts')
    for before in range(max(0, n - 4), n):
        book.put(13, f'../part-{before:02}')
    book.put(16, 'dist')
    book.lone(20)


def workspace():
    book = Book()
    shared(book, 18)
    solution(book, 16)
    for n in range(18):
        member(book, n)
    last = '/repo/packages/part-17'
    return book, [f'B {last}/tsconfig.json', f'O {last}/src/a/b.ts', f'C {last}/tsconfig.json\t@repo/part-09/x', f'C {last}/tsconfig.json\tother/x']


def wide(count):
    """The packages of `limits`; the last one extends the eight before it and refers to the sixteen before those."""
    book = Book()
    base(book)
    for n in range(count - 1):
        large(book, n)
    large(book, count - 1, [f'../part-{n:02}/tsconfig.json' for n in range(count - 9, count - 1)])
    end = book.commands.pop()
    for n in range(count - 25, count - 9):
        book.put(13, f'../part-{n:02}')
    book.lone(end)
    last = f'/repo/packages/part-{count - 1:02}'
    return book, [f'B {last}/tsconfig.json', f'O {last}/src/a/b.ts', f'C {last}/tsconfig.json\t@p{count - 1:02}k05/x', f'C {last}/tsconfig.json\tother/x']


def preset(book):
    """The config that the base of a layered book extends: flags and text options."""
    book.put(1, '/repo/tsconfig.preset.json')
    for id in range(4):
        book.lone(18, id, 1)
    for id, value in ((0, 'react-jsx'), (4, 'node'), (5, 'esnext')):
        book.put(19, value, id)
    book.lone(20)


def layered(one, count, before):
    """Packages that extend a base, which extends a preset; each refers to those before it, so many."""
    book = Book()
    preset(book)
    book.put(1, '/repo/tsconfig.base.json')
    book.put(8, './tsconfig.preset.json')
    book.put(9, '.')
    book.lone(10)
    for name in ('shared', 'filters', 'stations', 'levels'):
        book.put(11, f'@{name}/*')
        book.put(12, f'packages/{name}/src/*')
    book.lone(20)
    for n in range(count):
        one(book, n)
        end = book.commands.pop()
        for other in range(max(0, n - before), n):
            book.put(13, f'../part-{other:02}')
        book.lone(end)
    last = f'/repo/packages/part-{count - 1:02}'
    return book, [f'B {last}/tsconfig.json', f'O {last}/src/a/b.ts', f'C {last}/tsconfig.json\t@filters/x', f'C {last}/tsconfig.json\tother/x']


def large(book, n, extends=('../../tsconfig.base.json',)):
    book.put(1, f'/repo/packages/part-{n:02}/tsconfig.json')
    for entry in extends:
        book.put(8, entry)
    book.lone(2)
    for i in range(30):
        book.put(3, f'src/f{i:02}.ts')
    book.lone(4)
    for i in range(24):
        book.put(5, f's{i:02}/**/*')
    book.lone(6)
    for i in range(8):
        book.put(7, f'd{i}')
    book.lone(10)
    for i in range(12):
        book.put(11, f'@p{n:02}k{i:02}/*')
        book.put(12, f'src/k{i:02}/*')
    book.lone(20)


def ladder(book, n, rest=()):
    book.put(1, f'/repo/rung-{n:02}.json')
    for before in (n - 1, n - 2):
        if before >= 0:
            book.put(8, f'./rung-{before:02}.json')
    if rest:
        book.lone(4)
        book.put(5, 'src/**/*')
        book.lone(6)
        book.put(7, 'dist')
        book.lone(10)
        for name in rest:
            book.put(11, f'@{name}-{n:02}/*')
            book.put(12, f'packages/{name}-{n:02}/src/*')
    book.lone(20)


def hostile(book):
    book.put(1, '/tsconfig.json')
    book.lone(4)
    start, pattern = len(book.text), '**/*/' + '*a/' * 168 + '*b'
    book.put(5, pattern)
    for _ in range(63):
        book.lone(5, start % 256, start // 256, len(pattern) % 256, len(pattern) // 256)
    book.lone(20)


def packages(one, count, led=False):
    book = Book()
    base(book, led)
    for n in range(count):
        one(book, n)
    last = f'/repo/packages/part-{count - 1:02}'
    return book, [f'B {last}/tsconfig.json', f'O {last}/src/a/b.ts', f'C {last}/tsconfig.json\t@part-{count - 1:02}/x', f'C {last}/tsconfig.json\tother/x']


def alone():
    book = Book()
    usual(book, 0)
    # Nothing is there to be extended.
    del book.commands[5:10]
    home = '/repo/packages/part-00'
    return book, [f'B {home}/tsconfig.json', f'O {home}/src/a/b.ts', f'C {home}/tsconfig.json\t@part-00/x', f'C {home}/tsconfig.json\tother/x']


def main(folder):
    books = {'typical': packages(usual, 19), 'workspace': workspace(), 'limits': packages(large, 63), 'wide': wide(63)}
    books |= {'layered': layered(usual, 18, 4), 'laden': layered(large, 62, 4)}
    books |= {'led': packages(usual, 19, True), 'led-limits': packages(large, 63, True)}
    rungs = Book()
    for n in range(60):
        ladder(rungs, n)
    books['ladder'] = rungs, ['B /repo/rung-59.json']
    full = Book()
    for n in range(60):
        ladder(full, n, ('shared', 'filters', 'stations', 'levels'))
    books['rungs'] = full, ['B /repo/rung-59.json']
    slow = Book()
    hostile(slow)
    books['hostile'] = slow, ['O ' + '/a' * 255]
    for count in (1, 2, 4, 8, 16, 32, 64):
        books[f'records-{count}'] = packages(usual, count - 1) if count > 1 else alone()
    for name, (book, lines) in books.items():
        assert len(book.commands) <= 32768 and len(book.text) <= 65535, (name, len(book.commands), len(book.text))
        for end, data in (('cmd', book.commands), ('txt', book.text), ('ask', '\n'.join(lines).encode() + b'\n')):
            with open(f'{folder}/{name}.{end}', 'wb') as file:
                file.write(data)
        print(name, len(book.commands), len(book.text))


main(sys.argv[1])
