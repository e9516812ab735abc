#!/usr/bin/env python3
"""Writes what the programs `stations` and `rooms` are run on, and what they must write.

    stations.py CRATES        CRATES is the folder that has `stations` and `rooms` in it

The book is written here in words. Each answer to a question of known form is the judge's (host/judge: the crate
oxc_resolver itself), asked one question at a time; the judge is the variable JUDGE, or its release build. What the
judge does not answer stands here: the two sentences of the program on lines that are no questions, and what `rooms`
writes, which is counted from the answers.
"""
import os
import re
import subprocess
import sys
import tempfile

HERE = os.path.dirname(os.path.abspath(__file__))
HOST = os.path.dirname(HERE)
sys.path.insert(0, os.path.join(HOST, 'judge', 'gen'))
from book import book  # noqa: E402

JUDGE = os.path.abspath(os.environ.get('JUDGE', os.path.join(HOST, 'judge', 'target', 'release', 'judge')))

NO_QUESTION = b'no question: B path, O path, C path, tab, specifier, or T path, tab, directory, tab, specifier\n'
TOO_LONG = b'line too long: at most 4095 bytes\n'

# ------------------------------------------------------------ the book

RECORDS = [
    # 0: a solution-style root, which has no files of its own
    ('/net/tsconfig.json', dict(files=[], include=[], references=['./stations/alp', 'stations/bay/tsconfig.json', './tools', '/net/shared.json'])),
    # 1: what every station has
    ('/net/base.json', dict(exclude=['**/old', '${configDir}/dist'],
                            paths=[('@f/*', ['filters/*', 'shared/../spare/*', '/opt/filters/*/index.ts']), ('@f/band', ['filters/band/main.ts']),
                                   ('@f/q*', ['quiet/*']), ('@none', []), ('@closed/*', []), ('*.cfg', ['${configDir}/cfg/*.json'])],
                            declarationDir='types', flags={2: 1, 3: 0}, texts={5: 'es2022', 6: 'esnext'})),
    # 2, 3: the bands, which are filters' settings
    ('/net/bands/low.json', dict(extends=['../base'], include=['src', '${configDir}/gen'], rootDirs=['.', '${configDir}/gen', '/net/shared/'], flags={0: 1})),
    ('/net/bands/high.json', dict(extends=['../base.json'], baseUrl='high', outDir='../out', flags={2: 0},
                                  texts={0: 'react-jsx', 1: 'h', 2: 'Fragment', 3: 'preact', 4: 'remove'})),
    # 4: a station of two bands
    ('/net/stations/alp/tsconfig.json', dict(extends=['../../bands/low', '../../bands/high.json'], files=['main.ts', './k.ts', '/net/shared/level.ts'],
                                             references=['../bay', '../../shared.json'], outDir='${configDir}/dist',
                                             flags={i: i % 2 for i in range(11)})),
    # 5: a station with patterns
    ('/net/stations/bay/tsconfig.json', dict(extends=['../../bands/low.json'], include=['src/**/*.ts', 'lib/?.tsx', 'doc'], exclude=['src/test', 'src/**/x*'])),
    ('/net/shared.json', dict(include=['shared'])),
    # 7: lists that are there and empty
    ('/net/tools/tsconfig.json', dict(include=['**/*.js', 'bin'], exclude=[], paths=[], rootDirs=[], flags={8: 1})),
    # 8: a station with a base for its names and no mapping
    ('/net/stations/cay/tsconfig.json', dict(baseUrl='./lib', include=['*.vue', '*'])),
    # 9: a station that says nothing
    ('/net/stations/dun/tsconfig.json', dict()),
    # 10: the same base by two ways, one entry twice
    ('/net/stations/eel/tsconfig.json', dict(extends=['../../bands/low', '../../bands/high', '../../bands/low.json'], include=[], files=['a.ts'])),
    # 11: below a station, and claims nothing that is there
    ('/net/stations/alp/src/deep/tsconfig.json', dict(include=['nothing'])),
    ('/net/node_modules/pkg/tsconfig.json', dict(extends=['/net/bands/low'])),
    # 13: the root folder
    ('/tsconfig.json', dict(include=['top', '${configDir}one'], outDir='${configDir}', rootDirs=['..'])),
    # 14: empty strings
    ('/odd/tsconfig.json', dict(files=[''], include=[''], exclude=[''], baseUrl='', paths=[('src/*', ['src/*', '../*', '']), ('*', ['/abs//*/./y'])],
                                rootDirs=[''], outDir='', declarationDir='', texts={0: '', 6: 'es6'})),
    # 15: root dirs one in the other, the same by components, and one twice
    ('/roots/tsconfig.json', dict(rootDirs=['src', 'gen', './src/', 'src/deep', '/roots/src/', 'src/../gen', '/roots/srcs', 'gen/'])),
    # from here on: configs that do not load
    ('/bad/missing/tsconfig.json', dict(extends=['/net/base', './nowhere'])),
    ('/bad/lost/tsconfig.json', dict(references=['../../net/shared', '../nowhere'])),
    ('/bad/folder/tsconfig.json', dict(extends=['/net/bands'])),
    ('/bad/ring/a.json', dict(extends=['./b'])),
    ('/bad/ring/b.json', dict(extends=['./c.json'])),
    ('/bad/ring/c.json', dict(extends=['./a'])),
    ('/bad/near/tsconfig.json', dict(references=['../ring/b'])),
    ('/bad/self/tsconfig.json', dict(references=['.'], include=['**/*'])),
    ('/bad/empty/tsconfig.json', dict(extends=['./nowhere', ''])),
    ('/bad/bare/tsconfig.json', dict(extends=['./nowhere', '@network/base'])),
    ('/bad/outer/tsconfig.json', dict(extends=['/net/base', '../bare/tsconfig.json'])),
    ('/bad/hash/tsconfig.json', dict(extends=['#base', ''])),
    ('/bad/far/tsconfig.json', dict(extends=['../missing'], references=['../self'])),
]


def candidates(path, *specifiers):
    return ['C %s\t%s' % (path, specifier) for specifier in specifiers]


def tries(path, directory, *specifiers):
    return ['T %s\t%s\t%s' % (path, directory, specifier) for specifier in specifiers]


ALP, BAY, CAY, DUN, EEL = ['/net/stations/' + name for name in ('alp', 'bay', 'cay', 'dun', 'eel')]
LONG = '/net/' + 'n' * 507          # 512 bytes

BUILDS = ['B ' + path for path in (
    '/net', '/net/tsconfig.json', '/net/tsconfig', '/net/base.json', '/net/base', '/net/bands/low', '/net/bands/high', ALP, ALP + '/tsconfig', BAY,
    '/net/shared', '/net/tools', CAY, DUN, EEL, ALP + '/src/deep', '/net/node_modules/pkg', '/', '/odd')]
OWNERS = ['O ' + path for path in (
    ALP + '/main.ts', ALP + '/k.ts', ALP + '/src/a.ts', ALP + '/src/deep/a.ts', ALP + '/src/old/a.ts', ALP + '/dist/a.ts', ALP + '/gen/x/y.mts', ALP + '/a.js',
    BAY + '/src/a.ts', BAY + '/src/x.ts', BAY + '/src/a/b/c.ts', BAY + '/src/test/a.ts', BAY + '/lib/q.tsx', BAY + '/lib/qq.tsx', BAY + '/doc/a.ts', BAY + '/doc/a.vue',
    '/net/shared/level.ts', '/net/shared/other.ts', '/net/tools/bin/a.js', '/net/tools/a.js', '/net/tools/a.ts', '/net/lone.ts',
    CAY + '/a.vue', CAY + '/a.ts', CAY + '/b/a.ts', DUN + '/any/where.ts', DUN + '/any/where.css', DUN, EEL + '/a.ts', EEL + '/b.ts',
    DUN + '/node_modules/a.ts', '/net/node_modules/pkg/a.ts', DUN + '/node_modules2/a.ts', '/top/a.ts', '/one', '/one.ts', '/', '/odd/a.ts', '/odd', '/nobody/a.ts',
    '/bad/a.ts')]
MAPPED = (
    candidates(ALP, '@f/band', '@f/quiet', '@f/', '@f', '@none', '@closed/x', 'site.cfg', 'plain', './near', '../far', '/abs/x', '', '*', 'ü'.encode().decode('latin-1')) +
    candidates(BAY, '@f/band', '@f/band/low', '@none', '@closed/x', 'a.b.cfg', 'plain', './near') +
    candidates(CAY, '@f/band', 'plain', './near', '/abs/x', '') +
    candidates(DUN, '@f/band', 'plain', './near') +
    candidates('/net/tools', 'plain') +
    candidates('/odd', 'src/a', 'b', '', './c') +
    candidates('/net/base.json', '@f/' + 's' * 509, '@f/' + 's' * 510))
# the root dirs of BAY are /net/bands, BAY/gen and /net/shared/
TRIED = (
    tries(ALP, ALP, '@f/band', '@f/quiet', '@none', '@closed/x', 'site.cfg', 'plain', '/abs/x', '', './near') +
    tries(BAY, BAY + '/gen/a', './x', '../x', '..', '.', '../../out', '.x', './../../gen', '@f/band', 'plain') +
    tries(BAY, '/net/shared', './x', '.', '..', './a/../b/') + tries(BAY, '/net/bands', './x', '.', '../bands', '../shared/x') + tries(BAY, '/elsewhere', './x') +
    tries(BAY, BAY + '/node_modules/a', './x', '@f/band', 'plain') + tries(BAY, '/net/node_modules', '@f/band') + tries(BAY, '/net/node_modules2', '@f/band') +
    tries(CAY, CAY, '@f/band', 'plain', './near', '/abs/x', '') + tries(DUN, DUN, 'plain', './near') + tries('/net/tools', '/net/tools', 'plain', './a') +
    tries('/', '/', './x', '.', 'plain') + tries('/odd', '/odd', './c', '.', 'src/a', 'b', '') +
    tries('/roots', '/roots/src', './x', '.', '..', '../gen/x', '../src/deep/y') + tries('/roots', '/roots/src/deep', './x', '../x', '.') +
    tries('/roots', '/roots/gen', './x', '.') + tries('/roots', '/roots', './x', './src', './srcs/x'))
REFUSED = ['B ' + path for path in (
    '', 'net', '/net/', '/net//base', '/net/../net', '/net/.', '//', '/net?', '/net#', '/net\\base', '/net\t', '/net\r', '/net\x7f', LONG + 'n', ' /net',
    LONG, '/net/none', '/net/bands', '/net/stations', '/net/base.jso', '/bad/missing', '/bad/lost', '/bad/folder', '/bad/ring/a', '/bad/ring/b.json', '/bad/ring/c',
    '/bad/near', '/bad/self', '/bad/empty', '/bad/bare', '/bad/outer', '/bad/hash', '/bad/far')] + [
    'O /net?', 'O a.ts', 'O /net/', 'O ' + LONG + 'n', 'O ' + LONG, 'O /bad/missing/a.ts', 'O /bad/lost/a.ts', 'O /bad/folder/a.ts', 'O /bad/self/a.ts', 'O /bad/empty/a.ts',
    'O /bad/bare/x/a.ts', 'O /bad/near/a.ts', 'O /bad/outer/a.ts', 'O /bad/ring/a.ts'] + (
    candidates('/net/', 'x') + candidates('/none', 'x') + candidates('/bad/self', 'x') + candidates('/bad/bare', '@f/band') + candidates('/bad/empty', 'x') +
    candidates('/bad/ring/a', 'x') + candidates('/net', 'a\\b', 'a\tb', 'a\x1f') +
    tries('/net/', '/net', 'x') + tries('/net', '/net/', 'x') + tries('/net', 'net', 'x') + tries('/net', '/net', 'a\\b', 'a\tb') + tries('/none', '/net', 'x') +
    tries('/bad/ring/a', '/net', 'x') + tries('/bad/ring/a', '/net/node_modules', './x') + tries('/bad/self', '/net/node_modules', 'x') + tries('/bad/bare', '/net', './x'))
NO_QUESTIONS = ['', ' ', 'B', 'O', 'B/net', 'b /net', 'X /net', 'B\t/net', 'C /net', 'C ', 'C', 'T /net', 'T /net\t/net', 'T', ' B /net', 'BB /net', '#']
LONG_LINES = ['B /' + 'x' * 4093, 'B /' + 'x' * 4094, '-' * 9000, 'O ' + ALP + '/main.ts' + ' ' * 4096, 'y' * 4096]

# no form, too long and known ones by turns; the last line has no end
LINES = BUILDS + NO_QUESTIONS[:7] + OWNERS + ['B /' + 'x' * 4092] + LONG_LINES[:2] + MAPPED + NO_QUESTIONS[7:] + TRIED + REFUSED + LONG_LINES[2:] + [
    'O ' + DUN + '/last.ts', 'C %s\t@f/last' % ALP]

ROOMS = BUILDS + [line for line in MAPPED if line.startswith('C ' + ALP) or line.startswith('C /odd') or line.startswith('C ' + DUN)] + [
    'B /net/none', 'B /bad/ring/a', 'C /bad/bare\t@f/band', 'B net'] + TRIED + ['T /bad/bare\t/net\tx', 'T /net\tnet\tx']


# ------------------------------------------------------------ the answers

def ask(folder, line):
    return subprocess.run([JUDGE], cwd=folder, input=line + b'\n', stdout=subprocess.PIPE, check=True).stdout


def answer(folder, line):
    if len(line) > 4095:
        return TOO_LONG
    said = ask(folder, line)
    return NO_QUESTION if said == b'unknown\n' else said


def room(line, said):
    """What `rooms` writes of a question: the line, and the bytes that its answer needs."""
    head, *body = said.split(b'\n')[:-1]
    if head.startswith(b'refused'):
        return b'%s: %s, kept ok\n' % (line, head)
    need = sum(len(each) + (1 if head.startswith(b'built') else 2) for each in body)
    if need == 0:
        return b'%s: 0, exact ok\n' % line
    return b'%s: %d, exact ok, short ok\n' % (line, need)


# each stands in some answer
WANTED = [r'^%s(=.+)?$' % word for word in ('files', 'include', 'exclude', 'rootDir')] + [
    r'^%s=.+$' % word for word in ('files', 'include', 'exclude', 'rootDir', 'baseUrl', 'base', 'key', 'target', 'reference', 'outDir', 'declarationDir')] + [
    r'^%s$' % word for word in ('files', 'include', 'exclude', 'rootDir', 'paths', 'owner none', 'candidates 0', 'candidates [1-9]', 'tries 0', 'tries [2-9]', 'tries 1')] + [
    r'^flag %d=[01]$' % i for i in range(11)] + [r'^text %d=' % i for i in range(7)] + [
    r'^refused 7 0$', r'^refused 8 65535$', r'^refused 8 \d\d$', r'^refused 9 \d+$', r'^refused 10 \d+$', r'^refused 11 \d+$', r'^refused 12 \d+$',
    r'^owner (\d+) \1$', r'^owner (\d+) (?!\1$)\d+$', r'^built \d+ 0$', r'^built \d+ 5$', r'^no question', r'^line too long']


def put(crates, path, data):
    path = os.path.join(crates, path)
    os.makedirs(os.path.dirname(path), exist_ok=True)
    with open(path, 'wb') as file:
        file.write(data)


def main():
    if len(sys.argv) != 2:
        sys.exit(__doc__)
    crates = sys.argv[1]
    commands, text = book(*RECORDS)
    lines = [line.encode('latin-1') for line in LINES]
    with tempfile.TemporaryDirectory() as folder:
        put(folder, 'book.cmd', commands)
        put(folder, 'book.txt', text)
        said = {line: answer(folder, line) for line in lines + [line.encode('latin-1') for line in ROOMS]}
    out = b''.join(said[line] for line in lines)
    for pattern in WANTED:
        if not re.search(pattern, out.decode('latin-1'), re.M):
            sys.exit('no answer has ' + pattern)
    for crate in ('stations', 'rooms'):
        put(crates, crate + '/data/book.cmd', commands)
        put(crates, crate + '/data/book.txt', text)
    put(crates, 'stations/stdin', b'\n'.join(lines))
    put(crates, 'stations/stdout', out)
    rooms = [line.encode('latin-1') for line in ROOMS]
    put(crates, 'rooms/data/questions', b''.join(line + b'\n' for line in rooms))
    put(crates, 'rooms/stdout', b''.join(room(line, said[line]) for line in rooms))
    print('%d records, %d command bytes, %d text bytes, %d lines, %d rooms' % (len(RECORDS), len(commands), len(text), len(lines), len(rooms)))


if __name__ == '__main__':
    main()
