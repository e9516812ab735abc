#!/usr/bin/env python3
"""The edges of document 01 as books, questions and the answers expected by hand.

    edges.py write FOLDER   writes each case as a folder in FOLDER (book.cmd, book.txt, questions, expected)
    edges.py run [JUDGE]    asks the judge (default: the release build) every case and every folder here, and compares

The folders named seen-NN hold answers that another build of the crate gave; they are not written by this file.
"""
import os
import subprocess
import sys
import tempfile

HERE = os.path.dirname(os.path.abspath(__file__))
sys.path.insert(0, os.path.join(HERE, '..', 'gen'))
from book import Writer, book, save  # noqa: E402

P = '/p/tsconfig.json'
CASES = []


def case(name, records, *pairs):
    """A well-formed book; each pair is a question and the lines of its answer."""
    commands, text = book(*records)
    CASES.append((name, commands, text, pairs))


def raw(name, build, *pairs, text=None):
    """A book written command by command."""
    writer = Writer()
    build(writer)
    CASES.append((name, bytes(writer.commands), bytes(writer.text) if text is None else text, pairs))


def one(path=P, **fields):
    return [(path, fields)]


def tab(*fields):
    return '\t'.join(fields)


NOT_NORMAL = ('B relative', ['refused 7 0'])     # the answer of every accepted book
SOUND = NOT_NORMAL

# ---------------------------------------------------------------- 01: the worked example
case('worked-example',
     [('/t/base.json', dict(paths=[('@f/*', ['filt/*'])])),
      ('/t/st/tsconfig.json', dict(extends=['../base.json'], include=['src']))],
     ('B /t/st/tsconfig.json', ['built 1 1', 'include=/t/st/src', 'base=/t', 'key=@f/*', 'target=/t/filt/*']),
     ('O /t/st/src/a.ts', ['owner 1 1']),
     ('C ' + tab('/t/st/tsconfig.json', '@f/band'), ['candidates 1', '/t/filt/band']))

# ---------------------------------------------------------------- 01: the proved cases
case('proved-1-to-4', one(files=[], rootDirs=[], paths=[('k', ['../c', '', '/u/../v'])], baseUrl='/a/b', outDir='../../../z'),
     ('B /p', ['built 0 0', 'files', 'baseUrl=/a/b', 'base=/a/b', 'key=k', 'target=/a/c', 'target=', 'target=/u/../v',
               'rootDir', 'outDir=/z']))
case('proved-5', one(outDir='${configDir}'), ('B /p', ['built 0 0', 'base=/p', 'outDir=/p/']))
case('proved-6', [('/a/tsconfig.json', {})], ('O /ab/x.ts', ['owner none']), ('O /a/x.ts', ['owner 0 0']))
case('proved-7-to-9', one(paths=[('*', ['1/*']), ('a*', ['2/*']), ('a*c', ['3/*']), ('x*', ['4/*']), ('ab*bc', ['5/*'])]),
     ('C ' + tab('/p', 'abc'), ['candidates 1', '/p/2/bc']),
     ('C ' + tab('/p', 'abbc'), ['candidates 1', '/p/5/']),
     ('C ' + tab('/p', 'q'), ['candidates 1', '/p/1/q']))
case('proved-10', [('/q/tsconfig.json', dict(include=['']))],
     ('O /q/z.ts', ['owner 0 0']), ('B /q', ['built 0 0', 'include=', 'base=/q']))
case('proved-11', one(include=['.ts', 'x.ts']), ('O /p/.ts', ['owner none']), ('O /p/x.ts', ['owner 0 0']))
case('proved-12-13',
     [('/x/A.json', dict(extends=['/y/B.json', '/z/C.json'])), ('/y/B.json', dict(flags={2: 0}, texts={5: 'b'})),
      ('/z/C.json', dict(flags={2: 1}))],
     ('B /x/A', ['built 0 2', 'base=/y', 'flag 2=1', 'text 5=b']))
case('proved-14', [('/a/A.json', dict(extends=['./B'])), ('/a/B.json', dict(extends=['./A']))],
     ('B /a/A', ['refused 9 0']), ('B /a/B', ['refused 9 1']))

# ---------------------------------------------------------------- readings
case('reading-01', one(),
     ('C ' + tab('/p', 'x'), ['candidates 0']),
     ('T ' + tab('/p', 'relative', 'x'), ['refused 7 0']),
     ('T ' + tab('/p', '/p/', 'x'), ['refused 7 0']),
     ('T ' + tab('/p', '/p#', 'x'), ['refused 7 0']),
     ('T ' + tab('p', '/p', 'x'), ['refused 7 0']),
     ('T ' + tab('/p', '/p', 'x'), ['tries 0']))


def with_span(command, start, length, text=b'/p/t.json'):
    """A record whose one further command has a given span."""
    def build(writer):
        writer.put(0x01, text)
        writer.raw(command, bytes([start & 255, start >> 8, length & 255, length >> 8]))
        writer.put(0x14)
    return build


raw('reading-02-at-the-end', with_span(0x09, 9, 0), ('B /p/t', ['built 0 0', 'baseUrl=', 'base=']))
raw('reading-02-past-the-end', with_span(0x09, 10, 0), ('B /p/t', ['refused 4 5']))
raw('reading-02-one-too-long', with_span(0x09, 8, 2), ('B /p/t', ['refused 4 5']))
raw('reading-03-begin-inside', lambda w: (w.put(1, '/a'), w.put(1, '/b')), ('B /a', ['refused 3 5']))
raw('reading-03-outside', lambda w: w.put(0x14), ('B /a', ['refused 3 0']))
raw('reading-03-item-outside', lambda w: w.put(0x03, '/a'), ('B /a', ['refused 3 0']))
raw('reading-03-open', lambda w: (w.put(1, '/a'), w.put(2)), ('B /a', ['refused 2 6']))
raw('reading-03-cut', lambda w: (w.put(1, '/a'), w.put(2), w.raw(8, b'\0\0\0')), ('B /a', ['refused 2 6']))
raw('reading-03-cut-outside', lambda w: w.raw(8, b'\0\0\0'), ('B /a', ['refused 2 0']))
raw('reading-03-unknown-outside', lambda w: w.raw(0x15), ('B /a', ['refused 2 0']))
raw('reading-03-zero', lambda w: (w.put(1, '/a'), w.raw(0)), ('B /a', ['refused 2 5']))
for number, path in enumerate(['/', 'a', '', '/a/', '//a', '/a/./b', '/a/..', '/a*', '/a?', '/{', '/}', '/[', '/]', '/!', '/#', '/a\\b', '/a\x7f', '/a\n']):
    raw('reading-04-path-%02d' % number, lambda w, path=path: (w.put(1, path), w.put(0x14)), ('B /a', ['refused 4 0']))
raw('reading-04-path-good', lambda w: (w.put(1, '/a ~$@%&()|"\'<>,;:+=^`_-'), w.put(0x14)), SOUND)
for command, label in ((0x08, 'extends'), (0x0D, 'reference')):
    for number, (path, good) in enumerate([('/', 1), ('/x', 1), ('/x/', 0), ('//', 0), ('/x/../y', 0), ('x//', 1), ('', 1), ('./x*', 1)]):
        raw('reading-04-%s-%d' % (label, number),
            lambda w, path=path, command=command: (w.put(1, '/a'), w.put(command, path), w.put(0x14)),
            SOUND if good else ('B /a', ['refused 4 5']))
raw('reading-04-ancestor-later', lambda w: (w.record('/a/b/c'), w.record('/a/b')), ('B /a', ['refused 6 6']))
raw('reading-04-ancestor-first', lambda w: (w.record('/a/b'), w.record('/a/b/c')), ('B /a', ['refused 6 6']))
raw('reading-04-repeated', lambda w: (w.record('/a/b'), w.record('/a/b')), ('B /a', ['refused 6 6']))
raw('reading-04-no-ancestor', lambda w: (w.record('/a/b'), w.record('/a/bc')), SOUND)
raw('reading-04-key-repeated', lambda w: (w.put(1, '/a'), w.put(0x0A), w.put(0x0B, 'k'), w.put(0x0B, 'k')), ('B /a', ['refused 6 11']))
for number, (item, good) in enumerate([('${configDir}**', 1), ('${configDir}/**', 1), ('**', 1), ('a/**/b', 1), ('*/*', 1), ('a*b*', 1),
                                       ('***', 0), ('a**', 0), ('**a', 0), ('${configDir}a**', 0), ('****', 0), ('a/**b/c', 0),
                                       ('{a', 0), ('a}', 0), ('[', 0), (']', 0), ('!a', 0), ('a/${configDir}', 0),
                                       ('${configDir}${configDir}', 0), ('a?#', 1), ('', 1)]):
    for present, command in ((0x04, 0x05), (0x06, 0x07)):
        raw('reading-05-%02d-%d' % (number, command),
            lambda w, item=item, present=present, command=command: (w.put(1, '/a'), w.put(present), w.put(command, item), w.put(0x14)),
            SOUND if good else ('B /a', ['refused 4 6']))
raw('reading-05-not-files', lambda w: w.record('/a', files=['a**', '{x}', '![]']), SOUND)
case('reading-06-reference', one(references=['']), ('B /p', ['refused 8 0']), ('O /p/x.ts', ['refused 8 0']))
case('reading-06-extends',
     [(P, dict(extends=['.x', '...', '..d'])), ('/p/.x.json', dict(flags={0: 1})), ('/p/....json', dict(flags={1: 1})), ('/p/..d', dict(flags={2: 1}))],
     ('B /p', ['built 0 3', 'base=/p', 'flag 0=1', 'flag 1=1', 'flag 2=1']))
case('reading-06-bare', [(P, dict(extends=['x'])), ('/p/x.json', {}), ('/p/node_modules/x/tsconfig.json', {}), ('/p/package.json', {})],
     ('B /p', ['refused 12 0']))
case('reading-06-hash', [(P, dict(extends=['#x'])), ('/p/package.json', {})], ('B /p', ['refused 12 0']))
case('reading-07', [(P, dict(baseUrl='u', extends=[])), ('/q/tsconfig.json', dict(extends=['./none']))],
     ('T ' + tab('/q', '/p/node_modules', 'x'), ['refused 8 1']),
     ('T ' + tab('/p', '/p/node_modules', 'x'), ['tries 0']),
     ('T ' + tab('/p', '/p/node_modules/y/z', 'x'), ['tries 0']),
     ('T ' + tab('/p', '/p/node_modules2', 'x'), ['tries 1', '/p/u/x']),
     ('O /q/node_modules/x.ts', ['owner none']),
     ('O /q/x.ts', ['refused 8 1']))
case('reading-08', one(paths=[('k', ['d', 'e', 'd'])]),
     ('T ' + tab('/p', '/p/d', 'k'), ['tries 3', '/p/d', '/p/e', '/p/d']))
case('reading-09', [('/a/A.json', dict(extends=['./B', './B', './B'])), ('/a/B.json', dict(extends=['./C'])), ('/a/C.json', {})],
     ('B /a/A', ['built 0 4', 'base=/a']))
case('reading-10',
     [('/a/b/tsconfig.json', dict(include=['x'])), ('/a/tsconfig.json', dict(extends=['./none'])),
      ('/c/tsconfig.json', dict(references=['./broken'])), ('/c/broken.json', dict(extends=['']))],
     ('O /a/b/x/1.ts', ['owner 0 0']), ('O /a/b/y/1.ts', ['refused 8 1']),
     ('B /c', ['refused 11 3']), ('C ' + tab('/c', 'x'), ['refused 11 3']), ('T ' + tab('/c', '/c', 'x'), ['refused 11 3']),
     ('O /c/x.ts', ['refused 11 3']))
case('reading-11', [('/a/1', dict(files=[''], include=[''], exclude=[''], rootDirs=[''], paths=[('', ['']), ('k', [])], outDir='', declarationDir='', texts={0: ''})),
                    ('/a/2', dict(files=[], include=[], exclude=[], rootDirs=[], paths=[]))],
     ('B /a/1', ['built 0 0', 'files=', 'include=', 'exclude=', 'base=/a', 'key=', 'target=', 'key=k', 'rootDir=', 'outDir=',
                 'declarationDir=', 'text 0=']),
     ('B /a/2', ['built 1 0', 'files', 'include', 'exclude', 'base=/a', 'paths', 'rootDir']))
case('reading-12', one(include=['//p/**/*', '/p//x/*', '/q/**/*']),
     ('O /p/a.ts', ['owner none']), ('O /p/x/a.ts', ['owner none']))
case('reading-13', one(), ('B nothing', ['refused 7 0']), ('B /nothing', ['refused 8 65535']), ('C ' + tab('/nothing', 'a\\b'), ['refused 7 0']))
raw('reading-13-book-first', lambda w: w.put(0x14), ('B nothing', ['refused 3 0']), ('B /nothing', ['refused 3 0']), ('O x', ['refused 3 0']))
case('reading-14', one(), ('X /p', ['unknown']), ('B', ['unknown']), ('C /p', ['unknown']), ('T ' + tab('/p', '/p'), ['unknown']), ('', ['unknown']))

# ---------------------------------------------------------------- paths
case('paths-root-dirs-dot', one(rootDirs=['src', 'gen']), ('T ' + tab('/p', '/p/src', '.'), ['tries 2', '/p/src', '']))
case('paths-empty-base-url', one(baseUrl='', paths=[('a/*', ['src/*', '../*', '']), ('b', [''])]),
     ('B /p', ['built 0 0', 'baseUrl=', 'base=', 'key=a/*', 'target=src/*', 'target=*', 'target=', 'key=b', 'target=']),
     ('C ' + tab('/p', 'b'), ['candidates 1', '']), ('C ' + tab('/p', 'a/x'), ['candidates 3', 'src/x', 'x', '']))
for number, (base, wanted) in enumerate([('/u/w/', ['/u/*', '/u/w/x', '/*']), ('/u/w/.', ['/u/*', '/u/w/./x', '/*']),
                                         ('/u/w/..', ['/u/w/*', '/u/w/../x', '/u/*']), ('//u//w', ['//u/*', '//u//w/x', '/*'])]):
    case('paths-base-url-%d' % number, one(baseUrl=base, paths=[('k', ['../*', 'x', '../../*'])]),
         ('B /p', ['built 0 0', 'baseUrl=' + base, 'base=' + base, 'key=k'] + ['target=' + w for w in wanted]))
case('paths-config-dir', [(P, dict(files=['${configDir}', '${configDir}//x/../y/', 'src/', '/abs/'], outDir='${configDir}x'), ),
                          ('/tsconfig.json', dict(files=['${configDir}'], exclude=['${configDir}/..']))],
     ('B /p', ['built 0 0', 'files=/p/', 'files=/p/x/../y/', 'files=/p/src', 'files=/abs/', 'base=/p', 'outDir=/p/x']),
     ('B /', ['built 1 0', 'files=/', 'exclude=/..', 'base=/']))
case('paths-targets', one(paths=[('k/*', ['a/../*/b/./', '${configDir}/../*', '/x/../*/'])]),
     ('B /p', ['built 0 0', 'base=/p', 'key=k/*', 'target=/p/*/b', 'target=/p/../*', 'target=/x/../*/']),
     ('C ' + tab('/p', 'k/../z/.'), ['candidates 3', '/p/../z/./b', '/p/../../z/.', '/x/../../z/./']))

# ---------------------------------------------------------------- loading
case('loading-last-first', [('/a/A.json', dict(extends=['./n1', './B'])), ('/a/B.json', dict(extends=['./n2']))], ('B /a/A', ['refused 8 1']))
case('loading-entries-first', [('/a/A.json', dict(extends=['./nope', 'pkg']))], ('B /a/A', ['refused 12 0']))
case('loading-entries-in-order', [('/a/A.json', dict(extends=['pkg', ''])), ('/a/B.json', dict(extends=['', 'pkg']))],
     ('B /a/A', ['refused 12 0']), ('B /a/B', ['refused 11 1']))
case('loading-reference-chain',
     [('/a/A.json', dict(references=['./r.json'])), ('/a/r.json', dict(extends=['./q.json'])), ('/a/q.json', dict(extends=['./r.json']))],
     ('B /a/A', ['refused 9 2']), ('B /a/r', ['refused 9 1']), ('B /a/q', ['refused 9 2']))
case('loading-reference-extends-asked', [('/a/A.json', dict(references=['./r.json'], flags={3: 1})), ('/a/r.json', dict(extends=['./A.json']))],
     ('B /a/A', ['built 0 0', 'base=/a', 'reference=./r.json', 'flag 3=1']), ('B /a/r', ['built 1 1', 'base=/a', 'flag 3=1']))
case('loading-folder-hides', [('/a/b.json', {}), ('/a/b/c.json', {})], ('B /a/b', ['refused 8 65535']), ('B /a/b.json', ['built 0 0', 'base=/a']))
case('loading-self', [('/1/tsconfig.json', dict(references=['.'])), ('/2/tsconfig.json', dict(references=['./tsconfig'])),
                      ('/3/tsconfig.json', dict(references=['../3'])), ('/4/tsconfig.json', dict(references=['/4']))],
     ('B /1', ['refused 10 0']), ('B /2', ['refused 10 1']), ('B /3', ['refused 10 2']), ('B /4', ['refused 10 3']))
case('loading-self-before-entries', [(P, dict(references=['.'], extends=['./b'])), ('/p/b.json', dict(references=['./nope']))], ('B /p', ['refused 10 0']))
case('loading-merges',
     [('/a/A.json', dict(extends=['./B', './C', './B.json'])), ('/a/B.json', dict(extends=['./D'])), ('/a/C.json', dict(extends=['./D.json'])), ('/a/D.json', {})],
     ('B /a/A', ['built 0 5', 'base=/a']))
ladder = []
for step in range(30):
    ladder.append(('/l/%02da.json' % step, dict(extends=['./%02da' % (step + 1), './%02db' % (step + 1)])))
    ladder.append(('/l/%02db.json' % step, dict(extends=['./%02da.json' % (step + 1), './%02db.json' % (step + 1)])))
ladder += [('/l/30a.json', dict(flags={4: 0})), ('/l/30b.json', dict(flags={4: 1}))]
case('loading-ladder', ladder, ('B /l/00a', ['built 0 118', 'base=/l', 'flag 4=1']))
case('loading-references-of-references', [('/a/A.json', dict(references=['./B.json'])), ('/a/B.json', dict(references=['./none']))],
     ('B /a/A', ['built 0 0', 'base=/a', 'reference=./B.json']), ('B /a/B', ['refused 8 1']))

# ---------------------------------------------------------------- base and mapping
case('base-of-parent', [('/a/A.json', dict(extends=['/b/B.json'])), ('/b/B.json', {}), ('/a/C.json', dict(extends=['/b/B.json'], paths=[]))],
     ('B /a/A', ['built 0 1', 'base=/b']), ('B /a/C', ['built 2 1', 'base=/a', 'paths']))
case('base-and-base-url', [('/a/A.json', dict(extends=['/b/B.json'], paths=[('k', ['t'])])), ('/b/B.json', dict(baseUrl='u'))],
     ('B /a/A', ['built 0 1', 'baseUrl=/a/u', 'base=/b/u', 'key=k', 'target=/b/u/t']))
case('mapping-no-targets', one(baseUrl='u', paths=[('k', []), ('w/*', []), ('*', ['t/*']), ('j', ['1', '2'])]),
     ('C ' + tab('/p', 'k'), ['candidates 1', '/p/u/k']), ('C ' + tab('/p', 'w/x'), ['candidates 1', '/p/u/w/x']),
     ('C ' + tab('/p', 'z'), ['candidates 1', '/p/u/t/z']), ('C ' + tab('/p', 'j'), ['candidates 2', '/p/u/1', '/p/u/2']),
     ('T ' + tab('/p', '/p', 'j'), ['tries 3', '/p/u/1', '/p/u/2', '/p/u/j']), ('T ' + tab('/p', '/p', 'k'), ['tries 1', '/p/u/k']))
case('mapping-relative', one(baseUrl='u', paths=[('*', ['t/*'])]),
     ('C ' + tab('/p', './x'), ['candidates 1', '/p/u/x']), ('C ' + tab('/p', '../x'), ['candidates 1', '/p/x']),
     ('C ' + tab('/p', '/abs/x'), ['candidates 1', '/p/u/t//abs/x']))
case('mapping-absolute', one(baseUrl='u'), ('C ' + tab('/p', '/abs/x'), ['candidates 1', '/abs/x']), ('C ' + tab('/p', ''), ['candidates 1', '']))
case('mapping-two-stars', one(paths=[('a*b*', ['t/*/*'])]),
     ('C ' + tab('/p', 'axb*'), ['candidates 1', '/p/t/x/*']), ('C ' + tab('/p', 'axbx'), ['candidates 0']))
case('mapping-equal-prefix', one(paths=[('a*c', ['1/*']), ('a*', ['2/*'])]),
     ('C ' + tab('/p', 'abc'), ['candidates 1', '/p/1/b']), ('C ' + tab('/p', 'abd'), ['candidates 1', '/p/2/bd']))
case('mapping-star-in-base', one(baseUrl='/x*', paths=[('k/*', ['t/*']), ('e', ['*'])]),
     ('C ' + tab('/p', 'k/1'), ['candidates 1', '/x1/t/*']), ('C ' + tab('/p', 'e'), ['candidates 1', '/x*/*']))
case('root-dirs', [('/p/1', dict(rootDirs=['/p/src', '/p/src/', '/p/gen'])), ('/p/2', dict(rootDirs=['', '/g'])), ('/p/3', dict(rootDirs=[]))],
     ('T ' + tab('/p/1', '/p/src', './x'), ['tries 2', '/p/src/x', '/p/gen/x']),
     ('T ' + tab('/p/1', '/p/gen', './x'), ['tries 3', '/p/gen/x', '/p/src/x', '/p/src/x']),
     ('T ' + tab('/p/2', '/q', './x'), ['tries 2', '/q/x', '/q/x']),
     ('T ' + tab('/p/3', '/q', './x'), ['tries 0']),
     ('T ' + tab('/p/1', '/p/src', '../x'), ['tries 0']))

# ---------------------------------------------------------------- claims
case('claims-exclude-gate', one(include=['**/*.vue'], exclude=['src']),
     ('O /p/src/a.vue', ['owner 0 0']), ('O /p/src/a.ts', ['owner none']))
case('claims-last-piece', [('/1/tsconfig.json', dict(include=['x.*'])), ('/2/tsconfig.json', dict(include=['x.y', 'a?', 'b*'])), ('/3/tsconfig.json', dict(include=['x']))],
     ('O /1/x.*', ['owner 0 0']), ('O /1/x.vue', ['owner none']), ('O /1/x.ts', ['owner 0 0']),
     ('O /2/x.y/a.ts', ['owner none']), ('O /2/ab/a.ts', ['owner none']), ('O /2/b/a.ts', ['owner none']), ('O /2/b.ts', ['owner 1 1']),
     ('O /3/x/a.ts', ['owner 2 2']), ('O /3/x/y/a.ts', ['owner 2 2']), ('O /3/x', ['owner none']))
case('claims-extensions', [('/1/tsconfig.json', dict(include=['x.', '.ts', '..ts', '*.TS'])), ('/2/tsconfig.json', {}),
                           ('/3/tsconfig.json', dict(include=['*.js'], files=['f.js'])), ('/4/tsconfig.json', dict(include=['*.js'], flags={8: 1}))],
     ('O /1/x.', ['owner 0 0']), ('O /1/.ts', ['owner none']), ('O /1/..ts', ['owner 0 0']), ('O /1/x.TS', ['owner 0 0']),
     ('O /2/x.', ['owner none']), ('O /2/.ts', ['owner none']), ('O /2/..ts', ['owner 1 1']), ('O /2/x.TS', ['owner none']),
     ('O /2/x.mts', ['owner 1 1']), ('O /2/x.d.cts', ['owner 1 1']), ('O /2/x.tsx', ['owner 1 1']), ('O /2/x.js', ['owner none']),
     ('O /3/a.js', ['owner none']), ('O /3/f.js', ['owner 2 2']), ('O /4/a.js', ['owner 3 3']))
case('claims-files', [('/p/tsconfig.json', dict(files=['/p/./k.ts', '//p/l.ts', '/p/m.ts/'])), ('/q/tsconfig.json', dict(include=['/q/./k.ts', '//q/l.ts', '/q/m.ts/'])),
                      ('/tsconfig.json', dict(files=['.']))],
     ('O /p/k.ts', ['owner 0 0']), ('O /p/l.ts', ['owner 0 0']), ('O /p/m.ts', ['owner 0 0']),
     ('O /q/k.ts', ['owner none']), ('O /q/l.ts', ['owner none']), ('O /q/m.ts', ['owner none']))
case('claims-root', [('/tsconfig.json', dict(files=['.']))], ('O /', ['owner 0 0']), ('O /x.ts', ['owner none']))
case('claims-references', [('/a/tsconfig.json', dict(references=['./r.json'])), ('/a/r.json', dict(include=['s'])),
                           ('/b/tsconfig.json', dict(references=['../a/q.json'], include=['none'])), ('/a/q.json', dict(include=['/b/t']))],
     ('O /a/s/x.ts', ['owner 0 1']), ('O /a/x.ts', ['owner 0 0']), ('O /b/t/x.ts', ['owner 2 3']), ('O /b/x.ts', ['owner none']))
case('claims-walk', [('/a/b/tsconfig.json', dict(include=['none'])), ('/a/tsconfig.json', {}), ('/a/x.ts/tsconfig.json', dict(files=['.'])),
                     ('/tsconfig.json', dict(extends=['']))],
     ('O /a/b/x.ts', ['owner 1 1']), ('O /a/x.ts', ['owner 2 2']), ('O /a/b/c', ['refused 11 3']), ('O /z.ts', ['refused 11 3']))
case('claims-stores', [('/a/tsconfig.json', dict(files=[], include=[], references=['./r.json'])),
                       ('/a/r.json', dict(include=['b'])), ('/a/b/tsconfig.json', dict(include=['nothing'], references=['../tsconfig.json']))],
     ('O /a/b/x.ts', ['owner 0 1']))

# One resolver for the walk answers `owner none` to the first two and refuses the third, where the nearer config names the
# other by its folder; `judge --stores` tells it.
case('stores-refused', [('/a/tsconfig.json', dict(references=['.'], include=['none'])), ('/a/b/tsconfig.json', dict(include=['none'], references=['../tsconfig.json'])),
                        ('/c/tsconfig.json', dict(references=['./gone'], include=['none'])), ('/c/d/tsconfig.json', dict(include=['none'], references=['../tsconfig.json'])),
                        ('/c/e/tsconfig.json', dict(include=['none'], references=['..']))],
     ('O /a/b/x.ts', ['refused 10 0']), ('O /c/d/x.ts', ['refused 8 2']), ('O /c/e/x.ts', ['refused 8 2']))

# ---------------------------------------------------------------- sizes and counts
def long_path(length):
    return '/' + 'a' * (length - 1)


raw('sizes-512', lambda w: w.record(long_path(512)), ('B ' + long_path(512), ['built 0 0', 'base=/']), ('B ' + long_path(513), ['refused 7 0']),
    ('C ' + tab(long_path(512), 'x' * 512), ['candidates 0']), ('C ' + tab(long_path(512), 'x' * 513), ['refused 7 0']))
raw('sizes-513', lambda w: w.record(long_path(513)), ('B /a', ['refused 4 0']))
raw('sizes-64-records', lambda w: [w.record('/%02d' % n) for n in range(64)], ('B /63', ['built 63 0', 'base=/']))
raw('sizes-65-records', lambda w: [w.record('/%02d' % n) for n in range(65)], ('B /63', ['refused 5 384']))
raw('sizes-65-records-bad-path', lambda w: [w.record('/%02d' % n) for n in range(64)] and w.record('x'), ('B /63', ['refused 4 384']))
raw('sizes-65-records-repeated', lambda w: [w.record('/%02d' % n) for n in range(64)] and w.record('/00'), ('B /63', ['refused 5 384']))
for name, present, command, most in (('files', 2, 3, 64), ('include', 4, 5, 64), ('exclude', 6, 7, 64), ('root-dirs', 0x0E, 0x0F, 8),
                                     ('extends', None, 8, 8), ('references', None, 0x0D, 16)):
    for extra in (0, 1):
        def build(w, present=present, command=command, most=most, extra=extra):
            w.put(1, '/a')
            if present:
                w.put(present)
            for _ in range(most + extra):
                w.put(command, 'x')
            w.put(0x14)
        raw('sizes-%s-%d' % (name, most + extra), build,
            SOUND if not extra else ('B /a', ['refused 5 %d' % (5 + (present is not None) + 5 * most)]))
for extra in (0, 1):
    raw('sizes-keys-%d' % (32 + extra), lambda w, extra=extra: (w.put(1, '/a'), w.put(10), [w.put(11, 'k%d' % n) for n in range(32 + extra)], w.put(0x14)),
        SOUND if not extra else ('B /a', ['refused 5 166']))
    raw('sizes-targets-%d' % (8 + extra), lambda w, extra=extra: (w.put(1, '/a'), w.put(10), w.put(11, 'k'), [w.put(12, 't') for n in range(8 + extra)], w.put(0x14)),
        SOUND if not extra else ('B /a', ['refused 5 51']))
raw('sizes-commands', lambda w: (w.put(1, '/a'), w.raw(b'\x08\0\0\0\0' * 6600)), ('B /a', ['refused 1 0']))
raw('sizes-commands-full', lambda w: (w.put(1, '/a'), w.raw(b'\x12' * 32763)), ('B /a', ['refused 3 5']))
raw('sizes-text', lambda w: w.record('/a'), ('B /a', ['refused 1 0']), text=b'/a' * 32768)
raw('sizes-text-full', lambda w: w.record('/a'), ('B /a', ['built 0 0', 'base=/']), text=b'/a' + b'x' * 65533)
raw('empty-book', lambda w: None, ('B /', ['refused 8 65535']), ('O /', ['owner none']), ('O /a/b.ts', ['owner none']), ('B ', ['refused 7 0']))

# ---------------------------------------------------------------- order and repetition (3)
ORDER = {
    'item-before-list': ([(1, '/a'), (3, 'x')], 5), 'include-item-before': ([(1, '/a'), (2,), (5, 'x')], 6), 'exclude-item-before': ([(1, '/a'), (4,), (7, 'x')], 6),
    'key-before-paths': ([(1, '/a'), (0x0B, 'x')], 5), 'target-before-key': ([(1, '/a'), (0x0A,), (0x0C, 'x')], 6),
    'target-after-other': ([(1, '/a'), (0x0A,), (0x0B, 'k'), (0x02,), (0x0C, 'x')], 12),
    'target-after-flag': ([(1, '/a'), (0x0A,), (0x0B, 'k'), (0x0C, 't'), (0x12, 0, 0), (0x0C, 'x')], 19),
    'root-dir-before': ([(1, '/a'), (0x0F, 'x')], 5), 'files-twice': ([(1, '/a'), (2,), (2,)], 6), 'include-twice': ([(1, '/a'), (4,), (5, 'x'), (4,)], 11),
    'exclude-twice': ([(1, '/a'), (6,), (6,)], 6), 'paths-twice': ([(1, '/a'), (10,), (10,)], 6), 'root-dirs-twice': ([(1, '/a'), (14,), (14,)], 6),
    'base-url-twice': ([(1, '/a'), (9, ''), (9, '')], 10), 'out-dir-twice': ([(1, '/a'), (16, ''), (16, '')], 10),
    'declaration-dir-twice': ([(1, '/a'), (17, ''), (17, '')], 10), 'flag-twice': ([(1, '/a'), (18, 2, 0), (18, 2, 1)], 8),
    'text-twice': ([(1, '/a'), (19, 2, ''), (19, 2, 'x')], 11), 'flag-11': ([(1, '/a'), (18, 11, 0)], 5), 'flag-value-2': ([(1, '/a'), (18, 0, 2)], 5),
    'text-7': ([(1, '/a'), (19, 7, '')], 5), 'end-twice': ([(1, '/a'), (20,), (20,)], 6),
}
for name, (commands, place) in ORDER.items():
    raw('order-' + name, lambda w, commands=commands: [w.put(*c) for c in commands], ('B /a', ['refused 3 %d' % place]))
raw('order-any', lambda w: (w.put(1, '/a'), w.put(0x14 - 1, 6, 'm'), w.put(2), w.put(0x0A), w.put(8, './b'), w.put(0x0B, 'k'), w.put(0x0C, 't'), w.put(0x0C, 'u'),
                            w.put(3, 'f'), w.put(0x0B, 'l'), w.put(0x0D, './b'), w.put(3, 'g'), w.put(0x14), w.record('/b')),
    ('B /a', ['built 0 1', 'files=/f', 'files=/g', 'base=/', 'key=k', 'target=/t', 'target=/u', 'key=l', 'reference=./b', 'text 6=m']))


def write(out):
    for name, commands, text, pairs in CASES:
        answers = ''.join(line + '\n' for _, lines in pairs for line in lines)
        save(os.path.join(out, name), commands, text, [question for question, _ in pairs], answers)
    print('%d cases, %d questions written' % (len(CASES), sum(len(c[3]) for c in CASES)))


def run(judge):
    with tempfile.TemporaryDirectory() as out:
        write(out)
        return compare(judge, [os.path.join(top, d) for top in (HERE, out) for d in sorted(os.listdir(top))])


def compare(judge, folders):
    folders = [folder for folder in folders if os.path.exists(os.path.join(folder, 'expected'))]
    asked = failed = 0
    for folder in folders:
        questions = open(os.path.join(folder, 'questions'), 'rb').read()
        expected = open(os.path.join(folder, 'expected'), 'rb').read()
        given = subprocess.run([judge], input=questions, cwd=folder, stdout=subprocess.PIPE)
        asked += questions.count(b'\n')
        if given.stdout != expected or given.returncode:
            failed += 1
            print('%s\n--- expected\n%s--- given\n%s' % (os.path.basename(folder), expected.decode('latin-1'), given.stdout.decode('latin-1')))
    print('%d books, %d questions, %d books answered otherwise' % (len(folders), asked, failed))
    return failed


if __name__ == '__main__':
    if sys.argv[1:2] == ['write'] and len(sys.argv) == 3:
        write(sys.argv[2])
    elif sys.argv[1:2] == ['run']:
        default = os.path.join(HERE, '..', 'target', 'release', 'judge')
        sys.exit(1 if run(os.path.abspath(sys.argv[2] if len(sys.argv) > 2 else default)) else 0)
    else:
        sys.exit(__doc__)
