#!/usr/bin/env python3
"""The definitions of the questions, held against the crate by computation.

A book (a folder with book.cmd, book.txt and questions) becomes one antt theorem by `refl`: the answers that the
definitions give to its questions, from the command bytes on, are those of the judge, which is the crate itself.

    cases.py refresh FILE..                 the use and unfolding lines of case files, from the definitions as they are now
    cases.py write OUT.antt TITLE FOLDER..  the theorems of the folders
    cases.py run --scratch DIR --seed S ..  many generated books, checked in a copy of the crates

The judge is named by the variable JUDGE; where it is not set it is host/judge/target/release/judge. README.md has the
exact commands.
"""
import argparse
import os
import re
import shutil
import subprocess
import sys
import textwrap
import time

HERE = os.path.dirname(os.path.abspath(__file__))
sys.path.insert(0, HERE)
import antt  # noqa: E402

ROOT = os.path.dirname(os.path.dirname(HERE))
CRATES = os.path.join(ROOT, 'crates')
JUDGE = os.path.abspath(os.environ.get('JUDGE', os.path.join(ROOT, 'host', 'judge', 'target', 'release', 'judge')))

# ------------------------------------------------------------ the lines that name the definitions

BLOCK = '-- what the answers are computed with\n'


def refresh(path, crates=CRATES):
    """The use lines after BLOCK, and each unfolding line, written anew: all that is reached from what the file uses."""
    parts = os.path.relpath(path, crates).split(os.sep)
    text = open(path, encoding='utf-8').read()
    head, mark, tail = text.partition(BLOCK)
    if not mark:
        sys.exit('%s: no line %r' % (path, BLOCK))
    lines = tail.split('\n')
    while lines and lines[0].startswith('use '):
        lines.pop(0)
    rest = '\n'.join(lines)
    file = antt.File((head + rest).split('\n'))
    files = antt.specs(crates)
    if parts[1] == 'specs':
        files.pop((parts[0], parts[-1][:-len('.antt')]), None)
    names = antt.reached(files, antt.roots(files, file))
    here = {entry: name for name, entry in file.names.items() if entry}
    spoken = re.findall(r'[^\s(){};,]+', re.sub(r'(?m)^\s*(--|unfolding ).*$', '', head + rest))
    uses, words = antt.unfolded([n for n in names if n not in here], set(file.names) | set(file.items) | set(spoken))
    line = 'unfolding ' + ' '.join([here[n] for n in names if n in here] + words)
    rest = re.sub(r'(?m)^(\s*)unfolding .*$', lambda m: m.group(1) + line, rest)
    open(path, 'w', encoding='utf-8').write(head + mark + ''.join(u + '\n' for u in uses) + rest)


# ------------------------------------------------------------ questions and answers

HEADER = re.compile(rb'(built|owner|candidates|tries|refused|unknown)( |$)')
FIELDS = {'B': 1, 'O': 1, 'C': 2, 'T': 3}


def cut(answers, count):
    """The answers' lines, one list a question. A build's lines begin with a field's name, never with a header."""
    lines = answers.split(b'\n')
    if lines.pop() != b'':
        raise ValueError('the answers do not end with a line end')
    out, at = [], 0
    for _ in range(count):
        head = lines[at].split(b' ')
        end = at + 1
        if head[0] == b'built':
            while end < len(lines) and not HEADER.match(lines[end]):
                end += 1
        elif head[0] in (b'candidates', b'tries'):
            end += int(head[1])
        out.append(lines[at:end])
        at = end
    if at != len(lines):
        raise ValueError('%d lines are left over' % (len(lines) - at))
    return out


def book(folder):
    """Commands, text, and (question, lines of the judge's answer) of a folder; lines of no known form are left out."""
    commands, text, asked_here = [open(os.path.join(folder, name), 'rb').read() for name in ('book.cmd', 'book.txt', 'questions')]
    lines = asked_here.split(b'\n')
    if lines[-1] == b'':
        lines.pop()
    judged = subprocess.run([JUDGE], cwd=folder, input=asked_here, stdout=subprocess.PIPE, check=True).stdout
    return commands, text, [(q, a) for q, a in zip(lines, cut(judged, len(lines))) if a[0] != b'unknown']


# ------------------------------------------------------------ theorems

ESCAPES = {0: '\\0', 9: '\\t', 10: '\\n', 13: '\\r', 34: '\\"', 92: '\\\\'}
NAMES = ['', 'BEGIN', 'FILES', 'file', 'INCLUDE', 'include', 'EXCLUDE', 'exclude', 'extends', 'baseUrl', 'PATHS', 'key', 'target',
         'reference', 'ROOTDIRS', 'rootDir', 'outDir', 'declarationDir', 'flag', 'text', 'END']
WIDTHS = [None, 4, 0, 4, 0, 4, 0, 4, 4, 4, 0, 4, 4, 4, 0, 4, 4, 4, 2, 5, 0]


def literal(data):
    return '"%s"' % ''.join(ESCAPES.get(b) or (chr(b) if chr(b).isprintable() else '\\u{%x}' % b) for b in data)


def short(data):
    return literal(data if len(data) < 60 else data[:40] + b'..')


def spelt(commands, text):
    """The commands in words, for a comment; what cannot be read is left as bytes."""
    out, at = [], 0
    while at < len(commands):
        op = commands[at]
        width = WIDTHS[op] if op < len(WIDTHS) else None
        if width is None or at + 1 + width > len(commands):
            out.append('bytes ' + ' '.join('%02X' % b for b in commands[at:at + 8]) + (' ..' if len(commands) > at + 8 else ''))
            break
        operands = commands[at + 1:at + 1 + width]
        words = [NAMES[op]] + [str(b) for b in (operands if width == 2 else operands[:1] if width == 5 else b'')]
        if width >= 4:
            start, length = (operands[-4] + 256 * operands[-3], operands[-2] + 256 * operands[-1])
            words.append(short(text[start:start + length]) if start + length <= len(text) else '%d+%d' % (start, length))
        out.append(' '.join(words))
        at += 1 + width
    return textwrap.wrap(', '.join(out) or 'no commands', 150, break_long_words=False)


def asked(question):
    kind = question[:1].decode()
    return '%s %s' % (kind, ' '.join(literal(part) for part in question[2:].split(b'\t', FIELDS[kind] - 1)))


def told(lines):
    """The answer's lines, as 01's program prints them, as the numbers returned and the bytes of the output."""
    head = lines[0].split(b' ')
    if head[0] == b'refused':
        return 'refuses %d %d' % (int(head[1]), int(head[2]))
    if head[0] == b'owner':
        first, second = (65535, 65535) if head[1] == b'none' else (int(head[1]), int(head[2]))
        return 'gives %d %d ""' % (first, second)
    if head[0] == b'built':
        return 'gives %d %d %s' % (int(head[1]), int(head[2]), literal(b''.join(line + b'\n' for line in lines[1:])))
    laid = b''.join(bytes([len(line) % 256, len(line) // 256]) + line for line in lines[1:])
    return 'gives %d 0 %s' % (int(head[1]), literal(laid))


USES = '''use mathlib.Core.List.{[], ◌∷◌}
use mathlib.Core.Path.{refl}
use Rattle.cases.specs.Asked.{Answers, tell, ◌gets◌, B, O, C, T, refuses, gives}
'''


def theorem(name, commands, text, pairs):
    return '\n%spub %s :\n    Answers %s %s\n    (%s)\nunfolding tell\n%s = refl\n' % (
        ''.join('-- %s\n' % line for line in spelt(commands, text)), name, literal(commands), literal(text),
        '\n    ∷ '.join(['(%s gets %s)' % (asked(q), told(a)) for q, a in pairs] + ['[]']), name)


def write(path, title, books):
    """The theorems of (name, commands, text, pairs)."""
    body = ''.join(theorem(*b) for b in books)
    open(path, 'w', encoding='utf-8').write('-- %s\n%s%s' % (title, USES, body))


def read(folders, commands, text):
    """The books within the sizes that have a question of known form, and how many are larger."""
    books, larger = [], []
    for folder in sorted(os.path.normpath(folder) for folder in folders):
        if not os.path.exists(os.path.join(folder, 'book.cmd')):
            continue
        b = ('book_' + os.path.basename(folder).replace('-', '_'),) + book(folder)
        (larger if len(b[1]) > commands or len(b[2]) > text else books).append(b)
    return [b for b in books if b[3]], [b for b in larger if b[3]]


# ------------------------------------------------------------ many books


def scratch_repository(scratch):
    """A copy of the crates, with nothing to prove in the crate `cases` but what a run writes."""
    crates = os.path.join(scratch, 'crates')
    shutil.rmtree(crates, ignore_errors=True)
    shutil.copytree(CRATES, crates, ignore=shutil.ignore_patterns('must-fail', 'out'))
    shutil.copy(os.path.join(ROOT, 'crates.txt'), scratch)
    cases = os.path.join(crates, 'cases')
    shutil.rmtree(os.path.join(cases, 'proofs'), ignore_errors=True)
    os.makedirs(os.path.join(cases, 'proofs'))
    for name in os.listdir(os.path.join(cases, 'specs')):
        if name != 'Asked.antt':
            os.remove(os.path.join(cases, 'specs', name))
    open(os.path.join(cases, 'specs', 'Lib.antt'), 'w').write('pub mod Asked\n')
    open(os.path.join(cases, 'proofs', 'Lib.antt'), 'w').write('-- A run.\npub mod Run\n')
    return os.path.join(cases, 'proofs', 'Run.antt')


def check(scratch, path, books, limit=None):
    """The theorems that are not proved, by name, with the first words on each, and the seconds taken."""
    write(path, 'A run.', books)
    start = time.time()
    cases = os.path.join(scratch, 'crates', 'cases')
    done = subprocess.run(['timeout', str(limit or 0), 'rt', 'check'], cwd=cases, stdout=subprocess.PIPE, stderr=subprocess.STDOUT)
    took = time.time() - start
    if done.returncode == 0:
        return {}, took
    if done.returncode == 124:
        return {b[0]: 'more than %s s' % limit for b in books}, took
    said = done.stdout.decode('utf-8', 'replace')
    failed = dict(re.findall(r'Run\.antt:\d+:\d+: error: `(\S+)`: (.*)', said))
    if not failed:
        sys.exit(said)
    return failed, took


def run(o):
    os.makedirs(o.scratch, exist_ok=True)
    path = scratch_repository(o.scratch)
    check(o.scratch, path, [('empty', b'', b'', [(b'B /', [b'refused 8 65535'])])])
    total = [0, 0, 0, 0, 0.0]
    for seed in o.seed:
        folder = os.path.join(o.scratch, 'books', seed)
        shutil.rmtree(folder, ignore_errors=True)
        subprocess.run([sys.executable, o.generator, folder, str(o.books), seed], check=True)
        books, larger = read([os.path.join(folder, name) for name in os.listdir(folder)], o.commands, o.text)
        if o.larger:
            books, larger = larger, []
        disagree, seconds = 0, 0.0
        for at in range(0, len(books), o.chunk):
            part = books[at:at + o.chunk]
            failed, took = check(o.scratch, path, part, o.limit)
            seconds += took
            for name, commands, text, pairs in [b for b in part if b[0] in failed]:
                if len(part) == 1 and failed[name].startswith('more than'):
                    disagree += len(pairs)
                    print('seed %s %s: %d command bytes, %d text bytes, %d questions: %s' % (seed, name, len(commands), len(text), len(pairs), failed[name]), flush=True)
                    continue
                alone = [('%s_%d' % (name, i), commands, text, [pair]) for i, pair in enumerate(pairs)]
                for one, words in sorted(check(o.scratch, path, alone, o.limit)[0].items()):
                    question, answer = pairs[int(one.rsplit('_', 1)[1])]
                    disagree += 1
                    print('seed %s %s: %r, the crate: %r; %s' % (seed, name, question, answer, words[:160]), flush=True)
        here = (len(books), sum(len(b[3]) for b in books), disagree, len(larger), seconds)
        print('seed %s: %d books, %d questions, %d not proved, %d larger books left out, %.0f s' % ((seed,) + here), flush=True)
        total = [a + b for a, b in zip(total, here)]
    print('all: %d books, %d questions, %d not proved, %d larger books left out, %.0f s' % tuple(total))
    return 1 if total[2] else 0


def main():
    parser = argparse.ArgumentParser(description=__doc__, formatter_class=argparse.RawDescriptionHelpFormatter)
    forms = parser.add_subparsers(dest='form', required=True)
    sizes = argparse.ArgumentParser(add_help=False)
    sizes.add_argument('--commands', type=int, default=1500, help='books with more command bytes are left out (1500)')
    sizes.add_argument('--text', type=int, default=4000, help='books with more text bytes are left out (4000)')
    form = forms.add_parser('refresh')
    form.add_argument('files', nargs='+')
    form = forms.add_parser('write', parents=[sizes])
    form.add_argument('out')
    form.add_argument('title')
    form.add_argument('folders', nargs='+')
    form = forms.add_parser('run', parents=[sizes])
    form.add_argument('--generator', default=os.path.join(ROOT, 'host', 'judge', 'gen', 'generate.py'))
    form.add_argument('--scratch', required=True, help='a folder outside the repository, for the copy and the books')
    form.add_argument('--seed', action='append', required=True, help='may be given several times')
    form.add_argument('--books', type=int, default=500, help='of each seed (500)')
    form.add_argument('--chunk', type=int, default=100, help='theorems checked at a time (100)')
    form.add_argument('--larger', action='store_true', help='the larger books and not the others; use with --chunk 1')
    form.add_argument('--limit', type=int, help='seconds for one check')
    o = parser.parse_args()
    if o.form == 'refresh':
        for path in o.files:
            refresh(os.path.abspath(path))
    elif o.form == 'write':
        books, larger = read(o.folders, o.commands, o.text)
        write(o.out, o.title, books)
        print('%d books, %d questions; %d larger books left out' % (len(books), sum(len(b[3]) for b in books), len(larger)))
    else:
        sys.exit(run(o))


if __name__ == '__main__':
    main()
