#!/usr/bin/env python3
"""Runs the entries of docs/DIFFERENCES.md.

    differences.py crate [NUMBER..]         asks the judge (the crate itself) every entry and compares
    differences.py port PROGRAM [NUMBER..]  the same with another program of document 01's interface, as this port's
    differences.py typescript [NUMBER..]    the same with TypeScript 4.8.4 (node and Debian's node-typescript)
    differences.py document                 every entry stands in the document as it stands here, and no other does
    differences.py show NUMBER..            an entry as the document shows it
    differences.py write FOLDER             each case as a folder: book.cmd, book.txt, questions, expected

JUDGE names the judge's program (default: the release build in ../judge), TYPESCRIPT the library tsserverlibrary.js.
Ends with 0 where all agree, else with 1.
"""
import json
import os
import re
import struct
import subprocess
import sys
import tempfile

from entries import ENTRIES, reach

HERE = os.path.dirname(os.path.abspath(__file__))
JUDGE = os.path.abspath(os.environ.get('JUDGE', os.path.join(HERE, '..', 'judge', 'target', 'release', 'judge')))
DOCUMENT = os.path.join(HERE, '..', '..', 'docs', 'DIFFERENCES.md')

FLAGS = ['experimentalDecorators', 'emitDecoratorMetadata', 'strict', 'strictNullChecks', 'useDefineForClassFields',
         'rewriteRelativeImportExtensions', 'verbatimModuleSyntax', 'preserveValueImports', 'allowJs', 'resolveJsonModule', 'checkJs']
TEXTS = ['jsx', 'jsxFactory', 'jsxFragmentFactory', 'jsxImportSource', 'importsNotUsedAsValues', 'target', 'module']
LISTS = [('files', 0x02), ('include', 0x04), ('exclude', 0x06), ('rootDirs', 0x0E)]
SINGLES = [('baseUrl', 0x09), ('outDir', 0x10), ('declarationDir', 0x11)]
KNOWN = {'extends', 'references', 'paths'} | set(FLAGS) | set(TEXTS) | {name for name, _ in LISTS + SINGLES}


# ---------------------------------------------------------------- a case as a book, as JSON texts, as a line to read
def book(records):
    commands, text, places = bytearray(), bytearray(), {}

    def put(command, *operands):
        commands.append(command)
        for operand in operands:
            if isinstance(operand, int):
                commands.append(operand)
                continue
            if operand not in places:
                places[operand] = len(text)
                text.extend(operand.encode('ascii'))
            commands.extend(struct.pack('<HH', places[operand], len(operand)))

    for path, fields in records:
        assert set(fields) <= KNOWN, fields
        put(0x01, path)
        for entry in fields.get('extends', []):
            put(0x08, entry)
        for name, command in LISTS:
            if name in fields:
                put(command)
                for item in fields[name]:
                    put(command + 1, item)
        for name, command in SINGLES:
            if name in fields:
                put(command, fields[name])
        if 'paths' in fields:
            put(0x0A)
            for key, targets in fields['paths']:
                put(0x0B, key)
                for target in targets:
                    put(0x0C, target)
        for reference in fields.get('references', []):
            put(0x0D, reference)
        for number, name in enumerate(FLAGS):
            if name in fields:
                put(0x12, number, int(fields[name]))
        for number, name in enumerate(TEXTS):
            if name in fields:
                put(0x13, number, fields[name])
        put(0x14)
    return bytes(commands), bytes(text)


def tsconfig(fields):
    """A record as the text of a tsconfig.json."""
    top, options = {}, {}
    for name, value in fields.items():
        if name == 'extends':
            top[name] = value[0] if len(value) == 1 else value
        elif name == 'references':
            top[name] = [{'path': path} for path in value]
        elif name in ('files', 'include', 'exclude'):
            top[name] = value
        else:
            options[name] = dict(value) if name == 'paths' else value
    if options:
        top['compilerOptions'] = options
    return json.dumps(top)


SHORT = {'/p/tsconfig.json': 'P', '/b/base.json': 'D', '/tsconfig.json': 'R'}


def shown_record(path, fields):
    if (path, fields) == reach():
        return '`R`'
    parts = []
    for name, value in fields.items():
        if name == 'extends' and len(value) == 1:
            value = value[0]
        text = json.dumps(dict(value) if name == 'paths' else value)
        parts.append('%s: %s' % (name, text))
    return '`%s {%s}`' % (SHORT.get(path, path), ', '.join(parts))


def shown_answer(answer):
    head, *lines = answer.split(' | ')
    return '`%s`' % ', '.join([head] + [line or '(empty)' for line in lines])


def shown(entry):
    """An entry's cell: for each case its records, then its questions, each with the answers."""
    out = []
    for case in entry['cases']:
        out.append(', '.join(shown_record(*record) for record in case['records']))
        if case['disk']:
            out[-1] += '; on the disk ' + ', '.join('`%s`%s' % (path, ' (`%s`)' % text if 'import' in text else '')
                                                    for path, text in case['disk'].items())
        for line, crate, question, typescript in case['questions']:
            kind, rest = line[0], [field or '(empty)' for field in line[2:].split('\t')]
            if kind != 'O':
                rest[0] = SHORT.get(rest[0], rest[0])
            answer = shown_answer(crate)
            if line in dict(case['stores']):
                answer += '; by one resolver ' + shown_answer(dict(case['stores'])[line])
            if question:
                word = {'server': 'server: ', 'reference': 'reads ', 'errors': 'reports '}.get(question[0], '')
                answer += '; TS ' + word + (typescript if typescript in ('in', 'out', 'none', 'no config') else '`%s`' % (typescript or '(nothing)'))
            out.append('`%s %s`: %s' % (kind, ' '.join(rest), answer))
    return '<br>'.join(out)


# ---------------------------------------------------------------- asking
def folders(entries, root):
    for entry in entries:
        for number, case in enumerate(entry['cases'], 1):
            folder = os.path.join(root, '%s-%d' % (entry['number'], number))
            os.makedirs(folder, exist_ok=True)
            commands, text = book(case['records'])
            lines = [question[0] for question in case['questions']]
            expected = [line for question in case['questions'] for line in question[1].split(' | ')]
            for name, data in (('book.cmd', commands), ('book.txt', text), ('questions', ''.join(l + '\n' for l in lines).encode()),
                               ('expected', ''.join(l + '\n' for l in expected).encode())):
                with open(os.path.join(folder, name), 'wb') as file:
                    file.write(data)
            yield entry, case, folder


def one_answer(program, folder, line):
    given = subprocess.run([program], input=(line + '\n').encode(), cwd=folder, stdout=subprocess.PIPE)
    return given.stdout.decode().removesuffix('\n').replace('\n', ' | ') if given.returncode == 0 else 'ended with %d' % given.returncode


def ask_program(entries, program, stores):
    count = failed = 0
    with tempfile.TemporaryDirectory() as root:
        for entry, case, folder in folders(entries, root):
            for line, crate, _, _ in case['questions']:
                count += 1
                given = one_answer(program, folder, line)
                if given != crate:
                    failed += 1
                    print('%s: %s\n  expected %s\n  given    %s' % (entry['number'], line, crate, given))
            if stores and case['stores']:
                given = subprocess.run([program, '--stores', folder], stdout=subprocess.PIPE, stderr=subprocess.DEVNULL).stdout.decode()
                seen = dict(re.findall(r': (O .*): fresh .*, one (.*)', given))
                count += 1
                if seen != case['stores']:
                    failed += 1
                    print('%s: one resolver\n  expected %s\n  given    %s' % (entry['number'], case['stores'], seen))
    print('%s: %d entries, %d questions, %d answered otherwise' % ('crate' if stores else 'port', len(entries), count, failed))
    return failed


def ask_typescript(entries):
    tasks, expected = [], []
    for entry in entries:
        for case in entry['cases']:
            questions = [q for q in case['questions'] if q[2]]
            if questions:
                tasks.append(dict(records=[[path, tsconfig(fields)] for path, fields in case['records']], disk=case['disk'],
                                  questions=[q[2] for q in questions]))
                expected.append((entry, questions))
    given = subprocess.run(['node', os.path.join(HERE, 'typescript.js')], input=json.dumps(tasks).encode(), stdout=subprocess.PIPE, check=True)
    given = json.loads(given.stdout)
    count = failed = 0
    for (entry, questions), answers in zip(expected, given['answers']):
        for question, answer in zip(questions, answers):
            count += 1
            if answer != question[3]:
                failed += 1
                print('%s: %s\n  expected %s\n  given    %s' % (entry['number'], question[0], question[3], answer))
    print('TypeScript %s: %d entries, %d questions, %d answered otherwise'
          % (given['version'], len({entry['number'] for entry, _ in expected}), count, failed))
    return failed


def hold_document():
    """Each row `| **D1** ..` of the document has its entry's cell, and each entry its row."""
    rows = {}
    with open(DOCUMENT, encoding='ascii') as file:
        for line in file:
            found = re.match(r'\| \*\*([A-Z]\d+)\*\* ', line)
            if found:
                assert found[1] not in rows, found[1] + ' stands twice'
                rows[found[1]] = line
    failed = 0
    for entry in ENTRIES:
        if shown(entry) not in rows.get(entry['number'], ''):
            failed += 1
            print('%s is not in the document as it is here:\n  %s' % (entry['number'], shown(entry)))
    here = {entry['number'] for entry in ENTRIES}
    for number, line in rows.items():
        if number not in here and 'not run' not in line:
            failed += 1
            print('%s has no entry here and does not say "not run"' % number)
    print('document: %d rows, %d entries, %d faults' % (len(rows), len(ENTRIES), failed))
    return failed


def main(arguments):
    verb, named = arguments[:1], set(arguments[1:])
    if verb == ['port'] and len(arguments) > 1:
        program, named = os.path.abspath(arguments[1]), set(arguments[2:])
    entries = [entry for entry in ENTRIES if not named or entry['number'] in named]
    unknown = named - {entry['number'] for entry in ENTRIES}
    if unknown and verb != ['write']:
        sys.exit('no entry ' + ', '.join(sorted(unknown)))
    if verb == ['crate']:
        return ask_program(entries, JUDGE, True)
    if verb == ['port'] and len(arguments) > 1:
        return ask_program(entries, program, False)
    if verb == ['typescript']:
        return ask_typescript(entries)
    if verb == ['document']:
        return hold_document()
    if verb == ['show']:
        for entry in entries:
            print('%s %s\n%s' % (entry['number'], entry['topic'], shown(entry).replace('<br>', '\n')))
        return 0
    if verb == ['write'] and len(arguments) == 2:
        print('%d cases written' % len(list(folders(ENTRIES, arguments[1]))))
        return 0
    sys.exit(__doc__)


if __name__ == '__main__':
    sys.exit(1 if main(sys.argv[1:]) else 0)
