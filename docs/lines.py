#!/usr/bin/env python3
"""Holds what the documents name to the sources: in docs/CHECKLIST.md each place, written as `name` (`file:line`), and each edit; in docs/SENTENCES.md each
definition, written as `crate/Module` name, name, and each function or struct, written as crate: name, name.

    docs/lines.py          says what is wrong, and ends with 1 if anything is
    docs/lines.py fix      writes the right lines to docs/CHECKLIST.md
"""
import os
import re
import sys

ROOT = os.path.dirname(os.path.dirname(os.path.abspath(__file__)))
PLACE = re.compile(r'`([\w-]+)` \(`(crates/[\w/.]+):(\d+)`\)')


def read(path):
    with open(os.path.join(ROOT, path)) as file:
        return file.read()


def line_of(name, path):
    """The line that defines the name, 0 where none does: a function, struct or record, or the first line that begins with the name and a colon."""
    word = re.escape(name)
    form = re.compile(r'^\s*(?:(?:pub|abbrev|unfoldable|extern "C") )*(?:fn %s\b|struct %s\b|record %s\b|%s :)' % (word, word, word, word))
    return next((number for number, line in enumerate(read(path).split('\n'), 1) if form.match(line)), 0)


def checklist():
    """What is wrong in the checklist, and its text put right."""
    text = read('docs/CHECKLIST.md')
    wrong = ['there is no edit ' + edit for edit in re.findall(r'`(crates/\w+/must-fail/\w+)`', text) if not os.path.exists(os.path.join(ROOT, edit + '.edit'))]
    for name, path, number in PLACE.findall(text):
        if line_of(name, path) != int(number):
            wrong.append('%s:%s does not define %s' % (path, number, name))
    return wrong, PLACE.sub(lambda m: '`%s` (`%s:%d`)' % (m.group(1), m.group(2), line_of(m.group(1), m.group(2))), text)


def names(listed):
    return [name for name in re.split(r', | \.\. ', listed.strip()) if re.match(r'[\w-]+$', name)]


def source(crate):
    return next((path for path in ('crates/%s/src/lib.rt' % crate, 'crates/%s/src/main.rt' % crate) if os.path.exists(os.path.join(ROOT, path))), None)


def sentences():
    """The definitions and functions that the table of sentences names and that are not there."""
    wrong = []
    for row in re.findall(r'^\|(.*)\|$', read('docs/SENTENCES.md'), re.M):
        cells = row.split('|')
        if len(cells) < 2:
            continue
        for crate, module, listed in re.findall(r'`(\w+)/(\w+)` ([\w, .-]+)', cells[1]):
            path = 'crates/%s/specs/%s.antt' % (crate, module)
            text = read(path) if os.path.exists(os.path.join(ROOT, path)) else ''
            wrong += ['%s has no %s' % (path, name) for name in names(listed) if not re.search(r'(?:\b%s :|(?:record|data) %s\b)' % (name, name), text)]
        for crate, listed in re.findall(r'(?:^|; )(\w+): ([\w, .]+)', cells[-1].strip()):
            text = read(source(crate)) if source(crate) else ''
            wrong += ['crate %s has no %s' % (crate, name) for name in names(listed) if not re.search(r'\b(?:fn|struct) %s\b' % name, text)]
    return wrong


def main():
    wrong, right = checklist()
    if sys.argv[1:] == ['fix']:
        with open(os.path.join(ROOT, 'docs/CHECKLIST.md'), 'w') as file:
            file.write(right)
        wrong, right = checklist()
    wrong += sentences()
    print('docs: %d places in the checklist; what is wrong in it and among the sentences: %d' % (len(PLACE.findall(right)), len(wrong)))
    for what in wrong:
        print('  ' + what)
    sys.exit(1 if wrong else 0)


main()
