#!/usr/bin/env python3
"""Holds another program against the judge's answers.

    compare.py PROGRAM FOLDER..     (or - for folder names line by line on standard input)

PROGRAM is run in each folder as document 01 says (book.cmd and book.txt there, question lines on standard input) and its
output compared with the file `answers` that `judge --many` wrote. Where they differ, the first question answered otherwise
is looked for by asking one at a time. The judge is the variable JUDGE, or the release build.
"""
import os
import subprocess
import sys


def ask(program, folder, questions):
    return subprocess.run([program], input=questions, cwd=folder, stdout=subprocess.PIPE).stdout


def main():
    if len(sys.argv) < 3:
        sys.exit(__doc__)
    program = os.path.abspath(sys.argv[1])
    here = os.path.dirname(os.path.abspath(__file__))
    judge = os.path.abspath(os.environ.get('JUDGE', os.path.join(here, '..', 'target', 'release', 'judge')))
    folders = [line.rstrip('\n') for line in sys.stdin] if sys.argv[2] == '-' else sys.argv[2:]
    asked = otherwise = 0
    for folder in folders:
        questions = open(os.path.join(folder, 'questions'), 'rb').read()
        answers = open(os.path.join(folder, 'answers'), 'rb').read()
        asked += questions.count(b'\n')
        if ask(program, folder, questions) == answers:
            continue
        otherwise += 1
        for line in [q + b'\n' for q in questions.split(b'\n')[:-1]]:
            theirs, ours = ask(program, folder, line), ask(judge, folder, line)
            if theirs != ours:
                print('%s: %r\n  judge   %r\n  program %r' % (folder, line.decode('latin-1'), ours.decode('latin-1'), theirs.decode('latin-1')))
                break
        else:
            print('%s: only the whole output differs' % folder)
    print('%d books, %d questions, %d books answered otherwise' % (len(folders), asked, otherwise))
    sys.exit(1 if otherwise else 0)


if __name__ == '__main__':
    main()
