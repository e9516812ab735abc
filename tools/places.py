#!/usr/bin/env python3
"""places.py [COMMIT]: counts the places of the design pass in the sources, as docs/DESIGN-PASS.md lists them.

Without a commit the files of this checkout are read. Each line is a point, what is counted, and how many there are; with -v each place is
printed below its line. A place is a line of a `.rt` file of crates/*/src (of proofs/ for point 8).
"""
import re
import subprocess
import sys
from pathlib import Path

ROOT = Path(__file__).resolve().parent.parent


def sources(commit, kind):
    """Pairs of a path and its text: kind is 'src' (.rt) or 'proofs' (.antt)."""
    ending = '.rt' if kind == 'src' else '.antt'
    wanted = re.compile(r'crates/[^/]+/' + kind + r'/.*' + re.escape(ending) + '$')
    if commit:
        names = subprocess.run(['git', '-C', ROOT, 'ls-tree', '-r', '--name-only', commit], capture_output=True, text=True, check=True).stdout.split('\n')
        for name in sorted(n for n in names if wanted.match(n)):
            yield name, subprocess.run(['git', '-C', ROOT, 'show', f'{commit}:{name}'], capture_output=True, text=True, check=True).stdout
    else:
        for path in sorted(ROOT.glob(f'crates/*/{kind}/**/*{ending}')):
            yield str(path.relative_to(ROOT)), path.read_text()


# What is counted: the point, the words of the page, and the pattern of a line.
LINES = [
    (1, 'enums of the code', r'^(pub )?enum \w+'),
    (1, 'a flag handed back or handed on beside what it speaks of', r'\b(matched: &mut bool|fill: bool|tried: bool|tame: bool|apart: bool|paths: bool)'),
    (1, 'constants that are codes: a number that stands for a kind, for none or for a refusal', r'^(pub )?const (\w*SLOTS?|ALLOW_JS_ID|BASE|\w*PLACE|ABSENT|MISSING|BARE|EMPTY|NOBODY|NONE|BUILD|CANDIDATES|OWNER|GROUP|BOOK|COMMANDS|TEXT|VERDICT|BAD_COMMAND|BAD_TEXT|OWN|FLAGS|TEXTS|SHORT: u64|FILES|INCLUDE|EXCLUDE|ALLOW_JS|BASE_URL_PLACE|BEGIN|FILE|INCLUDE_ITEM|EXCLUDE_ITEM|EXTENDS|BASE_URL|PATHS|KEY|TARGET|REFERENCE|ROOT_DIRS|ROOT_DIR|OUT_DIR|DECLARATION_DIR|FLAG|TEXT_OPTION|END)\b.*= *(0x|[0-9]|[A-Z])'),
    (1, 'refusals by their number', r'\b(refuse\([0-9]|Refused\((u32|[0-9]|k|a|x|f)|No\((u32|[0-9]|k|number))|-> u32\b'),
    (2, 'functions that have the same once more over a buffer of another length (`.._in`)', r'^\s*(pub )?fn \w+_in\('),
    (2, 'functions that stand in several crates: wide, byte_at, word_at, more, same', r'^\s*(pub )?fn (wide|byte_at|word_at|long_at|more|same|write_number|put_flags|put_texts|put_flag|put_text_option|is_some_matched|is_named_file)\('),
    (3, 'loops', r'^\s*(while|loop)\b'),
    (3, 'loops that count an index or a place by hand', r'(^\s*|=> )(i|j|k|id|at|to|n|x|y|left|count) (\+|-)= '),
    (4, 'fields given by a name of their own (`op: op`)', r'^\s*(\w+): \1,'),
    (4, 'variants told apart by an arm each', r'^\s*\w+::\w+(\(_(, _)*\))? => (true|false)'),
    (4, 'a byte made an index by an own function', r'\bwide\('),
    (5, 'functions that take commands and text apart', r'\bcommands: &(\'a )?(mut )?\[u8\],? ?(text|$)'),
    (5, 'functions that take the index by its parts', r'\bbegins: &\[usize\]'),
    (5, 'clauses with the records\' soundness', r'(requires|ensures).*\bAll \(Good'),
    (5, 'clauses with the records of the book', r'requires.*\bRecords commands\.now'),
    (6, 'output with a place beside it', r'\bout: &mut \[u8\], at: usize|^\s*at: usize,$'),
    (6, 'parallel tables', r'\b(starts|lens|marks|ks|kl|km): &(mut )?\[(usize|u8)'),
    (6, 'a buffer handed back by its length', r'ensures.*\bHolds result (out|u|buf)'),
    (7, 'a truth value that says which step to run', r'\b(tried|fill|paths|tame|apart): bool'),
]


def main():
    verbose = '-v' in sys.argv
    rest = [a for a in sys.argv[1:] if a != '-v']
    commit = rest[0] if rest else None
    texts = list(sources(commit, 'src'))
    for point, words, pattern in LINES:
        found = [f'{name}:{number}: {line.strip()}' for name, text in texts for number, line in enumerate(text.split('\n'), 1) if re.search(pattern, line)]
        print(f'{point}\t{len(found)}\t{words}')
        if verbose:
            for place in found:
                print('\t\t' + place)
    proofs = list(sources(commit, 'proofs'))
    answers = [t for n, t in proofs if n.endswith('/Answers.antt')]
    print(f'8\t{len(answers)}\tfiles of answers')
    print(f'8\t{sum(len(re.findall(r"^pub .* : goal", t, re.M)) for t in answers)}\tanswers')
    print(f'8\t{sum(t.count(chr(10)) for n, t in proofs)}\tlines of proofs')


main()
