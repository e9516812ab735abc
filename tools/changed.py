#!/usr/bin/env python3
"""changed.py [--check]: writes docs/DESIGN-PASS-CHANGES.md, the contracts of the commit at which the design pass began beside those of the one at which it ended.

The commits are the first two lines of docs/DESIGN-PASS.md. Listed are, crate by crate in the order of crates.txt: each public function whose signature or clauses changed, each other function whose
clauses changed, types with their ghost fields, public constants, definitions of specs/, and the theorems that a reader was told of; old and new side by side, then what is new. By text alone, as the kit's
contracts.py: what is found again is what has its crate, type and name, or its name and its text elsewhere. What states the promise of what is gone is read from the tables of docs/DESIGN-PASS.md, and what
they do not name is a warning. With --check nothing is written: it ends with 1 where the page on disk is another.
"""
import collections
import io
import re
import subprocess
import sys
import tarfile
from pathlib import Path

ROOT = Path(__file__).resolve().parent.parent
PAGE = 'docs/DESIGN-PASS-CHANGES.md'
TABLES = 'docs/DESIGN-PASS.md'
FILE = re.compile(r'crates/([^/]+)/(src|specs|proofs)/(.*)$')
CLAUSE = re.compile(r'(requires|ensures)\b')

# The files of proofs/ whose public theorems are listed, and the pages that name others; a name counts where it stood so at the beginning of the pass or of the port.
THEOREMS = ['crates/questions/proofs/%s.antt' % name for name in ('Promises', 'Demand3', 'Supplied', 'Numbered', 'Laws', 'Replies')]
NAMED_IN = re.compile(r'README\.md$|docs/[^/]*\.md$')

# What is compared beside theorems, and the heading of the pass's page that has the table of what is gone.
KINDS = [
    ('Functions', 'function', 'Functions that are gone'),
    ('Types', 'type', 'Definitions that are gone'),
    ('Constants', 'constant', 'Definitions that are gone'),
    ('Definitions', 'definition', 'Definitions that are gone'),
]

Item = collections.namedtuple('Item', 'kind crate file place name public shown sign clauses')



# The two trees

def committed(commit):
    """The files of a commit by their paths: sources and pages."""
    packed = subprocess.run(['git', '-C', ROOT, 'archive', commit, 'crates', 'docs', 'README.md'], capture_output=True, check=True).stdout
    with tarfile.open(fileobj=io.BytesIO(packed)) as tree:
        return {m.name: tree.extractfile(m).read().decode() for m in tree if m.isfile() and wanted(m.name)}


def wanted(name):
    return bool(FILE.match(name) and name.endswith(('.rt', '.antt')) or NAMED_IN.match(name))


# Text

def squeeze(text):
    """Text without what its layout adds: line breaks, blanks beside brackets, a comma before one that closes."""
    text = re.sub(r'\s+', ' ', text).strip()
    text = re.sub(r',? ?([)\]}])', r'\1', text)
    return re.sub(r'([(\[{]) ', r'\1', text)


def lined(text):
    """Text as it stands, moved to the left margin."""
    lines = text.strip('\n').rstrip().split('\n')
    margin = min((len(l) - len(l.lstrip()) for l in lines if l.strip()), default=0)
    return '\n'.join(l[margin:].rstrip() for l in lines)


def blank(text):
    """A text of the same length with comments, strings and characters blanked."""
    form = re.compile(r"""//[^\n]*|/\*.*?\*/|\bb?r(#*)".*?"\1|b?"(?:\\.|[^"\\])*"|b?'(?:\\(?:u\{\w+\}|x\w\w|.)|[^'\\\n])'""", re.S)
    return form.sub(lambda m: re.sub(r'[^\n]', ' ', m[0]), text)


def closing(text, at):
    """Behind the bracket that closes the one at this place."""
    pairs, deep = {'(': ')', '[': ']', '{': '}'}, 0
    for k in range(at, len(text)):
        deep += (text[k] == text[at]) - (text[k] == pairs[text[at]])
        if not deep:
            return k + 1
    return len(text)


# Sources

def head(text, raw, at):
    """From behind a function's name: where its signature ends, where its clauses end, and the clauses, each a kind, a name and a text."""
    clauses, sign_end, angle = [], None, 0
    while at < len(text) and not (text[at] == ';' or text[at] == '{' and not angle):
        found = CLAUSE.match(text, at)
        if text[at] in '([{':
            at = closing(text, at)
        elif found and not re.match(r'\w', text[at - 1]):
            sign_end = sign_end or at
            opened = text.find('{', at)
            clauses.append((found[1], squeeze(raw[found.end():opened]), squeeze(raw[opened + 1:closing(text, opened) - 1])))
            at = closing(text, opened)
        else:
            angle += (text[at] == '<') - (text[at] == '>' and text[at - 1] != '-')
            at += len(re.match(r'\w+|.', text[at:], re.S)[0])
    return sign_end or at, at, clauses


def ended(text, at):
    """Behind the semicolon that ends an item."""
    while at < len(text) and text[at] != ';':
        at = closing(text, at) if text[at] in '([{' else at + 1
    return at + 1


def line_start(text, at):
    return text.rfind('\n', 0, at) + 1


def function(crate, file, place, raw, text, at):
    name = re.compile(r'\s+(\w+)').match(text, at + 2)
    sign_end, end, clauses = head(text, raw, name.end())
    start = line_start(raw, at)
    public = bool(re.match(r'\s*pub\b', raw[start:at])) and not file.endswith('main.rt')
    return Item('function', crate, file, place, name[1], public, lined(raw[start:end]), squeeze(raw[start:sign_end]), clauses)


def body(text, at):
    """Where the block or the semicolon behind an item's head is."""
    while at < len(text) and text[at] not in '{;':
        at = closing(text, at) if text[at] in '([' else at + 1
    return at


def derived(raw, start):
    """Where the attributes above a type begin."""
    while re.match(r'\s*#\[', raw[line_start(raw, start - 1):start]):
        start = line_start(raw, start - 1)
    return start


def type_item(crate, file, raw, text, at, end):
    start = line_start(raw, at)
    shown = lined(raw[derived(raw, start):end])
    name = re.compile(r'\w+\s+(\w+)').match(text, at)[1]
    public = bool(re.match(r'\s*pub\b', raw[start:at])) and not file.endswith('main.rt')
    ghost = re.search(r'\bghost\s+(?!use\b)', text[at:end])
    return [Item('type', crate, file, '', name, public, shown, '', [])] if public or ghost else []


def trait_item(crate, file, raw, text, at, opened):
    """An impl of a trait: its types, its ghost items and the heads of its functions."""
    parts, inner = [], closing(text, opened)
    for m in re.finditer(r'^ *(?:type|ghost (?!use\b)|(?:pub )?fn)\b', text[:inner], re.M):
        if m.start() > opened:
            end = head(text, raw, m.end())[1] if m[0].endswith('fn') else ended(text, m.end())
            parts.append(raw[m.start():end].rstrip())
    name = squeeze(text[at + 4:opened])
    shown = '\n'.join([raw[at:opened + 1]] + parts + ['}'])
    return Item('type', crate, file, '', re.sub(r'^<[^>]*> ?', '', name), not file.endswith('main.rt'), shown, '', [])


def source(crate, file, raw):
    """The functions, types and public constants of a source."""
    text, items, around = blank(raw), [], []
    for m in re.finditer(r'^( *)(?:pub(?:\([^)]*\))? |extern "?\s*"? |unsafe |const )*(fn|impl|trait|mod|struct|enum|type|const)\b', text, re.M):
        at, word = m.start(2), m[2]
        around = [a for a in around if m.start() < a[0]]
        if any(a[1] is None for a in around):
            continue
        place = '::'.join(a[1] for a in around if a[1])
        end = body(text, at)
        if word == 'fn':
            items.append(function(crate, file, place, raw, text, at))
        elif word == 'const':
            name = re.match(r'const\s+(\w+)', text[at:])[1]
            public = 'pub' in m[0] and not file.endswith('main.rt')
            items += [Item('constant', crate, file, place, name, True, lined(raw[m.start():ended(text, at)]), '', [])] if public else []
        elif word == 'impl' and ' for ' in text[at:end]:
            items.append(trait_item(crate, file, raw, text, at, end))
            around.append((closing(text, end), None))
        elif word in ('impl', 'trait', 'mod') and text[end:end + 1] == '{':
            named = re.match(r'(?:<[^>]*>\s*)?(\w+)', text[at + len(word):end].strip())
            around.append((closing(text, end), '' if word == 'mod' else named[1]))
        elif word in ('struct', 'enum', 'type') and not around:
            items += type_item(crate, file, raw, text, at, closing(text, end) if text[end] == '{' else end + 1)
    return items


# Definitions and theorems

START = re.compile(r'( *)((?:(?:abbrev|opaque|unfoldable|pub|instance) )*)(?:(record|data) )?([^\s:(){},.=|]+)((?: [^=]*?)? ?:(?:\s|$)|$)')
WORDS = ('use', 'mod', 'open', 'module', 'where', 'infixl', 'infixr', 'infix', 'prefix', 'let', 'in')


def starts(lines, i):
    """What a line defines, or None: a name with a colon behind it, or a name alone with the colon on the next line."""
    m = START.match(lines[i])
    if not m or m[4] in WORDS or not m[5] and not (m[2] and i + 1 < len(lines) and lines[i + 1].lstrip().startswith(':')):
        return None
    return m


def written(crate, file, raw):
    """What a file of specs/ or proofs/ defines: each with the modules around it, which lend it their parameters, and its text without comments."""
    lines = [re.sub(r'(^|\s+)--(\s.*|$)', '', l) for l in raw.split('\n')]
    items, around, i = [], [], 0
    while i < len(lines):
        depth = len(lines[i]) - len(lines[i].lstrip())
        if lines[i].strip():
            around = [a for a in around if a[0] < depth]
        m = starts(lines, i)
        j = i + 1
        if re.match(r' *module\b', lines[i]):
            while not re.search(r'\bwhere$', lines[j - 1]) and j < len(lines):
                j += 1
            around.append((depth, lined('\n'.join(lines[i:j]))))
        elif m:
            while j < len(lines) and not ends(lines, j, depth):
                j += 1
            items.append(definition(crate, file, m, [a[1] for a in around], lines[i:j], depth))
        i = j
    return items


def ends(lines, j, depth):
    """Whether a definition that stands at this depth ends before the line."""
    inside = len(lines[j]) - len(lines[j].lstrip()) > depth
    return bool(lines[j].strip()) and not inside and bool(starts(lines, j) or re.match(r' *(?:module|use|open|infix\w*|prefix|(?:pub )?(?:use|mod))\b', lines[j]))


def definition(crate, file, m, around, lines, depth):
    """A definition, or a law, of which the statement alone is kept: the lines up to the first that stands as far left."""
    more = next((k for k, l in enumerate(lines) if k and l.strip() and len(l) - len(l.lstrip()) <= depth), len(lines))
    context = ''.join(a + '\n' for a in around if '(' in a or '{' in a)
    law = not m[3] and not re.search('abbrev|unfoldable', m[2])
    return Item('law' if law else 'definition', crate, file, '', m[4], 'pub' in m[2].split(), context + lined('\n'.join(lines[:more] if law else lines)), '', [])


def items_of(tree):
    """All items of a tree: of sources, of specs/ and of proofs/."""
    code, specs, proofs = [], [], []
    for path in sorted(tree):
        m = FILE.match(path)
        if m and m[2] == 'src' and path.endswith('.rt'):
            code += source(m[1], m[3], tree[path])
        elif m and m[2] in ('specs', 'proofs') and path.endswith('.antt'):
            (specs if m[2] == 'specs' else proofs).extend(written(m[1], m[3], tree[path]))
    return code, specs, proofs


# Old beside new

# Words of which one is taken for the other: those of std's Option, and of mathlib's or of an own enum that stood in its place. A definition that differs in them alone is spelt anew.
SPELT = [('Some', 'some', 'At'), ('None', 'none', 'Nothing'), ('option_map', 'Option.map', 'map'), ('unwrap_or', 'get_or'), ('Option ℕ', 'Found')]


def told(item):
    """What an item says, whatever its layout, the names of its clauses, and what is unfolded by name."""
    if item.kind == 'function':
        return item.sign + str(promised(item))
    if item.kind in ('type', 'constant'):
        return squeeze(re.sub(r'("(?:\\.|[^"\\])*")|//[^\n]*', lambda m: m[1] or '', item.shown))
    return re.sub(r'\b(abbrev|unfoldable|opaque) ', '', squeeze(re.sub(r'^ *unfolding .*$', '', item.shown, flags=re.M)))


def respelt(text):
    for now, *then in SPELT:
        text = re.sub(r'(?<![.\w])(%s)(?!\w)' % '|'.join(map(re.escape, then)), now, text)
    return text.replace('(Option ℕ)', 'Option ℕ')


def promised(item):
    """The clauses without their names."""
    return sorted((kind, text) for kind, _, text in item.clauses)


def paired(olds, news):
    """Pairs of old and new, what is gone and what is new: found again at its place, else in its crate, else anywhere with the same text."""
    rules = [
        lambda a, b: (a.crate, a.file, a.place, a.kind) == (b.crate, b.file, b.place, b.kind) and alike(a, b),
        lambda a, b: (a.crate, a.file, a.place, a.kind) == (b.crate, b.file, b.place, b.kind),
        lambda a, b: (a.crate, a.place) == (b.crate, b.place),
        lambda a, b: a.place == b.place and alike(a, b),
        lambda a, b: a.crate == b.crate and alike(a, b),
    ]
    pairs, left = [], list(news)
    for rule in rules:
        by, alone = collections.defaultdict(list), []
        for b in left:
            by[b.name].append(b)
        for a in olds:
            b = next((b for b in by[a.name] if rule(a, b)), None)
            if b is None:
                alone.append(a)
            else:
                by[a.name].remove(b)
                pairs.append((a, b))
        olds, left = alone, [b for b in left if any(b is x for x in by[b.name])]
    return pairs, olds, left


def alike(a, b):
    """Whether one that stands elsewhere is the same: a function with the same contract, another item with the same text."""
    return promised(a) == promised(b) if a.kind == b.kind == 'function' else told(a) == told(b)


# Theorems

def lemmas(proofs):
    """What proofs/ proves, but for the answers to goals, which have the names of the goals."""
    return [p for p in proofs if p.kind == 'law' and not re.search(r'(^|/)(Answers|Invariants|Proof)\.antt$', p.file)]


def named(tree):
    """The names that the pages of a tree have in backticks, as they are spelt today. The port's list of what it renamed names everything."""
    pages = [text.split('\n## Renamed')[0] for path, text in tree.items() if NAMED_IN.match(path)]
    return {name.replace('-', '_') for text in pages for name in re.findall(r'`([^`\s]+)`', text)}


def theorems(specs, proofs, names, others):
    """The laws of specs/ and of THEOREMS, and those of the names that no definition, function or crate has."""
    chosen = [p for p in specs if p.kind == 'law' and p.public]
    for p in lemmas(proofs):
        if 'crates/%s/proofs/%s' % (p.crate, p.file) in THEOREMS and p.public or p.name in names and p.name not in others:
            chosen.append(p)
    return chosen


# The tables of what is gone

def table(heading):
    """The rows below a heading of the pass's page: the crates, the names, and what states it now."""
    text = (ROOT / TABLES).read_text()
    part = text.split('\n## %s\n' % heading)[1].split('\n## ')[0] if '\n## %s\n' % heading in text else ''
    rows = [[cell.strip() for cell in row.split(' | ')] for row in re.findall(r'^\| (.*) \|$', part, re.M)]
    return [(set(re.findall(r'`([^`]*)`', r[0])), set(re.findall(r'`([^`]*)`', r[1])), r[2]) for r in rows if '`' in r[0]]


def full(item):
    return '%s::%s' % (item.place, item.name) if item.place else item.name


def answers(rows, item):
    """What states an item's promise now: the rows of a table that name it."""
    return [row[2] for row in rows if item.crate in row[0] and {item.name, full(item)} & row[1]]


# The page

def fenced(items):
    texts = ['// %s\n%s' % (full(i), i.shown) if i.place else i.shown for i in items]
    return ['```'] + '\n\n'.join(texts).split('\n') + ['```', '']


def words(items):
    return ', '.join('`%s`' % full(i) for i in items)


def label(a, b):
    """The name of what changed, with where it stood and stands."""
    name = '`%s`' % full(a) if full(a) == full(b) else '`%s`, now `%s`' % (full(a), full(b))
    where = a.file if a.file == b.file else '%s, now %s' % (a.file, b.file)
    if a.crate != b.crate:
        where = '%s %s, now %s %s' % (a.crate, a.file, b.crate, b.file)
    return '**%s** (%s%s)' % (name, where, ', private' if a.kind == 'function' and not a.public and not b.public else '')


def side_by_side(pairs):
    return [line for a, b in pairs for line in [label(a, b), '', 'Then:', ''] + fenced([a]) + ['Now:', ''] + fenced([b])]


def lost(gone, rows):
    """What is gone, with what states it now; those that have one answer stand together."""
    by = collections.defaultdict(list)
    for a in gone:
        by[' '.join(answers(rows, a))].append(a)
    return [line for answer, items in by.items() for line in ['Gone: %s. Now: %s.' % (words(items), answer or 'not named'), '', 'Then:', ''] + fenced(items)]


def apart(pairs):
    """The pairs by what differs: nothing, their place, the spelling alone, or what they say."""
    kinds = collections.defaultdict(list)
    for a, b in pairs:
        if told(a) != told(b):
            kinds['spelt' if a.kind in ('definition', 'law') and respelt(told(a)) == respelt(told(b)) else 'changed'].append((a, b))
        else:
            kinds['moved' if (a.crate, a.file, a.place) != (b.crate, b.file, b.place) else 'same'].append((a, b))
    return kinds


def matters(a, b):
    """Whether a pair is listed: of a function that none can call from elsewhere, only the clauses are."""
    return a.kind != 'function' or a.public or b.public or promised(a) != promised(b)


class Kind:
    """All of one kind: the pairs by what differs, what is gone, and what is new; with the table that says what states the gone."""

    def __init__(self, title, olds, news, heading):
        self.title, self.heading, self.rows = title, heading, table(heading)
        pairs, gone, new = paired(olds, news)
        order = {id(a): i for i, a in enumerate(olds)}
        self.pairs = apart(sorted((p for p in pairs if matters(*p)), key=lambda p: order[id(p[0])]))
        self.gone = [a for a in gone if a.public or a.clauses or a.kind != 'function']
        self.new = [b for b in new if b.public or b.clauses or b.kind == 'type']

    def of(self, kind, crate):
        return [p for p in self.pairs[kind] if p[0].crate == crate]

    def lines(self, crate):
        """What the page says of this kind in a crate, but for what is new."""
        lines = []
        for a, b in self.of('moved', crate):
            lines += ['Moved as it was: `%s`, from `%s` %s to `%s` %s.' % (full(a), a.crate, a.file, b.crate, b.file), '']
        if self.of('spelt', crate):
            lines += ['Spelt anew: %s.' % words(a for a, b in self.of('spelt', crate)), '']
        lines += side_by_side(self.of('changed', crate)) + lost([a for a in self.gone if a.crate == crate], self.rows)
        return ['### ' + self.title, ''] + lines if lines else []

    def counts(self):
        sizes = [len(self.pairs[kind]) for kind in ('same', 'moved', 'spelt', 'changed')] + [len(self.gone), len(self.new)]
        return '| %s | %s |' % (self.title.lower(), ' | '.join(map(str, sizes)))

    def unnamed(self):
        """Warnings: what is gone and has no row in its table."""
        return ['"%s" does not name %s of %s%s' % (self.heading, full(a), a.crate, '' if a.public else ' (private)') for a in self.gone if not answers(self.rows, a)]


def fresh(kinds, crate):
    """What is new in a crate, each kind in a block."""
    lines = []
    for kind in kinds:
        items = [b for b in kind.new if b.crate == crate]
        lines += ['%s: %s.' % (kind.title, words(items)), ''] + fenced(items) if items else []
    return ['### New', ''] + lines if lines else []


def crates(kinds):
    listed = [l.split(':')[0].split()[0] for l in (ROOT / 'crates.txt').read_text().split('\n') if l.strip() and not l.startswith('#')]
    return listed + sorted({a.crate for k in kinds for a in k.gone} - set(listed))


HEAD = """# What the design pass changed, old and new

`tools/changed.py` writes this page, and `tools/changed.py --check` says whether it would write the same. Old is commit %s and new is %s, with which docs/DESIGN-PASS.md begins. The crates stand in the order of crates.txt, without those of which nothing is to be told.

- Functions: public ones whose signature or clauses differ, and others whose clauses do; of those that are as they were, the public ones are counted. Types with their ghost fields, impls of traits with their ghost items, public constants. The definitions of specs/.
- Theorems, by their statements: those of specs/, the public ones of %s in `questions/proofs`, and lemmas that README.md or a page of docs/ names in backticks, at the old commit or at that of the port.
- By text. No difference is one of layout, of comments, of the names of clauses, or of what is unfolded by name. A definition or theorem that differs only in words of std's Option and of what stood in its place (%s) is
  spelt anew; those stand at the end. Something is found again by its crate, type and name, else by its name and its text elsewhere.
- What states the promise of what is gone is said in the tables of docs/DESIGN-PASS.md, whose words are repeated here. A definition of a module with parameters has the line of the module above it.

| what | as it was | moved | spelt anew | changed | gone | new |
|---|---|---|---|---|---|---|
"""


def page(first, last, kinds):
    alike_words = '; '.join(', '.join('`%s`' % w for w in group) for group in SPELT)
    lines = (HEAD % (first[:7], last[:7], ', '.join('`%s`' % Path(t).stem for t in THEOREMS), alike_words)).split('\n')[:-1] + [k.counts() for k in kinds] + ['']
    for crate in crates(kinds):
        inside = [line for k in kinds for line in k.lines(crate)] + fresh(kinds, crate)
        lines += ['## `%s`' % crate, ''] + inside if inside else []
    lines += ['## Spelt anew', '']
    for crate in crates(kinds):
        inside = side_by_side([p for k in kinds for p in k.of('spelt', crate)])
        lines += ['### `%s`' % crate, ''] + inside if inside else []
    return '\n'.join(lines)


def compared(first, last):
    """What is compared, kind by kind."""
    then, now, port = committed(first), committed(last), committed((ROOT / 'docs/PORT.md').read_text().split('\n')[0])
    (code, specs, proofs), (new_code, new_specs, new_proofs) = items_of(then), items_of(now)
    others = {x.name for x in code + specs} | {x.crate for x in code + specs}
    laws = theorems(specs, proofs, named(then) | named(port), others)
    kinds = [Kind(title, [x for x in code + specs if x.kind == kind], [x for x in new_code + new_specs if x.kind == kind], heading) for title, kind, heading in KINDS]
    theirs = Kind('Theorems', laws, [x for x in new_specs if x.kind == 'law'] + lemmas(new_proofs), 'Theorems that are gone')
    theirs.new = [b for b in theorems(new_specs, new_proofs, set(), set()) if b in theirs.new]
    return kinds + [theirs]


def main():
    first, last = (ROOT / TABLES).read_text().split('\n')[:2]
    kinds = compared(first, last)
    text = page(first, last, kinds)
    for warning in (w for k in kinds for w in k.unnamed()):
        print(warning, file=sys.stderr)
    if '--check' not in sys.argv:
        (ROOT / PAGE).write_text(text)
    elif not (ROOT / PAGE).exists() or (ROOT / PAGE).read_text() != text:
        sys.exit('%s is not what tools/changed.py writes' % PAGE)
    print('%s: %d lines' % (PAGE, text.count('\n')))


if __name__ == '__main__':
    main()
