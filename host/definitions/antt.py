"""The definitions of the crates' specs, read just far enough to know which of them an answer is computed with.

An `unfoldable` definition stays shut in a theorem unless the theorem's `unfolding` line names it. So each theorem by
computation must name all that lie on the way. They are found here by following names from the definitions that the
theorem states something of; a name that is shut and not on the way does no harm.
"""
import os
import re

SIGNATURE = re.compile(r'^(\s*)((?:unfoldable |abbrev |pub )*)([^\s(){}]+(?: [^\s(){}:]+)*) :(?: |$)')
USE = re.compile(r'^\s*(?:pub )?use (\S+?)\.\{(.*)\}\s*$')
USE_AS = re.compile(r'^\s*(?:pub )?use (\S+) as (\S+)\s*$')
OWN = re.compile(r'^Rattle\.(\w+)\.specs\.(\w+)$')
SPLIT = re.compile(r'[\s(){};,\[\]]+')


def module_of(path):
    """(crate, file) of a module of the repository's specs, or nothing."""
    match = OWN.match(path)
    return (match.group(1), match.group(2)) if match else None


class File:
    """One file: what it uses and what it defines."""

    def __init__(self, lines):
        self.names = {}         # name here -> (module, name there)
        self.modules = {}       # module's name here -> module
        self.items = {}         # name -> (unfoldable, words of signature and clauses)
        self.order = []         # the unfoldable names, as they stand
        item = None
        for line in lines:
            text = line.split(' -- ')[0] if not line.lstrip().startswith('--') else ''
            use, named = USE.match(text), USE_AS.match(text)
            if use:
                module = module_of(use.group(1))
                for entry in use.group(2).split(','):
                    there, _, here = entry.strip().partition(' as ')
                    self.names[here or there] = (module, there) if module else None
                continue
            if named:
                module = module_of(named.group(1))
                if module:
                    self.modules[named.group(2)] = module
                continue
            signature = SIGNATURE.match(text)
            if signature and not text.lstrip().startswith(('use ', 'record', 'data')):
                item = []
                for name in signature.group(3).split(' '):
                    self.items[name] = ('unfoldable' in signature.group(2), item)
                    if 'unfoldable' in signature.group(2):
                        self.order.append(name)
            if item is not None and not text.startswith('unfolding'):
                item += [word for word in SPLIT.split(text) if word]


def specs(crates):
    """Every file of definitions, by (crate, file)."""
    out = {}
    for crate in sorted(os.listdir(crates)):
        folder = os.path.join(crates, crate, 'specs')
        if os.path.isdir(folder):
            for name in sorted(os.listdir(folder)):
                if name.endswith('.antt') and name != 'Lib.antt':
                    out[(crate, name[:-5])] = File(open(os.path.join(folder, name), encoding='utf-8'))
    return out


def ways(file, key):
    """The names that a definition mentions: (module or nothing for the file itself, name)."""
    words = set(file.items[key][1])
    for word in sorted(words):
        head, _, tail = word.partition('.')
        if tail and head in file.modules:
            yield file.modules[head], tail
    for name in sorted(set(file.items) | set(file.names)):
        bare = name.strip('◌')
        if name in words or bare in words or (bare == '>>=' and 'do' in words):
            if name in file.items:
                yield None, name
            elif file.names[name]:
                yield file.names[name]


def reached(files, roots):
    """The unfoldable definitions on the way from the roots, each (module, name), in the order of the crates' files."""
    seen, todo = set(), list(roots)
    while todo:
        module, name = todo.pop()
        if (module, name) in seen or module not in files or name not in files[module].items:
            continue
        seen.add((module, name))
        for there, other in ways(files[module], name):
            todo.append((there or module, other))
    return [(module, name) for module in files for name in files[module].order if (module, name) in seen]


def roots(files, file):
    """What a file uses of the definitions."""
    return [entry for entry in file.names.values() if entry and entry[0] in files]


def unfolded(names, taken):
    """Use lines and the words of an unfolding line for a file in which `taken` names have a meaning."""
    uses, words = {}, []
    for module, name in names:
        word = name
        if word in taken:
            word = name + '_in_' + module[1].lower()
        taken = taken | {word}
        uses.setdefault(module, []).append(name if word == name else '%s as %s' % (name, word))
        words.append(word)
    lines = []
    for (owner, file), entries in uses.items():
        lines.append('use Rattle.%s.specs.%s.{%s}' % (owner, file, ', '.join(entries)))
    return lines, words
