#!/usr/bin/env python3
"""Respells the repository's own definitions and lemmas: words in snake case, joined by `_`.

usage: tools/respell.py            at the top of the repository, once, after the kit's port.py

A name that a file imports from a library stays in that file. Strings stay, and so do the names of the TSConfig Reference in comments.

A name is turned where it is declared in specs/ or in a lemma file of proofs/ and is neither a type nor a module: `findLast` to `find_last`, `find-here` to
`find_here`. It turns whole words alone, in .antt files, in the contracts of .rt files and in must-fail edits. In the proof of a function a word right behind a dot is a name that the check makes, so
it is turned only where it is a field. Functions of src/, exported names and strings keep theirs. A name that would fall together with another keeps apart by `_lem`. It prints each name that it turned.
"""

import glob
import re

DECLARED = re.compile(r"^(\s*)(?:(?:pub|abbrev|unfoldable)\s+)*([^\s(){}.;,@\"«»:=]+)\s*:(?:\s|$)")
RECORD = re.compile(r"^(\s*)(?:pub\s+)?record\s+\S+")
WORD = re.compile(r"[^\s(){}.;,@\"«»\[\]]+")
OF_LIBRARY = re.compile(r"\buse\s+(?:Rattle\.(?:std|core|io|os|libc)\b|(?!Rattle\.)\w)[^\s{;]*\{([^}]*)\}")
TEXTS = re.compile(r'"(?:[^"\\\n]|\\.)*"|--[^\n]*')
OF_TYPESCRIPT = {"configDir", "baseUrl", "outDir", "declarationDir", "rootDir", "rootDirs", "allowJs"}
CLAUSE = re.compile(r"^\s*(requires|ensures|ghost)\b")


def lemma_files():
    return sorted(glob.glob("crates/*/specs/**/*.antt", recursive=True) + glob.glob("crates/*/proofs/*.antt") + glob.glob("crates/*/proofs/[A-Z]*/*.antt"))


def proof_files():
    return sorted(set(glob.glob("crates/*/proofs/**/*.antt", recursive=True)) - set(lemma_files()))


def read(path):
    with open(path, encoding="utf-8") as f:
        return f.read()


def snake(name):
    parts = [re.sub(r"(?<=[a-z0-9])([A-Z])", lambda m: "_" + m.group(1).lower(), p) if p[:1].islower() else p for p in name.split("-")]
    return "_".join(parts)


def declared():
    """The names that the repository declares, and which of them are fields of records."""
    names, fields = {}, set()
    for path in lemma_files():
        within = None
        for line in read(path).split("\n"):
            if line.lstrip().startswith("--") or not line.strip():
                continue
            depth = len(line) - len(line.lstrip())
            if within is not None and depth <= within:
                within = None
            opened = RECORD.match(line)
            if opened:
                within = len(opened.group(1))
                continue
            it = DECLARED.match(line)
            if it:
                names.setdefault(it.group(2), set()).add(path)
                if within is not None:
                    fields.add(it.group(2))
    return names, fields


def table(names):
    turned = {}
    taken = set(names)
    for name in sorted(names, key=lambda it: ("-" in it, it)):
        if not name[:1].islower() or not re.fullmatch(r"[a-z][A-Za-z0-9_'₀-₉-]*", name):
            continue
        new = snake(name)
        if new == name:
            continue
        if new in names and "-" not in name:
            turned[new] = new + "_lem"
            taken.add(turned[new])
        while new in taken and new not in turned:
            new += "_lem"
        taken.add(new)
        turned[name] = new
    return turned


def turn(text, turned, behind_a_dot=None):
    stays = set(re.findall(r"[^\s,]+", " ".join(OF_LIBRARY.findall(text))))

    def one(m):
        word = m.group(0)
        if word not in turned or word in stays:
            return word
        whole, start = m.string, m.start()
        if behind_a_dot is not None and start and whole[start - 1] == "." and word not in behind_a_dot:
            return word
        return turned[word]

    out, at = [], 0
    for it in TEXTS.finditer(text):
        out.append(WORD.sub(one, text[at : it.start()]))
        said = it.group(0)
        out.append(said if said.startswith('"') else WORD.sub(lambda m: m.group(0) if m.group(0) in OF_TYPESCRIPT else one(m), said))
        at = it.end()
    out.append(WORD.sub(one, text[at:]))
    return "".join(out)


def turn_rust(text, turned):
    """The clauses and the `ghost use` lines alone."""
    out, ghost = [], False
    stays = set(re.findall(r"[^\s,]+", " ".join(OF_LIBRARY.findall(text))))
    turned = {name: new for name, new in turned.items() if name not in stays}
    for line in text.split("\n"):
        ghost = ghost or bool(re.match(r"\s*ghost\s+use\b", line))
        out.append(turn(line, turned) if ghost or CLAUSE.match(line) else line)
        if ghost and ";" in line:
            ghost = False
    return "\n".join(out)


def main():
    names, fields = declared()
    turned = table(names)
    for path in lemma_files():
        text = read(path)
        words = set(WORD.findall(text))
        for name in sorted(words & set(turned)):
            if turned[name] in words:
                print(f"look: {path}: {turned[name]} stood there before {name} was turned")
    changes = [(p, lambda t: turn(t, turned)) for p in lemma_files()]
    changes += [(p, lambda t: turn(t, turned, fields)) for p in proof_files()]
    changes += [(p, lambda t: turn_rust(t, turned)) for p in sorted(glob.glob("crates/*/src/*.rt"))]
    for path in sorted(glob.glob("crates/*/must-fail/*.edit")):
        of_rust = any(line.startswith("file: src/") for line in read(path).split("\n"))
        changes.append((path, (lambda t: t) if of_rust else (lambda t: turn(t, turned))))
    for path, change in changes:
        text = read(path)
        new = change(text)
        if new != text:
            with open(path, "w", encoding="utf-8") as f:
                f.write(new)
    for name, new in sorted(turned.items()):
        print(f"{name}\t{new}")


if __name__ == "__main__":
    main()
