#!/usr/bin/env python3
"""wrong.py: whether the list of books sees a wrong checker. Each wrong version of the independent checker is put in its place, and the list
is filled in anew: it must come out different. Not part of the gate; two minutes."""
import os
import shutil
import subprocess
import sys
import tempfile

HERE = os.path.dirname(os.path.abspath(__file__))
RIGHT = open(os.path.join(HERE, '..', 'judge', 'src', 'book.rs')).read()
VERSIONS = [('', '')]


def wrong(old, new):
    assert old in RIGHT, old
    VERSIONS.append((old, new))


for k,v in (('LONGEST_STRING',512),('RECORDS',64),('EXTENDS',8),('REFERENCES',16),('ITEMS',64),('KEYS',32),('TARGETS',8),('ROOT_DIRS',8)):
    for d in (-1,1): wrong(f'const {k}: usize = {v};',f'const {k}: usize = {v+d};')
for k,v,t in (('MOST_COMMANDS','32_768',32768),('MOST_TEXT','65_535',65535)):
    for d in (-1,1): wrong(f'const {k}: usize = {v};',f'const {k}: usize = {t+d};')
wrong('(0x20..=0x7e)','(0x20..=0x7f)'); wrong('(0x20..=0x7e)','(0x1f..=0x7e)'); wrong('(0x20..=0x7e)','(0x21..=0x7e)'); wrong('(0x20..=0x7e)','(0x20..=0x7d)'); wrong("&& *byte != b'\\\\'","")
wrong('b"" | b"." | b".."','b"" | b"."'); wrong('b"" | b"." | b".."','b"" | b".."'); wrong('b"" | b"." | b".."','b"." | b".."')
for ch in '*?{}[]!#': wrong('b"*?{}[]!#"','b"'+'*?{}[]!#'.replace(ch,'')+'"')
for ch in '{}[]!': wrong('b"{}[]!"','b"'+'{}[]!'.replace(ch,'')+'"')
wrong(' && text != b"/"',''); wrong('!text.starts_with(b"/") || normal(text)','true'); wrong('text.strip_prefix(b"${configDir}").unwrap_or(text)','text')
wrong('piece == b"**" || ',''); wrong('!piece.windows(2).any(|two| two == b"**")','true'); wrong('0x05 | 0x07 => pattern','0x05 => pattern'); wrong('0x05 | 0x07 => pattern','0x07 => pattern'); wrong('0x08 | 0x0d => named','0x08 => named'); wrong('0x08 | 0x0d => named','0x0d => named')
for x in ('0x02 => record.files.is_none()','0x04 => record.include.is_none()','0x06 => record.exclude.is_none()','0x09 => record.base_url.is_none()','0x0a => record.paths.is_none()','0x0e => record.root_dirs.is_none()','0x10 => record.out_dir.is_none()','0x11 => record.declaration_dir.is_none()'): wrong(x,x.split('=>')[0]+'=> true')
wrong('0x0c => in_key','0x0c => record.paths.as_ref().is_some_and(|p| !p.is_empty())'); wrong('given[1] <= 1','given[1] <= 2'); wrong('matches!(command, 0x0b | 0x0c)','matches!(command, 0x0b)')
wrong('.get(usize::from(given[0]))\n                            .is_some_and(Option::is_none)','.get(usize::from(given[0]))\n                            .is_some()'); wrong('.get(usize::from(given[0]))\n                    .is_some_and(Option::is_none)','.get(usize::from(given[0]))\n                    .is_some()')
wrong(' || above(&other.path, &string)',''); wrong(' || above(&string, &other.path)',''); wrong('other.path == string || ',''); wrong("rest.starts_with('/')","true")
wrong('.any(|(key, _)| *key == string)','.any(|(key, _)| *key == string && false)'); wrong('return refused(2, commands.len());','return refused(2, at.saturating_sub(1));'); wrong('if open.is_some() {','if open.is_some() && false {')
wrong('Some(_) => true,\n        };\n        if !new','Some(_) => true,\n        };\n        if !new && command == 1')
wrong('(None, _) | (Some(_), 0x01) => false','(None, _) => false,\n            (Some(_), 0x01) => true')

with tempfile.TemporaryDirectory() as scratch:
    os.makedirs(scratch + '/judge/src')
    shutil.copytree(os.path.join(HERE, 'src'), scratch + '/edges/src')
    subprocess.run([sys.executable, '-B', os.path.join(HERE, 'books.py'), scratch + '/list.bin', '200', 'edges'], check=True)
    listed = open(os.path.join(HERE, '..', '..', 'crates', 'edges', 'data', 'books.bin'), 'rb').read()
    missed = 0
    for old, new in VERSIONS:
        with open(scratch + '/judge/src/book.rs', 'w') as file:
            file.write(RIGHT.replace(old, new, 1))
        subprocess.run(['rustc', '--edition', '2021', '-O', '-A', 'warnings', 'edges/src/main.rs', '-o', 'verdicts'], cwd=scratch, check=True)
        ran = subprocess.run(['./verdicts', 'list.bin', 'out.bin', 'out.txt'], cwd=scratch, capture_output=True)
        same = ran.returncode in (0, 1) and open(scratch + '/out.bin', 'rb').read() == listed
        if old == new:
            assert same, 'the list is not the one that stands in the crate'
        elif same:
            missed += 1
            print('not seen:', old, '->', new)
    print(len(VERSIONS) - 1, 'wrong checkers,', missed, 'not seen')
