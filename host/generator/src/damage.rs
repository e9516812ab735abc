//! Books that break a rule: by a command, or by bytes that nobody meant.

use crate::book::*;
use crate::random::Random;

pub const MOST_COMMANDS: usize = 32_768;
pub const MOST_TEXT: usize = 65_535;

/// The book of the commands, in one of five cases with something wrong in it.
pub fn written(random: &mut Random, commands: Vec<Command>, layout: Layout) -> Bytes {
    match random.below(100) {
        0..=79 => Bytes::write(&commands, layout),
        80..=91 => Bytes::write(&broken(random, commands), layout),
        _ => {
            let mut book = Bytes::write(&commands, layout);
            for _ in 0..*random.pick(&[1, 1, 1, 2, 4]) {
                damage(random, &mut book);
            }
            book
        }
    }
}

/// One rule of the book broken, by commands.
fn broken(random: &mut Random, mut commands: Vec<Command>) -> Vec<Command> {
    let at = random.below(commands.len());
    match random.below(16) {
        0 if !commands.is_empty() => drop(commands.remove(at)),
        1 if !commands.is_empty() => commands.insert(at, commands[at].clone()),
        2 => commands.insert(at, stray(random)),
        3 if !commands.is_empty() => {
            let other = random.below(commands.len());
            commands.swap(at, other);
        }
        4 => commands.truncate(at),
        5..=7 => add_one_too_many(random, &mut commands),
        8 => {
            for number in 0..*random.pick(&[56, 64, 66]) {
                commands.push(Command::with(BEGIN, format!("/many/{number}")));
                commands.push(Command::lone(END));
            }
        }
        9..=10 => commands.extend(clashing(random, &commands)),
        _ => break_string(random, &mut commands),
    }
    commands
}

/// A command that may not stand where it is put.
fn stray(random: &mut Random) -> Command {
    let code = random.between(1, 0x14) as u8;
    match (code, operands(code)) {
        (FLAG, _) => Command::flag(random.below(13) as u8, random.below(3) as u8),
        (TEXT, _) => Command::text(random.below(9) as u8, "t"),
        (BEGIN, _) => Command::with(BEGIN, "/z/y"),
        (_, Some((_, true))) => Command::with(code, random.word(&["a", "k", "./x", ""])),
        _ => Command::lone(code),
    }
}

/// In some record: as many of a kind as there may be, and one more or not.
fn add_one_too_many(random: &mut Random, commands: &mut Vec<Command>) {
    let ends: Vec<usize> = (0..commands.len()).filter(|at| commands[*at].code == END).collect();
    let Some(end) = (!ends.is_empty()).then(|| *random.pick(&ends)) else { return };
    let begin = commands[..end].iter().rposition(|command| command.code == BEGIN).unwrap_or(0);
    let (list, item, most) = *random.pick(&[
        (0, EXTENDS, 8),
        (0, REFERENCE, 16),
        (FILES, FILE, 64),
        (INCLUDE, INCLUDED, 64),
        (EXCLUDE, EXCLUDED, 64),
        (ROOT_DIRS, ROOT_DIR, 8),
        (PATHS, KEY, 32),
        (PATHS, TARGET, 8),
    ]);
    let here = &commands[begin..end];
    let mut added = vec![];
    if list != 0 && here.iter().all(|command| command.code != list) {
        added.push(Command::lone(list));
    }
    let there = here.iter().filter(|command| command.code == item).count();
    let there = if item == TARGET { 0 } else { there };
    if item == TARGET {
        added.push(Command::with(KEY, "the last key"));
    }
    for number in there..most + random.below(2) {
        let string = if item == KEY { format!("key {number}") } else { "./x".to_string() };
        added.push(Command::with(item, string));
    }
    commands.splice(end..end, added);
}

/// A record whose path was given before, or lies above or below one that was.
fn clashing(random: &mut Random, commands: &[Command]) -> Vec<Command> {
    let paths: Vec<&Command> = commands.iter().filter(|command| command.code == BEGIN).collect();
    if paths.is_empty() {
        return vec![Command::lone(END)];
    }
    let path = random.pick(&paths).string.clone().unwrap();
    let folder = path[..path.iter().rposition(|byte| *byte == b'/').unwrap_or(0)].to_vec();
    let new = match random.below(4) {
        0 => path,
        1 => [&path[..], b"/x"].concat(),
        2 if !folder.is_empty() => folder,
        _ => [&path[..], b"x"].concat(),
    };
    vec![Command::with(BEGIN, new), Command::lone(END)]
}

/// Strings that some rule refuses and another accepts.
const STRINGS: &[&[u8]] = &[
    b"a\\b", b"a\x7f", b"\x1f", b"\xc3\xa9", b"/a/", b"//", b"/a/../b", b"/a*", b"/[", b"***", b"a**", b"{a}", b"!x", b"/", b"rel", b"/a?",
    b"/a#", b"", b"\n", b"${configDir}**", b"${configDir}{", b"/a/.", b"/.", b"/a//b", b"**a", b"**/***", b"a]", b"/~/ ", b"\x80", b"\0",
];

fn break_string(random: &mut Random, commands: &mut [Command]) {
    let places: Vec<usize> = (0..commands.len()).filter(|at| commands[*at].string.is_some()).collect();
    if places.is_empty() {
        return;
    }
    let at = *random.pick(&places);
    let lead = if random.chance(50) { b'/' } else { b'x' };
    commands[at].string = Some(match random.below(4) {
        0 => [&[lead], &vec![b'y'; *random.pick(&[510, 511, 512, 600])][..]].concat(),
        _ => random.pick(STRINGS).to_vec(),
    });
}

/// Bytes changed, cut off or added.
fn damage(random: &mut Random, book: &mut Bytes) {
    let Bytes { commands, text } = book;
    let at = random.below(commands.len());
    match random.below(12) {
        0 if !commands.is_empty() => commands[at] = random.byte(),
        1 if !commands.is_empty() => commands[at] = random.below(24) as u8,
        2 if !commands.is_empty() => commands[at] ^= 1 << random.below(8),
        3 => commands.truncate(at),
        4 if !commands.is_empty() => drop(commands.remove(at)),
        5 => commands.insert(at, random.below(24) as u8),
        6 if !text.is_empty() => {
            let at = random.below(text.len());
            text[at] = *random.pick(&[0, 31, 32, 47, 92, 127, 128, 42, 46, 35, 63]);
        }
        7 => text.truncate(random.below(text.len() + 1)),
        8 => commands.extend((0..random.between(1, 6)).map(|_| random.below(24) as u8)),
        9 if random.chance(20) => commands.resize(MOST_COMMANDS - 1 + random.below(3), END),
        10 if random.chance(20) => text.resize(MOST_TEXT - 1 + random.below(3), b' '),
        _ if !text.is_empty() => drop(text.remove(random.below(text.len()))),
        _ => {}
    }
}

#[cfg(test)]
mod tests {
    use super::*;

    #[test]
    fn one_too_many_ends_at_the_limit_or_one_behind_it() {
        for seed in 0..100 {
            let mut random = Random::new(seed, 0);
            let mut commands = vec![Command::with(BEGIN, "/p"), Command::with(EXTENDS, "./x"), Command::lone(END)];
            add_one_too_many(&mut random, &mut commands);
            for (item, most) in
                [(EXTENDS, 8), (REFERENCE, 16), (FILE, 64), (INCLUDED, 64), (EXCLUDED, 64), (ROOT_DIR, 8), (KEY, 32), (TARGET, 8)]
            {
                let count = commands.iter().filter(|command| command.code == item).count();
                assert!(count <= 1 || count == most || count == most + 1, "{item} {count}");
            }
        }
    }
}
