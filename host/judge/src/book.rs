//! The book: a plain checker and reader, written from document 01 ("The book", "Where each refusal
//! is checked"). It shares nothing with the port and nothing with the crate.

/// A refusal: its number in 01's table and its place.
#[derive(Clone, Copy, Debug, PartialEq, Eq)]
pub struct Refusal {
    pub number: u8,
    pub place: usize,
}

pub fn refused<T>(number: u8, place: usize) -> Result<T, Refusal> {
    Err(Refusal { number, place })
}

/// One record as its commands say it: a field is `Some` where its command stands.
#[derive(Clone, Debug, Default, PartialEq, Eq)]
pub struct Record {
    pub path: String,
    pub files: Option<Vec<String>>,
    pub include: Option<Vec<String>>,
    pub exclude: Option<Vec<String>>,
    pub extends: Vec<String>,
    pub base_url: Option<String>,
    pub paths: Option<Vec<(String, Vec<String>)>>,
    pub references: Vec<String>,
    pub root_dirs: Option<Vec<String>>,
    pub out_dir: Option<String>,
    pub declaration_dir: Option<String>,
    pub flags: [Option<bool>; 11],
    pub texts: [Option<String>; 7],
}

const MOST_COMMANDS: usize = 32_768;
const MOST_TEXT: usize = 65_535;
const LONGEST_STRING: usize = 512;
const RECORDS: usize = 64;
const EXTENDS: usize = 8;
const REFERENCES: usize = 16;
const ITEMS: usize = 64;
const KEYS: usize = 32;
const TARGETS: usize = 8;
const ROOT_DIRS: usize = 8;

/// The string rule: at most 512 bytes, each 20 to 7E, no backslash.
pub fn plain(text: &[u8]) -> bool {
    text.len() <= LONGEST_STRING
        && text
            .iter()
            .all(|byte| (0x20..=0x7e).contains(byte) && *byte != b'\\')
}

/// A normal path starts with `/`, has no empty, `.` or `..` component and no final `/`; or it is `/`.
pub fn normal(text: &[u8]) -> bool {
    if text == b"/" {
        return true;
    }
    let Some(rest) = text.strip_prefix(b"/") else {
        return false;
    };
    rest.split(|byte| *byte == b'/')
        .all(|piece| !matches!(piece, b"" | b"." | b".."))
}

fn record_path(text: &[u8]) -> bool {
    normal(text) && text != b"/" && !text.iter().any(|byte| b"*?{}[]!#".contains(byte))
}

fn named_config(text: &[u8]) -> bool {
    !text.starts_with(b"/") || normal(text)
}

fn pattern(text: &[u8]) -> bool {
    let text = text.strip_prefix(b"${configDir}").unwrap_or(text);
    !text.iter().any(|byte| b"{}[]!".contains(byte))
        && text
            .split(|byte| *byte == b'/')
            .all(|piece| piece == b"**" || !piece.windows(2).any(|two| two == b"**"))
}

/// How many bytes of operands a command has.
fn operands(command: u8) -> Option<usize> {
    Some(match command {
        0x02 | 0x04 | 0x06 | 0x0a | 0x0e | 0x14 => 0,
        0x01 | 0x03 | 0x05 | 0x07 | 0x08 | 0x09 | 0x0b | 0x0c | 0x0d | 0x0f | 0x10 | 0x11 => 4,
        0x12 => 2,
        0x13 => 5,
        _ => return None,
    })
}

fn above(ancestor: &str, path: &str) -> bool {
    path.strip_prefix(ancestor)
        .is_some_and(|rest| rest.starts_with('/'))
}

/// Reads a book whole, or gives the first refusal by 01's order.
pub fn read(commands: &[u8], text: &[u8]) -> Result<Vec<Record>, Refusal> {
    if commands.len() > MOST_COMMANDS || text.len() > MOST_TEXT {
        return refused(1, 0);
    }
    let mut records: Vec<Record> = vec![];
    let mut open: Option<Record> = None;
    // Was the command before this one a key or a target?
    let mut in_key = false;
    let mut at = 0;
    while at < commands.len() {
        let command = commands[at];
        let Some(width) = operands(command) else {
            return refused(2, at);
        };
        let Some(given) = commands.get(at + 1..at + 1 + width) else {
            return refused(2, at);
        };

        // 3: order, repetition, ids and values
        let fits = match (&open, command) {
            (None, 0x01) => true,
            (None, _) | (Some(_), 0x01) => false,
            (Some(record), _) => match command {
                0x02 => record.files.is_none(),
                0x03 => record.files.is_some(),
                0x04 => record.include.is_none(),
                0x05 => record.include.is_some(),
                0x06 => record.exclude.is_none(),
                0x07 => record.exclude.is_some(),
                0x09 => record.base_url.is_none(),
                0x0a => record.paths.is_none(),
                0x0b => record.paths.is_some(),
                0x0c => in_key,
                0x0e => record.root_dirs.is_none(),
                0x0f => record.root_dirs.is_some(),
                0x10 => record.out_dir.is_none(),
                0x11 => record.declaration_dir.is_none(),
                0x12 => {
                    given[1] <= 1
                        && record
                            .flags
                            .get(usize::from(given[0]))
                            .is_some_and(Option::is_none)
                }
                0x13 => record
                    .texts
                    .get(usize::from(given[0]))
                    .is_some_and(Option::is_none),
                _ => true, // extends, reference, END
            },
        };
        if !fits {
            return refused(3, at);
        }

        // 4: the string, if there is one
        let string = match width {
            4 => Some(&given[..4]),
            5 => Some(&given[1..5]),
            _ => None,
        };
        let string = match string {
            None => String::new(),
            Some(span) => {
                let start = usize::from(u16::from_le_bytes([span[0], span[1]]));
                let length = usize::from(u16::from_le_bytes([span[2], span[3]]));
                let Some(bytes) = text.get(start..start + length) else {
                    return refused(4, at);
                };
                let ruled = match command {
                    0x01 => record_path(bytes),
                    0x05 | 0x07 => pattern(bytes),
                    0x08 | 0x0d => named_config(bytes),
                    _ => true,
                };
                if !plain(bytes) || !ruled {
                    return refused(4, at);
                }
                String::from_utf8(bytes.to_vec()).expect("a plain string is ASCII")
            }
        };

        // 5: one too many
        let room = match &open {
            None => records.len() < RECORDS,
            Some(record) => match command {
                0x03 => record.files.as_ref().unwrap().len() < ITEMS,
                0x05 => record.include.as_ref().unwrap().len() < ITEMS,
                0x07 => record.exclude.as_ref().unwrap().len() < ITEMS,
                0x08 => record.extends.len() < EXTENDS,
                0x0b => record.paths.as_ref().unwrap().len() < KEYS,
                0x0c => record.paths.as_ref().unwrap().last().unwrap().1.len() < TARGETS,
                0x0d => record.references.len() < REFERENCES,
                0x0f => record.root_dirs.as_ref().unwrap().len() < ROOT_DIRS,
                _ => true,
            },
        };
        if !room {
            return refused(5, at);
        }

        // 6: given before, or one path above another
        let new = match &open {
            None => !records.iter().any(|other| {
                other.path == string || above(&other.path, &string) || above(&string, &other.path)
            }),
            Some(record) if command == 0x0b => !record
                .paths
                .as_ref()
                .unwrap()
                .iter()
                .any(|(key, _)| *key == string),
            Some(_) => true,
        };
        if !new {
            return refused(6, at);
        }

        match &mut open {
            None => {
                open = Some(Record {
                    path: string,
                    ..Record::default()
                })
            }
            Some(record) => match command {
                0x02 => record.files = Some(vec![]),
                0x03 => record.files.as_mut().unwrap().push(string),
                0x04 => record.include = Some(vec![]),
                0x05 => record.include.as_mut().unwrap().push(string),
                0x06 => record.exclude = Some(vec![]),
                0x07 => record.exclude.as_mut().unwrap().push(string),
                0x08 => record.extends.push(string),
                0x09 => record.base_url = Some(string),
                0x0a => record.paths = Some(vec![]),
                0x0b => record.paths.as_mut().unwrap().push((string, vec![])),
                0x0c => record
                    .paths
                    .as_mut()
                    .unwrap()
                    .last_mut()
                    .unwrap()
                    .1
                    .push(string),
                0x0d => record.references.push(string),
                0x0e => record.root_dirs = Some(vec![]),
                0x0f => record.root_dirs.as_mut().unwrap().push(string),
                0x10 => record.out_dir = Some(string),
                0x11 => record.declaration_dir = Some(string),
                0x12 => record.flags[usize::from(given[0])] = Some(given[1] == 1),
                0x13 => record.texts[usize::from(given[0])] = Some(string),
                0x14 => records.push(open.take().unwrap()),
                _ => unreachable!("operands() knows no other command"),
            },
        }
        in_key = matches!(command, 0x0b | 0x0c);
        at += 1 + width;
    }
    if open.is_some() {
        return refused(2, commands.len());
    }
    Ok(records)
}
