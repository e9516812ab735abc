//! A plain checker of a book, as one would write it in Rust: it allocates nothing, leaves each loop early, and has no `unsafe`.
//! The same rules in the same order as the independent checker of host/judge, with counters and spans in place of its lists.

pub const WIDTHS: [u8; 21] = [9, 4, 0, 4, 0, 4, 0, 4, 4, 4, 0, 4, 4, 4, 0, 4, 4, 4, 2, 5, 0];
const OPENERS: [u8; 21] = [1, 0, 1, 2, 1, 4, 1, 6, 1, 1, 1, 10, 11, 1, 1, 14, 1, 1, 1, 1, 1];
const LIMITS: [u8; 21] = [0, 0, 0, 64, 0, 64, 0, 64, 8, 0, 0, 32, 8, 16, 0, 8, 0, 0, 0, 0, 0];

fn plain(text: &[u8]) -> bool {
    text.len() <= 512
        && text
            .iter()
            .all(|byte| (0x20..=0x7e).contains(byte) && *byte != b'\\')
}

fn normal(text: &[u8]) -> bool {
    if text == b"/" {
        return true;
    }
    let Some(rest) = text.strip_prefix(b"/") else {
        return false;
    };
    rest.split(|byte| *byte == b'/')
        .all(|piece| !matches!(piece, b"" | b"." | b".."))
}

fn record_path(text: &[u8]) -> bool {
    normal(text)
        && text != b"/"
        && !text
            .iter()
            .any(|byte| matches!(byte, b'*' | b'?' | b'{' | b'}' | b'[' | b']' | b'!' | b'#'))
}

fn named_config(text: &[u8]) -> bool {
    !text.starts_with(b"/") || normal(text)
}

fn pattern(text: &[u8]) -> bool {
    let text = text.strip_prefix(b"${configDir}").unwrap_or(text);
    !text
        .iter()
        .any(|byte| matches!(byte, b'{' | b'}' | b'[' | b']' | b'!'))
        && text
            .split(|byte| *byte == b'/')
            .all(|piece| piece == b"**" || !piece.windows(2).any(|two| two == b"**"))
}

fn above(ancestor: &[u8], path: &[u8]) -> bool {
    path.strip_prefix(ancestor)
        .is_some_and(|rest| rest.starts_with(b"/"))
}

/// How many records, or the refusal's number and place.
pub fn check(commands: &[u8], text: &[u8]) -> Result<usize, (u8, usize)> {
    if commands.len() > 32_768 || text.len() > 65_535 {
        return Err((1, 0));
    }
    let mut paths: [&[u8]; 64] = [&[]; 64];
    let mut records = 0;
    let mut keys: [&[u8]; 32] = [&[]; 32];
    // how many of each command the open record has, targets from their key on
    let mut counts = [0u8; 21];
    let (mut flags, mut texts) = (0u16, 0u8);
    let mut last = 0;
    let mut path: &[u8] = &[];
    let mut at = 0;
    while at < commands.len() {
        let command = commands[at];
        let op = usize::from(command);
        if op == 0 || op > 20 {
            return Err((2, at));
        }
        let width = usize::from(WIDTHS[op]);
        let Some(given) = commands.get(at + 1..at + 1 + width) else {
            return Err((2, at));
        };
        let opener = usize::from(OPENERS[op]);
        let fits = (opener == 0 || counts[opener] > 0)
            && match command {
                0x12 => given[0] <= 10 && given[1] <= 1 && flags >> given[0] & 1 == 0,
                0x13 => given[0] <= 6 && texts >> given[0] & 1 == 0,
                0x0c => last == 0x0b || last == 0x0c,
                _ => LIMITS[op] > 0 || counts[op] == 0,
            };
        if !fits {
            return Err((3, at));
        }
        let string = if width < 4 {
            &text[..0]
        } else {
            let span = &given[width - 4..];
            let start = usize::from(u16::from_le_bytes([span[0], span[1]]));
            let length = usize::from(u16::from_le_bytes([span[2], span[3]]));
            let Some(bytes) = text.get(start..start + length) else {
                return Err((4, at));
            };
            let ruled = plain(bytes)
                && match command {
                    0x01 => record_path(bytes),
                    0x05 | 0x07 => pattern(bytes),
                    0x08 | 0x0d => named_config(bytes),
                    _ => true,
                };
            if !ruled {
                return Err((4, at));
            }
            bytes
        };
        match command {
            0x01 => {
                if records >= 64 {
                    return Err((5, at));
                }
                if paths[..records].iter().any(|other| {
                    *other == string || above(other, string) || above(string, other)
                }) {
                    return Err((6, at));
                }
                path = string;
            }
            0x0b => {
                let many = usize::from(counts[0x0b]);
                if many >= 32 {
                    return Err((5, at));
                }
                if keys[..many].contains(&string) {
                    return Err((6, at));
                }
                keys[many] = string;
                counts[0x0c] = 0;
            }
            0x12 => flags |= 1 << given[0],
            0x13 => texts |= 1 << given[0],
            0x14 => {
                paths[records] = path;
                records += 1;
                counts = [0; 21];
                (flags, texts) = (0, 0);
                last = 0;
                at += 1;
                continue;
            }
            _ => {
                if LIMITS[op] > 0 && counts[op] >= LIMITS[op] {
                    return Err((5, at));
                }
            }
        }
        counts[op] += 1;
        last = command;
        at += 1 + width;
    }
    if counts[1] > 0 {
        return Err((2, commands.len()));
    }
    Ok(records)
}
