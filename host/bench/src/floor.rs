//! The least that a check of a book must do, as a measure of what a question can cost at all: each command is read and its string held to
//! the text's length, and each byte of the text is looked at once. No order, no number, no rule of paths or patterns, no path or key given before.

const WIDTHS: [u8; 21] = [9, 4, 0, 4, 0, 4, 0, 4, 4, 4, 0, 4, 4, 4, 0, 4, 4, 4, 2, 5, 0];

fn word(bytes: &[u8]) -> usize {
    usize::from(u16::from_le_bytes([bytes[0], bytes[1]]))
}

pub fn bare_pass(commands: &[u8], text: &[u8]) -> bool {
    let odd = text.iter().fold(0, |odd, byte| odd | u8::from(*byte < 0x20) | u8::from(*byte > 0x7e) | u8::from(*byte == b'\\'));
    let mut at = 0;
    while at < commands.len() {
        let Some(width) = WIDTHS.get(usize::from(commands[at])) else { return false };
        let width = usize::from(*width);
        let Some(operands) = commands.get(at + 1..at + 1 + width) else { return false };
        if width >= 4 {
            let span = &operands[width - 4..];
            let (start, length) = (word(span), word(&span[2..]));
            if start + length > text.len() || length > 512 {
                return false;
            }
        }
        at += 1 + width;
    }
    odd == 0
}
