//! verdicts IN OUT STDOUT: fills in the verdicts and sums of a list of books, and writes what the program of crates/edges is to write.
//! The verdicts are those of an independent checker, written from document 01 alone. One that the list already has must be the same.
//! Prints for each group its entries and its verdicts by number.
#[allow(dead_code)]
#[path = "../../judge/src/book.rs"]
mod book;

use std::collections::BTreeMap;

const PRIME: u64 = 4_294_967_291;

fn fold(sum: u64, x: u64) -> u64 {
    (sum % PRIME * 131 + x % PRIME) % PRIME
}

#[derive(Clone, Copy, PartialEq, Eq, Debug)]
struct Verdict {
    number: u64,
    place: u64,
    count: u64,
    index: u64,
}

/// The index of an accepted book, read off its commands: offset of each BEGIN, start and length of the path.
fn index_sum(commands: &[u8]) -> (u64, u64) {
    let (mut at, mut count, mut sum) = (0, 0, 1);
    while at < commands.len() {
        let word = |k: usize| u64::from(commands[at + k]) + 256 * u64::from(commands[at + k + 1]);
        if commands[at] == 0x01 {
            count += 1;
            for x in [at as u64, word(1), word(3)] {
                sum = fold(sum, x);
            }
        }
        at += match commands[at] {
            0x02 | 0x04 | 0x06 | 0x0a | 0x0e | 0x14 => 1,
            0x12 => 3,
            0x13 => 6,
            _ => 5,
        };
    }
    (count, sum)
}

fn judge(commands: &[u8], text: &[u8]) -> Verdict {
    match book::read(commands, text) {
        Err(refusal) => Verdict {
            number: u64::from(refusal.number),
            place: refusal.place as u64,
            count: 0,
            index: 0,
        },
        Ok(records) => {
            let (count, index) = index_sum(commands);
            assert_eq!(count, records.len() as u64);
            Verdict {
                number: 0,
                place: 0,
                count,
                index,
            }
        }
    }
}

fn fold_verdict(sum: u64, v: Verdict) -> u64 {
    [v.number, v.place, v.count, v.index]
        .into_iter()
        .fold(sum, fold)
}

fn word(body: &[u8], at: usize) -> usize {
    usize::from(body[at]) + 256 * usize::from(body[at + 1])
}

/// What the program writes of a group in which nothing disagrees.
fn line(group: &str, entries: u64, seen: &BTreeMap<u64, u64>) -> String {
    format!("{group} {entries} {} 0 0\n", seen.values().sum::<u64>())
}

fn main() {
    let names: Vec<String> = std::env::args().collect();
    let mut list = std::fs::read(&names[1]).expect("the list");
    let (mut commands, mut text): (Vec<u8>, Vec<u8>) = (vec![], vec![]);
    let mut group = String::new();
    let mut entries = 0;
    let mut seen: BTreeMap<u64, u64> = BTreeMap::new();
    let mut report = String::new();
    let mut wrong = 0;
    let mut at = 0;
    while at < list.len() {
        let kind = list[at];
        let size = word(&list, at + 1);
        let body = &mut list[at + 3..at + 3 + size];
        match kind {
            0 => {
                if !group.is_empty() {
                    println!("{group} {entries} {seen:?}");
                    report += &line(&group, entries, &seen);
                }
                group = String::from_utf8(body.to_vec()).unwrap();
                entries = 0;
                seen.clear();
            }
            1 => {
                commands.clear();
                text.clear();
            }
            2 => (0..word(body, 0)).for_each(|_| commands.extend_from_slice(&body[2..])),
            3 => (0..word(body, 0)).for_each(|_| text.extend_from_slice(&body[2..])),
            4 => {
                entries += 1;
                let m = word(body, 0) + 65536 * usize::from(body[2]);
                let n = word(body, 3) + 65536 * usize::from(body[5]);
                let v = judge(&commands[..m], &text[..n]);
                *seen.entry(v.number).or_default() += 1;
                let given = (
                    u64::from(body[6]),
                    word(body, 7) as u64,
                    u64::from(body[9]),
                );
                if given.0 != 255 && given != (v.number, v.place, v.count) {
                    wrong += 1;
                    println!("{group}, entry {entries}: {given:?} by hand, {v:?} by the checker");
                    println!("  commands {:?}", &commands[..m.min(80)]);
                    println!("  text {:?}", String::from_utf8_lossy(&text[..n.min(80)]));
                }
                body[6] = v.number as u8;
                body[7..9].copy_from_slice(&(v.place as u16).to_le_bytes());
                body[9] = v.count as u8;
                body[10..14].copy_from_slice(&(v.index as u32).to_le_bytes());
            }
            5 | 6 => {
                entries += 1;
                let place = word(body, 0);
                let (mut c, mut t) = (commands.clone(), text.clone());
                let mut sum = 1;
                for x in (0..=255u8).rev() {
                    *(if kind == 5 { &mut c[place] } else { &mut t[place] }) = x;
                    let v = judge(&c, &t);
                    *seen.entry(v.number).or_default() += 1;
                    sum = fold_verdict(sum, v);
                }
                body[2..6].copy_from_slice(&(sum as u32).to_le_bytes());
            }
            _ => panic!("an entry of no known kind at {at}"),
        }
        at += 3 + size;
    }
    println!("{group} {entries} {seen:?}");
    report += &line(&group, entries, &seen);
    report += &format!("books.bin {}\n", list.len());
    std::fs::write(&names[2], &list).expect("the list is written");
    std::fs::write(&names[3], report).expect("the report is written");
    if wrong > 0 {
        println!("{wrong} by hand are not those of the checker");
        std::process::exit(1);
    }
}
