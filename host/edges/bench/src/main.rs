//! bench list | bench time [NAME..] | bench once NAME proved|plain | bench agree BOOKS.BIN
//! NAME: one of the list, records-N, paths-same-N, paths-varied-N, or cost-COMMAND-LENGTH-COUNT.
//! `once` makes one call, for callgrind; `time` prints microseconds a call, the least of many rounds.
mod plain;

use std::hint::black_box;
use std::time::Instant;

#[repr(C)]
struct Answer {
    number: usize,
    value: usize,
}

extern "C" {
    fn proved_check(c: *const u8, m: usize, t: *const u8, n: usize) -> Answer;
}

fn proved(commands: &[u8], text: &[u8]) -> (usize, usize) {
    let a = unsafe { proved_check(commands.as_ptr(), commands.len(), text.as_ptr(), text.len()) };
    (a.number, a.value)
}

#[no_mangle]
#[inline(never)]
fn plain_check(commands: &[u8], text: &[u8]) -> Answer {
    match plain::check(commands, text) {
        Ok(n) => Answer { number: 0, value: n },
        Err((number, place)) => Answer { number: number.into(), value: place },
    }
}

fn plain(commands: &[u8], text: &[u8]) -> (usize, usize) {
    let a = plain_check(commands, text);
    (a.number, a.value)
}

#[derive(Default)]
struct Book {
    commands: Vec<u8>,
    text: Vec<u8>,
}

impl Book {
    fn lone(&mut self, command: u8) {
        self.commands.push(command);
    }
    fn span(&mut self, command: u8, start: usize, len: usize) {
        self.commands.push(command);
        self.commands.extend((start as u16).to_le_bytes());
        self.commands.extend((len as u16).to_le_bytes());
    }
    fn put(&mut self, command: u8, string: &str) {
        let start = self.text.len();
        self.text.extend(string.bytes());
        self.span(command, start, string.len());
    }
    /// A record like those of a repository of packages: 42 bytes of commands and some 92 of text.
    fn usual(&mut self, n: usize) {
        self.put(1, &format!("/repo/packages/part-{n:02}/tsconfig.json"));
        self.put(8, "../../tsconfig.base.json");
        self.lone(4);
        self.put(5, "src/**/*");
        self.lone(6);
        self.put(7, "dist");
        self.lone(10);
        self.put(11, &format!("@part-{n:02}/*"));
        self.put(12, "src/*");
        self.put(16, "dist");
        self.commands.extend([18, 0, 1]);
        self.lone(20);
    }
    /// A record of 509 bytes of commands and some 1,000 of text.
    fn large(&mut self, n: usize) {
        self.put(1, &format!("/repo/packages/part-{n:02}/tsconfig.json"));
        self.put(8, "../../tsconfig.base.json");
        self.lone(2);
        (0..30).for_each(|i| self.put(3, &format!("src/f{i:02}.ts")));
        self.lone(4);
        (0..24).for_each(|i| self.put(5, &format!("s{i:02}/**/*")));
        self.lone(6);
        (0..12).for_each(|i| self.put(7, &format!("**/d{i:02}")));
        self.lone(10);
        for i in 0..15 {
            self.put(11, &format!("@k{n:02}-{i:02}/*"));
            self.put(12, "./src/*");
        }
        self.put(16, "dist");
        self.commands.extend([18, 0, 1, 18, 1, 0]);
        self.lone(20);
    }
}

/// 6,400 strings over the same 512 bytes; the records' paths come besides.
fn strings(block: &str, patterns: bool) -> Book {
    let mut book = Book::default();
    assert_eq!(block.len(), 512);
    book.text.extend(block.bytes());
    let mut left = 6400;
    let mut n = 0;
    while left > 0 {
        book.put(1, &format!("/p/{n}"));
        n += 1;
        let most: &[(u8, u8, usize)] = if patterns {
            &[(4, 5, 64), (6, 7, 64)]
        } else {
            &[(2, 3, 64), (0, 8, 8), (0, 13, 16), (14, 15, 8), (0, 9, 1), (0, 16, 1), (0, 17, 1), (10, 11, 1), (0, 12, 8)]
        };
        for (opener, item, many) in most {
            if *opener > 0 {
                book.lone(*opener);
            }
            for _ in 0..left.min(*many) {
                book.span(*item, 0, 512);
                left -= 1;
            }
        }
        book.lone(20);
    }
    book
}

fn named(name: &str) -> Book {
    let mut book = Book::default();
    match name {
        "typical" => (0..20).for_each(|n| book.usual(n)),
        "limits" => (0..64).for_each(|n| book.large(n)),
        "strings" => return strings(&"ab/cd.ef".repeat(64), false),
        "patterns" => return strings(&"src/a*b.".repeat(64), true),
        "stars" => return strings(&"**/abcd/".repeat(64), true),
        _ if name.starts_with("paths-") => {
            // paths-same-COUNT, paths-varied-COUNT: records of a path alone, all of one length or each of its own
            let (kind, count) = name[6..].split_once('-').expect("a kind and a number");
            for n in 0..count.parse().expect("a number") {
                let more = if kind == "varied" { n } else { 0 };
                book.put(1, &format!("/repo/packages/part-{n:02}/tsconfig.json{}", "x".repeat(more)));
                book.lone(20);
            }
        }
        _ if name.starts_with("cost-") => {
            // cost-COMMAND-LENGTH-COUNT: a record with so many of one command, whose strings have that length
            let parts: Vec<usize> = name[5..].split('-').map(|part| part.parse().expect("a number")).collect();
            let (command, length, count) = (parts[0] as u8, parts[1], parts[2]);
            book.put(1, "/p");
            let opener = match command {
                3 | 5 | 7 | 11 | 15 => command - 1,
                12 => 10,
                _ => 0,
            };
            if opener > 0 {
                book.lone(opener);
            }
            if command == 12 {
                book.put(11, "k");
            }
            book.text.extend([b'a'; 600]);
            for i in 0..count {
                match command {
                    18 => book.commands.extend([18, i as u8, 1]),
                    11 => book.span(11, 3, length + i),
                    _ => book.span(command, 3, length),
                }
            }
            book.lone(20);
        }
        _ => {
            let n: usize = name.strip_prefix("records-").expect("a name").parse().expect("a number");
            (0..n).for_each(|i| book.usual(i))
        }
    }
    book
}

const NAMES: [&str; 12] = ["typical", "limits", "strings", "patterns", "stars", "records-1", "records-2", "records-4", "records-8", "records-16", "records-32", "records-64"];

fn time(f: fn(&[u8], &[u8]) -> (usize, usize), book: &Book) -> f64 {
    let once = {
        let start = Instant::now();
        black_box(f(black_box(&book.commands), black_box(&book.text)));
        start.elapsed().as_secs_f64()
    };
    let turns = ((0.002 / once) as usize).clamp(1, 20000);
    let mut least = f64::MAX;
    for _ in 0..300 {
        let start = Instant::now();
        for _ in 0..turns {
            black_box(f(black_box(&book.commands), black_box(&book.text)));
        }
        least = least.min(start.elapsed().as_secs_f64() / turns as f64);
    }
    least * 1e6
}

/// Both checkers on every book of the gate's list, damaged ones too.
fn agree(path: &str) {
    let list = std::fs::read(path).expect("the list");
    let word = |s: &[u8], at: usize| usize::from(s[at]) + 256 * usize::from(s[at + 1]);
    let (mut c, mut t): (Vec<u8>, Vec<u8>) = (vec![], vec![]);
    let (mut at, mut books, mut wrong) = (0, 0, 0);
    let mut hold = |c: &[u8], t: &[u8]| {
        books += 1;
        if proved(c, t) != plain(c, t) {
            wrong += 1;
        }
    };
    while at < list.len() {
        let size = word(&list, at + 1);
        let body = &list[at + 3..at + 3 + size];
        match list[at] {
            1 => (c.clear(), t.clear()).0,
            2 => (0..word(body, 0)).for_each(|_| c.extend_from_slice(&body[2..])),
            3 => (0..word(body, 0)).for_each(|_| t.extend_from_slice(&body[2..])),
            4 => hold(&c[..word(body, 0) + 65536 * usize::from(body[2])], &t[..word(body, 3) + 65536 * usize::from(body[5])]),
            5 | 6 => {
                let place = word(body, 0);
                let (mut d, mut u) = (c.clone(), t.clone());
                for x in 0..=255 {
                    *(if list[at] == 5 { &mut d[place] } else { &mut u[place] }) = x;
                    hold(&d, &u);
                }
            }
            _ => (),
        }
        at += 3 + size;
    }
    println!("{books} books, {wrong} disagree");
}

fn main() {
    let args: Vec<String> = std::env::args().collect();
    match args[1].as_str() {
        "list" => {
            for name in NAMES {
                let b = named(name);
                println!("{name}: commands {} text {} verdict {:?} {:?}", b.commands.len(), b.text.len(), proved(&b.commands, &b.text), plain(&b.commands, &b.text));
            }
        }
        "once" => {
            let b = named(&args[2]);
            let f = if args[3] == "proved" { proved } else { plain };
            println!("{:?} {} {}", black_box(f(&b.commands, &b.text)), b.commands.len(), b.text.len());
        }
        "time" => {
            let names: Vec<&str> = if args.len() > 2 { args[2..].iter().map(String::as_str).collect() } else { NAMES.to_vec() };
            for name in names {
                let b = named(name);
                println!("{name}: proved {:.2} us, plain {:.2} us", time(proved, &b), time(plain, &b));
            }
        }
        "agree" => agree(&args[2]),
        _ => panic!("list, time, once or agree"),
    }
}
