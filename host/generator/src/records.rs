//! One record: its fields, made up, and its commands.

use crate::book::{self, Command};
use crate::random::Random;
use crate::words::*;

#[derive(Clone, Debug, Default)]
pub struct Record {
    pub path: String,
    pub files: Option<Vec<String>>,
    pub include: Option<Vec<String>>,
    pub exclude: Option<Vec<String>>,
    pub extends: Vec<String>,
    pub base_url: Option<String>,
    pub paths: Option<Vec<(String, Vec<String>)>>,
    pub references: Vec<String>,
    pub root_dirs: Option<Vec<String>>,
    pub out_dir: Option<String>,
    pub declaration_dir: Option<String>,
    pub flags: Vec<(u8, u8)>,
    pub texts: Vec<(u8, String)>,
}

/// How likely each field is, in a hundred, and the most items of a list.
#[derive(Clone, Copy)]
pub struct Likely {
    pub lists: usize,
    pub base_url: usize,
    pub paths: usize,
    pub root_dirs: usize,
    pub others: usize,
    pub most: usize,
    /// Pieces as long as strings may be.
    pub long: bool,
}

pub const ANY: Likely = Likely { lists: 30, base_url: 30, paths: 45, root_dirs: 25, others: 15, most: 4, long: false };
pub const FEW: Likely = Likely { lists: 8, base_url: 10, paths: 15, root_dirs: 8, others: 6, most: 2, long: false };

/// One of the pool, or now and then a path or a text made up.
pub fn value(random: &mut Random, pool: &[&str]) -> String {
    match random.below(100) {
        0..=90 => random.word(pool),
        91..=96 => {
            let pieces: Vec<String> = (0..random.between(1, 4)).map(|_| random.word(PIECES)).collect();
            random.word(LEADS) + &pieces.join("/")
        }
        _ => (0..random.below(9)).map(|_| *random.pick(&['a', 'b', '/', '.', '*'])).collect(),
    }
}

/// The text with pieces put in so that it is as long as strings may be, or near it.
pub fn lengthened(random: &mut Random, text: String) -> String {
    let text = if text == CONFIG_DIR { text + "/" } else { text };
    let length = *random.pick(&[512, 512, 511, 510, 480, 300, 200, 100]);
    let wanted = length - text.len().min(length);
    let middle = text.rfind('/').map_or(0, |at| at + 1);
    let mut filling: String = random.word(&["", "", "../", "./"]);
    while filling.len() + 60 < wanted {
        filling.push_str(&"l".repeat(random.between(20, 50)));
        filling.push_str(&random.word(&["/", "/", "/../", "/./", "//"]));
    }
    while filling.len() < wanted {
        filling.push('f');
    }
    format!("{}{}{}", &text[..middle], filling, &text[middle..])
}

fn pattern(random: &mut Random) -> String {
    let text = if random.chance(75) {
        random.word(PATTERNS)
    } else {
        let pieces: Vec<String> = (0..random.between(1, 4)).map(|_| random.word(PATTERN_PIECES)).collect();
        random.word(LEADS) + &pieces.join("/")
    };
    if is_pattern(&text) { text } else { random.word(PATTERNS) }
}

/// An include or exclude item that the string rule accepts.
fn is_pattern(text: &str) -> bool {
    let rest = text.strip_prefix(CONFIG_DIR).unwrap_or(text);
    rest.split('/').all(|piece| piece == "**" || !piece.contains("**"))
}

fn key(random: &mut Random) -> String {
    if random.chance(60) {
        return value(random, KEYS);
    }
    let star = if random.chance(75) { "*" } else { "" };
    random.word(KEY_HEADS) + star + &random.word(KEY_TAILS)
}

impl Likely {
    fn text(&self, random: &mut Random, pool: &[&str]) -> String {
        let text = value(random, pool);
        if self.long && random.chance(60) { lengthened(random, text) } else { text }
    }

    fn items(&self, random: &mut Random, mut item: impl FnMut(&mut Random) -> String) -> Option<Vec<String>> {
        let count = random.between(0, self.most);
        Some((0..count).map(|_| item(random)).collect())
    }

    fn mapping(&self, random: &mut Random) -> Vec<(String, Vec<String>)> {
        let mut keys: Vec<(String, Vec<String>)> = vec![];
        for _ in 0..random.between(0, (self.most * 2).min(32)) {
            let key = key(random);
            if keys.iter().all(|(other, _)| *other != key) {
                let count = *random.pick(&[0, 1, 1, 1, 2, 3]);
                keys.push((key, (0..count).map(|_| self.text(random, TARGETS)).collect()));
            }
        }
        keys
    }

    /// A record with these fields, or fewer; its extends and references are left out.
    pub fn record(&self, random: &mut Random, path: String) -> Record {
        let mut record = Record { path, ..Record::default() };
        if random.chance(self.lists) {
            record.files = self.items(random, |random| self.text(random, FILES));
        }
        if random.chance(self.lists + self.lists / 2) {
            record.include = self.items(random, pattern);
        }
        if random.chance(self.lists) {
            record.exclude = self.items(random, pattern);
        }
        if random.chance(self.base_url) {
            record.base_url = Some(self.text(random, BASE_URLS));
        }
        if random.chance(self.paths) {
            record.paths = Some(self.mapping(random));
        }
        if random.chance(self.root_dirs) {
            let mut items = self.items(random, |random| self.text(random, ROOT_DIRS));
            items.as_mut().unwrap().truncate(8);
            record.root_dirs = items;
        }
        self.rest(random, &mut record);
        record
    }

    fn rest(&self, random: &mut Random, record: &mut Record) {
        if random.chance(self.others) {
            record.out_dir = Some(self.text(random, DIRS));
        }
        if random.chance(self.others) {
            record.declaration_dir = Some(self.text(random, DIRS));
        }
        for id in 0..11 {
            let percent = if id == 8 { 30 } else { self.others / 2 };
            if random.chance(percent) {
                record.flags.push((id, random.below(2) as u8));
            }
        }
        for id in 0..7 {
            if random.chance(self.others / 2) {
                record.texts.push((id, self.text(random, TEXTS)));
            }
        }
    }
}

/// A list's command and those of its items, as steps that keep their order.
fn list(streams: &mut Vec<Vec<Vec<Command>>>, present: u8, item: u8, items: &Option<Vec<String>>) {
    if let Some(items) = items {
        let mut stream = vec![vec![Command::lone(present)]];
        stream.extend(items.iter().map(|text| vec![Command::with(item, text.as_bytes())]));
        streams.push(stream);
    }
}

impl Record {
    /// Commands whose order among each other matters, as streams of steps.
    fn streams(&self) -> Vec<Vec<Vec<Command>>> {
        let mut streams = vec![];
        list(&mut streams, book::FILES, book::FILE, &self.files);
        list(&mut streams, book::INCLUDE, book::INCLUDED, &self.include);
        list(&mut streams, book::EXCLUDE, book::EXCLUDED, &self.exclude);
        list(&mut streams, book::ROOT_DIRS, book::ROOT_DIR, &self.root_dirs);
        if let Some(keys) = &self.paths {
            let mut stream = vec![vec![Command::lone(book::PATHS)]];
            for (key, targets) in keys {
                let mut step = vec![Command::with(book::KEY, key.as_bytes())];
                step.extend(targets.iter().map(|target| Command::with(book::TARGET, target.as_bytes())));
                stream.push(step);
            }
            streams.push(stream);
        }
        let each = |code: u8, texts: &[String]| texts.iter().map(|text| vec![Command::with(code, text.as_bytes())]).collect();
        streams.push(each(book::EXTENDS, &self.extends));
        streams.push(each(book::REFERENCE, &self.references));
        for (code, text) in
            [(book::BASE_URL, &self.base_url), (book::OUT_DIR, &self.out_dir), (book::DECLARATION_DIR, &self.declaration_dir)]
        {
            streams.extend(text.as_ref().map(|text| vec![vec![Command::with(code, text.as_bytes())]]));
        }
        streams.extend(self.flags.iter().map(|(id, value)| vec![vec![Command::flag(*id, *value)]]));
        streams.extend(self.texts.iter().map(|(id, text)| vec![vec![Command::text(*id, text.as_bytes())]]));
        streams
    }

    /// The record's commands, the streams one after the other or mixed.
    pub fn commands(&self, random: &mut Random, mixed: bool) -> Vec<Command> {
        let mut streams = self.streams();
        streams.iter_mut().for_each(|stream| stream.reverse());
        let mut commands = vec![Command::with(book::BEGIN, self.path.as_bytes())];
        loop {
            streams.retain(|stream| !stream.is_empty());
            if streams.is_empty() {
                break;
            }
            let at = if mixed { random.below(streams.len()) } else { 0 };
            commands.extend(streams[at].pop().unwrap());
        }
        commands.push(Command::lone(book::END));
        commands
    }

    pub fn folder(&self) -> &str {
        &self.path[..self.path.rfind('/').unwrap()]
    }

    pub fn is_project(&self) -> bool {
        self.path.ends_with("/tsconfig.json")
    }
}
