//! What is asked about a book.

use crate::random::Random;
use crate::records::{Record, lengthened, value};
use crate::words::*;

#[derive(Clone, Debug, PartialEq, Eq)]
pub enum Question {
    Build { path: Vec<u8> },
    Owner { path: Vec<u8> },
    Candidates { path: Vec<u8>, specifier: Vec<u8> },
    Tries { path: Vec<u8>, directory: Vec<u8>, specifier: Vec<u8> },
}

impl Question {
    /// The letter of the question's line.
    pub fn letter(&self) -> u8 {
        match self {
            Self::Build { .. } => b'B',
            Self::Owner { .. } => b'O',
            Self::Candidates { .. } => b'C',
            Self::Tries { .. } => b'T',
        }
    }

    /// What is asked, in the order of the question's line.
    pub fn fields(&self) -> Vec<&[u8]> {
        match self {
            Self::Build { path } | Self::Owner { path } => vec![path],
            Self::Candidates { path, specifier } => vec![path, specifier],
            Self::Tries { path, directory, specifier } => vec![path, directory, specifier],
        }
    }

    pub fn fields_mut(&mut self) -> Vec<&mut Vec<u8>> {
        match self {
            Self::Build { path } | Self::Owner { path } => vec![path],
            Self::Candidates { path, specifier } => vec![path, specifier],
            Self::Tries { path, directory, specifier } => vec![path, directory, specifier],
        }
    }

    /// The question's line, without its end.
    pub fn line(&self) -> Vec<u8> {
        let mut line = vec![self.letter(), b' '];
        line.extend(self.fields().join(&b'\t'));
        line
    }
}

/// What the questions lean on: words of the book itself.
struct Hints<'a> {
    records: &'a [Record],
    keys: Vec<&'a str>,
    items: Vec<&'a str>,
    roots: Vec<&'a str>,
}

impl<'a> Hints<'a> {
    fn new(records: &'a [Record]) -> Self {
        let keys = records.iter().flat_map(|record| record.paths.iter().flatten()).map(|(key, _)| key.as_str());
        let lists = records.iter().flat_map(|record| [&record.files, &record.include, &record.exclude]);
        let roots = records.iter().flat_map(|record| record.root_dirs.iter().flatten()).map(String::as_str);
        Self { records, keys: keys.collect(), items: lists.flatten().flatten().map(String::as_str).collect(), roots: roots.collect() }
    }

    fn bad_path(&self, random: &mut Random) -> Vec<u8> {
        match random.below(6) {
            0 => format!("/{}", "a".repeat(512)).into_bytes(),
            1 => b"/p/\xc3\xa9".to_vec(),
            _ => random.pick(BAD_ASKED).as_bytes().to_vec(),
        }
    }

    fn config(&self, random: &mut Random) -> Vec<u8> {
        if random.chance(4) {
            return self.bad_path(random);
        }
        if self.records.is_empty() || random.chance(4) {
            let places = ["/", "/none", "/p", "/p/none", "/q/x", "/p/src", "/p/d", "/p/d.json", "/p/node_modules", "/p/tsconfig"];
            return random.word(&places).into_bytes();
        }
        let path = &random.pick(self.records).path;
        let mut forms: Vec<&str> = vec![path, path];
        forms.extend(path.strip_suffix("/tsconfig.json").map(|folder| if folder.is_empty() { "/" } else { folder }));
        forms.extend(path.strip_suffix(".json").filter(|stem| !stem.ends_with('/')));
        random.word(&forms).into_bytes()
    }

    /// A path that an item of some list means, read from the folder of some record.
    fn meant(&self, random: &mut Random, item: &str, folder: &str) -> String {
        let item = item.replace(CONFIG_DIR, "");
        let absolute = item.starts_with('/') && random.chance(80);
        let mut pieces: Vec<String> = vec![];
        if !absolute {
            pieces.extend(folder.split('/').filter(|piece| !piece.is_empty()).map(str::to_string));
        }
        for piece in item.split('/') {
            match piece {
                "" | "." => {}
                ".." => drop(pieces.pop()),
                "**" => pieces.extend((0..*random.pick(&[0, 0, 1, 2])).map(|_| random.word(&["a", "b", "src", ".a"]))),
                piece => pieces.push(filled(random, piece)),
            }
        }
        pieces.retain(|piece| !matches!(piece.as_str(), "" | "." | ".."));
        format!("/{}", pieces.join("/"))
    }

    fn project_folder(&self, random: &mut Random) -> &'a str {
        let projects: Vec<&Record> = self.records.iter().filter(|record| record.is_project()).collect();
        match projects.is_empty() {
            true => random.pick(self.records).folder(),
            false => random.pick(&projects).folder(),
        }
    }

    /// A normal path of 512 bytes, or of a few more or fewer.
    fn long_file(&self, random: &mut Random) -> String {
        let mut path = self.project_folder(random).to_string();
        let length = *random.pick(&[512, 512, 511, 513, 400]) - ".ts".len();
        while path.len() + 60 < length {
            path += "/";
            path += &random.word(&["a", "src", "b"]).repeat(random.between(1, 12));
        }
        let left = length.saturating_sub(path.len() + 1).max(1);
        path + "/" + &"k".repeat(left) + ".ts"
    }

    fn named_file(&self, random: &mut Random) -> String {
        let folder = match random.below(10) {
            0 => random.word(FOLDERS),
            1 => random.word(ASKED_FOLDERS).trim_end_matches('/').to_string(),
            2..=4 => {
                return format!(
                    "{}/{}{}",
                    self.project_folder(random),
                    random.pick(&["src/a", "a", "k", "b/a", "src/k"]),
                    random.pick(&[".ts", ".ts", ".tsx", ".js"])
                );
            }
            _ => self.project_folder(random).to_string() + &random.word(&["", "", "", "/src", "/a", "/b", "/src/a", "/node_modules/a"]),
        };
        let name = random.word(STEMS) + &random.word(EXTENSIONS);
        let name = if matches!(name.as_str(), "" | "." | "..") { "a.ts" } else { &name };
        format!("{folder}/{name}")
    }

    /// A file below what an item means, where that has no extension itself.
    fn below(&self, random: &mut Random, item: &str, folder: &str) -> String {
        let path = self.meant(random, item, folder);
        if path.rfind('/') < path.rfind('.') && random.chance(85) {
            return path;
        }
        let extension = if random.chance(70) { ".ts".to_string() } else { random.word(EXTENSIONS) };
        format!("{}/{}{extension}", path.trim_end_matches('/'), random.pick(&["a", "k", "x"]))
    }

    /// A file that a list of the record in its own folder means, or any file there.
    fn own_file(&self, random: &mut Random) -> String {
        let folder = self.project_folder(random);
        let here = self.records.iter().filter(|record| record.is_project() && record.folder() == folder);
        let own: Vec<&String> = here.flat_map(|record| [&record.files, &record.include]).flatten().flatten().collect();
        let item = if own.is_empty() { "a.ts" } else { random.pick(&own).as_str() };
        self.below(random, item, folder)
    }

    fn file(&self, random: &mut Random) -> Vec<u8> {
        if random.chance(4) {
            return self.bad_path(random);
        }
        if self.records.is_empty() {
            return random.word(&["/", "/p/a.ts", "/a"]).into_bytes();
        }
        let path = match random.below(20) {
            0 => random.pick(self.records).path.clone(),
            1 => random.word(ASKED_FOLDERS),
            2..=6 if !self.items.is_empty() => {
                let (item, folder) = (*random.pick(&self.items), self.project_folder(random));
                self.below(random, item, folder)
            }
            7..=13 => self.own_file(random),
            14 => self.long_file(random),
            _ => self.named_file(random),
        };
        path.into_bytes()
    }

    fn specifier(&self, random: &mut Random) -> Vec<u8> {
        match random.below(100) {
            0..=1 => random.pick(BAD_SPECIFIERS).as_bytes().to_vec(),
            2 => vec![*random.pick(b"x./"); *random.pick(&[511, 512, 513])],
            3..=54 if !self.keys.is_empty() => random.pick(&self.keys).replacen('*', &random.word(STARRED), 1).into_bytes(),
            55..=60 => {
                let word = random.word(&["a/b", "./x", "@f/band"]);
                lengthened(random, word).into_bytes()
            }
            _ => value(random, SPECIFIERS).into_bytes(),
        }
    }

    fn directory(&self, random: &mut Random) -> Vec<u8> {
        match random.below(20) {
            0 => self.bad_path(random),
            1..=8 if !self.roots.is_empty() => {
                let (root, folder) = (*random.pick(&self.roots), random.pick(self.records).folder());
                let path = self.meant(random, root, folder);
                let below = random.pick(&["", "", "/a", "/x/y"]);
                if path == "/" && !below.is_empty() { below.to_string().into_bytes() } else { (path + below).into_bytes() }
            }
            9..=11 if !self.records.is_empty() => {
                let folder = random.pick(self.records).folder();
                if folder.is_empty() { b"/".to_vec() } else { folder.as_bytes().to_vec() }
            }
            _ => random.word(ASKED_FOLDERS).into_bytes(),
        }
    }
}

/// A piece of a pattern with something for its stars and question marks.
fn filled(random: &mut Random, piece: &str) -> String {
    let star = random.pick(&["", "a", "k", "x.y", "ab"]);
    let mark = random.pick(&["a", "b", ".", "/"]);
    piece.replace('*', star).replace('?', mark)
}

pub fn about(random: &mut Random, records: &[Record]) -> Vec<Question> {
    let hints = Hints::new(records);
    let mut questions = vec![];
    for _ in 0..random.between(2, 5) {
        questions.push(Question::Build { path: hints.config(random) });
    }
    for _ in 0..random.between(3, 8) {
        questions.push(Question::Owner { path: hints.file(random) });
    }
    for _ in 0..random.between(2, 6) {
        questions.push(Question::Candidates { path: hints.config(random), specifier: hints.specifier(random) });
    }
    for _ in 0..random.between(2, 6) {
        let is_relative = !hints.roots.is_empty() && random.chance(50);
        let specifier = if is_relative { random.word(RELATIVE).into_bytes() } else { hints.specifier(random) };
        questions.push(Question::Tries { path: hints.config(random), directory: hints.directory(random), specifier });
    }
    questions
}
