//! The records of a book, by the shape that they make together.

use crate::random::Random;
use crate::records::{ANY, FEW, Likely, Record};
use crate::words::*;

#[derive(Clone, Copy, PartialEq, Eq)]
pub enum Shape {
    Empty,
    /// A few records of any kind.
    Mixed,
    /// Bases that are reached by several ways.
    Diamonds,
    /// Each record extends the two after it.
    Ladder,
    /// Chains that may close.
    Chain,
    /// A config with little of its own that references others.
    Solution,
    /// A config in each folder on the way down.
    Nested,
    Mapping,
    Claims,
    Roots,
    Long,
    /// As many records or items as there may be.
    Full,
}

impl Shape {
    pub fn pick(random: &mut Random) -> Self {
        match random.below(1000) {
            0..=7 => Self::Empty,
            8..=299 => Self::Mixed,
            300..=419 => Self::Diamonds,
            420..=427 => Self::Ladder,
            428..=517 => Self::Chain,
            518..=627 => Self::Solution,
            628..=697 => Self::Nested,
            698..=787 => Self::Mapping,
            788..=887 => Self::Claims,
            888..=947 => Self::Roots,
            948..=989 => Self::Long,
            _ => Self::Full,
        }
    }

    fn likely(self) -> Likely {
        match self {
            Self::Ladder => FEW,
            Self::Mapping => Likely { paths: 90, base_url: 50, lists: 5, most: 8, ..ANY },
            Self::Claims => Likely { lists: 80, paths: 5, root_dirs: 5, most: 6, ..ANY },
            Self::Roots => Likely { root_dirs: 95, paths: 20, lists: 5, most: 8, ..ANY },
            Self::Long => Likely { base_url: 60, paths: 70, root_dirs: 50, others: 30, long: true, ..ANY },
            Self::Full => Likely { lists: 3, base_url: 5, paths: 5, root_dirs: 3, others: 4, most: 2, long: false },
            _ => ANY,
        }
    }

    fn count(self, random: &mut Random) -> usize {
        match self {
            Self::Empty => 0,
            Self::Ladder => random.between(10, 62),
            Self::Diamonds | Self::Chain => random.between(2, 7),
            Self::Solution => random.between(2, 6),
            Self::Nested => random.between(2, 5),
            Self::Mapping | Self::Claims | Self::Roots => random.between(1, 3),
            Self::Long => random.between(1, 4),
            Self::Full => random.between(60, 64),
            Self::Mixed => random.between(1, 8),
        }
    }
}

fn clashes(paths: &[String], path: &str) -> bool {
    let above = |above: &str, below: &str| below.strip_prefix(above).is_some_and(|rest| rest.starts_with('/'));
    paths.iter().any(|other| other == path || above(other, path) || above(path, other))
}

/// A folder that makes a record's path as long as it may be, or nearly.
fn long_folder(random: &mut Random) -> String {
    let length = *random.pick(&[512, 511, 500, 400, 200]) - "/tsconfig.json".len();
    let mut folder = String::new();
    while folder.len() + 80 < length {
        folder += "/";
        folder += &"d".repeat(random.between(10, 60));
    }
    let left = length - folder.len() - 1;
    folder + "/" + &"e".repeat(left)
}

fn path(random: &mut Random, shape: Shape, number: usize) -> String {
    match shape {
        Shape::Nested => random.word(&["", "/p", "/p/src", "/p/src/a", "/p/src/a/b", "/p/b"]) + "/tsconfig.json",
        Shape::Ladder | Shape::Full if number > 2 => format!("{}/c{number}.json", random.pick(&["/p", "/p/src", "/q"])),
        Shape::Long if random.chance(40) => long_folder(random) + "/tsconfig.json",
        _ if number == 0 && random.chance(60) => random.word(FOLDERS) + "/tsconfig.json",
        _ => random.word(FOLDERS) + "/" + &random.word(NAMES),
    }
}

fn paths(random: &mut Random, shape: Shape) -> Vec<String> {
    let count = shape.count(random);
    let mut paths = vec![];
    for _ in 0..count * 6 {
        let path = path(random, shape, paths.len());
        if paths.len() < count && !clashes(&paths, &path) {
            paths.push(path);
        }
    }
    paths
}

/// The path as seen from a folder, with `..` where needed.
fn relative(origin: &str, path: &str) -> String {
    let here: Vec<&str> = origin.split('/').filter(|piece| !piece.is_empty()).collect();
    let there: Vec<&str> = path.split('/').filter(|piece| !piece.is_empty()).collect();
    let shared = here.iter().zip(&there).take_while(|(one, other)| one == other).count();
    let mut steps = vec![".."; here.len() - shared];
    if steps.is_empty() {
        steps.push(".");
    }
    steps.extend(&there[shared..]);
    steps.join("/")
}

/// A name for a config: with or without .json, its folder, a detour, or absolute.
fn name(random: &mut Random, origin: &str, path: &str, is_reference: bool) -> String {
    let mut forms = vec![path, path, path];
    forms.extend(path.strip_suffix(".json").filter(|stem| !stem.ends_with('/')));
    forms.extend(path.strip_suffix("/tsconfig.json"));
    forms.extend(path.strip_suffix("/tsconfig.json"));
    let form = *random.pick(&forms);
    let form = if form.is_empty() { "/" } else { form };
    if random.chance(15) {
        return form.to_string();
    }
    let mut name = relative(origin, form);
    if random.chance(10) {
        name = name.replacen("./", ".//", 1);
    }
    if random.chance(10) {
        name = format!("./b/../{name}");
    }
    if random.chance(5) {
        name += &random.word(&["/", "/.", "//", "/x/.."]);
    }
    match name.strip_prefix("./") {
        Some(rest) if is_reference && !rest.starts_with('/') && random.chance(40) => rest.to_string(),
        _ => name,
    }
}

/// The numbers of the records that record `number` leads to, for this shape.
fn aims(random: &mut Random, shape: Shape, number: usize, count: usize) -> Vec<usize> {
    let later = count - number - 1;
    let mut aims: Vec<usize> = match shape {
        Shape::Ladder => (1..=2.min(later)).map(|step| number + step).collect(),
        Shape::Chain if later > 0 => vec![number + 1],
        Shape::Chain if random.chance(60) => vec![random.below(count)],
        Shape::Diamonds => (0..random.between(1, 4)).filter(|_| later > 0).map(|_| number + 1 + random.below(later)).collect(),
        Shape::Solution if number == 0 => vec![],
        _ if random.chance(45) && later > 0 => (0..*random.pick(&[1, 1, 1, 2, 3])).map(|_| number + 1 + random.below(later)).collect(),
        _ => vec![],
    };
    if random.chance(3) {
        aims.push(random.below(count));
    }
    if !aims.is_empty() && random.chance(6) {
        aims.push(aims[0]);
    }
    aims
}

fn broken(random: &mut Random, shape: Shape) -> bool {
    random.chance(if shape == Shape::Ladder || shape == Shape::Full { 1 } else { 4 })
}

fn link(random: &mut Random, shape: Shape, records: &mut [Record], number: usize) {
    let origin = records[number].folder().to_string();
    let aims = aims(random, shape, number, records.len());
    let mut extends: Vec<String> = aims.iter().map(|aim| name(random, &origin, &records[*aim].path, false)).collect();
    if broken(random, shape) {
        extends.insert(random.below(extends.len() + 1), random.word(BROKEN_EXTENDS));
    }
    extends.truncate(8);
    records[number].extends = extends;
    let wanted = match shape {
        Shape::Solution if number == 0 => random.between(1, 4),
        Shape::Ladder | Shape::Full | Shape::Chain => random.below(20) / 19,
        _ => *random.pick(&[0, 0, 0, 0, 0, 1, 1, 2]),
    };
    for _ in 0..wanted {
        let aim = random.below(records.len());
        let reference = match aim != number || random.chance(10) {
            true => name(random, &origin, &records[aim].path, true),
            false => continue,
        };
        records[number].references.push(reference);
    }
    if broken(random, shape) {
        let at = random.below(records[number].references.len() + 1);
        records[number].references.insert(at, random.word(BROKEN_REFERENCES));
    }
}

/// A config that claims nothing by itself.
fn emptied(random: &mut Random, record: &mut Record) {
    record.files = Some(vec![]);
    if random.chance(70) {
        record.include = Some(vec![]);
    }
}

/// Lists filled up to what there may be, in some of the records.
fn filled(random: &mut Random, records: &mut [Record]) {
    let at = random.below(records.len());
    let record = &mut records[at];
    match random.below(7) {
        0 => record.files = Some((0..64).map(|number| format!("f{number}.ts")).collect()),
        1 => record.include = Some((0..64).map(|number| format!("s{number}/*")).collect()),
        2 => record.exclude = Some((0..64).map(|number| format!("s{number}")).collect()),
        3 => record.paths = Some((0..32).map(|number| (format!("k{number}*"), vec!["*".to_string(); 8])).collect()),
        4 => {
            let long = Some(vec![format!("{}/{}", "g".repeat(250), "h".repeat(261)); 64]);
            (record.files, record.include, record.exclude) = (long.clone(), long.clone(), long);
        }
        5 => record.root_dirs = Some((0..8).map(|number| format!("r{number}")).collect()),
        _ => record.extends.resize(8, "./none".to_string()),
    }
}

/// The records of a book of this shape, in any order.
pub fn records(random: &mut Random, shape: Shape) -> Vec<Record> {
    let likely = shape.likely();
    let mut records: Vec<Record> = paths(random, shape).into_iter().map(|path| likely.record(random, path)).collect();
    if shape == Shape::Solution && !records.is_empty() {
        emptied(random, &mut records[0]);
    }
    for number in 0..records.len() {
        link(random, shape, &mut records, number);
    }
    if (shape == Shape::Full || random.chance(1)) && !records.is_empty() {
        filled(random, &mut records);
    }
    if random.chance(50) {
        random.shuffle(&mut records);
    }
    records
}
