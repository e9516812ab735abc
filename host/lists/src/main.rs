//! Writes the lists `one.txt` and `two.txt`: what Rust's own `Path` and the crate's own
//! `normalize_with` answer on fixed texts. README.md tells the fields.
//!
//! The module `path` is the crate's file `path.rs`, unchanged; `make.sh` puts it beside this one.

use std::collections::BTreeSet;
use std::ffi::OsStr;
use std::os::unix::ffi::OsStrExt;
use std::path::{Component, Path, PathBuf};

#[allow(dead_code)]
mod path;
use path::PathUtil;

type Text = Vec<u8>;

/// The longest text that the lists hold.
const LONGEST: usize = 512;
/// The four bytes of the full lists, in their order.
const FOUR: &[u8; 4] = b"/.a*";
/// Stands for "none" and ends a component. No text of the lists holds it.
const MARK: u8 = b'!';

// ---------------------------------------------------------------------------------------------
// Chance with a fixed seed (splitmix64), so that the lists come out the same each time.

struct Chance(u64);

impl Chance {
    fn next(&mut self) -> u64 {
        self.0 = self.0.wrapping_add(0x9E37_79B9_7F4A_7C15);
        let mut z = self.0;
        z = (z ^ (z >> 30)).wrapping_mul(0xBF58_476D_1CE4_E5B9);
        z = (z ^ (z >> 27)).wrapping_mul(0x94D0_49BB_1331_11EB);
        z ^ (z >> 31)
    }

    /// A number below `end`.
    fn below(&mut self, end: usize) -> usize {
        (self.next() % end as u64) as usize
    }

    /// A number from `low` to `high`, both included.
    fn within(&mut self, low: usize, high: usize) -> usize {
        low + self.below(high - low + 1)
    }

    /// True in about `percent` of a hundred cases.
    fn often(&mut self, percent: usize) -> bool {
        self.below(100) < percent
    }

    fn pick<'a, T: ?Sized>(&mut self, from: &[&'a T]) -> &'a T {
        from[self.below(from.len())]
    }
}

// ---------------------------------------------------------------------------------------------
// Texts

/// All texts of up to `longest` bytes over the four bytes, by length and then by their order.
fn all_texts(longest: usize) -> Vec<Text> {
    let mut all: Vec<Text> = vec![Vec::new()];
    let mut from = 0;
    for _ in 0..longest {
        let to = all.len();
        for i in from..to {
            for &b in FOUR {
                let mut t = all[i].clone();
                t.push(b);
                all.push(t);
            }
        }
        from = to;
    }
    all
}

/// Shapes that stand in the lists as they are, whatever their length.
const SHAPES: &[&[u8]] = &[
    b"//u//w",
    b"//u//w/",
    b"///u///w///",
    b"//u",
    b"/u",
    b"/u/",
    b"/u/w",
    b"/u/w/",
    b"/u/w//",
    b"/u/w/.",
    b"/u/w/./",
    b"/u/w/./.",
    b"/u/w/..",
    b"/u/w/../",
    b"/u/w/../.",
    b"/u/w/./..",
    b"/u/./w",
    b"/u/../w",
    b"/./u/w",
    b"/../u/w",
    b"./u/w",
    b"../u/w",
    b"././u/w",
    b"./../u/w",
    b"u/w",
    b"u/w/",
    b"u//w",
    b"u/./w",
    b"u/../w",
    b"/p",
    b"/p/",
    b"/p/x/../y/",
    b"/p/x/../y",
    b"/u/../v",
    b"/p/./k.ts",
    b"//p/k.ts",
    b"/p/k.ts/",
    b"/p/k.ts",
    b"/p/k.ts/.",
    b"/p/k.ts/..",
    b"/p/tsconfig.json",
    b"/tsconfig.json",
    b"/t/st/../base.json",
    b"../base.json",
    b"./tsconfig",
    b"./d",
    b"./d.json",
    b".ts",
    b"..ts",
    b"...ts",
    b"x.",
    b"x..",
    b"x.ts",
    b"x.TS",
    b"x.ts.",
    b".x",
    b".x.",
    b".x.y",
    b"..x",
    b"..d",
    b"...",
    b"....",
    b"a.b.c",
    b".a.b.c",
    b"/p/.ts",
    b"/p/..ts",
    b"/p/x.",
    b"/p/x.vue",
    b"/p/x.*",
    b"/p/...",
    b"/p/..d",
    b"/p/.x",
    b"/p/a.b.c",
    b"/p/a.d.ts",
    b"/p/a.b.c/",
    b"/p/a.b.c/.",
    b"./",
    b"././",
    b"./.",
    b".//",
    b".//.//",
    b"../",
    b"../..",
    b"../../",
    b"..//..//",
    b"./..",
    b"../.",
    b"./../.",
    b"/.",
    b"/..",
    b"/./",
    b"/../",
    b"/../..",
    b"//..",
    b"//.",
    b"// .",
    b"/. ",
    b"/.. ",
    b" ",
    b" /x",
    b"x ",
    b"${configDir}",
    b"${configDir}/",
    b"${configDir}/x",
    b"${configDir}//x/../y/",
    b"${configDir}x",
    b"${configDir}/**",
    b"/p/${configDir}/x",
    b"node_modules",
    b"/node_modules",
    b"/node_modules/",
    b"/node_modules/.",
    b"/node_modules/..",
    b"/p/node_modules",
    b"/p/node_modules/x",
    b"/p/node_modules/x/y.ts",
    b"/p/node_modules/../x",
    b"/p//node_modules//x",
    b"./node_modules/x",
    b"../node_modules",
    b"node_modules/x/node_modules",
    b"/p/node_modules.x/y",
    b"/p/x.node_modules/y",
    b"/p/.node_modules/y",
    b"/p/my_node_modules/y",
    b"/p/node_modules_/y",
    b"/p/node_modulesx",
    b"/p/node_module/s",
    b"/p/node_module",
    b"/p/ode_modules",
    b"/p/node_modules /y",
    b"/p/NODE_MODULES/y",
    b"/p/Node_Modules/y",
    b"/p/node_module\xF3/y",
    b"/p/node_modules\x00/y",
    b"/p/node\\modules/y",
    b"C:",
    b"C:/x",
    b"C:\\x\\y",
    b"\\\\server\\share",
    b"\\",
    b"/\\",
    b"/p\\x/y",
    b"http://h/x",
    b"x?y#z",
    b"/p/x?y",
    b"/p/x#y",
    b"\x00",
    b"/\x00",
    b"/\x00/..",
    b"\x80",
    b"\xFF",
    b"/\xFF/\x80",
    b"\xFF/..",
    b"\xC3\xA4/\xE2\x82\xAC.ts",
    b"/p/\xC3.\xA4",
    b"/p/x.\xFF",
    b"/p/\xAE\xAE/x",
    b"/p/\xAFx",
    b"\xEF\xBC\x8F/x",
    b"\x2F\x0D",
    b"x\x0D",
    b"x.\x0D",
    b"\x7F.\x7F",
    b"\x1B/\x08",
];

/// Names of one component.
const NAMES: &[&[u8]] = &[
    b"a", b"b", b"u", b"w", b"p", b"x", b"y", b"src", b"gen", b"lib", b"dist", b"app", b"pkg",
    b"packages", b"core", b"tsconfig.json", b"base.json", b"index.ts", b"main.tsx", b"k.ts",
    b"x.TS", b"a.b.c", b"a.d.ts", b"q.vue", b"z.mjs", b"x.", b"x..", b".x", b".ts", b"..ts",
    b"..d", b"...", b"....", b".git", b"..x.y", b"*", b"*.ts", b"a*b", b"**", b"@f", b"@scope",
    b"${configDir}", b"${x}", b"node_modules", b"node_modules", b"NODE_MODULES", b"node_modules.x",
    b"x.node_modules", b"_node_modules", b"node_module", b"ode_modules", b" ", b"a b", b". ",
    b".. ", b"-", b"~", b"\\", b"\\..", b"a\\b", b"\xC3\xA4", b"\xE2\x82\xAC.ts", b"\xFF",
    b"\x80.\x80", b"\xAE", b"\xAE\xAE", b"\x00", b".\x00", b"\x0D", b"\x7F",
];

/// Names that a real project has, for normal paths.
const PLAIN: &[&[u8]] = &[
    b"home", b"me", b"proj", b"app", b"src", b"lib", b"dist", b"packages", b"core", b"ui", b"test",
    b"node_modules", b"index.ts", b"main.tsx", b"util.d.ts", b"view.vue", b".git", b".cache",
    b"..d", b"...", b"x.", b"tsconfig.json", b"tsconfig.base.json", b"a", b"b", b"c", b"a-b",
    b"a_b", b"@scope", b"v1.2.3", b"my node_modules",
];

/// What stands between two names.
const BETWEEN: &[&[u8]] = &[
    b"/", b"/", b"/", b"/", b"/", b"//", b"///", b"/./", b"/../", b"/././", b"/../../", b"/.//",
    b"/./../",
];

const START: &[&[u8]] = &[
    b"", b"", b"", b"/", b"/", b"/", b"/", b"//", b"///", b"./", b"././", b"../", b"../../",
    b"./../", b"/./", b"/../", b".//", b"..//", b"${configDir}/", b"${configDir}//",
];

const END: &[&[u8]] = &[
    b"", b"", b"", b"", b"", b"/", b"/", b"//", b"/.", b"/./", b"/..", b"/../", b"/./.", b"/../..",
    b"/...", b"/..d", b"/.x", b"/.ts", b"/..ts", b"/x.", b"/a.b.c", b".", b"..", b".ts",
];

/// Any byte but tab, line end and the mark.
fn any_byte(chance: &mut Chance) -> u8 {
    loop {
        let b = chance.below(256) as u8;
        if !matches!(b, 0x09 | 0x0A | MARK) {
            return b;
        }
    }
}

/// A byte for the inside of a name: any, but often one that means something in paths.
fn name_byte(chance: &mut Chance) -> u8 {
    if chance.often(25) {
        return b'.';
    }
    if chance.often(50) {
        return b'a' + chance.below(26) as u8;
    }
    loop {
        let b = any_byte(chance);
        if b != b'/' {
            return b;
        }
    }
}

fn name(chance: &mut Chance) -> Text {
    if chance.often(75) {
        return chance.pick(NAMES).to_vec();
    }
    let n = chance.within(1, 9);
    (0..n).map(|_| name_byte(chance)).collect()
}

/// A text of names with all kinds of starts, separators and ends.
fn wild(chance: &mut Chance, names: usize) -> Text {
    let mut t = chance.pick(START).to_vec();
    for i in 0..names {
        if i > 0 {
            t.extend_from_slice(chance.pick(BETWEEN));
        }
        t.extend(name(chance));
    }
    t.extend_from_slice(chance.pick(END));
    t
}

/// A normal path.
fn tidy(chance: &mut Chance, names: usize) -> Text {
    let mut t = Text::new();
    for _ in 0..names {
        t.push(b'/');
        if chance.often(85) {
            t.extend_from_slice(chance.pick(PLAIN));
        } else {
            let n = chance.within(3, 12);
            t.extend((0..n).map(|_| b'a' + chance.below(26) as u8));
        }
    }
    t
}

/// Mostly slashes and dots.
fn dotty(chance: &mut Chance, length: usize) -> Text {
    (0..length).map(|_| *b"//..../aab*".get(chance.below(11)).unwrap()).collect()
}

/// A text of exactly `length` bytes: long ones are cut, short ones grow.
fn exactly(chance: &mut Chance, length: usize, mut t: Text) -> Text {
    while t.len() < length {
        t.extend_from_slice(chance.pick(BETWEEN));
        t.extend(name(chance));
    }
    t.truncate(length);
    t
}

/// The same text with its last bytes replaced.
fn ending(mut t: Text, end: &[u8]) -> Text {
    let keep = t.len() - end.len();
    t.truncate(keep);
    t.extend_from_slice(end);
    t
}

/// Another text with the same components: slashes doubled, `.` put in, an end added.
fn same_components(chance: &mut Chance, t: &[u8]) -> Text {
    let mut s = Text::new();
    for (i, &b) in t.iter().enumerate() {
        s.push(b);
        if b == b'/' {
            // A piece `.` after a slash means nothing.
            match chance.below(5) {
                0 => s.push(b'/'),
                1 => s.extend_from_slice(b"./"),
                2 if i > 0 => s.extend_from_slice(b"/.//"),
                _ => {}
            }
        }
    }
    if !s.is_empty() {
        let ends: [&[u8]; 6] = [b"", b"", b"/", b"/.", b"//", b"/./"];
        s.extend_from_slice(chance.pick(&ends));
    }
    s
}

// ---------------------------------------------------------------------------------------------
// Answers

fn at(t: &[u8]) -> &Path {
    Path::new(OsStr::from_bytes(t))
}

fn bytes(p: &Path) -> &[u8] {
    p.as_os_str().as_bytes()
}

fn bit(b: bool) -> Text {
    vec![if b { b'1' } else { b'0' }]
}

fn or_mark(o: Option<&[u8]>) -> Text {
    o.map_or_else(|| vec![MARK], <[u8]>::to_vec)
}

/// What `PathBuf::pop` leaves of the text.
fn parent(t: &[u8]) -> Text {
    let mut p: PathBuf = at(t).to_path_buf();
    let popped = p.pop();
    let left = bytes(&p).to_vec();
    assert_eq!(popped, at(t).parent().is_some());
    assert_eq!(left, at(t).parent().map_or(t, bytes));
    left
}

fn components(t: &[u8]) -> Text {
    let mut s = Text::new();
    for c in at(t).components() {
        s.extend_from_slice(c.as_os_str().as_bytes());
        s.push(MARK);
    }
    s
}

/// "A normal path starts with `/` and has no empty, `.` or `..` component and no final `/`,
/// except `/` itself." The components of this sentence are the pieces between slashes.
fn normal(t: &[u8]) -> bool {
    if t == b"/" {
        return true;
    }
    let Some(rest) = t.strip_prefix(b"/") else { return false };
    rest.split(|&b| b == b'/').all(|piece| !matches!(piece, b"" | b"." | b".."))
}

/// Some component is the name node_modules.
fn inside_node_modules(t: &[u8]) -> bool {
    let by_components =
        at(t).components().any(|c| c == Component::Normal(OsStr::from_bytes(b"node_modules")));
    // The crate asks the file name of the path and of each of its parents.
    let by_parents = at(t).ancestors().any(|p| p.file_name() == Some(OsStr::new("node_modules")));
    assert_eq!(by_components, by_parents);
    by_components
}

fn line(out: &mut Text, fields: &[Text]) {
    for (i, f) in fields.iter().enumerate() {
        assert!(!f.contains(&b'\t') && !f.contains(&b'\n'));
        if i > 0 {
            out.push(b'\t');
        }
        out.extend_from_slice(f);
    }
    out.push(b'\n');
}

fn line_of_one(out: &mut Text, t: &[u8]) {
    assert!(t.len() <= LONGEST && !t.contains(&MARK));
    let p = at(t);
    line(
        out,
        &[
            t.to_vec(),
            parent(t),
            components(t),
            or_mark(p.file_name().map(OsStr::as_bytes)),
            or_mark(p.extension().map(OsStr::as_bytes)),
            bit(normal(t)),
            bit(inside_node_modules(t)),
        ],
    );
}

fn line_of_two(out: &mut Text, a: &[u8], b: &[u8]) {
    assert!(a.len() <= LONGEST && !a.contains(&MARK));
    assert!(b.len() <= LONGEST && !b.contains(&MARK));
    let (p, q) = (at(a), at(b));
    line(
        out,
        &[
            a.to_vec(),
            b.to_vec(),
            bytes(&p.join(q)).to_vec(),
            bytes(&p.normalize_with(q)).to_vec(),
            bit(p == q),
            bit(p.starts_with(q)),
            or_mark(p.strip_prefix(q).ok().map(bytes)),
        ],
    );
}

// ---------------------------------------------------------------------------------------------
// The two lists

fn list_of_one() -> (Text, [usize; 3]) {
    let mut out = Text::new();
    let mut seen: BTreeSet<Text> = BTreeSet::new();
    let mut counts = [0; 3];

    for t in all_texts(6) {
        line_of_one(&mut out, &t);
        seen.insert(t);
        counts[0] += 1;
    }
    for t in SHAPES {
        if seen.insert(t.to_vec()) {
            line_of_one(&mut out, t);
            counts[1] += 1;
        }
    }

    let mut chance = Chance(0x6A75_7370_6C61_766F);
    let mut add = |t: Text| -> bool {
        let fits = (7..=LONGEST).contains(&t.len()) && seen.insert(t.clone());
        if fits {
            line_of_one(&mut out, &t);
            counts[2] += 1;
        }
        fits
    };

    // Exactly 512 bytes and a little below, with each kind of end.
    let ends: [&[u8]; 16] = [
        b"", b"/", b"//", b"/.", b"/./", b"/..", b"/../", b"/x", b"/x.", b"/.x", b"/..ts",
        b"/a.b.c", b"/node_modules", b"node_modules", b"/NODE_MODULES", b"/\xFF",
    ];
    for (i, end) in ends.iter().enumerate() {
        let length = if i % 4 == 3 { LONGEST - 1 } else { LONGEST };
        let t = match i % 3 {
            0 => tidy(&mut chance, 90),
            1 => wild(&mut chance, 60),
            _ => dotty(&mut chance, LONGEST),
        };
        let t = exactly(&mut chance, length, t);
        add(ending(t, end));
    }
    add(vec![b'/'; LONGEST]);
    add(vec![b'.'; LONGEST]);
    add(vec![b'a'; LONGEST]);
    add([b"/".as_slice(), &vec![b'a'; LONGEST - 1]].concat());
    add([&vec![b'a'; LONGEST - 1], b"/".as_slice()].concat());
    add(b"/.".repeat(LONGEST / 2));
    add(b"./".repeat(LONGEST / 2));
    add(b"../.".repeat(LONGEST / 4));
    add(b"/a".repeat(LONGEST / 2));
    add(b"a/".repeat(LONGEST / 2));

    let mut left = 1_475;
    while left > 0 {
        let t = match chance.below(100) {
            0..=54 => {
                let n = chance.within(1, 7);
                wild(&mut chance, n)
            }
            55..=74 => {
                let n = chance.within(1, 9);
                tidy(&mut chance, n)
            }
            75..=86 => {
                let n = chance.within(7, 24);
                dotty(&mut chance, n)
            }
            87..=93 => {
                let n = chance.within(7, 30);
                (0..n).map(|_| if chance.often(20) { b'/' } else { name_byte(&mut chance) }).collect()
            }
            94..=97 => {
                let n = chance.within(8, 25);
                wild(&mut chance, n)
            }
            _ => {
                let n = chance.within(100, LONGEST);
                let t = wild(&mut chance, 9);
                exactly(&mut chance, n, t)
            }
        };
        if add(t) {
            left -= 1;
        }
    }
    (out, counts)
}

/// Shapes of which each ordered pair stands in the list of pairs.
const CROSSED: &[&[u8]] = &[
    b"",
    b".",
    b"..",
    b"/",
    b"//",
    b"./",
    b"././",
    b"/u",
    b"/u/w",
    b"/u/w/",
    b"/u/w/.",
    b"/u/w/..",
    b"//u//w",
    b"/u/./w",
    b"u",
    b"./u",
    b"u/w/.",
    b"../*",
    b"../../*",
    b"src/*",
    b".ts",
    b"...",
    b"node_modules",
];

/// Pairs that stand in the list as they are.
const PAIRS: &[(&[u8], &[u8])] = &[
    (b"/a/b", b"../c"),
    (b"/a", b""),
    (b"/", b"../z"),
    (b"/a", b"/u/../v"),
    (b"/ab", b"/a"),
    (b"/a", b"/ab"),
    (b"/p", b"src/"),
    (b"/p/", b"src"),
    (b"/p", b"."),
    (b"/p", b"./"),
    (b"/p", b"./tsconfig"),
    (b"/p/", b""),
    (b"/p", b"x/../y/"),
    (b"/p", b"./x/./y/."),
    (b"/p", b"x//y"),
    (b"/p", b"../../../z"),
    (b"/p/x/..", b"../y"),
    (b"/p/x/.", b"../y"),
    (b"/p/..", b".."),
    (b"p", b"../y"),
    (b"p", b"../../y"),
    (b"..", b"../y"),
    (b"../..", b".."),
    (b".", b".."),
    (b"./", b"x"),
    (b"./.", b"x"),
    (b"//", b"x"),
    (b"//", b".."),
    (b"//p", b".."),
    (b"//p", b"../x"),
    (b"///p//", b"../x"),
    (b"/t/st", b"../base.json"),
    (b"/t", b"filt/*"),
    (b"/u/w/", b"x"),
    (b"/u/w/.", b"x"),
    (b"/u/w/..", b"x"),
    (b"/p/./k.ts", b"/p/k.ts"),
    (b"//p/k.ts", b"/p/k.ts"),
    (b"/p/k.ts/", b"/p/k.ts"),
    (b"/p/k.ts", b"/p/k.ts/"),
    (b"/p/k.ts/.", b"/p/k.ts"),
    (b"/p/x/../k.ts", b"/p/k.ts"),
    (b"/p/src", b"/p/src/"),
    (b"/p/src/a.ts", b"/p/src/"),
    (b"/p/src/a.ts", b"/p/src"),
    (b"/p/src/a.ts", b"/p/./src"),
    (b"/p/src/a.ts", b"/p/sr"),
    (b"/p/src/a.ts", b"p/src"),
    (b"/p/src/a.ts", b"/"),
    (b"/p/src/a.ts", b"//"),
    (b"/p/src/a.ts", b""),
    (b"/p/src/a.ts", b"."),
    (b"/p/src/a.ts/", b"/p/src"),
    (b"/p/src//a.ts/.", b"/p/src"),
    (b"/p/src/./a.ts", b"/p/src/."),
    (b"/p/src/../a.ts", b"/p/src"),
    (b"/p/src/../a.ts", b"/p/src/.."),
    (b"/p/src", b"/p/src/a.ts"),
    (b"./p/src", b"p"),
    (b"p/src", b"./p"),
    (b"./p/src", b"."),
    (b"./p/src", b"./p"),
    (b"././p/src", b"./p"),
    (b"p/./src", b"p/src"),
    (b"/./p", b"/p"),
    (b"/x*", b"a*"),
    (b"${configDir}", b"x"),
    (b"/p", b"${configDir}/x"),
    (b"/p", b"..."),
    (b"/p", b"..d"),
    (b"/p", b".x"),
    (b"/p", b".. "),
    (b"/p", b"\\..\\x"),
    (b"/p/x", b"..\\y"),
    (b"/P", b"/p"),
    (b"/p/\xFF", b"/p/\xFF"),
    (b"/p/\xFF", b"/p/\xFE"),
    (b"/p/\xFF/\x80", b"../\x81"),
    (b"\xC3\xA4", b"a\xCC\x88"),
    (b"/p\x00", b"/p"),
    (b"/p/\x00/x", b"/p/\x00"),
];

fn list_of_two() -> (Text, [usize; 3]) {
    let mut out = Text::new();
    let mut seen: BTreeSet<(Text, Text)> = BTreeSet::new();
    let mut counts = [0; 3];

    let small = all_texts(3);
    for a in &small {
        for b in &small {
            line_of_two(&mut out, a, b);
            seen.insert((a.clone(), b.clone()));
            counts[0] += 1;
        }
    }
    let crossed = CROSSED.iter().flat_map(|&a| CROSSED.iter().map(move |&b| (a, b)));
    for (a, b) in crossed.chain(PAIRS.iter().copied()) {
        if seen.insert((a.to_vec(), b.to_vec())) {
            line_of_two(&mut out, a, b);
            counts[1] += 1;
        }
    }

    let mut chance = Chance(0x7265_6163_6865_7321);
    let mut add = |a: Text, b: Text| -> bool {
        let fits = a.len() <= LONGEST
            && b.len() <= LONGEST
            && (a.len() > 3 || b.len() > 3)
            && seen.insert((a.clone(), b.clone()));
        if fits {
            line_of_two(&mut out, &a, &b);
            counts[2] += 1;
        }
        fits
    };

    // Both near 512 bytes.
    let long = {
        let t = tidy(&mut chance, 90);
        ending(exactly(&mut chance, LONGEST, t), b"/last")
    };
    let messy = {
        let t = wild(&mut chance, 60);
        [b"/".as_slice(), &exactly(&mut chance, LONGEST - 1, t)].concat()
    };
    let loose = {
        let t = wild(&mut chance, 60);
        [b"r/".as_slice(), &exactly(&mut chance, LONGEST - 2, t)].concat()
    };
    add(long.clone(), long.clone());
    add(long.clone(), ending(long.clone(), b"s"));
    add(long.clone(), ending(long.clone(), b"/"));
    add(long.clone(), long[..LONGEST - 5].to_vec());
    add(long.clone(), long[..LONGEST - 4].to_vec());
    add(long.clone(), long[..LONGEST - 1].to_vec());
    add(long[..LONGEST - 5].to_vec(), long.clone());
    add(long.clone(), loose.clone());
    add(long.clone(), long[1..].to_vec());
    add(long[1..].to_vec(), long.clone());
    add(long.clone(), b"../".repeat(170));
    add(b"/a".repeat(256), b"../".repeat(170));
    add(b"a/".repeat(256), b"/a".repeat(256));
    add(b"a/".repeat(256), b"a/./".repeat(128));
    add(b"/a".repeat(256), b"//a/".repeat(128));
    add(b"/a".repeat(255), b"/./a".repeat(128));
    add(b"/a".repeat(256), b"/./a".repeat(128));
    add(messy.clone(), messy.clone());
    add(messy.clone(), loose.clone());
    add(loose.clone(), messy.clone());
    add(loose.clone(), loose.clone());
    add(vec![b'/'; LONGEST], vec![b'/'; LONGEST - 1]);
    add(vec![b'a'; LONGEST], vec![b'a'; LONGEST]);
    add(vec![b'a'; LONGEST], vec![b'a'; LONGEST - 1]);

    let mut left = 1_700;
    while left > 0 {
        // The first text of the pair.
        let n = chance.within(1, 5);
        let a = match chance.below(100) {
            0..=44 => wild(&mut chance, n),
            45..=79 => tidy(&mut chance, n),
            80..=89 => {
                let n = chance.within(4, 14);
                dotty(&mut chance, n)
            }
            _ => chance.pick(SHAPES).to_vec(),
        };
        let (mut a, mut b) = match chance.below(14) {
            // One under the other, by names that follow.
            0 | 1 => {
                let n = chance.within(1, 3);
                let more = wild(&mut chance, n);
                let mut b = a.clone();
                b.push(b'/');
                b.extend(more);
                (b, a)
            }
            // The same components by another text.
            2 | 3 => {
                let b = same_components(&mut chance, &a);
                (a, b)
            }
            // One under the other, by another text.
            4 => {
                let mut b = same_components(&mut chance, &a);
                b.push(b'/');
                let n = chance.within(1, 2);
                let more = tidy(&mut chance, n);
                b.extend_from_slice(&more[1..]);
                (b, a)
            }
            // Differing in the last byte, or longer by one byte.
            5 => {
                let mut b = a.clone();
                match chance.below(3) {
                    0 => b.push(name_byte(&mut chance)),
                    1 => {
                        b.pop();
                    }
                    _ => {
                        b.pop();
                        b.push(name_byte(&mut chance));
                    }
                }
                (a, b)
            }
            // Differing in one byte anywhere.
            6 => {
                let mut b = a.clone();
                if !b.is_empty() {
                    let i = chance.below(b.len());
                    b[i] = *b"/.a*\xFF".get(chance.below(5)).unwrap();
                }
                (a, b)
            }
            // Absolute and relative forms of the same names.
            7 => {
                let mut b = a.clone();
                if b.first() == Some(&b'/') {
                    b.remove(0);
                } else {
                    b.insert(0, b'/');
                }
                if chance.often(30) {
                    let mut c = b"./".to_vec();
                    c.extend(b);
                    b = c;
                }
                (a, b)
            }
            // A cut of the first, at a slash or anywhere.
            8 => {
                let cut = chance.below(a.len() + 1);
                let cut = if chance.often(60) {
                    a[..cut].iter().rposition(|&b| b == b'/').map_or(cut, |i| i + chance.below(2))
                } else {
                    cut
                };
                let b = a[..cut].to_vec();
                (a, b)
            }
            // Steps up, then names.
            9 | 10 => {
                let ups: [&[u8]; 8] =
                    [b"..", b"../", b"./..", b"../..", b"../.", b"..//..", b"../../..", b"./"];
                let mut b = chance.pick(&ups).to_vec();
                if chance.often(70) {
                    if b.last() != Some(&b'/') {
                        b.push(b'/');
                    }
                    b.extend(name(&mut chance));
                    b.extend_from_slice(chance.pick(END));
                }
                (a, b)
            }
            // A shape of the fixed ones.
            11 => {
                let b = chance.pick(SHAPES).to_vec();
                (a, b)
            }
            // Unrelated.
            _ => {
                let n = chance.within(1, 4);
                let b = wild(&mut chance, n);
                (a, b)
            }
        };
        if chance.often(35) {
            std::mem::swap(&mut a, &mut b);
        }
        if add(a, b) {
            left -= 1;
        }
    }
    (out, counts)
}

fn main() {
    let folder = PathBuf::from(std::env::args_os().nth(1).expect("the folder for the lists"));
    for (file, (text, counts)) in [("one.txt", list_of_one()), ("two.txt", list_of_two())] {
        std::fs::write(folder.join(file), &text).expect("the list can be written");
        let lines = counts.iter().sum::<usize>();
        assert_eq!(lines, text.iter().filter(|&&b| b == b'\n').count());
        println!(
            "{file}: {lines} lines ({} full, {} named, {} by chance), {} bytes",
            counts[0],
            counts[1],
            counts[2],
            text.len()
        );
    }
}
