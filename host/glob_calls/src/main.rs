//! Counts the calls of the recursive matcher of `crates/matcher`, and looks for the accepted pattern that takes most.
//!
//! `cargo run --release -- [ROUNDS]` runs the hand-made families and then ROUNDS rounds of hill climbing from each of the
//! best of them (default 20000), and prints the worst pattern and path found with their count.
//! `cargo run --release -- check` holds the model to a plain definition of the pattern rules on generated inputs.

const LIMIT: usize = 512;

#[derive(Clone, Copy, PartialEq, Debug)]
enum Verdict {
    Yes,
    No,
    Stop,
    Later,
    Never,
}

enum Front {
    Known(Verdict),
    Star(usize),
    Stars(usize),
}

use Verdict::*;

/// The code of `crates/glob` and `crates/matcher`, function by function, with a count of the calls of `glob`, the function that calls
/// itself, and one of the bytes that the loops pass.
struct Counter {
    calls: u64,
    bytes: u64,
}

impl Counter {
    fn at_star(&mut self, p: &[u8], s: &[u8], i: usize) -> Front {
        let rest = &p[i + 1..];
        if rest.is_empty() || rest[0] != b'*' {
            return Front::Star(i);
        }
        if rest.len() == 1 {
            return Front::Known(if i == s.len() { Never } else { Yes });
        }
        if rest[1] == b'/' { Front::Stars(i) } else { Front::Star(i) }
    }

    fn reach(&mut self, p: &[u8], s: &[u8]) -> Front {
        let mut i = 0;
        while i < p.len() {
            self.bytes += 1;
            let c = p[i];
            if c == b'*' {
                return self.at_star(p, s, i);
            }
            if i == s.len() {
                return Front::Known(Never);
            }
            if !(if c == b'?' { s[i] != b'/' } else { s[i] == c }) {
                return Front::Known(No);
            }
            i += 1;
        }
        Front::Known(if i == s.len() { Yes } else { No })
    }

    fn passed(&mut self, w: &[u8], v: Verdict) -> Verdict {
        let mut u = v;
        for &x in w.iter().rev() {
            self.bytes += 1;
            u = match (x == b'/', u) {
                (true, Stop) => No,
                (true, Later) => Never,
                (false, Later) => No,
                (_, u) => u,
            };
        }
        u
    }

    fn may_begin(p: &[u8], x: u8) -> bool {
        match p.first() {
            None => false,
            Some(b'*') => true,
            Some(b'?') => x != b'/',
            Some(&c) => x == c,
        }
    }

    fn skip(&mut self, p: &[u8], s: &[u8], i: usize) -> usize {
        let mut j = i;
        while j < s.len() && s[j] != b'/' && !Counter::may_begin(p, s[j]) {
            self.bytes += 1;
            j += 1;
        }
        j
    }

    fn glob(&mut self, p: &[u8], s: &[u8]) -> Verdict {
        self.calls += 1;
        match self.reach(p, s) {
            Front::Known(v) => v,
            Front::Star(k) => {
                let (rest, left) = (&p[k + 1..], &s[k..]);
                let mut i = 0;
                loop {
                    i = self.skip(rest, left, i);
                    let v = self.glob(rest, &left[i..]);
                    if matches!(v, Yes | Stop | Never) {
                        return self.passed(&s[..k], v);
                    }
                    if i == left.len() {
                        return self.passed(&s[..k], Never);
                    }
                    if left[i] == b'/' {
                        return self.passed(&s[..k], Stop);
                    }
                    i += 1;
                }
            }
            Front::Stars(k) => {
                let (rest, left) = (&p[k + 3..], &s[k..]);
                let mut i = 0;
                loop {
                    let here = &left[i..];
                    let v = self.glob(rest, here);
                    match v {
                        Yes => return self.passed(&s[..k], Yes),
                        Later | Never => return self.passed(&s[..k], Later),
                        _ => {}
                    }
                    let Some(j) = here.iter().position(|&x| x == b'/') else {
                        return self.passed(&s[..k], Later);
                    };
                    self.bytes += j as u64 + 1;
                    i += j + 1;
                }
            }
        }
    }
}

fn count(p: &[u8], s: &[u8]) -> (u64, u64, bool) {
    let mut counter = Counter { calls: 0, bytes: 0 };
    let v = counter.glob(p, s);
    (counter.calls, counter.bytes, v == Yes)
}

/// At most 512 bytes, and two adjacent stars are a whole component.
fn accepted(p: &[u8]) -> bool {
    p.len() <= LIMIT && p.split(|&c| c == b'/').all(|part| part == b"**" || !part.windows(2).any(|w| w == b"**"))
}

/// A normal path: it starts with a slash, and has no empty component.
fn normal(s: &[u8]) -> bool {
    s.len() <= LIMIT && s.len() > 1 && s[0] == b'/' && s[1..].split(|&c| c == b'/').all(|part| !part.is_empty())
}

/// The rules written down again, over components: for the check of the model.
fn plain(p: &[u8], s: &[u8]) -> bool {
    if p.is_empty() {
        return s.is_empty();
    }
    if p == b"**" {
        return !s.is_empty();
    }
    if p.starts_with(b"**/") {
        return plain(&p[3..], s) || (0..s.len()).any(|i| s[i] == b'/' && plain(&p[3..], &s[i + 1..]));
    }
    match p[0] {
        b'*' => (0..=s.len()).take_while(|&i| i == 0 || s[i - 1] != b'/').any(|i| plain(&p[1..], &s[i..])),
        b'?' => !s.is_empty() && s[0] != b'/' && plain(&p[1..], &s[1..]),
        c => !s.is_empty() && s[0] == c && plain(&p[1..], &s[1..]),
    }
}

struct Random(u64);

impl Random {
    fn below(&mut self, n: usize) -> usize {
        self.0 ^= self.0 << 13;
        self.0 ^= self.0 >> 7;
        self.0 ^= self.0 << 17;
        (self.0 >> 11) as usize % n
    }

    fn text(&mut self, bytes: &[u8], n: usize) -> Vec<u8> {
        (0..n).map(|_| bytes[self.below(bytes.len())]).collect()
    }
}

fn check() {
    let mut random = Random(0x9E3779B97F4A7C15);
    let mut yes = 0;
    for round in 0..3_000_000 {
        let n = random.below(9);
        let p = random.text(b"**ab//?", n);
        let n = random.below(9);
        let s = random.text(b"aab//", n);
        let matched = count(&p, &s).2;
        if matched != plain(&p, &s) {
            panic!("round {round}: {:?} {:?}", String::from_utf8_lossy(&p), String::from_utf8_lossy(&s));
        }
        yes += matched as u32;
    }
    println!("the model agrees with the rules on 3000000 inputs, {yes} of them matches");
}

/// As many repetitions of a unit as fit into n bytes.
fn fill(unit: &[u8], n: usize) -> Vec<u8> {
    unit.iter().copied().cycle().take(n / unit.len() * unit.len()).collect()
}

fn families() -> Vec<(Vec<u8>, Vec<u8>)> {
    let heads: [&[u8]; 8] = [b"", b"/", b"/*", b"**/", b"/**/", b"**/**/", b"**/*/**/", b"/**/*"];
    let units: [&[u8]; 40] = [
        b"a", b"aa", b"*a", b"*?", b"?", b"a*", b"*ab", b"*aa", b"*b", b"*/", b"a/", b"?/", b"*a/", b"a*/", b"?*/", b"*?/", b"*a*/",
        b"*?*/", b"*a*a/", b"*a*a*/", b"*aa/", b"*ab/", b"**/", b"**/a/", b"**/*/", b"**/*a/", b"**/a*/", b"**/*a*/", b"**/*a*a/",
        b"*/*/", b"*/a/", b"*/**/", b"*/*/**/", b"a/*/", b"a/**/", b"a/a/**/", b"*a*/*a*/**/", b"?a/", b"*a?/", b"*a*b*/",
    ];
    let tails: [&[u8]; 11] = [b"", b"b", b"*b", b"ab", b"*", b"/", b"b/", b"**/b", b"*a*b", b"*?b", b"b/**"];
    let path_units: [&[u8]; 14] = [
        b"a", b"a/", b"aa/", b"aaa/", b"ab/", b"ba/", b"aab/", b"aaaa/", b"aaaaaaaa/", b"a/aa/", b"b/a/", b"ab", b"aab", b"abb/",
    ];
    // what stands at the path's end, so that a try fails only there
    let ends: [&[u8]; 4] = [b"", b"b", b"b/b/b/b", b"ab"];
    let mut out = Vec::new();
    for s_unit in path_units {
        for end in ends {
            let mut path = vec![b'/'];
            path.extend(fill(s_unit, LIMIT - 1 - end.len()));
            path.extend(end);
            while path.ends_with(b"/") {
                path.pop();
            }
            for head in heads {
                for unit in units {
                    for tail in tails {
                        for n in [12, 40, 90, 130, 170, 210, 256, 300, 350, 400, 450, LIMIT] {
                            let room = n.min(LIMIT - head.len() - tail.len());
                            let p = [head, &fill(unit, room)[..], tail].concat();
                            if accepted(&p) {
                                out.push((p, path.clone()));
                            }
                        }
                    }
                }
            }
        }
    }
    out
}

fn mutate(random: &mut Random, text: &[u8], bytes: &[u8]) -> Vec<u8> {
    let mut t = text.to_vec();
    for _ in 0..1 + random.below(3) {
        let n = t.len().max(1);
        let at = random.below(n);
        match random.below(6) {
            0 if !t.is_empty() => t[at] = bytes[random.below(bytes.len())],
            1 => t.insert(at.min(t.len()), bytes[random.below(bytes.len())]),
            2 if !t.is_empty() => {
                t.remove(at);
            }
            3 => {
                // a part once more
                let end = (at + 1 + random.below(24)).min(t.len());
                let part = t[at.min(end)..end].to_vec();
                let to = random.below(t.len() + 1);
                t.splice(to..to, part);
            }
            4 => {
                // a part left out
                let end = (at + 1 + random.below(24)).min(t.len());
                t.drain(at.min(end)..end);
            }
            _ => {
                // a part in another place
                let end = (at + 1 + random.below(24)).min(t.len());
                let part: Vec<u8> = t.drain(at.min(end)..end).collect();
                let to = random.below(t.len() + 1);
                t.splice(to..to, part);
            }
        }
    }
    t.truncate(LIMIT);
    t
}

fn climb(random: &mut Random, start: &(Vec<u8>, Vec<u8>), rounds: usize) -> (u64, Vec<u8>, Vec<u8>) {
    let (mut p, mut s) = start.clone();
    let mut best = count(&p, &s).0;
    for _ in 0..rounds {
        let (q, t) = match random.below(3) {
            0 => (mutate(random, &p, b"**a/b?"), s.clone()),
            1 => (p.clone(), mutate(random, &s, b"aab/")),
            _ => (mutate(random, &p, b"**a/b?"), mutate(random, &s, b"aab/")),
        };
        if !accepted(&q) || !normal(&t) {
            continue;
        }
        let calls = count(&q, &t).0;
        if calls >= best {
            (best, p, s) = (calls, q, t);
        }
    }
    (best, p, s)
}

fn show(name: &str, calls: u64, p: &[u8], s: &[u8]) {
    println!("{name}: {calls} calls, {} bytes passed", count(p, s).1);
    println!("  pattern ({}) {}", p.len(), String::from_utf8_lossy(p));
    println!("  path ({}) {}", s.len(), String::from_utf8_lossy(s));
}

fn main() {
    let word = std::env::args().nth(1).unwrap_or_default();
    if word == "check" {
        return check();
    }
    let rounds = word.parse().unwrap_or(20_000);
    let mut tried: Vec<(u64, (Vec<u8>, Vec<u8>))> = families().into_iter().map(|f| (count(&f.0, &f.1).0, f)).collect();
    println!("{} patterns of the families", tried.len());
    tried.sort_by(|a, b| b.0.cmp(&a.0));
    let (calls, (p, s)) = &tried[0];
    show("worst of the families", *calls, p, s);
    let (calls_then, (q, t)) = tried.iter().max_by_key(|(_, (p, s))| count(p, s).1).unwrap();
    show("most bytes passed in the families", *calls_then, q, t);
    let mut random = Random(0x2545F4914F6CDD1D);
    let mut worst = (*calls, p.clone(), s.clone());
    // the best of the families, some further down, and some that start from nothing
    let mut starts: Vec<(Vec<u8>, Vec<u8>)> = tried.iter().take(12).map(|t| t.1.clone()).collect();
    starts.extend(tried.iter().step_by(tried.len() / 24 + 1).map(|t| t.1.clone()));
    for _ in 0..12 {
        let n = 20 + random.below(400);
        let p = random.text(b"*a/?b", n);
        let mut s = vec![b'/'];
        s.extend(fill(b"a/", LIMIT - 1));
        s.pop();
        starts.push((if accepted(&p) { p } else { b"/*".to_vec() }, s));
    }
    for start in &starts {
        let found = climb(&mut random, start, rounds);
        if found.0 > worst.0 {
            worst = found;
        }
    }
    show(&format!("worst found after {rounds} rounds from each of {} starts", starts.len()), worst.0, &worst.1, &worst.2);
    assert!(worst.0 <= 100_000, "over the bound");
}
