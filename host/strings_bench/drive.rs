// The rules of strings, paths and patterns on one text of 512 bytes. `drive` times 6,400 calls of each; `drive RULE KIND COUNT` makes COUNT calls of one, to
// be counted by valgrind. See bench.sh.
use std::hint::black_box;
use std::time::Instant;
#[link(name = "strings_bench", kind = "static")]
extern "C" {
    fn bench_is_string(s: *const u8, n: usize) -> bool;
    fn bench_is_pattern(s: *const u8, n: usize) -> bool;
    fn bench_is_record_path(s: *const u8, n: usize) -> bool;
    fn bench_obeys_lead(s: *const u8, n: usize) -> bool;
    fn bench_is_asked_path(s: *const u8, n: usize) -> bool;
    fn bench_covers(p: *const u8, m: usize, q: *const u8, n: usize) -> bool;
}
fn text(kind: &str) -> Vec<u8> {
    let unit: &[u8] = match kind { "stars" => b"**/", "names" => b"/abcdefg", "short" => b"/a", _ => b"abcdefgh" };
    let mut t: Vec<u8> = unit.iter().copied().cycle().take(512).collect();
    if t[511] == b'/' { t[511] = b'x'; }
    if kind == "stars" { t[510] = b'/'; }
    t
}
fn call(rule: &str, t: &[u8]) -> bool {
    let (p, n) = (t.as_ptr(), t.len());
    unsafe { match rule {
        "string" => bench_is_string(p, n), "pattern" => bench_is_pattern(p, n), "record" => bench_is_record_path(p, n),
        "lead" => bench_obeys_lead(p, n), "asked" => bench_is_asked_path(p, n), "covers" => bench_covers(p, n, p, n), _ => false } }
}
fn main() {
    let args: Vec<String> = std::env::args().collect();
    if args.len() > 3 {
        let t = text(&args[2]);
        let mut good = 0;
        for _ in 0..args[3].parse::<usize>().unwrap() { good += call(black_box(&args[1]), black_box(&t)) as usize; }
        println!("{good}");
        return;
    }
    let mut worst = [0; 2];
    for length in 0..=512 {
        for (k, rule) in ["string", "pattern"].iter().enumerate() {
            let t = &text("stars")[..length];
            let mut best = u128::MAX;
            for _ in 0..20 {
                let start = Instant::now();
                for _ in 0..6400 { black_box(call(black_box(rule), black_box(t))); }
                best = best.min(start.elapsed().as_nanos());
            }
            worst[k] = worst[k].max(best / 1000);
        }
    }
    println!("at most, over the lengths to 512: string {} us, pattern {} us", worst[0], worst[1]);
    for (rule, kind) in [("string", "letters"), ("string", "stars"), ("pattern", "letters"), ("pattern", "stars"), ("record", "names"), ("record", "short"), ("lead", "names"), ("lead", "short"), ("asked", "names"), ("covers", "names")] {
        let t = text(kind);
        let mut best = u128::MAX;
        let mut good = 0;
        for _ in 0..50 {
            let start = Instant::now();
            good = 0;
            for _ in 0..6400 { good += call(black_box(rule), black_box(&t)) as usize; }
            best = best.min(start.elapsed().as_nanos());
        }
        println!("{rule:8} {kind:8} {good:5} good  {:6} us for 6400 of 512 bytes", best / 1000);
    }
}
