//! Asks one question of each kind about `stations.book`, and says the answers in sentences: `cargo run --example stations`.

use std::error::Error;

use tsconfig_questions::{build, candidates, form, owner, tries};

const CONFIG: &[u8] = b"/t/st/tsconfig.json";

fn main() -> Result<(), Box<dyn Error>> {
    let book = form::parse(include_str!("stations.book"))?;
    let book = book.book();

    let built = build(book, CONFIG)?;
    println!("The station's config is record {} (merges: {}):", built.record, built.merges);
    for line in built.lines() {
        println!("  {}", line.escape_ascii());
    }
    for file in ["/t/st/src/a.ts", "/t/st/a.ts"] {
        match owner(book, file.as_bytes())? {
            Some(owner) => println!("{file} is owned by {}.", book.path_of(owner.found).unwrap_or(b"a record").escape_ascii()),
            None => println!("No config owns {file}."),
        }
    }
    println!("There, @f/band stands for:");
    for path in candidates(book, CONFIG, b"@f/band")? {
        println!("  {}", path.escape_ascii());
    }
    println!("From /t/st/src, @f/band is looked for at:");
    for path in tries(book, CONFIG, b"/t/st/src", b"@f/band")? {
        println!("  {}", path.escape_ascii());
    }
    if let Err(error) = build(book, b"/t/bay") {
        println!("/t/bay cannot be built: {error}.");
    }
    Ok(())
}
