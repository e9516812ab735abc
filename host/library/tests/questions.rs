//! The questions build, owner and candidates, asked through the public interface.

use std::fs;
use std::path::{Path, PathBuf};

use tsconfig_questions::{
    ASKED_PATH, Book, BookBuf, BookBuilder, Error, Owner, Refusal, answer_line, build, build_into, candidates, candidates_into, form,
    owner, tries,
};

fn repository(file: &str) -> PathBuf {
    Path::new(env!("CARGO_MANIFEST_DIR")).join("../..").join(file)
}

fn read(file: &str) -> Vec<u8> {
    fs::read(repository(file)).unwrap_or_else(|error| panic!("{file}: {error}"))
}

fn book_of(program: &str) -> BookBuf {
    BookBuf { commands: read(&format!("crates/{program}/data/book.cmd")), text: read(&format!("crates/{program}/data/book.txt")) }
}

fn refusal(number: u64, place: u64) -> Error {
    Error::Refused(Refusal { number, place })
}

/// The proved programs answer the same lines by the same functions, without this library. What they say of lines that are no questions, or are
/// too long for them, is passed over.
#[test]
fn lines_are_answered_as_the_proved_programs_answer_them() {
    for program in ["ask", "stations"] {
        let book = book_of(program);
        let questions = read(&format!("crates/{program}/stdin"));
        let lines = questions.split(|byte| *byte == b'\n').filter(|line| line.len() < 4096);
        let answers: Vec<Vec<u8>> = lines.filter_map(|line| answer_line(book.book(), line)).collect::<Result<_, _>>().unwrap();

        let expected = read(&format!("crates/{program}/stdout"));
        let is_answer = |line: &&[u8]| !line.starts_with(b"no question") && !line.starts_with(b"line too long");
        let expected: Vec<&[u8]> = expected.split_inclusive(|byte| *byte == b'\n').filter(is_answer).collect();
        assert_eq!(String::from_utf8(answers.concat()), String::from_utf8(expected.concat()), "{program}");
    }
}

#[test]
fn the_example_is_the_worked_example() {
    assert_eq!(form::parse(include_str!("../examples/stations.book")), Ok(book_of("ask")));
}

#[test]
fn output_exact_and_one_byte_short() {
    let book = book_of("ask");
    let book = book.book();
    let listing = b"include=/t/st/src\nbase=/t\nkey=@f/*\ntarget=/t/filt/*\n";
    let mut out = [b'x'; 52];
    assert_eq!(listing.len(), out.len());
    assert_eq!(build_into(book, b"/t/st", &mut out).unwrap().listing, listing);

    let mut out = [b'x'; 51];
    assert_eq!(build_into(book, b"/t/st", &mut out), Err(refusal(13, 52)));
    assert_eq!(out, [b'x'; 51]);

    let mut out = [b'x'; 14];
    let paths: Vec<&[u8]> = candidates_into(book, b"/t/st", b"@f/band", &mut out).unwrap().collect();
    assert_eq!(paths, [b"/t/filt/band"]);
    let mut out = [b'x'; 13];
    assert_eq!(candidates_into(book, b"/t/st", b"@f/band", &mut out), Err(refusal(13, 14)));
    assert_eq!(out, [b'x'; 13]);
}

/// 8 targets, each 500 bytes long, in 4 keys: no answer fits into the output that is lent at first.
#[test]
fn answers_longer_than_the_first_output() {
    let target = |i: usize| format!("{i}{}/*", "t".repeat(497));
    let mut builder = BookBuilder::new();
    builder.begin("/p/tsconfig.json").unwrap();
    for key in ["a*", "b*", "c*", "d*"] {
        builder.key(key, (0..8).map(target)).unwrap();
    }
    let book = builder.finish();

    let paths = candidates(book.book(), b"/p", b"bz").unwrap();
    let expected: Vec<String> = (0..8).map(|i| format!("/p/{}", target(i).replace('*', "z"))).collect();
    assert_eq!(paths, expected.iter().map(|path| path.as_bytes()).collect::<Vec<_>>());

    let built = build(book.book(), b"/p").unwrap();
    assert_eq!(built.lines().count(), 1 + 4 * 9);
    assert_eq!(built.lines().last().unwrap(), format!("target=/p/{}", target(7)).as_bytes());
    assert_eq!(built.listing.len(), built.lines().map(|line| line.len() + 1).sum::<usize>());
}

#[test]
fn candidates_that_are_empty() {
    let book = form::parse("record /p/tsconfig.json\n  baseUrl \"\"\n  key none\n  key k\n    target \"\"\n    target a\n").unwrap();
    assert_eq!(candidates(book.book(), b"/p", b"k"), Ok(vec![b"".to_vec(), b"a".to_vec()]));
    let book = form::parse("record /p/tsconfig.json\n").unwrap();
    assert_eq!(candidates(book.book(), b"/p", b"k"), Ok(vec![]));
}

/// A refused question about a book, and what is said of it.
fn refused_by(form: &str, line: &str) -> String {
    let book = form::parse(form).unwrap();
    let (letter, path) = line.split_at(2);
    let refused = match letter {
        "B " => build(book.book(), path.as_bytes()).map(drop),
        _ => owner(book.book(), path.as_bytes()).map(drop),
    };
    refused.unwrap_err().to_string()
}

#[test]
fn refusals_of_loading_are_sentences() {
    let a = "record /a.json\nextends ./b\nrecord /b.json\n";
    assert_eq!(
        refused_by(a, "B a"),
        "a path that was asked is not normal or holds `?` or `#`, or a path or the specifier breaks the rule of strings (refusal 7)"
    );
    assert_eq!(refused_by(a, "B /c"), "the asked path means no config of the book (refusal 8)");
    assert_eq!(
        refused_by(&format!("{a}extends ./c"), "B /a"),
        "record 1 extends or references a config that is not in the book (refusal 8)"
    );
    assert_eq!(refused_by(&format!("{a}extends ./a"), "B /a"), "record 0 extends itself, by way of what it extends (refusal 9)");
    assert_eq!(refused_by(&format!("{a}reference ./b"), "B /b"), "record 1 references itself (refusal 10)");
    assert_eq!(refused_by(&format!("{a}extends \"\""), "B /a"), "record 1 has an empty extends entry (refusal 11)");
    assert_eq!(
        refused_by(&format!("{a}extends b"), "B /a"),
        "record 1 has an extends entry that starts with neither `/` nor `.` (refusal 12)"
    );
    assert_eq!(
        refused_by("record /tsconfig.json\nextends ./c", "O /x.ts"),
        "record 0 extends or references a config that is not in the book (refusal 8)"
    );
}

#[test]
fn refusals_of_the_book_are_sentences() {
    let told = |commands: &[u8]| owner(Book { commands, text: b"/a.json" }, b"/a.ts").unwrap_err().to_string();
    let whole: &[u8] = b"\x01\x00\x00\x07\x00\x14";
    assert_eq!(told(&[0; 32_769]), "the book is too large: its commands are over 32,768 bytes or its text is over 65,535 (refusal 1)");
    assert_eq!(told(&whole[..5]), "the commands at offset 5 are no command, are cut short, or leave a record open (refusal 2)");
    assert_eq!(told(&whole[5..]), "the command at offset 0 is out of order, is repeated, or has an id or value out of range (refusal 3)");
    assert_eq!(told(b"\x01\x00\x00\x08\x00\x14"), "the string of the command at offset 0 breaks its rule or leaves the text (refusal 4)");
    let nine = [&whole[..5], &b"\x08\x00\x00\x00\x00".repeat(9), &[0x14]].concat();
    assert_eq!(told(&nine), "the command at offset 45 is one more than there may be (refusal 5)");
    assert_eq!(
        told(&whole.repeat(2)),
        "the command at offset 6 gives a path or a key that was given before, or a path above or below another record's (refusal 6)"
    );
}

#[test]
fn the_place_of_the_asked_path_has_a_name() {
    let book = BookBuf::default();
    assert_eq!(build(book.book(), b"/p"), Err(refusal(8, ASKED_PATH)));
    assert_eq!(owner(book.book(), b"/p"), Ok(None));
}

#[test]
fn an_owner_and_its_solution() {
    let book = form::parse("record /p/tsconfig.json\n files\n reference ./app.json\nrecord /p/app.json\n include src\n").unwrap();
    assert_eq!(owner(book.book(), b"/p/src/a.ts"), Ok(Some(Owner { found: 0, solution: 1 })));
    assert_eq!(owner(book.book(), b"/p/a.ts"), Ok(None));
}

/// Any bytes may be lent.
#[test]
fn no_bytes_stop_a_question() {
    let mut state = 1_u64;
    let mut byte = move || {
        state = state.wrapping_mul(6_364_136_223_846_793_005).wrapping_add(1_442_695_040_888_963_407);
        (state >> 33) as u8
    };
    let mut accepted = 0;
    for length in (0..40).cycle().take(4000) {
        let commands: Vec<u8> = (0..length).map(|_| byte() % 24).collect();
        let text: Vec<u8> = (0..length).map(|_| b"/a.*"[usize::from(byte() % 4)]).collect();
        let path: Vec<u8> = (0..byte() % 4).map(|_| b"/a.\n"[usize::from(byte() % 4)]).collect();
        let book = Book { commands: &commands, text: &text };
        accepted += usize::from(owner(book, &path).is_ok());
        for answer in [build(book, &path).map(drop), candidates(book, &path, &path).map(drop)] {
            assert!(matches!(answer, Err(Error::Refused(_))), "{answer:?}");
        }
    }
    assert!(accepted > 0);
}

/// A chain of 64 configs, and the pattern with the most stars: the calls that go deepest.
#[test]
fn a_stack_of_128_kib_is_enough() {
    let mut builder = BookBuilder::new();
    builder.begin("/tsconfig.json").unwrap().extends("./1").unwrap();
    for i in 1..63 {
        builder.begin(format!("/{i}.json")).unwrap().extends(format!("./{}", i + 1)).unwrap();
    }
    let stars = "*a".repeat(255);
    builder.begin("/63.json").unwrap().include([&stars]).unwrap().base_url("src").unwrap();
    let book = builder.finish();
    let asked = move || {
        let book = book.book();
        assert_eq!(build(book, b"/").unwrap().merges, 63);
        assert_eq!(candidates(book, b"/", b"m"), Ok(vec![b"/src/m".to_vec()]));
        assert_eq!(tries(book, b"/", b"/src", b"m"), Ok(vec![b"/src/m".to_vec()]));
        let file = ["/", &"a".repeat(300), ".ts"].concat();
        assert_eq!(owner(book, file.as_bytes()), Ok(None));
    };
    std::thread::Builder::new().stack_size(128 * 1024).spawn(asked).unwrap().join().unwrap();
}
