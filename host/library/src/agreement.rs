//! What the builder refuses and what the proved check refuses is the same.

use crate::builder::{BookBuf, BookBuilder};
use crate::command::{FLAGS, Field, Operands, TEXT_OPTIONS};
use crate::error::Error;
use crate::made::{self, Made, Random};
use crate::questions::owner;

/// The refusal of a book by the check, with its place.
fn checked(book: &BookBuf) -> Option<(u64, u64)> {
    match owner(book.book(), b"/") {
        Err(Error::Refused(refusal)) if refusal.number <= 6 => Some((refusal.number, refusal.place)),
        Ok(_) | Err(Error::Refused(_)) => None,
        Err(error) => panic!("{error}"),
    }
}

/// Gives commands to the builder and to the check, which must stop at the same command by the same number: that number. A record that is open
/// after the last command is ended for both.
fn judged(commands: &[Made]) -> Option<u64> {
    let mut builder = BookBuilder::new();
    let mut place = 0;
    for command in commands {
        if let Err(error) = builder.push(&command.lent()) {
            let number = error.number();
            let place = if number == 1 { 0 } else { place };
            assert_eq!(checked(&made::encode(commands)), Some((number, place)), "{error}");
            return Some(number);
        }
        place += 1 + command.field.operands().width() as u64;
    }
    let mut ended = commands.to_vec();
    if commands.last().is_some_and(|last| last.field != Field::End) {
        ended.push(Made::plain(Field::End));
    }
    assert_eq!(checked(&made::encode(&ended)), None, "{commands:?}");
    assert_eq!(checked(&builder.finish()), None, "{commands:?}");
    None
}

fn begin() -> Made {
    Made::with(Field::Begin, "/p/tsconfig.json")
}

/// A record with one field, and what that field needs before it.
fn record_with(field: Field, string: &[u8]) -> Vec<Made> {
    let mut commands = vec![begin()];
    match field {
        Field::Begin => commands.clear(),
        Field::Target => commands.extend([Made::plain(Field::Paths), Made::with(Field::Key, "k")]),
        _ => commands.extend(field.opener().map(Made::plain)),
    }
    commands.push(Made::with(field, string));
    commands
}

fn fields_with_strings() -> impl Iterator<Item = Field> {
    Field::ALL.into_iter().filter(|field| matches!(field.operands(), Operands::String | Operands::IdAndString))
}

#[test]
fn books_made_at_random() {
    let mut found = [0; 7];
    for seed in 0..4000 {
        let commands = made::commands(&mut Random::new(seed));
        found[judged(&commands).unwrap_or(0) as usize] += 1;
    }
    // Each verdict of a command is met, and many books are accepted.
    assert!(found[0] > 500 && found[3] > 100 && found[4] > 100 && found[5] > 20 && found[6] > 20, "{found:?}");
}

#[test]
fn each_list_at_its_limit_and_one_over() {
    for (field, most) in Field::ALL.into_iter().filter_map(|field| Some((field, field.most()?))) {
        let mut commands = record_with(field, b"0");
        commands.extend((1..most).map(|i| Made::with(field, i.to_string())));
        assert_eq!(judged(&commands), None, "{most} of {field:?}");
        commands.push(Made::with(field, most.to_string()));
        assert_eq!(judged(&commands), Some(5), "one more of {field:?}");
    }
}

#[test]
fn records_at_their_limit_and_one_over() {
    let record = |i| [Made::with(Field::Begin, format!("/{i}.json")), Made::plain(Field::End)];
    let mut commands: Vec<Made> = (0..64).flat_map(record).collect();
    assert_eq!(judged(&commands), None);
    commands.extend(record(64));
    assert_eq!(judged(&commands), Some(5));
}

#[test]
fn strings_at_their_limit_and_one_over() {
    for field in fields_with_strings() {
        let mut string = vec![b'a'; 512];
        string[0] = b'/';
        assert_eq!(judged(&record_with(field, &string)), None, "{field:?}");
        string.push(b'a');
        assert_eq!(judged(&record_with(field, &string)), Some(4), "{field:?}");
    }
}

#[test]
fn each_byte_in_each_string() {
    for field in fields_with_strings() {
        for byte in 0..=255 {
            let refused = judged(&record_with(field, &[b'/', b'a', byte]));
            let plain = (0x20..=0x7e).contains(&byte) && byte != b'\\';
            assert!(plain || refused == Some(4), "{byte:02X} in {field:?}");
        }
    }
}

#[test]
fn strings_with_rules_of_their_own() {
    let cases: [(Field, &[&str], &[&str]); 3] = [
        (
            Field::Begin,
            &["/a", "/a/b.json", "/.a", "/...", "/a b"],
            &["", "/", "a", "./a", "/a/", "//a", "/a//b", "/.", "/a/./b", "/..", "/a/.."],
        ),
        (Field::Extends, &["", "a", "./a/", "..//a", "/", "/a", "/a*"], &["//", "/a/", "/a//b", "/./a", "/a/.."]),
        (
            Field::IncludeItem,
            &["", "**", "**/*", "a/**", "*a*", "*/*", "${configDir}", "${configDir}**", "${configDir}/**", "$a"],
            &["***", "a**", "**a", "a/**b", "${configDir}a**", "a${configDir}", "${configDir}{", "{", "}", "[", "]", "!"],
        ),
    ];
    for (field, accepted, refused) in cases {
        let twin = match field {
            Field::Extends => Field::Reference,
            Field::IncludeItem => Field::ExcludeItem,
            other => other,
        };
        for field in [field, twin] {
            for string in accepted {
                assert_eq!(judged(&record_with(field, string.as_bytes())), None, "{field:?} {string}");
            }
            for string in refused {
                assert_eq!(judged(&record_with(field, string.as_bytes())), Some(4), "{field:?} {string}");
            }
        }
    }
}

#[test]
fn ids_at_their_limit_and_one_over() {
    for (field, names) in [(Field::Flag, &FLAGS[..]), (Field::Text, &TEXT_OPTIONS[..])] {
        let option = |id| Made { id, ..Made::plain(field) };
        let mut commands = vec![begin()];
        commands.extend((0..names.len()).map(|id| option(id as u8)));
        assert_eq!(judged(&commands), None, "{field:?}");
        commands.push(option(names.len() as u8));
        assert_eq!(judged(&commands), Some(3), "{field:?}");
    }
    assert_eq!(judged(&[begin(), Made { value: 1, ..Made::plain(Field::Flag) }]), None);
    assert_eq!(judged(&[begin(), Made { value: 2, ..Made::plain(Field::Flag) }]), Some(3));
}

#[test]
fn what_comes_once_comes_twice() {
    for field in Field::ALL.into_iter().filter(|field| field.most().is_none() && *field != Field::Begin) {
        let mut commands = vec![begin(), Made::plain(field)];
        assert_eq!(judged(&commands), None, "{field:?}");
        commands.push(Made::plain(field));
        assert_eq!(judged(&commands), Some(3), "{field:?}");
    }
    assert_eq!(judged(&[begin(), begin()]), Some(3));
}

#[test]
fn each_order_of_two_and_three_commands() {
    let plain = |field| Made::with(field, if field == Field::Begin { "/a.json" } else { "" });
    for first in Field::ALL {
        for second in Field::ALL {
            judged(&[plain(first), plain(second)]);
            judged(&[begin(), plain(first), plain(second)]);
            judged(&[begin(), Made::plain(Field::Paths), Made::with(Field::Key, "k"), plain(first), plain(second)]);
        }
    }
}

#[test]
fn paths_and_keys_given_before() {
    let records =
        |paths: &[&str]| -> Vec<Made> { paths.iter().flat_map(|path| [Made::with(Field::Begin, path), Made::plain(Field::End)]).collect() };
    assert_eq!(judged(&records(&["/a/b", "/a/bc", "/a/c", "/b"])), None);
    assert_eq!(judged(&records(&["/a/b", "/c", "/a/b"])), Some(6));
    assert_eq!(judged(&records(&["/a/b", "/c", "/a"])), Some(6));
    assert_eq!(judged(&records(&["/a/b", "/c", "/a/b/c"])), Some(6));

    let mut commands = record_with(Field::Key, b"k");
    commands.extend([Made::with(Field::Target, "t"), Made::with(Field::Key, "kk")]);
    assert_eq!(judged(&commands), None);
    commands.push(Made::with(Field::Key, "k"));
    assert_eq!(judged(&commands), Some(6));
}

/// 33 records of 969 bytes, and one of 791.
fn largest_commands() -> Vec<Made> {
    let list = |list, item, count: usize| {
        let items = (0..count).map(move |i| Made::with(item, i.to_string()));
        std::iter::once(Made::plain(list)).chain(items)
    };
    let mut commands = vec![];
    for number in 0..34 {
        let last = number == 33;
        commands.push(Made::with(Field::Begin, format!("/{number}.json")));
        commands.extend(list(Field::Files, Field::FilesItem, 64));
        commands.extend(list(Field::Exclude, Field::ExcludeItem, 64));
        if !last {
            commands.extend(list(Field::Include, Field::IncludeItem, 64));
            commands.push(Made::plain(Field::End));
        }
    }
    commands.extend((0..8).map(|_| Made::with(Field::Extends, "./a")));
    commands.extend((0..16).map(|_| Made::with(Field::Reference, "./a")));
    commands.extend([Field::BaseUrl, Field::OutDir, Field::DeclarationDir].map(Made::plain));
    commands.extend([0, 1].map(|id| Made { id, ..Made::plain(Field::Flag) }));
    commands.extend([Field::Paths, Field::RootDirs].map(Made::plain));
    commands
}

#[test]
fn commands_at_their_limit_and_one_over() {
    let mut commands = largest_commands();
    assert_eq!(judged(&commands), None);
    let mut ended = commands.clone();
    ended.push(Made::plain(Field::End));
    assert_eq!(made::encode(&ended).commands.len(), 32_768);

    commands.push(Made::plain(Field::Include));
    ended.insert(ended.len() - 1, Made::plain(Field::Include));
    assert_eq!(made::encode(&ended).commands.len(), 32_769);
    assert_eq!(checked(&made::encode(&ended)), Some((1, 0)));
    let mut builder = BookBuilder::new();
    let refused = commands.iter().find_map(|command| builder.push(&command.lent()).err());
    assert_eq!(refused.map(|error| error.number()), Some(1));
}

#[test]
fn text_at_its_limit_and_one_over() {
    let path = "/p/tsconfig.json";
    let fill = |room: usize| -> Vec<Made> {
        let lengths = std::iter::repeat_n(512, room / 512).chain([room % 512]);
        let strings = lengths.enumerate().map(|(i, length)| format!("{i:a<length$}"));
        let items = strings.enumerate().map(|(i, string)| Made::with(if i < 64 { Field::FilesItem } else { Field::ExcludeItem }, string));
        [begin(), Made::plain(Field::Files), Made::plain(Field::Exclude)].into_iter().chain(items).collect()
    };
    let build = |commands: &[Made]| -> Result<BookBuf, u64> {
        let mut builder = BookBuilder::new();
        for command in commands {
            builder.push(&command.lent()).map_err(|error| error.number())?;
        }
        Ok(builder.finish())
    };
    let exact = build(&fill(65_535 - path.len())).unwrap();
    assert_eq!((exact.text.len(), checked(&exact)), (65_535, None));
    assert_eq!(build(&fill(65_536 - path.len())), Err(1));

    let mut encoded = made::encode(&[begin(), Made::plain(Field::End)]);
    encoded.text.resize(65_535, b'a');
    assert_eq!(checked(&encoded), None);
    encoded.text.push(b'a');
    assert_eq!(checked(&encoded), Some((1, 0)));
}

#[test]
fn a_string_in_the_text_is_shared() {
    let mut builder = BookBuilder::new();
    builder.begin("/p/tsconfig.json").unwrap().include(["p/ts", "", "p/ts"]).unwrap().base_url("new").unwrap();
    builder.begin("/q/new").unwrap().out_dir("new").unwrap();
    assert_eq!(builder.finish().text, b"/p/tsconfig.jsonnew/q/new");
}

#[test]
fn a_refused_call_adds_nothing() {
    let mut builder = BookBuilder::new();
    builder.begin("/p/tsconfig.json").unwrap();
    let before = builder.clone().finish();
    builder.begin("/p/tsconfig.json").unwrap_err();
    builder.files(["a", "na", "\n"]).unwrap_err();
    builder.key("a\n", ["t"]).unwrap_err();
    builder.key("k", ["t", "\n"]).unwrap_err();
    builder.base_url("\\").unwrap_err();
    builder.flag("sloppy", true).unwrap_err();
    builder.text_option(7, "x").unwrap_err();
    assert_eq!(builder.clone().finish(), before);

    // What was taken back is not there to be shared.
    builder.files(["b", "na", "a"]).unwrap().key("k", ["t"]).unwrap();
    let book = builder.finish();
    assert_eq!(book.text, b"/p/tsconfig.jsonbnak");
    let strings: Vec<Vec<u8>> = made::decode(&book).into_iter().map(|command| command.string).collect();
    assert_eq!(strings, [&b"/p/tsconfig.json"[..], b"", b"b", b"na", b"a", b"", b"k", b"t", b""]);
}
