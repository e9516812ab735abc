//! Books to their text form and back.

use crate::builder::BookBuf;
use crate::command::{FLAGS, Field, TEXT_OPTIONS};
use crate::error::Error;
use crate::form;
use crate::made::{self, Made, Random};
use crate::questions::owner;

fn is_accepted(book: &BookBuf) -> bool {
    !matches!(owner(book.book(), b"/"), Err(Error::Refused(refusal)) if refusal.number <= 6)
}

fn is_raw(form: &str) -> bool {
    form.lines().any(|line| line == "raw")
}

/// Prints a book and reads it back: the same commands where it is accepted, the same bytes where it is refused. Whether it is accepted.
fn goes_round(book: &BookBuf) -> bool {
    let printed = form::print(book.book());
    let read = form::parse(&printed).unwrap_or_else(|error| panic!("{error}\n{printed}"));
    let accepted = is_accepted(book);
    if is_raw(&printed) {
        assert_eq!(&read, book);
        assert!(!accepted, "an accepted book is printed raw:\n{printed}");
    } else {
        assert_eq!(made::decode(&read), made::decode(book), "{printed}");
        assert!(accepted, "a refused book is not printed raw:\n{printed}");
    }
    assert_eq!(form::print(read.book()), printed);
    accepted
}

#[test]
fn made_books() {
    let books = (0..2000).map(|seed| made::encode(&made::commands(&mut Random::new(seed))));
    let accepted = books.filter(goes_round).count();
    assert!((500..1500).contains(&accepted), "{accepted}");
}

#[test]
fn made_books_with_a_byte_changed() {
    for seed in 0..2000 {
        let mut random = Random::new(seed);
        let mut book = made::encode(&made::commands(&mut random));
        let bytes = if random.below(2) == 0 { &mut book.commands } else { &mut book.text };
        let at = random.below(bytes.len().max(1));
        if let Some(byte) = bytes.get_mut(at) {
            *byte = random.below(256) as u8;
        }
        goes_round(&book);
    }
}

#[test]
fn any_bytes() {
    for seed in 0..500 {
        let mut random = Random::new(seed);
        let mut bytes = |most: usize| -> Vec<u8> { (0..random.below(most)).map(|_| random.below(256) as u8).collect() };
        let book = BookBuf { commands: bytes(100), text: bytes(300) };
        goes_round(&book);
    }
    for commands in [32_768, 32_769] {
        goes_round(&BookBuf { commands: vec![0; commands], text: vec![0; 65_536] });
    }
}

/// Its strings overlap in the text, and the builder has no room for them one after the other.
#[test]
fn an_accepted_book_whose_text_is_shared_beyond_the_form() {
    let mut book = made::encode(&[Made::with(Field::Begin, "/p/tsconfig.json")]);
    let mut random = Random::new(1);
    book.text.extend((0..60_000).map(|_| b'a' + random.below(26) as u8));
    for (list, item) in [(2, 3), (4, 5), (6, 7)] {
        book.commands.push(list);
        for i in 0..64_u16 {
            let start = 100 + (i * 7 % 64) * 256 + u16::from(item);
            book.commands.push(item);
            book.commands.extend(start.to_le_bytes());
            book.commands.extend(512_u16.to_le_bytes());
        }
    }
    book.commands.push(0x14);
    assert!(is_accepted(&book));
    let printed = form::print(book.book());
    assert!(is_raw(&printed));
    assert_eq!(form::parse(&printed), Ok(book));
}

#[test]
fn a_form_by_hand() {
    let form = "\r\n# all of it\r\n\trecord   /p/tsconfig.json \r\n key \"@f/*\"\n target a b\n target \" c\"\n key #x\n files\n files \"\"\n include \"\"q\"\"\n\
                rootDirs x\n extends ./a\n reference .\n outDir o\n declarationDir \"d \"\n flag 2 true\n flag allowJs false\n text target es2020\n text 0 \"\"\n";
    let expected = "record /p/tsconfig.json\n  paths\n    key @f/*\n      target a b\n      target \" c\"\n    key #x\n  files \"\"\n  include \"\"q\"\"\n  \
                    rootDirs x\n  extends ./a\n  reference .\n  outDir o\n  declarationDir \"d \"\n  flag strict true\n  flag allowJs false\n  \
                    text target es2020\n  text jsx \"\"\n";
    assert_eq!(form::print(form::parse(form).unwrap().book()), expected);
}

#[test]
fn lists_that_are_empty_or_come_later() {
    let form = "record /a.json\n  include\n  exclude\n  files\n  rootDirs\n  paths\n  include a\n    key k\n\nrecord /b.json\n";
    let book = form::parse(form).unwrap();
    assert_eq!(form::print(book.book()), form);
    let fields: Vec<u8> = made::decode(&book).iter().map(|command| command.field as u8).collect();
    assert_eq!(fields, [0x01, 0x04, 0x06, 0x02, 0x0e, 0x0a, 0x05, 0x0b, 0x14, 0x01, 0x14]);
}

#[test]
fn names_of_options_are_their_ids() {
    for (word, names, value) in [("flag", &FLAGS[..], "true"), ("text", &TEXT_OPTIONS[..], "x")] {
        for (id, name) in names.iter().enumerate() {
            let by_name = form::parse(format!("record /a.json\n{word} {name} {value}\n"));
            assert_eq!(by_name, form::parse(format!("record /a.json\n{word} {id} {value}\n")));
            let option = made::decode(&by_name.unwrap()).swap_remove(1);
            assert_eq!(usize::from(option.id), id);
        }
    }
}

#[test]
fn errors_say_the_line_and_what_is_wrong() {
    let cases = [
        ("include a", "line 1: `include` `a` stands outside a record"),
        (
            "\nrecord p",
            "line 2: the path `p` of record 0 is not a normal path: one starts with `/` and has no empty, `.` or `..` component and no final `/`",
        ),
        ("record", "line 1: `record` needs a value (\"\" is the empty string)"),
        ("record /a\nrecord /a", "line 2: the path `/a` of record 1 is the path of record 0 too"),
        ("record /a/b\nrecord /a", "line 2: the path `/a` of record 1 lies above the path of record 0"),
        ("record /a#", "line 1: the path `/a#` of record 0 holds `#`, and a record's path has none of `* ? { } [ ] ! #`"),
        ("record /a\nend", "line 2: `end` begins no line of a book"),
        ("record /a\ninclud x", "line 2: `includ` begins no line of a book"),
        ("record /a\npaths x", "line 2: `paths` stands alone in its line"),
        ("record /a\nbaseUrl \"x", "line 2: a string that begins with a quote ends with one"),
        ("record /a\nbaseUrl \"", "line 2: a string that begins with a quote ends with one"),
        ("record /a\nbaseUrl a\nbaseUrl b", "line 3: `baseUrl` `b` of record 0 is given a second time"),
        ("record /a\ntarget t", "line 2: `target` `t` of record 0 stands neither after a key nor after another target of a key"),
        ("record /a\nkey k\nkey k", "line 3: `key` `k` of record 0 is a key that the record has already"),
        ("record /a\ninclude !x", "line 2: `include` `!x` of record 0 holds `!`, and a pattern has none of `{ } [ ] !`"),
        ("record /a\nfiles a\\b", "line 2: `files` `a\\b` of record 0 holds the byte 5C, which no string may have"),
        ("record /a\nflag strict yes", "line 2: a flag is `true` or `false`, and not `yes`"),
        ("record /a\nflag lax true", "line 2: `flag` of record 0 names `lax`, and there is no such option"),
        ("record /a\nflag +2 true", "line 2: `flag` of record 0 names `+2`, and there is no such option"),
        ("record /a\nflag 11 true", "line 2: `flag` of record 0 names `11`, and there is no such option"),
        ("record /a\ntext jsx", "line 2: a value is missing (\"\" is the empty string)"),
        ("record /a\nraw", "line 2: `raw` begins no line of a book"),
        ("raw\ncommands 0", "line 2: bytes are written as pairs of hexadecimal digits"),
        ("raw\ncommands 0g", "line 2: bytes are written as pairs of hexadecimal digits"),
        ("raw\n\nrecord 00", "line 3: a line of a raw book begins with `commands` or `text`"),
    ];
    for (form, sentence) in cases {
        assert_eq!(form::parse(form).map_err(|error| error.to_string()), Err(sentence.to_owned()), "{form}");
    }
}

#[test]
fn a_raw_form_says_why() {
    let book = made::encode(&[
        Made::with(Field::Begin, "/p"),
        Made::with(Field::Files, ""),
        Made::with(Field::FilesItem, "a\nb"),
        Made::plain(Field::End),
    ]);
    let printed = form::print(book.book());
    let expected = "# the string of the command at offset 6 breaks its rule or leaves the text (refusal 4).\n\
                    #     0 record /p\n#     5 files\n#     6 files a\u{fffd}b\n#    11 end\n\
                    raw\ncommands 01020002000203040003001\
                    4\ntext 0a3f2f70610a62\n";
    assert_eq!(printed, expected);
}

#[test]
fn a_text_that_is_too_long_is_written_raw() {
    let mut book = made::encode(&[Made::with(Field::Begin, "/p"), Made::plain(Field::End)]);
    book.text.resize(65_536, b' ');
    assert_eq!(form::parse(form::print(book.book())), Ok(book));
}
