//! The question tries, asked through the public interface.

use tsconfig_questions::{BookBuf, Error, Refusal, answer_line, form, tries, tries_into};

fn book() -> BookBuf {
    form::parse("record /p/tsconfig.json\n rootDirs src\n rootDirs gen\n key ~/*\n  target src/*\n  target lib/*\n baseUrl .\n").unwrap()
}

fn asked(directory: &str, specifier: &str) -> Vec<String> {
    let paths = tries(book().book(), b"/p", directory.as_bytes(), specifier.as_bytes()).unwrap();
    paths.into_iter().map(|path| String::from_utf8(path).unwrap()).collect()
}

/// The answers are those of the crate itself.
#[test]
fn mapping_base_and_root_dirs() {
    assert_eq!(asked("/p/src", "~/m"), ["/p/src/m", "/p/lib/m", "/p/~/m"]);
    assert_eq!(asked("/p/src", "m"), ["/p/m"]);
    assert_eq!(asked("/p/src/view", "./m"), ["/p/src/view/m", "/p/gen/view/m"]);
    assert_eq!(asked("/p/src", "."), ["/p/src", ""]);
    assert_eq!(asked("/p/node_modules/x", "m"), [""; 0]);
}

#[test]
fn output_exact_and_one_byte_short() {
    let book = book();
    let mut out = [b'x'; 6];
    let paths: Vec<&[u8]> = tries_into(book.book(), b"/p", b"/p/src", b"m", &mut out).unwrap().collect();
    assert_eq!(paths, [b"/p/m"]);
    let mut out = [b'x'; 5];
    let refused = tries_into(book.book(), b"/p", b"/p/src", b"m", &mut out).unwrap_err();
    assert_eq!(refused, Error::Refused(Refusal { number: 13, place: 6 }));
    assert_eq!(out, [b'x'; 5]);
}

#[test]
fn a_line_and_a_refusal() {
    let book = book();
    assert_eq!(answer_line(book.book(), b"T /p\t/p/src\tm"), Some(Ok(b"tries 1\n/p/m\n".to_vec())));
    assert_eq!(answer_line(book.book(), b"T /p\t/p/../src\tm"), Some(Ok(b"refused 7 0\n".to_vec())));
    assert_eq!(answer_line(book.book(), b"T /p\t/p/src"), None);
}
