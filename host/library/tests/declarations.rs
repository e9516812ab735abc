//! Holds the declarations of `src/ffi.rs` and of the C header against the source of the proved functions.

use std::fs;
use std::mem::{align_of, offset_of, size_of};
use std::path::Path;

// The module itself, for the layout of its struct.
#[allow(dead_code)]
#[path = "../src/ffi.rs"]
mod ffi;

/// A name and its type.
type Named = (String, String);

/// A function as the linker and the calling convention know it.
#[derive(Clone, Debug, PartialEq, Eq)]
struct Function {
    name: String,
    parameters: Vec<Named>,
    returns: String,
}

fn tokens_of(file: &str) -> Vec<String> {
    let path = Path::new(env!("CARGO_MANIFEST_DIR")).join(file);
    let source = fs::read_to_string(&path).unwrap_or_else(|error| panic!("{}: {error}", path.display()));
    tokens(&source)
}

/// Words, `->`, and every other character by itself; neither comments nor lines of the C preprocessor.
fn tokens(source: &str) -> Vec<String> {
    let mut tokens = vec![];
    let mut rest = source;
    while let Some(first) = rest.chars().next() {
        let is_word = |c: char| c.is_alphanumeric() || c == '_';
        let length = if rest.starts_with("//") || is_preprocessor(rest) {
            rest.find('\n').unwrap_or(rest.len())
        } else if rest.starts_with("/*") {
            rest.find("*/").map_or(rest.len(), |at| at + 2)
        } else if is_word(first) {
            rest.find(|c| !is_word(c)).unwrap_or(rest.len())
        } else if rest.starts_with("->") {
            2
        } else {
            first.len_utf8()
        };
        let (token, after) = rest.split_at(length);
        let skipped = first.is_whitespace() || token.starts_with("//") || token.starts_with("/*") || is_preprocessor(token);
        if !skipped {
            tokens.push(token.to_owned());
        }
        rest = after;
    }
    tokens
}

fn is_preprocessor(rest: &str) -> bool {
    ["#ifdef", "#ifndef", "#endif", "#define", "#include"].iter().any(|word| rest.starts_with(word))
}

/// The places right after each occurrence of a phrase, whose words are parted by blanks.
fn after_each(tokens: &[String], phrase: &str) -> Vec<usize> {
    let words: Vec<&str> = phrase.split(' ').collect();
    let starts = 0..tokens.len().saturating_sub(words.len() - 1);
    starts.filter(|at| tokens[*at..].iter().zip(&words).all(|(token, word)| token == word)).map(|at| at + words.len()).collect()
}

fn after_only(tokens: &[String], phrase: &str) -> usize {
    match after_each(tokens, phrase)[..] {
        [at] => at,
        ref found => panic!("`{phrase}` occurs {} times", found.len()),
    }
}

/// What stands from a place on up to the bracket that closes around it, cut at the separator, and the place of that bracket.
fn parts<'a>(tokens: &'a [String], from: usize, separator: &str) -> (Vec<&'a [String]>, usize) {
    let mut parts = vec![];
    let mut start = from;
    let mut depth = 0;
    for (at, token) in tokens.iter().enumerate().skip(from) {
        match token.as_str() {
            "(" | "[" | "{" => depth += 1,
            ")" | "]" | "}" if depth > 0 => depth -= 1,
            ")" | "]" | "}" => {
                parts.push(&tokens[start..at]);
                parts.retain(|part| !part.is_empty());
                return (parts, at);
            }
            token if token == separator && depth == 0 => {
                parts.push(&tokens[start..at]);
                start = at + 1;
            }
            _ => {}
        }
    }
    panic!("a bracket is not closed");
}

/// `name : type`, as Rattle and Rust write it, perhaps after `pub`.
fn rust_named(part: &[String]) -> Named {
    let part = part.strip_prefix(&["pub".to_owned()]).unwrap_or(part);
    match part {
        [name, colon, kind @ ..] if colon == ":" => (name.clone(), kind.join(" ")),
        _ => panic!("`{}` is no name with a type", part.join(" ")),
    }
}

/// `type name`, as C writes it.
fn c_named(part: &[String]) -> Named {
    let (name, kind) = part.split_last().expect("a declaration");
    let kind = match kind.join(" ").as_str() {
        "const uint8_t *" => "* const u8",
        "uint8_t *" => "* mut u8",
        "size_t" => "usize",
        "uint64_t" => "u64",
        other => panic!("the C type `{other}` of `{name}` is not known"),
    };
    (name.clone(), kind.to_owned())
}

/// A slice is handed over as its address and its length.
fn handed_over((name, kind): &Named) -> Vec<Named> {
    let length = (format!("{name}_len"), "usize".to_owned());
    match kind.as_str() {
        "& [ u8 ]" => vec![(name.clone(), "* const u8".to_owned()), length],
        "& mut [ u8 ]" => vec![(name.clone(), "* mut u8".to_owned()), length],
        other => panic!("how a `{other}` is handed over is not known"),
    }
}

/// The function whose name stands at a place, with its parameters as they are written.
fn function_at(tokens: &[String], at: usize) -> Function {
    let name = &tokens[at];
    assert_eq!(tokens[at + 1], "(", "what follows `{name}`");
    let (parameters, close) = parts(tokens, at + 2, ",");
    assert_eq!(tokens[close + 1], "->", "what follows the parameters of `{name}`");
    Function { name: name.clone(), parameters: parameters.into_iter().map(rust_named).collect(), returns: tokens[close + 2].clone() }
}

fn sorted(mut functions: Vec<Function>) -> Vec<Function> {
    functions.sort_by(|a, b| a.name.cmp(&b.name));
    functions
}

/// The functions of the Rattle source, with their slices.
fn proved_functions() -> Vec<Function> {
    let tokens = tokens_of("../../crates/questions_c/src/lib.rt");
    let exported = after_each(&tokens, "# [ unsafe ( no_mangle ) ] pub extern \" C \" fn");
    assert_eq!(exported.len(), after_each(&tokens, "extern").len(), "every extern function is exported by its name");
    assert!(!exported.is_empty());
    sorted(exported.into_iter().map(|at| function_at(&tokens, at)).collect())
}

/// The same, with their parameters as they are handed over.
fn proved_declarations() -> Vec<Function> {
    let lowered = |f: Function| Function { parameters: f.parameters.iter().flat_map(handed_over).collect(), ..f };
    proved_functions().into_iter().map(lowered).collect()
}

#[test]
fn rust_declares_the_proved_functions() {
    let tokens = tokens_of("src/ffi.rs");
    let start = after_only(&tokens, "unsafe extern \" C \" {");
    let end = start + tokens[start..].iter().position(|token| token == "}").expect("the block's end");
    let block = &tokens[start..end];
    let declared = after_each(block, "fn").into_iter().map(|at| function_at(block, at)).collect();
    assert_eq!(sorted(declared), proved_declarations());
}

#[test]
fn rust_wrappers_take_and_hand_over_the_slices_in_order() {
    let tokens = tokens_of("src/ffi.rs");
    for function in proved_functions() {
        let short = function.name.strip_prefix("tsconfig_").expect("the prefix of every name");
        let wrapper = function_at(&tokens, after_only(&tokens, &format!("pub fn {short}")) - 1);
        assert_eq!(wrapper.parameters, function.parameters, "the wrapper {short}");

        let call = after_only(&tokens, &format!("{{ unsafe {{ {} (", function.name));
        let handed: Vec<String> = parts(&tokens, call, ",").0.iter().map(|part| part.concat()).collect();
        let expected = function.parameters.iter().flat_map(|(name, kind)| {
            let address = if kind == "& mut [ u8 ]" { "as_mut_ptr" } else { "as_ptr" };
            [format!("{name}.{address}()"), format!("{name}.len()")]
        });
        assert_eq!(handed, expected.collect::<Vec<_>>(), "the call of {}", function.name);
    }
}

#[test]
fn the_header_declares_the_proved_functions() {
    let tokens = tokens_of("include/tsconfig_questions.h");
    let places = after_each(&tokens, "tsconfig_numbers");
    let declared = places.into_iter().filter(|at| tokens[*at + 1] == "(").map(|at| Function {
        name: tokens[at].clone(),
        parameters: parts(&tokens, at + 2, ",").0.into_iter().map(c_named).collect(),
        returns: "Numbers".to_owned(),
    });
    assert_eq!(sorted(declared.collect()), proved_declarations());
}

fn proved_fields() -> Vec<Named> {
    let tokens = tokens_of("../../crates/replies/src/lib.rt");
    let at = after_only(&tokens, "# [ repr ( C ) ] # [ derive ( Clone , Copy , PartialEq , Eq , Default ) ] pub struct Numbers {");
    parts(&tokens, at, ",").0.into_iter().map(rust_named).collect()
}

#[test]
fn the_struct_has_the_proved_fields() {
    let rust = tokens_of("src/ffi.rs");
    let at = after_only(&rust, "pub struct Numbers {");
    assert_eq!(parts(&rust, at, ",").0.into_iter().map(rust_named).collect::<Vec<_>>(), proved_fields());
    after_only(&rust, "# [ repr ( C ) ]");

    let header = tokens_of("include/tsconfig_questions.h");
    let at = after_only(&header, "typedef struct tsconfig_numbers {");
    assert_eq!(parts(&header, at, ";").0.into_iter().map(c_named).collect::<Vec<_>>(), proved_fields());
}

#[test]
fn the_struct_has_the_layout_of_its_fields() {
    let fields = proved_fields();
    assert!(fields.iter().all(|(_, kind)| kind == "u64"), "{fields:?}");
    assert_eq!(size_of::<ffi::Numbers>(), 8 * fields.len());
    assert_eq!(align_of::<ffi::Numbers>(), 8);
    let offsets = [
        ("number", offset_of!(ffi::Numbers, number)),
        ("place", offset_of!(ffi::Numbers, place)),
        ("first", offset_of!(ffi::Numbers, first)),
        ("second", offset_of!(ffi::Numbers, second)),
        ("bytes", offset_of!(ffi::Numbers, bytes)),
    ];
    let expected: Vec<(&str, usize)> = fields.iter().enumerate().map(|(i, (name, _))| (name.as_str(), 8 * i)).collect();
    assert_eq!(offsets.to_vec(), expected);
}
