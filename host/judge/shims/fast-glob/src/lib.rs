//! Stands in for `fast_glob`, which cannot be had. It is written from document 01's sentence on
//! patterns and from nothing else, so what the judge says of a pattern is 01's word and not the
//! crate's: pattern and path are cut at every `/`, empty pieces count; `?` is one byte; `*` a run
//! of bytes, perhaps empty; the piece `**` any number of pieces, one or more where it stands last.
//! A leading dot is ordinary. Braces, brackets and `!` do not reach it: a book that has them in a
//! pattern is refused.

pub fn glob_match(pattern: impl AsRef<[u8]>, path: impl AsRef<[u8]>) -> bool {
    let pattern: Vec<&[u8]> = pattern.as_ref().split(|byte| *byte == b'/').collect();
    let path: Vec<&[u8]> = path.as_ref().split(|byte| *byte == b'/').collect();
    // rest[j]: the pieces of the pattern from the current one on match those of the path from j on.
    let mut rest = vec![false; path.len() + 1];
    rest[path.len()] = true;
    for (i, piece) in pattern.iter().enumerate().rev() {
        let mut here = vec![false; path.len() + 1];
        for j in (0..=path.len()).rev() {
            here[j] = if *piece == b"**" {
                if i + 1 == pattern.len() {
                    j < path.len()
                } else {
                    rest[j] || (j < path.len() && here[j + 1])
                }
            } else {
                j < path.len() && rest[j + 1] && piece_match(piece, path[j])
            };
        }
        rest = here;
    }
    rest[0]
}

fn piece_match(pattern: &[u8], text: &[u8]) -> bool {
    let mut rest = vec![false; text.len() + 1];
    rest[text.len()] = true;
    for mark in pattern.iter().rev() {
        let mut here = vec![false; text.len() + 1];
        for j in (0..=text.len()).rev() {
            here[j] = match mark {
                b'*' => rest[j] || (j < text.len() && here[j + 1]),
                b'?' => j < text.len() && rest[j + 1],
                byte => j < text.len() && text[j] == *byte && rest[j + 1],
            };
        }
        rest = here;
    }
    rest[0]
}

#[cfg(test)]
mod tests {
    use super::glob_match;

    #[test]
    fn the_words_of_01() {
        assert!(glob_match("/p/?.ts", "/p/a.ts"));
        assert!(!glob_match("/p/?.ts", "/p/.ts"));
        assert!(!glob_match("/p?a.ts", "/p/a.ts"));
        assert!(glob_match("/p/*.ts", "/p/.ts"));
        assert!(!glob_match("/p/*", "/p/a/b"));
        assert!(glob_match("/p/**/*", "/p/a"));
        assert!(glob_match("/p/**/*", "/p/a/b/c"));
        assert!(glob_match("/p/**", "/p/a"));
        assert!(!glob_match("/p/**", "/p"));
        assert!(glob_match("/p/**/q/**/*.ts", "/p/q/.a.ts"));
        assert!(!glob_match("//a", "/a"));
        assert!(!glob_match("/a/", "/a"));
    }
}
