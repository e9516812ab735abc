//! Stands in for `nodejs-built-in-modules`: asked only where the option `builtin_modules` is set,
//! and it never is.

pub const BUILTINS: &[&str] = &[];
