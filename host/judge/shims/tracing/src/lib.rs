//! Stands in for `tracing`: nothing is traced.

pub struct Span;

impl Span {
    pub fn enter(&self) -> Entered {
        Entered
    }
}

pub struct Entered;

#[macro_export]
macro_rules! debug_span {
    ($($anything:tt)*) => {
        $crate::Span
    };
}

#[macro_export]
macro_rules! debug {
    ($($anything:tt)*) => {};
}

#[macro_export]
macro_rules! trace {
    ($($anything:tt)*) => {};
}
