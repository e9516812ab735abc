//! The proved functions, and a safe wrapper around each: the only module of this package with `unsafe`.
//!
//! `tests/declarations.rs` holds what is declared here, and the C header, against the source of the proved functions.

/// What each function returns: a refusal's number and place, or 0 and 0 with the answer's two numbers and the bytes written.
#[repr(C)]
#[derive(Clone, Copy, Debug, PartialEq, Eq)]
pub struct Numbers {
    pub number: u64,
    pub place: u64,
    pub first: u64,
    pub second: u64,
    pub bytes: u64,
}

// A byte slice is handed over as two parameters, its address and its length.
unsafe extern "C" {
    fn tsconfig_build(
        commands: *const u8,
        commands_len: usize,
        text: *const u8,
        text_len: usize,
        path: *const u8,
        path_len: usize,
        out: *mut u8,
        out_len: usize,
    ) -> Numbers;

    fn tsconfig_owner(
        commands: *const u8,
        commands_len: usize,
        text: *const u8,
        text_len: usize,
        path: *const u8,
        path_len: usize,
    ) -> Numbers;

    fn tsconfig_candidates(
        commands: *const u8,
        commands_len: usize,
        text: *const u8,
        text_len: usize,
        path: *const u8,
        path_len: usize,
        specifier: *const u8,
        specifier_len: usize,
        out: *mut u8,
        out_len: usize,
    ) -> Numbers;

    fn tsconfig_tries(
        commands: *const u8,
        commands_len: usize,
        text: *const u8,
        text_len: usize,
        path: *const u8,
        path_len: usize,
        directory: *const u8,
        directory_len: usize,
        specifier: *const u8,
        specifier_len: usize,
        out: *mut u8,
        out_len: usize,
    ) -> Numbers;
}

// Each call below is sound: the functions are proved for slices of any bytes and any length, they read and write only what the slices lend,
// and keep nothing after they return. Rust's own slices cannot overlap one that is lent to be written.

pub fn build(commands: &[u8], text: &[u8], path: &[u8], out: &mut [u8]) -> Numbers {
    unsafe {
        tsconfig_build(commands.as_ptr(), commands.len(), text.as_ptr(), text.len(), path.as_ptr(), path.len(), out.as_mut_ptr(), out.len())
    }
}

pub fn owner(commands: &[u8], text: &[u8], path: &[u8]) -> Numbers {
    unsafe { tsconfig_owner(commands.as_ptr(), commands.len(), text.as_ptr(), text.len(), path.as_ptr(), path.len()) }
}

pub fn candidates(commands: &[u8], text: &[u8], path: &[u8], specifier: &[u8], out: &mut [u8]) -> Numbers {
    unsafe {
        tsconfig_candidates(
            commands.as_ptr(),
            commands.len(),
            text.as_ptr(),
            text.len(),
            path.as_ptr(),
            path.len(),
            specifier.as_ptr(),
            specifier.len(),
            out.as_mut_ptr(),
            out.len(),
        )
    }
}

pub fn tries(commands: &[u8], text: &[u8], path: &[u8], directory: &[u8], specifier: &[u8], out: &mut [u8]) -> Numbers {
    unsafe {
        tsconfig_tries(
            commands.as_ptr(),
            commands.len(),
            text.as_ptr(),
            text.len(),
            path.as_ptr(),
            path.len(),
            directory.as_ptr(),
            directory.len(),
            specifier.as_ptr(),
            specifier.len(),
            out.as_mut_ptr(),
            out.len(),
        )
    }
}
