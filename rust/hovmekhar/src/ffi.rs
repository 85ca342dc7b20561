//! The static library's C calls, with slices in place of pointers and lengths.
//!
//! This is the only module with unsafe code. Each function returns the number
//! that the library returned and leaves `answer` as the library left it.

mod carried;

pub use carried::{replace, start, step};

/// Where a call puts the numbers of its answer.
pub type Answer = [u64; 4];

/// What `hov_screen` and `hov_screen_joined` return for a word that is stopped, and
/// `hov_step` for an event that is; no refusal has this number.
pub const STOPPED: u32 = 256;

/// What `hov_reach` returns where no word leads to the wanted event; no refusal has this
/// number.
pub const NONE: u32 = 257;

/// The bytes that are lent to `hov_reach` for the word.
pub type Word = [u8; crate::MAX_REACH_EVENTS];

unsafe extern "C" {
    fn hov_open(
        file: *const u8,
        file_len: usize,
        output: *mut u8,
        output_len: usize,
        answer: *mut u64,
    ) -> u32;

    fn hov_seal(
        bundle: *const u8,
        bundle_len: usize,
        output: *mut u8,
        output_len: usize,
        answer: *mut u64,
    ) -> u32;

    fn hov_fresh(n: usize, table: *mut u16, table_len: usize, answer: *mut u64) -> u32;

    fn hov_take(
        n: usize,
        rows: usize,
        events: usize,
        word: *const u8,
        word_len: usize,
        table: *mut u16,
        table_len: usize,
        answer: *mut u64,
    ) -> u32;

    fn hov_judge(
        bundle: *const u8,
        bundle_len: usize,
        table: *mut u16,
        table_len: usize,
        answer: *mut u64,
    ) -> u32;

    fn hov_prune(
        bundle: *const u8,
        bundle_len: usize,
        output: *mut u8,
        output_len: usize,
        table: *mut u16,
        table_len: usize,
        answer: *mut u64,
    ) -> u32;

    fn hov_to_new(
        bundle: *const u8,
        bundle_len: usize,
        output: *mut u8,
        output_len: usize,
        table: *mut u16,
        table_len: usize,
        answer: *mut u64,
    ) -> u32;

    fn hov_to_old(
        bundle: *const u8,
        bundle_len: usize,
        output: *mut u8,
        output_len: usize,
        table: *mut u16,
        table_len: usize,
        answer: *mut u64,
    ) -> u32;

    fn hov_screen(
        bundle: *const u8,
        bundle_len: usize,
        word: *const u8,
        word_len: usize,
        answer: *mut u64,
    ) -> u32;

    fn hov_screen_joined(
        first: *const u8,
        first_len: usize,
        second: *const u8,
        second_len: usize,
        word: *const u8,
        word_len: usize,
        answer: *mut u64,
    ) -> u32;

    fn hov_reach(
        bundle: *const u8,
        bundle_len: usize,
        wanted: usize,
        word: *mut u8,
        answer: *mut u64,
    ) -> u32;
}

/// Calls `hov_open`.
pub fn open(file: &[u8], output: &mut [u8], answer: &mut Answer) -> u32 {
    // SAFETY: Slices and references are never null and are valid for their
    // lengths. The two exclusive ones overlap with nothing, and the library
    // keeps no pointer after the call. `Answer` has the four numbers it needs.
    unsafe {
        hov_open(
            file.as_ptr(),
            file.len(),
            output.as_mut_ptr(),
            output.len(),
            answer.as_mut_ptr(),
        )
    }
}

/// Calls `hov_seal`.
pub fn seal(bundle: &[u8], output: &mut [u8], answer: &mut Answer) -> u32 {
    // SAFETY: As for `hov_open`, with the bundle in place of the file.
    unsafe {
        hov_seal(
            bundle.as_ptr(),
            bundle.len(),
            output.as_mut_ptr(),
            output.len(),
            answer.as_mut_ptr(),
        )
    }
}

/// Calls `hov_fresh`.
pub fn fresh(n: usize, table: &mut [u16], answer: &mut Answer) -> u32 {
    // SAFETY: As for `hov_open`, with the table in place of the output and
    // without an input. The table's length is in numbers.
    unsafe { hov_fresh(n, table.as_mut_ptr(), table.len(), answer.as_mut_ptr()) }
}

/// Calls `hov_take`.
pub fn take(
    n: usize,
    rows: usize,
    events: usize,
    word: &[u8],
    table: &mut [u16],
    answer: &mut Answer,
) -> u32 {
    // SAFETY: As for `hov_open`, with the word in place of the file and the table
    // in place of the output. The table's length is in numbers. The library checks
    // `n`, `rows` and `events`, and any contents of the table are allowed.
    unsafe {
        hov_take(
            n,
            rows,
            events,
            word.as_ptr(),
            word.len(),
            table.as_mut_ptr(),
            table.len(),
            answer.as_mut_ptr(),
        )
    }
}

/// Calls `hov_judge`.
pub fn judge(bundle: &[u8], table: &mut [u16], answer: &mut Answer) -> u32 {
    // SAFETY: As for `hov_open`, with the bundle in place of the file and the
    // table in place of the output. The table's length is in numbers, and any
    // contents of it are allowed.
    unsafe {
        hov_judge(
            bundle.as_ptr(),
            bundle.len(),
            table.as_mut_ptr(),
            table.len(),
            answer.as_mut_ptr(),
        )
    }
}

/// Calls `hov_prune`.
pub fn prune(bundle: &[u8], output: &mut [u8], table: &mut [u16], answer: &mut Answer) -> u32 {
    // SAFETY: As for `hov_open`, with the bundle in place of the file and the table
    // as a further exclusive slice. Its length is in numbers, and any contents of it
    // are allowed.
    unsafe {
        hov_prune(
            bundle.as_ptr(),
            bundle.len(),
            output.as_mut_ptr(),
            output.len(),
            table.as_mut_ptr(),
            table.len(),
            answer.as_mut_ptr(),
        )
    }
}

/// Calls `hov_to_new`.
pub fn to_new(bundle: &[u8], output: &mut [u8], table: &mut [u16], answer: &mut Answer) -> u32 {
    // SAFETY: As for `hov_prune`.
    unsafe {
        hov_to_new(
            bundle.as_ptr(),
            bundle.len(),
            output.as_mut_ptr(),
            output.len(),
            table.as_mut_ptr(),
            table.len(),
            answer.as_mut_ptr(),
        )
    }
}

/// Calls `hov_to_old`.
pub fn to_old(bundle: &[u8], output: &mut [u8], table: &mut [u16], answer: &mut Answer) -> u32 {
    // SAFETY: As for `hov_prune`.
    unsafe {
        hov_to_old(
            bundle.as_ptr(),
            bundle.len(),
            output.as_mut_ptr(),
            output.len(),
            table.as_mut_ptr(),
            table.len(),
            answer.as_mut_ptr(),
        )
    }
}

/// Calls `hov_screen`.
pub fn screen(bundle: &[u8], word: &[u8], answer: &mut Answer) -> u32 {
    // SAFETY: As for `hov_open`, with two inputs and no output. The library only
    // reads the inputs, so they may overlap with each other.
    unsafe {
        hov_screen(
            bundle.as_ptr(),
            bundle.len(),
            word.as_ptr(),
            word.len(),
            answer.as_mut_ptr(),
        )
    }
}

/// Calls `hov_screen_joined`.
pub fn screen_joined(first: &[u8], second: &[u8], word: &[u8], answer: &mut Answer) -> u32 {
    // SAFETY: As for `hov_screen`, with three inputs.
    unsafe {
        hov_screen_joined(
            first.as_ptr(),
            first.len(),
            second.as_ptr(),
            second.len(),
            word.as_ptr(),
            word.len(),
            answer.as_mut_ptr(),
        )
    }
}

/// Calls `hov_reach`.
pub fn reach(bundle: &[u8], wanted: usize, word: &mut Word, answer: &mut Answer) -> u32 {
    // SAFETY: As for `hov_open`, with the word in place of the output: `Word` has the five
    // bytes that the library may write to. It checks `wanted`.
    unsafe {
        hov_reach(
            bundle.as_ptr(),
            bundle.len(),
            wanted,
            word.as_mut_ptr(),
            answer.as_mut_ptr(),
        )
    }
}
