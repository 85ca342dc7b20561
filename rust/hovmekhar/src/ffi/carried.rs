//! The calls of the carried engine.

use super::Answer;

unsafe extern "C" {
    fn hov_start(
        bundle: *const u8,
        bundle_len: usize,
        tokens: *mut u64,
        tokens_len: usize,
        answer: *mut u64,
    ) -> u32;

    fn hov_step(
        bundle: *const u8,
        bundle_len: usize,
        tokens: *mut u64,
        tokens_len: usize,
        kept: *mut u8,
        kept_len: usize,
        number: usize,
        event: usize,
        answer: *mut u64,
    ) -> u32;

    fn hov_replace(
        old: *const u8,
        old_len: usize,
        new: *const u8,
        new_len: usize,
        tokens: *mut u64,
        tokens_len: usize,
        kept: *const u8,
        kept_len: usize,
        number: usize,
        answer: *mut u64,
    ) -> u32;
}

/// Calls `hov_start`.
pub fn start(bundle: &[u8], tokens: &mut [u64], answer: &mut Answer) -> u32 {
    // SAFETY: As for `hov_open`, with the bundle in place of the file and the tokens
    // in place of the output. Their length is in numbers, and any contents of them
    // are allowed.
    unsafe {
        hov_start(
            bundle.as_ptr(),
            bundle.len(),
            tokens.as_mut_ptr(),
            tokens.len(),
            answer.as_mut_ptr(),
        )
    }
}

/// Calls `hov_step`.
pub fn step(
    bundle: &[u8],
    tokens: &mut [u64],
    kept: &mut [u8],
    number: usize,
    event: usize,
    answer: &mut Answer,
) -> u32 {
    // SAFETY: As for `hov_start`, with the kept events as a further exclusive slice, any
    // contents of which are allowed. The library checks `number` and `event`.
    unsafe {
        hov_step(
            bundle.as_ptr(),
            bundle.len(),
            tokens.as_mut_ptr(),
            tokens.len(),
            kept.as_mut_ptr(),
            kept.len(),
            number,
            event,
            answer.as_mut_ptr(),
        )
    }
}

/// Calls `hov_replace`.
pub fn replace(
    old: &[u8],
    new: &[u8],
    tokens: &mut [u64],
    kept: &[u8],
    number: usize,
    answer: &mut Answer,
) -> u32 {
    // SAFETY: As for `hov_start`, with three inputs. The library only reads them, so they
    // may overlap with each other. It checks `number`.
    unsafe {
        hov_replace(
            old.as_ptr(),
            old.len(),
            new.as_ptr(),
            new.len(),
            tokens.as_mut_ptr(),
            tokens.len(),
            kept.as_ptr(),
            kept.len(),
            number,
            answer.as_mut_ptr(),
        )
    }
}
