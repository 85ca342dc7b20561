//! The carried engine from C.

use differential::c_programs::run_test;
use std::path::Path;

/// What a program of `tests/c` prints.
fn run(name: &str) -> String {
    run_test(name, Path::new(env!("CARGO_TARGET_TMPDIR")))
}

/// The tokens are those in front of a slice, and the events those in front of a buffer, that
/// held 7 and 8 before.
#[test]
fn carrying() {
    assert_eq!(
        run("carry"),
        "empty: refused 4, 0 9 9 9, tokens 7 7 7, kept 8 8 8 8\n\
         cut: refused 6, 27 9 9 9, tokens 7 7 7, kept 8 8 8 8\n\
         n = 0: refused 7, 0 9 9 9, tokens 7 7 7, kept 8 8 8 8\n\
         too many events: refused 8, 1026 9 9 9, tokens 7 7 7, kept 8 8 8 8\n\
         few tokens: refused 5, 2 9 9 9, tokens 7 7 7, kept 8 8 8 8\n\
         start: result 0, 0 9 9 9, tokens 1 2 7, kept 8 8 8 8\n\
         0: result 0, 1 9 9 9, tokens 1 1 7, kept 0 8 8 8\n\
         0: result 0, 2 9 9 9, tokens 1 0 7, kept 0 0 8 8\n\
         0: stopped 256, 2 1 1 9, tokens 1 0 7, kept 0 0 8 8\n\
         2: refused 15, 2 9 9 9, tokens 1 0 7, kept 0 0 8 8\n\
         full: refused 3, 3 9 9 9, tokens 1 0 7, kept 0 0 8 8\n\
         few tokens: refused 5, 2 9 9 9, tokens 1 0 7, kept 0 0 8 8\n\
         1: result 0, 3 9 9 9, tokens 0 0 7, kept 0 0 1 8\n\
         last number: stopped 256, 65534 0 1 9, tokens 0 0 7, kept 0 0 1 8\n\
         number: refused 14, 65535 9 9 9, tokens 0 0 7, kept 0 0 1 8\n\
         cut: refused 6, 27 9 9 9, tokens 0 0 7, kept 0 0 1 8\n\
         most tokens: result 0, 6 9 9 9, tokens 4294901759 0 7, kept 0 0 1 8\n\
         too many tokens: refused 16, 0 9 9 9, tokens 4294901761 0 7, kept 0 0 1 8\n\
         replaced: result 0, 9 9 9 9, tokens 1 0 7, kept 0 0 1 8\n\
         1: result 0, 4 9 9 9, tokens 0 0 7, kept 0 0 1 1\n\
         back: result 0, 9 9 9 9, tokens 0 0 7, kept 0 0 1 1\n\
         stops: refused 23, 3 9 9 9, tokens 0 0 7, kept 0 0 1 1\n\
         no event: result 0, 9 9 9 9, tokens 1 2 7, kept 0 0 1 1\n\
         itself: result 0, 9 9 9 9, tokens 1 1 7, kept 0 0 1 1\n\
         more events: refused 14, 65535 9 9 9, tokens 1 1 7, kept 0 0 1 1\n\
         few events: refused 3, 3 9 9 9, tokens 1 1 7, kept 0 0 1 1\n\
         old one empty: refused 4, 0 9 9 9, tokens 1 1 7, kept 0 0 1 1\n\
         new one empty: refused 4, 0 9 9 9, tokens 1 1 7, kept 0 0 1 1\n\
         old one cut: refused 6, 27 9 9 9, tokens 1 1 7, kept 0 0 1 1\n\
         new one cut: refused 6, 27 9 9 9, tokens 1 1 7, kept 0 0 1 1\n\
         n = 0: refused 7, 0 9 9 9, tokens 1 1 7, kept 0 0 1 1\n\
         too many events: refused 8, 1026 9 9 9, tokens 1 1 7, kept 0 0 1 1\n\
         other events: refused 22, 0 9 9 9, tokens 1 1 7, kept 0 0 1 1\n\
         few tokens: refused 5, 2 9 9 9, tokens 1 1 7, kept 0 0 1 1\n\
         wrong event: refused 15, 2 9 9 9, tokens 1 1 7, kept 0 0 2 1\n"
    );
}

#[test]
fn pages_around_the_buffers_are_not_touched() {
    assert_eq!(run("carry_pages"), "22560 starts and steps\n");
    assert_eq!(run("replace_pages"), "83520 replacements\n");
}
