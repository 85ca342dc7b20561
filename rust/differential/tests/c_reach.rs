//! The search for a word from C.

use differential::c_programs::run_test;
use std::path::Path;

/// What a program of `tests/c` prints.
fn run(name: &str) -> String {
    run_test(name, Path::new(env!("CARGO_TARGET_TMPDIR")))
}

/// The five bytes held 7 before, and the numbers of the answer 9.
#[test]
fn reaching() {
    assert_eq!(
        run("reach"),
        "at first: reached 0, 0 9 9 9, word 7 7 7 7 7\n\
         behind others: reached 0, 0 9 9 9, word 7 7 7 7 7\n\
         behind others: reached 0, 1 9 9 9, word 1 7 7 7 7\n\
         behind others: reached 0, 2 9 9 9, word 1 0 7 7 7\n\
         behind others: reached 0, 3 9 9 9, word 1 0 1 7 7\n\
         behind others: reached 0, 4 9 9 9, word 1 0 1 0 7\n\
         behind others: reached 0, 5 9 9 9, word 1 0 1 0 1\n\
         behind others: none 257, 9 9 9 9, word 7 7 7 7 7\n\
         behind one: reached 0, 1 9 9 9, word 1 7 7 7 7\n\
         no event: refused 15, 0 9 9 9, word 7 7 7 7 7\n\
         no number: refused 15, 0 9 9 9, word 7 7 7 7 7\n\
         empty: refused 4, 0 9 9 9, word 7 7 7 7 7\n\
         cut: refused 6, 27 9 9 9, word 7 7 7 7 7\n\
         n = 0: refused 7, 0 9 9 9, word 7 7 7 7 7\n\
         too many events: refused 8, 1026 9 9 9, word 7 7 7 7 7\n"
    );
}

#[test]
fn pages_around_the_buffers_are_not_touched() {
    assert_eq!(run("reach_pages"), "28600 searches\n");
}
