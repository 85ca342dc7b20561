//! The complete program in C, `examples/gate.c`, with each compiler that is there.

// The example of the wrapper has to pass the same cases.
#[path = "../../hovmekhar/tests/gate_cases/mod.rs"]
mod gate_cases;

use differential::c_programs::{c_compiler, compile, has_compiler, root};
use std::path::Path;

fn check(compiler: &str, standard: &str, name: &str) {
    let program = Path::new(env!("CARGO_TARGET_TMPDIR")).join(name);
    compile(
        compiler,
        standard,
        &root().join("examples/gate.c"),
        &program,
    );
    gate_cases::check(&program);
}

fn check_where_present(compiler: &str, standard: &str) {
    if has_compiler(compiler) {
        check(compiler, standard, &format!("gate_{compiler}"));
    } else {
        println!("skipped: there is no {compiler}");
    }
}

/// With the compiler that every build needs.
#[test]
fn by_cc() {
    check(&c_compiler(), "c11", "gate");
}

#[test]
fn by_gcc() {
    check_where_present("gcc", "c11");
}

#[test]
fn by_clang() {
    check_where_present("clang", "c11");
}

/// It is C++ as well.
#[test]
fn as_cplusplus() {
    check_where_present("g++", "c++17");
}
