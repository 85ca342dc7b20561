//! Hands the path of the static library, which the build script of `hovmekhar`
//! found, to the tests that link it into C programs.

use std::env;

fn main() {
    println!("cargo::rerun-if-env-changed=DEP_ABI_ARCHIVE");
    let archive = env::var("DEP_ABI_ARCHIVE")
        .expect("Cargo sets DEP_ABI_ARCHIVE from the build script of hovmekhar");
    println!("cargo::rustc-env=HOVMEKHAR_ARCHIVE={archive}");
}
