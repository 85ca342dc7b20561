//! Where the build script takes the static library from.

#[allow(dead_code)]
#[path = "../build.rs"]
mod build_script;

use build_script::{archive, directory};
use std::fs;
use std::path::Path;

#[test]
fn an_empty_variable_counts_as_unset() {
    assert_eq!(directory(Some("".into())), directory(None));
    assert!(directory(None).ends_with("crates/abi/out"));
    assert_eq!(directory(Some("/x y".into())), Path::new("/x y"));
}

/// The name that the library is installed by, else the name that it is built by.
#[test]
fn either_name() {
    let directory = Path::new(env!("CARGO_TARGET_TMPDIR")).join("either_name");
    fs::create_dir_all(&directory).expect("a directory");
    for name in ["libabi.a", "libhovmekhar.a"] {
        let _ = fs::remove_file(directory.join(name));
    }
    assert_eq!(archive(&directory), None);
    for name in ["abi", "hovmekhar"] {
        let file = directory.join(format!("lib{name}.a"));
        fs::write(&file, "").expect("a file");
        assert_eq!(archive(&directory), Some((name, file)));
    }
}
