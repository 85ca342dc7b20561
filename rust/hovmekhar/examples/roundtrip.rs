//! Seals the file named by the argument, opens it again, and shows how an
//! altered byte is refused. Nothing is written to disk.
//!
//! Run with `cargo run --example roundtrip -- FILE`.

use std::error::Error;
use std::process::ExitCode;
use std::{env, fs};

fn main() -> ExitCode {
    let Some(path) = env::args_os().nth(1) else {
        eprintln!("usage: roundtrip FILE");
        return ExitCode::FAILURE;
    };
    match fs::read(path).map_err(Into::into).and_then(|b| show(&b)) {
        Ok(()) => ExitCode::SUCCESS,
        Err(error) => {
            eprintln!("{error}");
            ExitCode::FAILURE
        }
    }
}

fn show(bundle: &[u8]) -> Result<(), Box<dyn Error>> {
    let mut file = hovmekhar::seal_vec(bundle)?;
    let blocks = file.len() / hovmekhar::BLOCK_SIZE;
    println!("read: {} bytes", bundle.len());
    println!("sealed: {} bytes, blocks: {blocks}", file.len());

    let opened = hovmekhar::open_vec(&file)?;
    let comparison = if opened == bundle {
        "equal"
    } else {
        "not equal"
    };
    println!("opened: {} bytes, {comparison} to those read", opened.len());

    let middle = file.len() / 2;
    file[middle] ^= 1;
    match hovmekhar::open_vec(&file) {
        Ok(_) => Err("the altered file was opened".into()),
        Err(refusal) => {
            println!("byte {middle} altered: {refusal}");
            Ok(())
        }
    }
}
