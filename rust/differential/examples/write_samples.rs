//! Writes the files in `samples/`.
//!
//! Run with `cargo run -p differential --example write_samples`.

use differential::samples;
use std::{fs, io};

fn main() -> io::Result<()> {
    let directory = samples::directory();
    fs::create_dir_all(&directory)?;
    for sample in samples::all() {
        fs::write(directory.join(sample.name), &sample.file)?;
        println!("{}: {} bytes", sample.name, sample.file.len());
    }
    Ok(())
}
