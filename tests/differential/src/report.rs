//! Differences, printed, with the inputs of each written to files.

use crate::compare::Difference;
use std::fs;
use std::path::{Path, PathBuf};

pub fn differences(seed: u64, case: u64, differences: &[Difference]) {
    for (number, difference) in differences.iter().enumerate() {
        println!("\nseed {seed} case {case}: {}", difference.text);
        let folder = Path::new(env!("CARGO_MANIFEST_DIR")).join(format!("target/differences/{seed}-{case}-{number}"));
        match write_inputs(&folder, &difference.inputs) {
            Ok(()) => println!("  inputs in {}", folder.display()),
            Err(error) => println!("  inputs not written: {error}"),
        }
    }
}

fn write_inputs(folder: &Path, inputs: &[(&'static str, Vec<u8>)]) -> std::io::Result<()> {
    fs::create_dir_all(folder)?;
    for (number, (name, bytes)) in inputs.iter().enumerate() {
        let file: PathBuf = folder.join(format!("{number}-{name}"));
        fs::write(file, bytes)?;
    }
    Ok(())
}
