//! The stored outputs in examples/ are the model's.

use std::fs;
use std::path::{Path, PathBuf};

use bench::model::{check_output, run_output};

/// Compares every `*.INPUT` through `program` with the file beside it, and answers how many there were.
fn compare(input: &str, output: &str, program: fn(&[u8]) -> Vec<u8>) -> usize {
    let folder = Path::new(env!("CARGO_MANIFEST_DIR")).join("../examples");
    let files = fs::read_dir(folder).expect("the folder of examples").map(|file| file.unwrap().path());
    let inputs: Vec<PathBuf> = files.filter(|path| path.extension().is_some_and(|end| end == input)).collect();
    for path in &inputs {
        let stored = fs::read(path.with_extension(output)).expect("a stored output");
        let printed = program(&fs::read(path).unwrap());
        assert!(printed == stored, "{}", path.display());
    }
    inputs.len()
}

#[test]
fn plans() {
    assert!(compare("plan", "check", check_output) >= 14);
}

#[test]
fn runs() {
    assert!(compare("run", "steps", run_output) >= 10);
}
