//! The proved programs and plain ones of the same shape, as processes.

use crate::clock;
use std::fs::File;
use std::io::{Read, Write};
use std::path::{Path, PathBuf};
use std::process::{Command, Stdio};

/// The folder of the proved programs.
pub fn folder() -> PathBuf {
    concat!(env!("CARGO_MANIFEST_DIR"), "/../target/bin").into()
}

pub fn proved(name: &str) -> PathBuf {
    folder().join(name)
}

/// This program linked to an older library, which `bench/run --against` builds.
pub fn older() -> PathBuf {
    concat!(env!("CARGO_MANIFEST_DIR"), "/target/older/release/bench").into()
}

/// A program beside this one.
pub fn plain(name: &str) -> PathBuf {
    std::env::current_exe().expect("this program's path").with_file_name(name)
}

/// Milliseconds of the program from start to end, from a file to a file, and what it wrote.
pub fn run(program: &Path, input: &[u8]) -> (f64, Vec<u8>) {
    let path = |name: &str| std::env::temp_dir().join(format!("hevolatsy-bench-{}-{name}", std::process::id()));
    let (from, to) = (path("input"), path("output"));
    File::create(&from).and_then(|mut file| file.write_all(input)).expect("an input");
    let (stdin, stdout) = (File::open(&from).expect("an input"), File::create(&to).expect("an output"));
    let begun = clock::children();
    let status = Command::new(program).stdin(stdin).stdout(stdout).status().expect("a program: bench/run builds it");
    let time = (clock::children() - begun) / 1e3;
    assert!(status.success());
    let output = std::fs::read(&to).expect("an output");
    [from, to].iter().for_each(|path| std::fs::remove_file(path).expect("removed"));
    (time, output)
}

/// How many forms are in the key program's lines.
pub fn forms(lines: &[u8]) -> usize {
    lines.iter().filter(|&&byte| byte == b'\n').count() - 1
}

/// When each line was written, with all others of its part, in microseconds of the program's time.
pub fn lines_at(program: &Path, input: &[u8]) -> Vec<f64> {
    let mut child = Command::new(program).stdin(Stdio::piped()).stdout(Stdio::piped()).spawn().expect("a program");
    child.stdin.take().unwrap().write_all(input).expect("the input is taken");
    let mut output = child.stdout.take().unwrap();
    let mut at = vec![0.0];
    let mut some = [0; 1 << 16];
    loop {
        let read = output.read(&mut some).expect("an output");
        if read == 0 {
            break;
        }
        let now = clock::process(child.id());
        at.extend(some[..read].iter().filter(|&&byte| byte == b'\n').map(|_| now));
    }
    child.wait().expect("an end");
    at
}
