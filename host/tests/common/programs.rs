//! The proved programs, run as they are built.
#![allow(dead_code)]

use std::io::Write;
use std::path::Path;
use std::process::{Command, Output, Stdio};
use std::time::Duration;

/// The repository.
pub const TOP: &str = concat!(env!("CARGO_MANIFEST_DIR"), "/..");

/// A proved program, its outputs to be caught.
fn program(name: &str) -> Command {
    let path = format!("{TOP}/target/bin/{name}");
    assert!(
        Path::new(&path).exists(),
        "target/bin/{name} is missing: run 'host/build.sh {name}' first"
    );
    let mut command = Command::new(path);
    command.stdout(Stdio::piped()).stderr(Stdio::piped());
    command
}

/// No signal ended it.
fn ended(name: &str, output: Output) -> Output {
    let by_itself = output.status.code().is_some();
    assert!(by_itself, "{name} ended by {}", output.status);
    output
}

/// What a program writes, its input handed over a pipe piece by piece. Before each piece but the
/// first it has a moment to take what is there, so that it often reads less than it asked for.
pub fn output(name: &str, pieces: &[&[u8]]) -> Output {
    let mut child = program(name)
        .stdin(Stdio::piped())
        .spawn()
        .expect("the program starts");
    let mut stdin = child.stdin.take().unwrap();
    let sent: Vec<Vec<u8>> = pieces.iter().map(|piece| piece.to_vec()).collect();
    // The program may stop reading before the end: that is no fault.
    let feed = std::thread::spawn(move || {
        for (i, piece) in sent.iter().enumerate() {
            if i > 0 {
                std::thread::sleep(Duration::from_micros(40));
            }
            if stdin.write_all(piece).is_err() {
                break;
            }
        }
    });
    let output = child.wait_with_output().expect("the program ends");
    feed.join().unwrap();
    ended(name, output)
}

/// What a program writes to standard output.
pub fn run(name: &str, input: &[u8]) -> Vec<u8> {
    output(name, &[input]).stdout
}

/// What a program writes to standard output where its input is a file.
pub fn run_on_file(name: &str, path: &str) -> Vec<u8> {
    let file = std::fs::File::open(path).expect("a file");
    let output = program(name).stdin(file).output();
    ended(name, output.expect("the program runs")).stdout
}
