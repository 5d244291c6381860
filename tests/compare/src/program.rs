//! The day-book program, run on an input.

use std::io::{Read, Write};
use std::path::{Path, PathBuf};
use std::process::{Child, Command, Stdio};
use std::thread;

/// The repository.
pub fn root() -> PathBuf {
    Path::new(env!("CARGO_MANIFEST_DIR")).join("../..")
}

/// The program, started with pipes. `rt run` in crates/daybook builds it.
pub fn start() -> Child {
    let program = root().join("crates/daybook/out/daybook");
    Command::new(&program)
        .stdin(Stdio::piped())
        .stdout(Stdio::piped())
        .spawn()
        .unwrap_or_else(|error| panic!("{}: {error}", program.display()))
}

/// What it prints for an input that is written in pieces of so many bytes.
pub fn printed_by_pieces(input: &[u8], piece: usize) -> Vec<u8> {
    let mut child = start();
    let mut stdin = child.stdin.take().expect("a pipe");
    let mut stdout = child.stdout.take().expect("a pipe");
    let mut printed = Vec::new();
    thread::scope(|scope| {
        scope.spawn(move || {
            for bytes in input.chunks(piece) {
                stdin.write_all(bytes).expect("the program reads");
            }
        });
        stdout
            .read_to_end(&mut printed)
            .expect("the program writes");
    });
    assert!(child.wait().expect("the program ends").success());
    printed
}

/// What it prints for an input.
pub fn printed(input: &[u8]) -> Vec<u8> {
    printed_by_pieces(input, 1 << 20)
}
