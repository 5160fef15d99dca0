//! The programs that read words from standard input.

use std::io::Write as _;
use std::process::{Command, Stdio};

/// The bytes of words as the programs read them, most significant first.
pub fn bytes_of(words: &[u32]) -> Vec<u8> {
    words.iter().flat_map(|w| w.to_be_bytes()).collect()
}

/// What the program of this name prints for these bytes.
pub fn printed(name: &str, bytes: &[u8]) -> Vec<u8> {
    let path = format!("crates/{name}/out/{name}");
    let mut child = Command::new(&path).stdin(Stdio::piped()).stdout(Stdio::piped()).spawn().expect(&path);
    // The program stops reading where the input is too long.
    let _ = child.stdin.take().unwrap().write_all(bytes);
    child.wait_with_output().unwrap().stdout
}
