//! How large the state and the code are.

use std::process::Command;

const LIBRARY: &str = "target/staticlib/libdoor.a";

/// The bytes of code in a file, by the command `size`.
fn code(file: &str) -> Option<u64> {
    let said =
        Command::new("size").args(["-A", "-d", file]).output().ok().filter(|said| said.status.success())?;
    let text = String::from_utf8_lossy(&said.stdout).into_owned();
    let sections = text.lines().filter(|line| line.starts_with(".text"));
    Some(sections.filter_map(|line| line.split_whitespace().nth(1)?.parse::<u64>().ok()).sum())
}

pub fn print() {
    let words = nimbrascelto::raw::STATE_WORDS;
    let plain = std::mem::size_of::<plain::Monitor>();
    println!("state: {words} words, {} bytes (plain: {plain} bytes)", 8 * words);
    for (name, file) in [("the library", LIBRARY), ("replay", crate::streams::OURS)] {
        match code(file) {
            Some(bytes) => println!("code of {name}: {bytes} bytes ({file})"),
            None => println!("code of {name}: not known, for want of the command size or of {file}"),
        }
    }
}
