//! Instructions, counted by valgrind's callgrind: they do not hang on the pace of the machine.
//!
//! The driver runs itself under callgrind. There every batch is run inside `counted_batch`; callgrind counts only there, and writes a file
//! behind each. The files stay in `target/bench/counts`, one for each batch, for `callgrind_annotate`.

use crate::works::{growing_works, main_works, Side, Work, COUNTED};
use std::fs;
use std::path::{Path, PathBuf};
use std::process::{Command, Stdio};

const FOLDER: &str = "target/bench/counts";

/// Instructions for each batch, in the order of the works and their sides.
pub struct Counts(Vec<f64>);

/// What callgrind counts.
#[no_mangle]
#[inline(never)]
pub fn counted_batch(batch: &mut dyn FnMut()) {
    batch();
}

fn works() -> Result<Vec<Work>, String> {
    let mut works = main_works(COUNTED)?;
    works.extend(growing_works(COUNTED)?);
    Ok(works)
}

/// Under callgrind: every batch, once before and once counted.
pub fn run_counted() -> Result<(), String> {
    for mut work in works()? {
        for (_, batch) in &mut work.sides {
            batch();
            counted_batch(batch);
        }
    }
    Ok(())
}

pub fn is_there() -> bool {
    let said = Command::new("valgrind").arg("--version").stdout(Stdio::null()).stderr(Stdio::null()).status();
    said.is_ok_and(|status| status.success())
}

/// Runs a command under callgrind; the folder is emptied before.
pub fn callgrind(folder: &Path, options: &[&str], command: &mut Command) -> Result<(), String> {
    let _ = fs::remove_dir_all(folder);
    fs::create_dir_all(folder).map_err(|error| error.to_string())?;
    let mut valgrind = Command::new("valgrind");
    valgrind.arg("--tool=callgrind").arg(format!("--callgrind-out-file={}", folder.join("out").display()));
    valgrind.args(options).arg(command.get_program()).args(command.get_args());
    let done =
        valgrind.stdout(Stdio::null()).stderr(Stdio::piped()).output().map_err(|error| error.to_string())?;
    match done.status.success() {
        true => Ok(()),
        false => Err(format!("valgrind failed: {}", String::from_utf8_lossy(&done.stderr))),
    }
}

/// How many instructions a file of callgrind's has.
pub fn total(file: &Path) -> Result<f64, String> {
    let text = fs::read_to_string(file).map_err(|error| format!("{}: {error}", file.display()))?;
    let line = text.lines().find_map(|line| line.strip_prefix("totals: ").or(line.strip_prefix("summary: ")));
    let words = line.and_then(|line| line.split_whitespace().next());
    words.and_then(|word| word.parse().ok()).ok_or(format!("{}: no total in it", file.display()))
}

/// Counts every batch; none where valgrind is missing.
pub fn count() -> Result<Option<Counts>, String> {
    if !is_there() {
        return Ok(None);
    }
    let folder = Path::new(FOLDER);
    let driver = std::env::current_exe().map_err(|error| error.to_string())?;
    let options = ["--toggle-collect=counted_batch", "--dump-after=counted_batch"];
    callgrind(folder, &options, Command::new(driver).arg("counted"))?;
    let mut counts = Vec::new();
    for work in works()? {
        for (side, _) in &work.sides {
            let file = folder.join(format!("out.{}", counts.len() + 1));
            counts.push(total(&file)? / work.times as f64);
            fs::rename(&file, named(folder, &work, *side)).map_err(|error| error.to_string())?;
        }
    }
    Ok(Some(Counts(counts)))
}

/// The name under which a batch's file stays: what it is, and whose.
fn named(folder: &Path, work: &Work, side: Side) -> PathBuf {
    folder.join(format!("{}-{}", work.name, format!("{side:?}").to_lowercase()))
}

impl Counts {
    /// The next works' counts, taken from the front: one for each side.
    pub fn take(&mut self, work: &Work) -> Vec<f64> {
        self.0.drain(..work.sides.len()).collect()
    }
}
