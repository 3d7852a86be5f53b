//! Running a compiled program on some bytes, and comparing what it prints with the second reading.

use std::io::{Read, Write};
use std::process::{Child, ChildStdin, Command, Stdio};
use std::sync::mpsc::{channel, Sender};
use std::time::Duration;

/// A program and the words put before it (a memory checker, say).
#[derive(Clone)]
pub struct Program {
    words: Vec<String>,
    /// In how many pieces its input is written, with a pause between them.
    pieces: usize,
    /// The time that a run may take.
    limit: Duration,
}

/// What a run came to.
pub struct Run {
    pub output: Vec<u8>,
    /// What is wrong with the run itself: its status or its standard error.
    pub trouble: Option<String>,
}

impl Program {
    pub fn new(before: &[String], path: &str) -> Self {
        let mut words = before.to_vec();
        words.push(path.to_string());
        Program { words, pieces: 1, limit: Duration::from_secs(120) }
    }

    /// The same program, whose input comes in pieces: a short read is not the end of the input.
    pub fn in_pieces(mut self, pieces: usize) -> Self {
        self.pieces = pieces;
        self
    }

    /// The words of the command, as one would type them.
    pub fn shown(&self) -> String {
        self.words.join(" ")
    }

    /// The same program, given so much time for a run.
    pub fn within(mut self, limit: Duration) -> Self {
        self.limit = limit;
        self
    }

    pub fn run(&self, input: &[u8]) -> Result<Run, String> {
        let mut child = Command::new(&self.words[0])
            .args(&self.words[1..])
            .stdin(Stdio::piped())
            .stdout(Stdio::piped())
            .stderr(Stdio::piped())
            .spawn()
            .map_err(|error| format!("{} cannot be run: {error}", self.shown()))?;
        self.talk(&mut child, input).map_err(|error| format!("{}: {error}", self.shown()))
    }

    /// Input is written while output is read, so that neither pipe can fill up and stop both.
    fn talk(&self, child: &mut Child, input: &[u8]) -> std::io::Result<Run> {
        let stdin = child.stdin.take().expect("standard input is a pipe");
        let stdout = child.stdout.take().expect("standard output is a pipe");
        let stderr = child.stderr.take().expect("standard error is a pipe");
        std::thread::scope(|scope| {
            let (done, ended) = channel();
            scope.spawn(move || feed(stdin, input, self.pieces));
            let output = scope.spawn(move || all_of(stdout, Some(done)));
            let errors = scope.spawn(move || all_of(stderr, None));
            let in_time = ended.recv_timeout(self.limit).is_ok();
            if !in_time {
                child.kill()?;
            }
            let output = output.join().expect("output is read")?;
            let errors = errors.join().expect("standard error is read")?;
            let status = child.wait()?;
            let errors = String::from_utf8_lossy(&errors);
            let is_good = in_time && status.code() == Some(0) && errors.is_empty();
            let late = if in_time { "" } else { "still running at the end of its time, " };
            let trouble = (!is_good).then(|| format!("{late}{status}, standard error: {errors}"));
            Ok(Run { output, trouble })
        })
    }
}

/// All that comes out of a pipe; at its end a word to the one who waits.
fn all_of(mut pipe: impl Read, done: Option<Sender<()>>) -> std::io::Result<Vec<u8>> {
    let mut bytes = Vec::new();
    pipe.read_to_end(&mut bytes)?;
    if let Some(done) = done {
        // Where nobody waits any more, the time was over.
        let _ = done.send(());
    }
    Ok(bytes)
}

/// A program may stop reading where nothing more can change its output; that is no fault.
fn feed(mut pipe: ChildStdin, input: &[u8], pieces: usize) {
    for (number, piece) in input.chunks(input.len() / pieces + 1).enumerate() {
        if number > 0 {
            std::thread::sleep(Duration::from_millis(2));
        }
        if pipe.write_all(piece).is_err() {
            return;
        }
    }
}

/// The one comparison: every byte, the exit status and standard error. None where nothing differs.
pub fn difference(expected: &[u8], run: &Run) -> Option<String> {
    if let Some(trouble) = &run.trouble {
        return Some(format!("the run itself: {trouble}"));
    }
    if expected == run.output {
        return None;
    }
    let mut expected = expected.split_inclusive(|byte| *byte == b'\n');
    let mut printed = run.output.split_inclusive(|byte| *byte == b'\n');
    for line in 1.. {
        let (one, other) = (expected.next(), printed.next());
        if one != other {
            let one = line_shown(one);
            let other = line_shown(other);
            return Some(format!("line {line}: the program {other}, the second reading {one}"));
        }
    }
    None
}

fn line_shown(line: Option<&[u8]>) -> String {
    match line {
        Some(line) => format!("{:?}", String::from_utf8_lossy(line)),
        None => "nothing".to_string(),
    }
}
