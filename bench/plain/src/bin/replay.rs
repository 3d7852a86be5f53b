//! Plays a recorded stream: standard input, or the file that is named.

use plain::{labelled, labels, read, start, Kind, Monitor, Table};
use std::fs::File;
use std::io::{self, ErrorKind, Read, Write};
use std::process::ExitCode;

/// Room for a length and the longest record, and as much again.
const INPUT: usize = 1 << 17;
/// Lines are written out from here on.
const OUTPUT: usize = 1 << 16;

/// Records as they come in.
struct Input {
    source: Box<dyn Read>,
    bytes: Vec<u8>,
    /// What is there and not taken yet.
    from: usize,
    to: usize,
}

enum Next<'a> {
    Record(&'a [u8]),
    Cut,
    End,
}

impl Input {
    fn new(source: Box<dyn Read>) -> Self {
        Input { source, bytes: vec![0; INPUT], from: 0, to: 0 }
    }

    /// The next record, without its length. Before it waits for more, the lines so far are written out.
    #[inline(always)]
    fn next(&mut self, lines: &mut Lines) -> io::Result<Next<'_>> {
        loop {
            if let [high, low, rest @ ..] = &self.bytes[self.from..self.to] {
                let length = usize::from(u16::from_be_bytes([*high, *low]));
                if length <= rest.len() {
                    let from = self.from + 2;
                    self.from = from + length;
                    return Ok(Next::Record(&self.bytes[from..self.from]));
                }
            }
            lines.flush()?;
            if !self.fill()? {
                return Ok(if self.from == self.to { Next::End } else { Next::Cut });
            }
        }
    }

    /// Moves what is left to the front and reads more behind it; false at the end of the input.
    #[cold]
    fn fill(&mut self) -> io::Result<bool> {
        self.bytes.copy_within(self.from..self.to, 0);
        self.to -= self.from;
        self.from = 0;
        loop {
            match self.source.read(&mut self.bytes[self.to..]) {
                Ok(count) => {
                    self.to += count;
                    return Ok(count > 0);
                }
                Err(error) if error.kind() == ErrorKind::Interrupted => {}
                Err(error) => return Err(error),
            }
        }
    }
}

/// Lines that wait to be written out.
struct Lines {
    out: io::StdoutLock<'static>,
    text: Vec<u8>,
}

impl Lines {
    fn new() -> Self {
        Lines { out: io::stdout().lock(), text: Vec::with_capacity(2 * OUTPUT) }
    }

    fn put(&mut self, text: &[u8]) {
        self.text.extend_from_slice(text);
    }

    fn put_number(&mut self, number: u64) {
        let digits = Digits::of(number);
        self.put(digits.text());
    }

    #[cold]
    fn flush(&mut self) -> io::Result<()> {
        self.out.write_all(&self.text)?;
        self.out.flush()?;
        self.text.clear();
        Ok(())
    }
}

/// A number in decimal.
struct Digits {
    bytes: [u8; 20],
    from: usize,
}

impl Digits {
    fn of(mut number: u64) -> Self {
        let mut digits = Digits { bytes: [b'0'; 20], from: 20 };
        loop {
            digits.from -= 1;
            digits.bytes[digits.from] = b'0' + (number % 10) as u8;
            number /= 10;
            if number == 0 {
                return digits;
            }
        }
    }

    fn text(&self) -> &[u8] {
        &self.bytes[self.from..]
    }
}

/// An alarm or a property: the word that makes it print, and its line behind the time.
struct Rule {
    entry: usize,
    word: u64,
    line: Vec<u8>,
}

fn rules(table: &Table, block: &[u8]) -> Vec<Rule> {
    let rule = |(entry, label): (usize, &[u8])| {
        let (word, name) = match table.entries[entry].kind {
            Kind::Alarm => (10, "alarm"),
            _ => (12, "violated"),
        };
        let mut line = format!(" {name} {entry} ").into_bytes();
        line.extend_from_slice(label);
        line.push(b'\n');
        Rule { entry, word, line }
    };
    labelled(table, block).map(rule).collect()
}

/// The lines of an accepted step.
fn put_step(monitor: &Monitor, rules: &[Rule], lines: &mut Lines) {
    let results = monitor.results();
    let mut time = None;
    for rule in rules {
        if results[rule.entry] == rule.word {
            let time = time.get_or_insert_with(|| Digits::of(monitor.time()));
            lines.put(time.text());
            lines.put(&rule.line);
        }
    }
}

fn play(input: &mut Input, lines: &mut Lines) -> io::Result<()> {
    let Next::Record(script) = input.next(lines)? else {
        lines.put(b"cut\n");
        return lines.flush();
    };
    let table = match read(script) {
        Ok(table) => table,
        Err(number) => {
            lines.put(b"script refused ");
            lines.put_number(number.into());
            lines.put(b"\n");
            return lines.flush();
        }
    };
    lines.put(b"script ");
    lines.put_number(table.n.into());
    lines.put(b"\n");
    let rules = rules(&table, labels(script, &table));
    play_steps(start(table), &rules, input, lines)
}

fn play_steps(mut monitor: Monitor, rules: &[Rule], input: &mut Input, lines: &mut Lines) -> io::Result<()> {
    let mut accepted = 0;
    let mut refused = 0;
    loop {
        match input.next(lines)? {
            Next::Record(step) => match monitor.step(step) {
                0 => {
                    accepted += 1;
                    put_step(&monitor, rules, lines);
                }
                number => {
                    refused += 1;
                    lines.put(b"refused ");
                    lines.put_number(number.into());
                    lines.put(b"\n");
                }
            },
            Next::Cut => {
                lines.put(b"cut\n");
                break;
            }
            Next::End => break,
        }
        if lines.text.len() >= OUTPUT {
            lines.flush()?;
        }
    }
    lines.put(b"steps ");
    lines.put_number(accepted);
    lines.put(b" refused ");
    lines.put_number(refused);
    lines.put(b"\n");
    lines.flush()
}

/// The file that is named, or standard input.
fn source() -> io::Result<Box<dyn Read>> {
    match std::env::args_os().nth(1) {
        Some(path) => Ok(Box::new(File::open(path)?)),
        None => Ok(Box::new(io::stdin().lock())),
    }
}

/// Where reading or writing fails, it stops with status 1.
fn main() -> ExitCode {
    let played = source().and_then(|source| play(&mut Input::new(source), &mut Lines::new()));
    match played {
        Ok(()) => ExitCode::SUCCESS,
        Err(_) => ExitCode::FAILURE,
    }
}
