//! The words behind a command.

use crate::program::Program;
use std::time::Instant;

pub struct Options {
    replay: Option<String>,
    inspect: Option<String>,
    before: Vec<String>,
    pub seed: u64,
    pub streams: Option<u64>,
    pub seconds: Option<u64>,
    pub number: u64,
    pub records: u64,
    pub out: Option<String>,
    pub script: bool,
    pub load: bool,
    pub lines: bool,
}

impl Options {
    pub fn read(words: &[String]) -> Result<Self, String> {
        let mut options = Options {
            replay: None,
            inspect: None,
            before: Vec::new(),
            seed: 1,
            streams: None,
            seconds: None,
            number: 0,
            records: 1_000_000,
            out: None,
            script: false,
            load: false,
            lines: false,
        };
        let mut words = words.iter();
        while let Some(word) = words.next() {
            match word.as_str() {
                "--script" => options.script = true,
                "--load" => options.load = true,
                "--lines" => options.lines = true,
                name => {
                    let value = words.next().ok_or(format!("{name} wants a word behind it"))?;
                    options.set(name, value)?;
                }
            }
        }
        Ok(options)
    }

    fn set(&mut self, name: &str, value: &str) -> Result<(), String> {
        match name {
            "--replay" => self.replay = Some(value.to_string()),
            "--inspect" => self.inspect = Some(value.to_string()),
            "--with" => self.before = value.split_whitespace().map(str::to_string).collect(),
            "--out" => self.out = Some(value.to_string()),
            "--seed" => self.seed = count(name, value)?,
            "--streams" => self.streams = Some(count(name, value)?),
            "--seconds" => self.seconds = Some(count(name, value)?),
            "--number" => self.number = count(name, value)?,
            "--records" => self.records = count(name, value)?,
            _ => return Err(format!("no such option: {name}")),
        }
        Ok(())
    }

    /// Both programs have to be named.
    pub fn need_programs(&self) -> Result<(), String> {
        match (&self.replay, &self.inspect) {
            (Some(_), Some(_)) => Ok(()),
            _ => Err("--replay PATH and --inspect PATH are wanted".to_string()),
        }
    }

    pub fn replay(&self) -> Program {
        Program::new(&self.before, self.replay.as_deref().unwrap_or("replay"))
    }

    pub fn inspect(&self) -> Program {
        Program::new(&self.before, self.inspect.as_deref().unwrap_or("inspect"))
    }

    /// Whether a run that started then, and is at this stream, is at its end.
    pub fn is_over(&self, number: u64, started: Instant) -> bool {
        match (self.streams, self.seconds) {
            (Some(streams), _) => number >= streams,
            (None, Some(seconds)) => started.elapsed().as_secs() >= seconds,
            (None, None) => number >= 2000,
        }
    }

    /// Whether a load that has come so far goes on: up to a number of streams, or else of records.
    pub fn wants_more(&self, streams: u64, records: u64) -> bool {
        match self.streams {
            Some(most) => streams < most,
            None => records < self.records,
        }
    }
}

fn count(name: &str, value: &str) -> Result<u64, String> {
    value.parse().map_err(|_| format!("{name} wants a whole number, not {value}"))
}
