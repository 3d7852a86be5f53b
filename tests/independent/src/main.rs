//! A second reading of the document: `replay` and `inspect` written anew, and compared with the programs.

mod bits;
mod compare;
mod conditions;
mod damage;
mod draft;
mod events;
#[cfg(test)]
mod examples;
mod faults;
mod figures;
mod generate;
mod limits;
mod lines;
mod load;
mod logic;
mod long;
mod mistake;
mod mistakes;
mod numbers;
mod options;
mod planted;
mod program;
mod random;
mod reach;
mod script;
mod scripts;
mod shorten;
mod step;
mod steps;
mod stream;
mod table;
mod truth;

use mistake::Mistake;
use options::Options;
use std::io::{Read, Write};
use std::process::ExitCode;

const USAGE: &str = "independent replay [FILE] | inspect [FILE]
independent compare --replay PATH --inspect PATH [--with WORDS] [--seed N] [--streams N | --seconds S]
independent mistakes --replay PATH --inspect PATH [--seed N] [--streams N]
independent load --replay PATH --inspect PATH [--with WORDS] [--seed N] [--records N | --streams N]
independent stream --seed N --number I [--script] [--load] [--out FILE]
independent long [--records N] [--lines]";

fn main() -> ExitCode {
    let words: Vec<String> = std::env::args().skip(1).collect();
    match command(&words) {
        Ok(()) => ExitCode::SUCCESS,
        Err(message) => {
            println!("{message}");
            ExitCode::FAILURE
        }
    }
}

fn command(words: &[String]) -> Result<(), String> {
    let Some((name, rest)) = words.split_first() else {
        return Err(USAGE.to_string());
    };
    match name.as_str() {
        "replay" => written(&None, &lines::replay(&input(rest)?, Mistake::None)),
        "inspect" => written(&None, &lines::inspect(&input(rest)?, Mistake::None)),
        "stream" => stream(&Options::read(rest)?),
        "long" => long(&Options::read(rest)?),
        "compare" | "mistakes" | "load" => {
            let options = Options::read(rest)?;
            options.need_programs()?;
            match name.as_str() {
                "compare" => compare::run(&options),
                "mistakes" => mistakes::run(&options),
                _ => load::run(&options),
            }
        }
        _ => Err(USAGE.to_string()),
    }
}

/// The file that is named, or standard input.
fn input(words: &[String]) -> Result<Vec<u8>, String> {
    let mut bytes = Vec::new();
    let read = match words {
        [] => std::io::stdin().read_to_end(&mut bytes).map(|_| bytes),
        [path] => std::fs::read(path),
        _ => return Err(USAGE.to_string()),
    };
    read.map_err(|error| error.to_string())
}

/// To the file that is named, or to standard output.
fn written(out: &Option<String>, bytes: &[u8]) -> Result<(), String> {
    let done = match out {
        Some(path) => std::fs::write(path, bytes),
        None => std::io::stdout().write_all(bytes),
    };
    done.map_err(|error| error.to_string())
}

/// A generated stream, or the script that `inspect` is given with it.
fn stream(options: &Options) -> Result<(), String> {
    let made = match options.load {
        true => load::made(options.seed, options.number),
        false => generate::made(options.seed, options.number),
    };
    written(&options.out, if options.script { &made.script } else { &made.bytes })
}

/// A stream of so many steps, or what it prints.
fn long(options: &Options) -> Result<(), String> {
    let out = std::io::stdout();
    let done = match options.lines {
        true => long::write_lines(options.records, out),
        false => long::write_stream(options.records, out),
    };
    done.map_err(|error| error.to_string())
}
