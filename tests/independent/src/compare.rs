//! The comparison: the compiled programs and the second reading over the same streams, byte by byte.

use crate::figures::Figures;
use crate::generate::{self, Made};
use crate::lines;
use crate::mistake::Mistake;
use crate::options::Options;
use crate::program::{difference, Program};
use crate::shorten;
use crate::stream;
use std::time::Instant;

/// Which of the two programs a comparison is about.
#[derive(Clone, Copy, PartialEq, Eq)]
pub enum Which {
    Replay,
    Inspect,
}

impl Which {
    pub fn name(self) -> &'static str {
        match self {
            Which::Replay => "replay",
            Which::Inspect => "inspect",
        }
    }

    /// What the second reading says that the program prints.
    pub fn expected(self, input: &[u8]) -> Vec<u8> {
        match self {
            Which::Replay => lines::replay(input, Mistake::None),
            Which::Inspect => lines::inspect(input, Mistake::None),
        }
    }
}

pub fn run(options: &Options) -> Result<(), String> {
    let started = Instant::now();
    let mut figures = Figures::default();
    let mut number = 0;
    while !options.is_over(number, started) {
        let made = generate::made(options.seed, number);
        let repeat = Repeat { options, number, command: "" };
        compare_stream(&made, &repeat, &mut figures)?;
        number += 1;
    }
    let seconds = started.elapsed().as_secs_f64();
    println!("{}, 0 differ ({seconds:.1} s, seed {})", figures.shown(), options.seed);
    match figures.never_seen() {
        never if never.is_empty() => Ok(()),
        never => Err(format!("never came up: {}", never.join(", "))),
    }
}

/// What is needed to say how a difference can be seen again.
pub struct Repeat<'a> {
    pub options: &'a Options,
    pub number: u64,
    /// The word for `stream` that makes a stream of the load.
    pub command: &'static str,
}

/// Both programs on one generated stream and its script.
pub fn compare_stream(made: &Made, repeat: &Repeat, figures: &mut Figures) -> Result<(), String> {
    let pieces = if repeat.number % 16 == 15 { 3 } else { 1 };
    let replay = repeat.options.replay().in_pieces(pieces);
    let read = stream::read(&made.bytes, Mistake::None);
    let expected = lines::replayed(&read, Mistake::None);
    compare_one(Which::Replay, &replay, &made.bytes, &expected, repeat)?;
    figures.count_stream(&read, &expected);
    let inspect = repeat.options.inspect().in_pieces(pieces);
    let expected = lines::inspect(&made.script, Mistake::None);
    compare_one(Which::Inspect, &inspect, &made.script, &expected, repeat)?;
    figures.count_output(&expected);
    Ok(())
}

fn compare_one(
    which: Which,
    program: &Program,
    input: &[u8],
    expected: &[u8],
    repeat: &Repeat,
) -> Result<(), String> {
    let run = program.run(input)?;
    match difference(expected, &run) {
        None => Ok(()),
        Some(found) => Err(report(which, program, input, &found, repeat)),
    }
}

/// The seed, the number, the first line that differs, and a shortened input with both outputs.
fn report(which: Which, program: &Program, input: &[u8], found: &str, repeat: &Repeat) -> String {
    let short = shorten::shortened(which, program, input);
    let hex: Vec<String> = short.iter().map(|byte| format!("{byte:02x}")).collect();
    let expected = which.expected(&short);
    let printed =
        program.clone().within(shorten::LIMIT_OF_RUN).run(&short).map(|run| run.output).unwrap_or_default();
    let script = if which == Which::Inspect { " --script" } else { "" };
    format!(
        "{name} differs at seed {seed}, stream {number}{pieces}\n  {found}\n\
         shortened to {length} bytes:\n{hex}\n\
         the program prints:\n{printed}the second reading:\n{expected}\
         again: printf {hex} | xxd -r -p | {program}\n\
         the whole stream: independent stream --seed {seed} --number {number}{load}{script} | {program}",
        name = which.name(),
        seed = repeat.options.seed,
        number = repeat.number,
        pieces = if repeat.number % 16 == 15 { " (its input came in three pieces)" } else { "" },
        length = short.len(),
        hex = hex.concat(),
        printed = String::from_utf8_lossy(&printed),
        expected = String::from_utf8_lossy(&expected),
        program = program.shown(),
        load = repeat.command,
    )
}
