//! The hostile load: long streams of mostly damaged or random records, and many short random streams.

use crate::compare::{compare_stream, Repeat};
use crate::damage::damaged;
use crate::draft::{record, ScriptDraft};
use crate::figures::Figures;
use crate::generate::{self, Made};
use crate::options::Options;
use crate::random::Random;
use crate::scripts;
use crate::steps::StepMaker;
use std::time::Instant;

pub fn run(options: &Options) -> Result<(), String> {
    let started = Instant::now();
    let mut figures = Figures::default();
    let mut number = 0;
    let mut short = 0;
    let mut wholly_random = 0;
    while options.wants_more(number, figures.records) {
        let made = made(options.seed, number);
        short += u64::from(is_short(number));
        wholly_random += u64::from(is_random(number));
        let repeat = Repeat { options, number, command: " --load" };
        compare_stream(&made, &repeat, &mut figures)?;
        number += 1;
    }
    println!(
        "load: {} records behind accepted scripts, {number} streams, {short} of them short, \
         {wholly_random} of these random bytes; {}, \
         0 differ ({:.1} s, seed {})",
        figures.records,
        figures.shown(),
        started.elapsed().as_secs_f64(),
        options.seed
    );
    Ok(())
}

/// Thirty-one streams of thirty-two are short.
fn is_short(number: u64) -> bool {
    number % 32 != 0
}

/// A quarter of the short ones are random bytes; the others are damaged, hostile or have faults put in.
fn is_random(number: u64) -> bool {
    is_short(number) && number % 4 == 3
}

/// A stream of the load, by its seed and number.
pub fn made(seed: u64, number: u64) -> Made {
    let random = &mut Random::of_stream(seed ^ 0x10AD, number);
    if !is_short(number) {
        return long_stream(random);
    }
    match number % 4 {
        0 => generate::damaged_stream(random),
        1 => generate::hostile(random),
        2 => generate::faulty_script(random),
        _ => random_stream(random),
    }
}

/// Random bytes; of half of them the first two are such that reading gets further.
fn random_stream(random: &mut Random) -> Made {
    let length = random.pick(&[1, 4, 16, 64, 256, 4200]);
    let length = random.below(length + 1);
    let mut script = random.bytes(length);
    if random.chance(50) {
        let good = [1, 1 + random.below(128) as u8];
        script.iter_mut().zip(good).for_each(|(byte, good)| *byte = good);
    }
    let mut bytes = record(&script);
    if random.chance(30) {
        bytes = script.clone();
    }
    let behind = random.below(30);
    bytes.extend(random.bytes(behind));
    Made { script, bytes }
}

/// Several thousand records, of which some hundreds at most are accepted.
fn long_stream(random: &mut Random) -> Made {
    let most = random.pick(&[20, 40, 128]);
    let table = scripts::table(random, most);
    let script = ScriptDraft::of(&table).pack();
    let mut bytes = record(&script);
    let count = 2000 + random.below(4000);
    let mut accepted = 300;
    let mut steps = StepMaker::new(random, &table.imports, 0);
    for _ in 0..count {
        if accepted > 0 && steps.random.chance(6) {
            accepted -= 1;
            bytes.extend(record(&steps.next()));
        }
        let good = steps.offered();
        bytes.extend(record(&hostile_record(steps.random, good)));
    }
    let kept = if random.chance(50) { bytes.len() - random.below(bytes.len() / 4) } else { bytes.len() };
    bytes.truncate(kept);
    Made { script: damaged(random, script), bytes }
}

/// A record that is damaged, random, empty or far too long. Most keep their time, so that they are judged
/// further, and so that one that is accepted leaves room for the steps behind it.
fn hostile_record(random: &mut Random, mut good: Vec<u8>) -> Vec<u8> {
    match random.below(100) {
        0 => Vec::new(),
        1 if random.chance(10) => random.bytes(0xFFFF),
        2 if random.chance(10) => {
            good.resize(0xFFFF, 0);
            good
        }
        3 if random.chance(4) => damaged(random, good),
        4..=14 => {
            let length = random.below(24);
            random.bytes(length)
        }
        15..=60 => {
            let behind = good.split_off(6);
            good.extend(damaged(random, behind));
            good
        }
        _ => {
            let length = random.below(24);
            good.truncate(6);
            good.extend(random.bytes(length));
            good
        }
    }
}
