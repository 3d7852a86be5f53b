//! The library beside the plain interpreter of `bench/plain`, on scripts and steps made at random: every number of a refusal, every result
//! word and every written script is the same.

use making::{damaged, step, Draft, Random};
use nimbrascelto::{calls, Monitor};

/// Steps with rising times, now and then damaged.
fn steps(draft: &Draft, count: usize, random: &mut Random) -> Vec<Vec<u8>> {
    let mut time = random.below(3) as u64;
    let made = (0..count).map(|_| {
        let count = random.below(draft.imports().min(12) + 1);
        let bytes = step(time, &draft.random_reports(count, random));
        time += if random.chance(90) { 1 + random.below(5000) as u64 } else { 0 };
        if random.chance(15) {
            damaged(&bytes, random)
        } else {
            bytes
        }
    });
    made.collect()
}

fn number(answer: Result<(), u8>) -> u8 {
    answer.err().unwrap_or(0)
}

/// The same steps on both sides. The tested step goes beside the held one.
fn assert_same_steps(script: &[u8], steps: &[Vec<u8>]) -> usize {
    let mut ours = Monitor::start(script).unwrap();
    let mut theirs = plain::start(plain::read(script).unwrap());
    let mut tested = *ours.words();
    let mut results = [0; 128];
    let mut accepted = 0;
    for bytes in steps {
        let expected = theirs.step(bytes);
        assert_eq!(number(ours.step(bytes)), expected, "{script:?} {bytes:?}");
        assert_eq!(ours.results(), theirs.results(), "{script:?} {bytes:?}");
        assert_eq!(calls::step(&mut tested, bytes, &mut results), expected);
        assert_eq!((&results, &tested), (ours.results(), ours.words()));
        accepted += usize::from(expected == 0);
    }
    assert_eq!(ours.last_time().unwrap_or(0), theirs.time());
    let stored = Monitor::from_words(ours.words()).unwrap();
    assert_eq!(stored.words(), ours.words());
    accepted
}

fn assert_same_script_again(script: &[u8]) {
    let ours = Monitor::start(script).unwrap();
    let table = plain::read(script).unwrap();
    let block = plain::labels(script, &table);
    assert_eq!(ours.labels(), Ok(block));
    for (entry, label) in plain::labelled(&table, block) {
        assert_eq!(ours.label(entry), Ok(label));
    }
    let mut out = [0xAA; 4096];
    assert_eq!(ours.write(block, &mut out), Ok(script.len()));
    assert_eq!(out[..script.len()], *script);
    assert!(out[script.len()..].iter().all(|byte| *byte == 0xAA));
}

#[test]
fn scripts_of_all_kinds() {
    let random = &mut Random::new(1);
    let mut accepted = 0;
    for _ in 0..1500 {
        let draft = Draft::random(1 + random.below(128), random.below(49), random.below(33), random);
        let script = draft.script();
        assert_same_script_again(&script);
        accepted += assert_same_steps(&script, &steps(&draft, 40, random));
    }
    assert!(accepted > 30_000, "{accepted}");
}

#[test]
fn small_scripts_and_many_steps() {
    let random = &mut Random::new(2);
    for _ in 0..300 {
        let draft = Draft::random(1 + random.below(16), random.below(5), random.below(3), random);
        assert_same_steps(&draft.script(), &steps(&draft, 400, random));
    }
}

#[test]
fn damaged_scripts() {
    let random = &mut Random::new(3);
    let mut refused = [0; 256];
    for _ in 0..20_000 {
        let draft = Draft::random(1 + random.below(30), random.below(8), random.below(4), random);
        let script = damaged(&draft.script(), random);
        let expected = plain::read(&script).err();
        assert_eq!(Monitor::start(&script).err(), expected, "{script:?}");
        refused[usize::from(expected.unwrap_or(0))] += 1;
    }
    for number in [0, 2, 3, 4, 5, 6, 7, 8, 9, 10, 11] {
        assert!(refused[number] > 0, "no damaged script has the number {number}");
    }
}
