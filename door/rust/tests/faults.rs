//! What is refused, and that it leaves everything as it was: scripts, steps, damaged words, buffers of a wrong size.

use making::{step, Draft, Random, Report, Told};
use nimbrascelto::{calls, Monitor};

const SCRIPT: &[u8] = b"\x01\x04\x04\x00\x00\x01\x80\x50\x1B\x82\x04LEAP";

fn condition(time: u64, told: Option<bool>) -> Vec<u8> {
    step(time, &[Report { import: 0, told: Told::Condition(told) }])
}

/// A monitor that has taken a step, and its results.
fn stepped() -> ([u64; 452], [u64; 128]) {
    let mut state = [7; 452];
    let mut results = [7; 128];
    assert_eq!(calls::start(SCRIPT, &mut state), 0);
    assert_eq!(calls::step(&mut state, &condition(5, Some(false)), &mut results), 0);
    (state, results)
}

#[test]
fn wrong_script() {
    let refused: [(&[u8], u8); 5] = [
        (&[], 2),
        (&[2], 3),
        (&[1, 0], 4),
        (&SCRIPT[..14], 2),
        (b"\x01\x01\x00\x00\x78\x00\x00\x00\x00\x00\x00\x00", 11),
    ];
    for (script, number) in refused {
        assert_eq!(Monitor::start(script).err(), Some(number));
        let mut state = [7; 452];
        assert_eq!(calls::start(script, &mut state), number);
        assert_eq!(state, [7; 452]);
    }
    assert_eq!(Monitor::start(&[1; 4097]).err(), Some(1));
}

#[test]
fn wrong_step() {
    let (state, _) = stepped();
    let mut long = condition(6, None);
    long.push(0);
    let steps: [(&[u8], u8); 4] =
        [(&[], 21), (&condition(5, None), 22), (&condition(6, None)[..7], 21), (&long, 27)];
    for (bytes, number) in steps {
        for call in [calls::step, calls::step_held] {
            let (mut after, mut results) = stepped();
            assert_eq!(call(&mut after, bytes, &mut results), number);
            assert_eq!(after, state);
            assert_eq!(results, [0; 128]);
        }
    }
    let mut monitor = Monitor::start(SCRIPT).unwrap();
    monitor.step(&condition(5, Some(false))).unwrap();
    assert_eq!(monitor.step(&condition(5, None)), Err(22));
    assert_eq!(monitor.results(), &[0; 128]);
    assert_eq!(monitor.words(), &state);
    assert_eq!(monitor.alarms().count(), 0);
}

#[test]
fn wrong_size() {
    let (mut state, mut results) = stepped();
    let before = (state, results);
    let next = condition(6, Some(true));
    for call in [calls::step, calls::step_held] {
        assert_eq!(call(&mut state[..451], &next, &mut results), 90);
        assert_eq!(call(&mut state, &next, &mut results[..127]), 90);
        assert_eq!(call(&mut [], &next, &mut results), 90);
        assert_eq!(call(&mut [1; 453], &next, &mut results), 90);
        assert_eq!(call(&mut state, &next, &mut [0; 129]), 90);
    }
    assert_eq!(calls::start(SCRIPT, &mut state[..451]), 90);
    assert_eq!(calls::start(&[], &mut state[..451]), 90);
    assert_eq!((state, results), before);
    let mut place = [7; 3];
    assert_eq!(calls::label(SCRIPT, 3, &mut place), 90);
    assert_eq!(calls::labels(SCRIPT, &mut place[..1]), 90);
    assert_eq!(calls::label(SCRIPT, 3, &mut []), 90);
    assert_eq!(place, [7; 3]);
    let mut marks = [7; 178];
    assert_eq!(calls::reach(&state, 3, &mut marks), 90);
    assert_eq!(calls::reach(&state[..451], 3, &mut marks[..177]), 90);
    assert_eq!(marks, [7; 178]);
    let (mut out, mut size) = ([7; 20], [7; 2]);
    assert_eq!(calls::write(&state, b"\x04LEAP", &mut out, &mut size), 90);
    assert_eq!(calls::write(&state[..451], b"\x04LEAP", &mut out, &mut size[..1]), 90);
    assert_eq!((out, size), ([7; 20], [7; 2]));
}

#[test]
fn labels_and_reaches_refused() {
    let (state, _) = stepped();
    let mut place = [7; 2];
    assert_eq!(calls::label(SCRIPT, 3, &mut place), 0);
    assert_eq!(place, [11, 4]);
    assert_eq!(calls::labels(SCRIPT, &mut place), 0);
    assert_eq!(place, [10, 5]);
    for entry in [2, 4, 128, u64::MAX] {
        assert_eq!(calls::label(SCRIPT, entry, &mut place), 30);
    }
    assert_eq!(calls::label(&SCRIPT[..14], 128, &mut place), 2);
    assert_eq!(calls::labels(&SCRIPT[..14], &mut place), 2);
    assert_eq!(place, [10, 5]);
    let mut marks = [7; 177];
    for entry in [4, 128, u64::MAX] {
        assert_eq!(calls::reach(&state, entry, &mut marks), 30);
    }
    assert_eq!(marks, [7; 177]);
}

#[test]
fn next_alarms() {
    let mut results = [11; 128];
    assert_eq!(calls::next_alarm(&results, 0), 128);
    results[5] = 10;
    results[127] = 12;
    assert_eq!(
        [0, 5, 6, 127, 128, u64::MAX].map(|from| calls::next_alarm(&results, from)),
        [5, 5, 127, 127, 128, 128]
    );
    assert_eq!(calls::next_alarm(&results[..127], 6), 127);
    assert_eq!(calls::next_alarm(&[], 0), 0);
}

/// Everything that tests for 29, on damaged words: it touches nothing.
fn assert_damaged(state: &[u64; 452]) {
    let mut after = *state;
    let mut results = [7; 128];
    assert_eq!(calls::step(&mut after, &condition(6, Some(true)), &mut results), 29);
    assert_eq!(calls::step(&mut after, &[], &mut results), 29);
    assert_eq!((&after, results), (state, [7; 128]));
    let mut marks = [7; 177];
    assert_eq!(calls::reach(state, 1000, &mut marks), 29);
    assert_eq!(marks, [7; 177]);
    let (mut out, mut size) = ([7; 20], [7]);
    assert_eq!(calls::write(state, &[9, 9], &mut out, &mut size), 29);
    assert_eq!((out, size), ([7; 20], [7]));
    assert_eq!(Monitor::from_words(state).err(), Some(29));
}

#[test]
fn damaged_words() {
    let (state, _) = stepped();
    // A count, an entry, an unused slot, a time out of range, what an unused variable starts with, an import's sort, a report, an end.
    let damages = [
        (0, 0),
        (0, 129),
        (1, 49),
        (2, 33),
        (3, (1 << 47) + 1),
        (3, u64::MAX),
        (4, state[4] ^ 1),
        (6, 1 << 63),
        (8, state[8] + 32),
        (260, 5),
        (260, 1 << 49),
        (292, 3 << 47),
        (324, 2),
        (324, 1),
        (372, 1),
        (388, 4),
        (451, 0),
    ];
    for (place, word) in damages {
        let mut damaged = state;
        damaged[place] = word;
        assert_damaged(&damaged);
    }
    assert_damaged(&[0; 452]);
    assert_damaged(&[u64::MAX; 452]);
    assert_eq!(Monitor::from_words(&state[..451]).err(), Some(90));
}

/// Damage of any word: it is 29, or the words are still those of a monitor, whose step then leaves one.
#[test]
fn random_damage_never_leaves_a_state_at_fault() {
    let random = &mut Random::new(29);
    let mut passed = 0;
    for _ in 0..3000 {
        let draft = Draft::random(1 + random.below(20), random.below(6), random.below(4), random);
        let mut state = [0; 452];
        let mut results = [0; 128];
        assert_eq!(calls::start(&draft.script(), &mut state), 0);
        let place = random.below(452);
        state[place] ^= random.pick(&[1, 2, 3, 1 << 5, 1 << 12, 1 << 47, 1 << 63]);
        let reports = draft.random_reports(random.below(4), random);
        let bytes = step(random.next() >> 17, &reports);
        let before = state;
        match calls::step(&mut state, &bytes, &mut results) {
            29 => assert_damaged(&before),
            0 => {
                passed += 1;
                assert!(Monitor::from_words(&state).is_ok());
            }
            _ => assert_eq!(state, before),
        }
    }
    assert!(passed > 30, "some damage passes: {passed}");
}

/// Whatever the words are, the step without the test writes nothing but its buffers; the guards round them stay.
#[test]
fn held_step_on_any_words_stays_within_its_buffers() {
    let random = &mut Random::new(452);
    for _ in 0..3000 {
        let mut state = [0x5A5A; 2 + 452];
        let mut results = [0x5A5A; 2 + 128];
        let mask = random.pick(&[u64::MAX, (1 << 49) - 1, 127, 3]);
        state[1..453].fill_with(|| random.next() & mask);
        if random.chance(50) {
            state[1] = 1 + random.below(130) as u64;
            state[2] = 48;
            state[4] = 0;
        }
        let bytes = step(random.next() >> 17, &[]);
        calls::step_held(&mut state[1..453], &bytes, &mut results[1..129]);
        assert_eq!([state[0], state[453], results[0], results[129]], [0x5A5A; 4]);
    }
}
