//! The document's examples: the recorded stream; P7, P8 and P9; the reach of an alarm; a script written again.

use making::{step, Draft, Report, Told};
use nimbrascelto::{Monitor, Outcome};
use plain::Kind;

const SCRIPT: &[u8] = b"\x01\x04\x04\x00\x00\x01\x80\x50\x1B\x82\x04LEAP";

/// A step that reports condition 0.
fn condition(time: u64, told: Option<bool>) -> Vec<u8> {
    step(time, &[Report { import: 0, told: Told::Condition(told) }])
}

/// Condition 0, its start and its end.
fn start_and_end() -> Monitor {
    let mut draft = Draft::new(&[false], &[]);
    draft.entry(Kind::ConditionImport, &[0]);
    draft.entry(Kind::Start, &[0]);
    draft.entry(Kind::End, &[0]);
    Monitor::start(&draft.script()).unwrap()
}

fn outcomes(monitor: &Monitor) -> [Outcome; 3] {
    std::array::from_fn(|k| monitor.result(k))
}

#[test]
fn recorded_stream() {
    let mut monitor = Monitor::start(SCRIPT).unwrap();
    assert_eq!((monitor.entries(), monitor.last_time()), (4, None));
    let mut lines = vec![];
    for (time, told) in [(1000, Some(true)), (2000, Some(false)), (3000, None), (4000, Some(false))] {
        assert_eq!(monitor.step(&condition(time, told)), Ok(()));
        assert_eq!(monitor.last_time(), Some(time));
        lines.extend(monitor.alarms().map(|(entry, label)| (time, entry, label.to_vec())));
    }
    assert_eq!(lines, [(2000, 3, b"LEAP".to_vec()), (4000, 3, b"LEAP".to_vec())]);
    assert_eq!(monitor.results()[..5], [2, 3, 6, 10, 0]);
    assert_eq!(monitor.result(3), Outcome::Alarm(true));
    assert_eq!(monitor.result(4), Outcome::Nothing);
    assert_eq!(monitor.result(1000), Outcome::Nothing);
}

#[test]
fn p7_true_at_the_first_step_starts() {
    let mut monitor = start_and_end();
    monitor.step(&condition(0, Some(true))).unwrap();
    assert_eq!(
        outcomes(&monitor),
        [Outcome::Condition(Some(true)), Outcome::Event(true), Outcome::Event(false)]
    );
}

#[test]
fn p8_false_at_the_first_step_ends() {
    let mut monitor = start_and_end();
    monitor.step(&condition(0, Some(false))).unwrap();
    assert_eq!(
        outcomes(&monitor),
        [Outcome::Condition(Some(false)), Outcome::Event(false), Outcome::Event(true)]
    );
}

#[test]
fn p9_true_then_undefined_neither_starts_nor_ends() {
    let mut monitor = start_and_end();
    monitor.step(&condition(0, Some(true))).unwrap();
    monitor.step(&condition(1, None)).unwrap();
    assert_eq!(outcomes(&monitor), [Outcome::Condition(None), Outcome::Event(false), Outcome::Event(false)]);
}

#[test]
fn every_sort_of_result() {
    let mut draft = Draft::new(&[true, false], &[None]);
    let event = draft.entry(Kind::EventImport, &[0]);
    let value = draft.entry(Kind::Value, &[0]);
    draft.entry(Kind::Update, &[event, 0, value]);
    let variable = draft.entry(Kind::Variable, &[0]);
    let zero = draft.constant(0);
    let less = draft.entry(Kind::Less, &[variable, zero]);
    draft.labelled(Kind::Alarm, event, "");
    draft.labelled(Kind::Property, less, "BELOW 0");
    let mut monitor = Monitor::start(&draft.script()).unwrap();
    let told = |time, value| step(time, &[Report { import: 0, told: Told::Event(Some(value)) }]);
    monitor.step(&step(0, &[])).unwrap();
    assert_eq!(monitor.result(1), Outcome::Number(None));
    assert_eq!(monitor.result(2), Outcome::Update(false));
    assert_eq!(monitor.result(5), Outcome::Condition(None));
    assert_eq!(monitor.result(6), Outcome::Alarm(false));
    assert_eq!(monitor.result(7), Outcome::Property(None));
    monitor.step(&told(1, -(1 << 47))).unwrap();
    assert_eq!(monitor.result(1), Outcome::Number(Some(-(1 << 47))));
    assert_eq!(monitor.result(2), Outcome::Update(true));
    assert_eq!(monitor.result(7), Outcome::Property(Some(true)));
    assert_eq!(monitor.alarms().collect::<Vec<_>>(), [(6, &b""[..])]);
    monitor.step(&told(2, (1 << 47) - 1)).unwrap();
    assert_eq!(monitor.result(3), Outcome::Number(Some((1 << 47) - 1)));
    assert_eq!(monitor.result(7), Outcome::Property(Some(false)));
    assert_eq!(monitor.alarms().collect::<Vec<_>>(), [(6, &b""[..]), (7, b"BELOW 0")]);
}

#[test]
fn reach_of_the_alarm() {
    let reach = Monitor::start(SCRIPT).unwrap().reach(3).unwrap();
    assert!((0..128).all(|k| reach.entries[k] == (k < 4)));
    assert!((0..48).all(|i| reach.imports[i] == (i == 0)));
    assert!(!reach.clock);
}

#[test]
fn script_written_again() {
    let monitor = Monitor::start(SCRIPT).unwrap();
    let mut out = [0xAA; 20];
    assert_eq!(monitor.write(monitor.labels().unwrap(), &mut out), Ok(15));
    assert_eq!(out[..15], *SCRIPT);
    assert_eq!(out[15..], [0xAA; 5]);
    let mut short = [0xAA; 14];
    assert_eq!(monitor.write(b"\x04LEAP", &mut short), Err(12));
    assert_eq!(short, [0xAA; 14]);
}
