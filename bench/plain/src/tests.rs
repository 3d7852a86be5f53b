//! The document's examples, and what a refused step and a write leave.

use crate::*;

const SCRIPT: [u8; 15] =
    [0x01, 0x04, 0x04, 0x00, 0x00, 0x01, 0x80, 0x50, 0x1B, 0x82, 0x04, 0x4C, 0x45, 0x41, 0x50];
const UNDEFINED: u64 = 1;
const ABSENT: u64 = 5;
const OCCURS: u64 = 6;

/// A step that reports condition 0: 0 false, 1 true, 2 undefined.
fn step(time: u64, value: u64) -> [u8; 8] {
    (time << 17 | 1 << 11 | value << 3).to_be_bytes()
}

/// Condition 0, its start and its end.
fn start_and_end() -> Monitor {
    let mut table = Table::empty();
    (table.n, table.q) = (3, 1);
    table.entries[0] = Entry { kind: Kind::ConditionImport, operands: [0; 3] };
    table.entries[1] = Entry { kind: Kind::Start, operands: [0; 3] };
    table.entries[2] = Entry { kind: Kind::End, operands: [0; 3] };
    start(table)
}

#[test]
fn recorded_stream() {
    let table = read(&SCRIPT).unwrap();
    assert_eq!(labelled(&table, labels(&SCRIPT, &table)).collect::<Vec<_>>(), [(3, &b"LEAP"[..])]);
    let mut monitor = start(table);
    let alarms = [(1000, 1, 9), (2000, 0, 10), (3000, 2, 9), (4000, 0, 10)].map(|(time, value, alarm)| {
        assert_eq!(monitor.step(&step(time, value)), 0);
        assert_eq!(monitor.time(), time);
        monitor.results()[3] == alarm
    });
    assert_eq!(alarms, [true; 4]);
    assert!(monitor.results()[4..].iter().all(|word| *word == 0));
}

#[test]
fn p7_true_at_the_first_step_starts() {
    let mut monitor = start_and_end();
    assert_eq!(monitor.step(&step(0, 1)), 0);
    assert_eq!(monitor.results()[..3], [3, OCCURS, ABSENT]);
}

#[test]
fn p8_false_at_the_first_step_ends() {
    let mut monitor = start_and_end();
    assert_eq!(monitor.step(&step(0, 0)), 0);
    assert_eq!(monitor.results()[..3], [2, ABSENT, OCCURS]);
}

#[test]
fn p9_true_then_undefined_neither_starts_nor_ends() {
    let mut monitor = start_and_end();
    assert_eq!(monitor.step(&step(0, 1)), 0);
    assert_eq!(monitor.step(&step(1, 2)), 0);
    assert_eq!(monitor.results()[..3], [UNDEFINED, ABSENT, ABSENT]);
}

#[test]
fn refused_step_leaves_the_state() {
    let mut monitor = start_and_end();
    assert_eq!(monitor.step(&step(5, 1)), 0);
    let mut padded = step(6, 0);
    padded[7] |= 1;
    let mut long = step(6, 0).to_vec();
    long.push(0);
    let refused: [(&[u8], u8); 7] = [
        (&[], 21),
        (&step(6, 0)[..7], 21),
        (&step(5, 0), 22),
        (&step(6, 1 << 2), 23),
        (&step(6, 3), 25),
        (&padded, 26),
        (&long, 27),
    ];
    for (bytes, number) in refused {
        assert_eq!(monitor.step(bytes), number);
        assert_eq!(monitor.results(), &[0; 128]);
        assert_eq!(monitor.time(), 5);
    }
    // Time 6 and no report: the condition is still true, and was one step before.
    assert_eq!(monitor.step(&[0, 0, 0, 0, 0, 12, 0]), 0);
    assert_eq!(monitor.results()[..3], [3, ABSENT, ABSENT]);
}

#[test]
fn writing_what_was_read_gives_the_script() {
    for stream in [&include_bytes!("../../../streams/day.stream")[..], b"\0\x0f", &[]] {
        let script = match stream {
            [high, low, rest @ ..] if rest.len() > 15 => &rest[..usize::from(*high) << 8 | usize::from(*low)],
            _ => &SCRIPT[..],
        };
        let table = read(script).unwrap();
        let mut out = [0xAA; 4096];
        assert_eq!(write(&table, labels(script, &table), &mut out), Ok(script.len()));
        assert_eq!(out[..script.len()], *script);
        assert!(out[script.len()..].iter().all(|byte| *byte == 0xAA));
        let mut short = vec![0xAA; script.len() - 1];
        assert_eq!(write(&table, labels(script, &table), &mut short), Err(12));
        assert!(short.iter().all(|byte| *byte == 0xAA));
    }
}

#[test]
fn writer_numbers() {
    let table = read(&SCRIPT).unwrap();
    let block = b"\x04LEAP";
    let changed = |change: &dyn Fn(&mut Table), block: &[u8]| {
        let mut table = table.clone();
        change(&mut table);
        write(&table, block, &mut [0; 64])
    };
    assert_eq!(changed(&|table| table.n = 0, block), Err(4));
    assert_eq!(changed(&|table| table.n = 129, block), Err(4));
    assert_eq!(changed(&|table| table.constants[4] = 1, block), Err(4));
    assert_eq!(changed(&|table| table.events = 2, block), Err(4));
    assert_eq!(changed(&|table| table.variables[0] = Some(0), block), Err(4));
    assert_eq!(changed(&|table| (table.v, table.variables[0]) = (1, Some(1 << 47)), block), Err(13));
    assert_eq!(changed(&|table| table.entries[1].operands[0] = 1, block), Err(7));
    assert_eq!(changed(&|table| table.entries[2].operands[0] = 200, block), Err(7));
    assert_eq!(changed(&|table| table.entries[3].operands[0] = 1, block), Err(8));
    assert_eq!(changed(&|table| table.events = 1, block), Err(8));
    assert_eq!(changed(&|_| (), b"\x04LEA"), Err(2));
    assert_eq!(changed(&|_| (), b"\x21"), Err(10));
    assert_eq!(changed(&|_| (), b"\x04LEAP\0"), Err(11));
    assert_eq!(changed(&|_| (), block), Ok(15));
}
