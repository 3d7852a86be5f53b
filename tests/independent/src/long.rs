//! A stream of any length: the document's recorded stream, its four steps over and over, one second apart.

use std::io::{BufWriter, Error, Write};

/// "It imports condition 0, negates it, takes the start, raises alarm LEAP."
const SCRIPT: [u8; 15] = [
    0x01, 0x04, 0x04, 0x00, 0x00, 0x01, 0x80, 0x50, 0x1B, 0x82, 0x04, 0x4C, 0x45, 0x41, 0x50,
];

/// "true", "false", "undefined", "false": the last byte of each step.
const REPORTS: [u8; 4] = [0x08, 0x00, 0x10, 0x00];

/// Writes a stream of so many steps.
pub fn write_stream(steps: u64, out: impl Write) -> Result<(), Error> {
    let mut out = BufWriter::with_capacity(1 << 20, out);
    out.write_all(&[0, SCRIPT.len() as u8])?;
    out.write_all(&SCRIPT)?;
    for step in 0..steps {
        out.write_all(&[0, 8])?;
        out.write_all(&packed(1000 * (step + 1), REPORTS[(step % 4) as usize]))?;
    }
    out.flush()
}

/// Writes what such a stream prints: the alarm is raised at each second step, where the condition is false and was not one step before.
pub fn write_lines(steps: u64, out: impl Write) -> Result<(), Error> {
    let mut out = BufWriter::with_capacity(1 << 20, out);
    writeln!(out, "script 4")?;
    for step in (1..steps).step_by(2) {
        writeln!(out, "{} alarm 3 LEAP", 1000 * (step + 1))?;
    }
    writeln!(out, "steps {steps} refused 0")?;
    out.flush()
}

/// "Time, 47 bits; report count, 6 bits", and one report of import 0.
fn packed(time: u64, report: u8) -> [u8; 8] {
    let mut bytes = ((time << 17) | (1 << 11)).to_be_bytes();
    bytes[7] = report;
    bytes
}
