//! What `replay` and `inspect` print, line by line.

use crate::logic::{self, Outcome, Row};
use crate::mistake::Mistake;
use crate::reach;
use crate::script;
use crate::stream::{self, Recording, Stream};
use crate::table::{Kind, Table};
use crate::truth::Truth;

/// What `replay` prints for a stream.
pub fn replay(bytes: &[u8], mistake: Mistake) -> Vec<u8> {
    replayed(&stream::read(bytes, mistake), mistake)
}

pub fn replayed(stream: &Stream, mistake: Mistake) -> Vec<u8> {
    match stream {
        Stream::Cut => b"cut\n".to_vec(),
        Stream::ScriptRefused(number) => format!("script refused {number}\n").into_bytes(),
        Stream::Ran(recording) => recorded(recording, mistake),
    }
}

fn recorded(recording: &Recording, mistake: Mistake) -> Vec<u8> {
    let table = &recording.table;
    let rows = logic::rows(table, &recording.steps, mistake);
    let mut text = format!("script {}\n", table.entries.len()).into_bytes();
    let mut accepted = recording.steps.iter().zip(&rows);
    for refusal in &recording.refusals {
        match refusal {
            Some(number) => text.extend(format!("refused {number}\n").bytes()),
            None => {
                let (step, row) = accepted.next().expect("an accepted record without its step");
                shown(table, step.time, row, &mut text, mistake);
            }
        }
    }
    if recording.cut {
        text.extend(b"cut\n");
    }
    let refused = recording.refusals.iter().flatten().count();
    text.extend(format!("steps {} refused {refused}\n", recording.steps.len()).bytes());
    text
}

/// "Then time, `alarm` or `violated`, entry number, label, in step and entry order."
fn shown(table: &Table, time: u64, row: &Row, text: &mut Vec<u8>, mistake: Mistake) {
    for (number, entry) in table.entries.iter().enumerate() {
        let word = match (entry.kind, row[number]) {
            (Kind::Alarm, Outcome::Event(true)) => "alarm",
            (Kind::Property, Outcome::Condition(Truth::False)) => "violated",
            (Kind::Property, Outcome::Condition(Truth::Undefined))
                if mistake == Mistake::ViolatedForUndefined =>
            {
                "violated"
            }
            _ => continue,
        };
        text.extend(format!("{time} {word} {number}").bytes());
        end_with_label(table, number, text, mistake);
    }
}

/// "Fields are parted by one space; a line with an empty label ends in that space."
fn end_with_label(table: &Table, entry: usize, text: &mut Vec<u8>, mistake: Mistake) {
    let mut place = table.label_place(entry);
    if mistake == Mistake::LabelOfWrongEntry {
        place = (place + 1) % table.labels.len();
    }
    let label = &table.labels[place];
    if !(mistake == Mistake::EmptyLabelLosesSpace && label.is_empty()) {
        text.push(b' ');
    }
    text.extend(label);
    text.push(b'\n');
}

/// What `inspect` prints for a script.
pub fn inspect(script: &[u8], mistake: Mistake) -> Vec<u8> {
    let table = match script::read(script, mistake) {
        Ok(table) => table,
        Err(number) => return format!("script refused {number}\n").into_bytes(),
    };
    let mut text = format!("script {}\n", table.entries.len()).into_bytes();
    for (number, entry) in table.entries.iter().enumerate() {
        match entry.kind {
            Kind::Alarm => inspected(&table, number, "alarm", &mut text, mistake),
            Kind::Property => inspected(&table, number, "property", &mut text, mistake),
            _ => {}
        }
    }
    text
}

/// The four lines of one alarm or property.
fn inspected(table: &Table, entry: usize, word: &str, text: &mut Vec<u8>, mistake: Mistake) {
    let reach = reach::of(table, entry, mistake);
    text.extend(format!("{entry} {word}").bytes());
    end_with_label(table, entry, text, mistake);
    text.extend(format!("{entry} entries").bytes());
    reach.entries.iter().for_each(|number| text.extend(format!(" {number}").bytes()));
    text.extend(format!("\n{entry} imports").bytes());
    reach.imports.iter().for_each(|number| text.extend(format!(" {number}").bytes()));
    let clock = if reach.clock { "yes" } else { "no" };
    text.extend(format!("\n{entry} clock {clock}\n").bytes());
}
