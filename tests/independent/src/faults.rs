//! Scripts with faults put in on purpose, so that every refusal from 1 to 11 comes up, and their order.

use crate::draft::ScriptDraft;
use crate::random::Random;
use crate::table::{Operand, KINDS};

/// The script with one to three faults. Which of them decides, the document says.
pub fn faulty(random: &mut Random, draft: &mut ScriptDraft) -> Vec<u8> {
    let mut bytes = None;
    for _ in 0..random.pick(&[1, 1, 2, 3]) {
        let fault = random.below(20);
        put(random, draft, fault);
        bytes = cut_or_long(random, draft, fault).or(bytes);
    }
    bytes.unwrap_or_else(|| draft.pack())
}

fn put(random: &mut Random, draft: &mut ScriptDraft, fault: usize) {
    match fault {
        0 => draft.format = random.pick(&[0, 2, 129, 255]),
        1 => draft.entry_count = random.pick(&[0, 129, 255, 128, draft.entry_count + 1]),
        2 => draft.import_count = random.pick(&[49, 63, 48, draft.import_count ^ 1]),
        3 => draft.variable_count = random.pick(&[33, 63, 32, draft.variable_count ^ 1]),
        4 => draft.four_bits = 1 << random.below(4),
        5 => undefined_start(random, draft),
        6 => unknown_kind(random, draft),
        7 | 8 => operand(random, draft),
        9 | 15 | 16 => draft.padding = random.next(),
        10 | 18 => long_label(random, draft),
        11 | 19 => bad_text(random, draft),
        12 => draft.tail = random.bytes(2),
        17 => cut_operand(random, draft),
        _ => {}
    }
}

/// 2: the script stops early; 1: it is longer than a script may be.
fn cut_or_long(random: &mut Random, draft: &mut ScriptDraft, fault: usize) -> Option<Vec<u8>> {
    let mut bytes = draft.pack();
    match fault {
        13 => {
            let kept = random.below(bytes.len() + 1);
            bytes.truncate(kept);
        }
        14 if random.chance(40) => {
            let length = random.pick(&[4096, 4097, 5000]);
            bytes.resize(length, 0);
        }
        _ => return None,
    }
    Some(bytes)
}

/// 5: "variable starts undefined with a nonzero number"
fn undefined_start(random: &mut Random, draft: &mut ScriptDraft) {
    if draft.variables.is_empty() {
        return;
    }
    let at = random.below(draft.variables.len());
    draft.variables[at] = (false, 1 << random.below(48));
}

/// 6: "kind 25 to 31"
fn unknown_kind(random: &mut Random, draft: &mut ScriptDraft) {
    let at = random.below(draft.entries.len());
    draft.entries[at][0].0 = 25 + random.below(7) as u64;
}

/// The last operand of an entry is cut off, and its first is at fault: 7 or 8, though a field is not there.
fn cut_operand(random: &mut Random, draft: &mut ScriptDraft) {
    let entries = draft.entries.iter().enumerate();
    let with_two: Vec<usize> = entries.filter(|(_, fields)| fields.len() > 2).map(|(at, _)| at).collect();
    if with_two.is_empty() {
        return;
    }
    let at = random.pick(&with_two);
    let earlier = random.below(at + 1);
    draft.entries[at][1].0 = random.pick(&[at, earlier]) as u64;
    draft.entries.truncate(at + 1);
    draft.entries[at].pop();
    draft.labels.clear();
    draft.tail.clear();
}

/// 7 and 8: an operand that names something else than it did; now and then two of one entry.
fn operand(random: &mut Random, draft: &mut ScriptDraft) {
    let at = random.below(draft.entries.len());
    let kind = draft.entries[at][0].0 as usize;
    let Some(kind) = KINDS.get(kind) else { return };
    let all = random.chance(30);
    for (place, operand) in kind.operands().iter().enumerate() {
        if !all && random.chance(40) {
            continue;
        }
        let earlier = random.below(at + 1);
        let anything = random.below(128);
        let names: &[usize] = match operand {
            Operand::Entry(_) => &[at, at + 1, earlier, anything],
            Operand::Variable => &[draft.variables.len(), 31, anything % 32],
            Operand::Constant => continue,
            _ => &[draft.imports.len(), 63, anything % (draft.imports.len() + 1)],
        };
        if let Some(field) = draft.entries[at].get_mut(place + 1) {
            field.0 = random.pick(names) as u64;
        }
    }
}

/// 10: a length over 32, with or without the bytes.
fn long_label(random: &mut Random, draft: &mut ScriptDraft) {
    if draft.labels.is_empty() {
        return;
    }
    let at = random.below(draft.labels.len());
    let length = random.pick(&[33, 34, 255]);
    draft.labels[at].0 = length;
    if random.chance(50) {
        draft.labels[at].1 = vec![b'A'; usize::from(length)];
    }
    if random.chance(50) {
        draft.labels.truncate(at + 1);
    }
}

/// 10: a byte outside 0x20 to 0x7E; now and then in a text that is cut off, which is 2.
fn bad_text(random: &mut Random, draft: &mut ScriptDraft) {
    if draft.labels.is_empty() {
        return;
    }
    let at = random.below(draft.labels.len());
    let bad = random.pick(&[0x1F, 0x7F, 0x00, 0xFF, 0x80, b'\n']);
    draft.labels[at].0 = 3;
    draft.labels[at].1 = vec![b'A', bad, b'B'];
    if random.chance(40) {
        draft.labels[at].1.truncate(2);
        draft.labels.truncate(at + 1);
    }
}
