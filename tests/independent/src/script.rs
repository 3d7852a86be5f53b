//! Reading a script: its table, or the refusal 1 to 11 of its first fault.

use crate::bits::{number, Bits};
use crate::mistake::Mistake;
use crate::table::*;

/// A refusal, by its number in the document.
pub type Refusal = u8;

/// "Reading goes from front to back and the first fault decides."
pub fn read(bytes: &[u8], mistake: Mistake) -> Result<Table, Refusal> {
    // "Number 1 comes before all reading"
    if bytes.len() > MOST_SCRIPT {
        return Err(1);
    }
    let mut bits = Bits::new(bytes);
    if mistake == Mistake::HeaderJudgedWhole && bytes.len() < 4 {
        return Err(2);
    }
    let (entries, imports, variables) = header(&mut bits)?;
    let mut table = Table::default();
    for _ in 0..imports {
        table.imports.push(field(&mut bits, 1)? == 1);
    }
    for _ in 0..variables {
        table.variables.push(variable(&mut bits, mistake)?);
    }
    for _ in 0..entries {
        let entry = entry(&mut bits, &table, mistake)?;
        table.entries.push(entry);
    }
    // "Zero bits up to a whole byte."
    if bits.padding() != 0 && mistake != Mistake::ScriptPaddingNotJudged {
        return Err(9);
    }
    table.labels = labels(bits.rest(), &table, mistake)?;
    Ok(table)
}

/// "a field that isn't wholly there is 2"
fn field(bits: &mut Bits, width: usize) -> Result<u64, Refusal> {
    bits.take(width).ok_or(2)
}

/// The numbers of entries, imports and variables.
fn header(bits: &mut Bits) -> Result<(u64, u64, u64), Refusal> {
    if field(bits, 8)? != 1 {
        return Err(3);
    }
    let entries = field(bits, 8)?;
    if entries == 0 || entries > MOST_ENTRIES as u64 {
        return Err(4);
    }
    let imports = field(bits, 6)?;
    if imports > MOST_IMPORTS as u64 {
        return Err(4);
    }
    let variables = field(bits, 6)?;
    if variables > MOST_VARIABLES as u64 {
        return Err(4);
    }
    if field(bits, 4)? != 0 {
        return Err(4);
    }
    Ok((entries, imports, variables))
}

/// "1 bit (1 = starts defined), then 48 bits, two's complement; all zero where it starts undefined"
fn variable(bits: &mut Bits, mistake: Mistake) -> Result<Option<i64>, Refusal> {
    let defined = field(bits, 1)? == 1;
    let start = field(bits, 48)?;
    if defined {
        return Ok(Some(number(start)));
    }
    if start != 0 && mistake != Mistake::UndefinedStartNotJudged {
        return Err(5);
    }
    Ok(None)
}

/// "5 bits of kind, then operands"
fn entry(bits: &mut Bits, table: &Table, mistake: Mistake) -> Result<Entry, Refusal> {
    let kind = field(bits, 5)? as usize;
    let kind = *KINDS.get(kind).ok_or(6)?;
    if mistake == Mistake::OperandsJudgedTogether && !bits.has(widths(kind)) {
        return Err(2);
    }
    let mut operands = [0; 3];
    for (place, operand) in kind.operands().iter().enumerate() {
        let taken = field(bits, operand.width())?;
        judge(*operand, taken as usize, table, mistake)?;
        operands[place] = match operand {
            Operand::Constant => number(taken),
            _ => taken as i64,
        };
    }
    Ok(Entry { kind, operands })
}

/// The bits that the operands of a kind take, all of them together.
fn widths(kind: Kind) -> usize {
    kind.operands().iter().map(|operand| operand.width()).sum()
}

/// "operand by operand, 7 before 8"
fn judge(operand: Operand, taken: usize, table: &Table, mistake: Mistake) -> Result<(), Refusal> {
    let is_there = match operand {
        Operand::Entry(_) => taken < table.entries.len(),
        Operand::ConditionImport | Operand::EventImport => taken < table.imports.len(),
        Operand::Variable => taken < table.variables.len(),
        Operand::Constant => true,
    };
    if mistake == Mistake::EightBeforeSeven && !has_sort(operand, taken, table) {
        return Err(8);
    }
    if !is_there {
        return Err(7);
    }
    if !has_sort(operand, taken, table) {
        return Err(8);
    }
    Ok(())
}

/// Whether what an operand names is of the sort that is wanted. (Slots not in use are "the constant 0"
/// and "conditions"; only a reader that judges 8 first comes to see them.)
fn has_sort(operand: Operand, taken: usize, table: &Table) -> bool {
    let is_event = table.imports.get(taken).copied().unwrap_or(false);
    match operand {
        Operand::Entry(sort) => {
            let kind = table.entries.get(taken).map_or(Kind::Constant, |e| e.kind);
            kind.sort() == sort
        }
        Operand::ConditionImport => !is_event,
        Operand::EventImport => is_event,
        Operand::Variable | Operand::Constant => true,
    }
}

/// "For each alarm and property entry, in order: a length byte 0 to 32, then that many bytes from
/// 0x20 to 0x7E. Nothing follows."
fn labels(mut bytes: &[u8], table: &Table, mistake: Mistake) -> Result<Vec<Vec<u8>>, Refusal> {
    let mut labels = Vec::new();
    for _ in table.entries.iter().filter(|e| e.kind.has_label()) {
        let (label, rest) = label(bytes, mistake)?;
        labels.push(label.to_vec());
        bytes = rest;
    }
    if !bytes.is_empty() {
        return Err(11);
    }
    Ok(labels)
}

/// One label, and the bytes behind it.
fn label(bytes: &[u8], mistake: Mistake) -> Result<(&[u8], &[u8]), Refusal> {
    let (&length, rest) = bytes.split_first().ok_or(2)?;
    let length = length as usize;
    if mistake == Mistake::LongLabelThatIsCut && length > rest.len() {
        return Err(2);
    }
    // "A label length over 32 is 10, even if the bytes are also missing."
    if length > MOST_LABEL {
        return Err(10);
    }
    if mistake == Mistake::BadByteBeforeCutText && rest.iter().take(length).any(|b| !is_text(b)) {
        return Err(10);
    }
    // "a label's text is one field"
    if length > rest.len() {
        return Err(2);
    }
    let (text, rest) = rest.split_at(length);
    if !text.iter().all(is_text) {
        return Err(10);
    }
    Ok((text, rest))
}

fn is_text(byte: &u8) -> bool {
    (0x20..=0x7E).contains(byte)
}
