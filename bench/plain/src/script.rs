//! Scripts in and out: the reader, the writer and the labels.

use crate::bits::{signed, Putter, Taker};
use crate::table::*;

/// The table of a script, or the number of the first fault, 1 to 11.
pub fn read(script: &[u8]) -> Result<Table, u8> {
    if script.len() > MOST_SCRIPT {
        return Err(1);
    }
    let mut bits = Taker::new(script);
    let mut table = Table::empty();
    read_header(&mut bits, &mut table)?;
    for import in 0..table.q {
        table.events |= field(&mut bits, 1)? << import;
    }
    for variable in 0..usize::from(table.v) {
        table.variables[variable] = read_variable(&mut bits)?;
    }
    for k in 0..usize::from(table.n) {
        read_entry(&mut bits, &mut table, k)?;
    }
    let (padding, block) = bits.finish();
    if padding != 0 {
        return Err(9);
    }
    judge_labels(&table, block)?;
    Ok(table)
}

/// A field that is not wholly there is 2.
fn field(bits: &mut Taker, width: usize) -> Result<u64, u8> {
    bits.take(width).ok_or(2)
}

fn read_header(bits: &mut Taker, table: &mut Table) -> Result<(), u8> {
    if field(bits, 8)? != 1 {
        return Err(3);
    }
    table.n = count(bits, 8, 1, MOST_ENTRIES)?;
    table.q = count(bits, 6, 0, MOST_IMPORTS)?;
    table.v = count(bits, 6, 0, MOST_VARIABLES)?;
    if field(bits, 4)? != 0 {
        return Err(4);
    }
    Ok(())
}

fn count(bits: &mut Taker, width: usize, least: usize, most: usize) -> Result<u8, u8> {
    let count = field(bits, width)?;
    if (least..=most).contains(&(count as usize)) {
        Ok(count as u8)
    } else {
        Err(4)
    }
}

fn read_variable(bits: &mut Taker) -> Result<Option<i64>, u8> {
    let is_defined = field(bits, 1)? == 1;
    let number = field(bits, 48)?;
    match (is_defined, number) {
        (true, number) => Ok(Some(signed(number))),
        (false, 0) => Ok(None),
        (false, _) => Err(5),
    }
}

fn read_entry(bits: &mut Taker, table: &mut Table, k: usize) -> Result<(), u8> {
    let kind = Kind::of_number(field(bits, 5)?).ok_or(6)?;
    let mut operands = [0; 3];
    for (place, operand) in kind.operands().iter().enumerate() {
        let taken = field(bits, operand.width())?;
        if *operand == Operand::Constant {
            table.constants[k] = signed(taken);
        } else {
            table.judge(k, *operand, taken as u8)?;
            operands[place] = taken as u8;
        }
    }
    table.entries[k] = Entry { kind, operands };
    Ok(())
}

/// The labels as stored: 2, 10 and 11.
fn judge_labels(table: &Table, mut block: &[u8]) -> Result<(), u8> {
    let count = table.used().iter().filter(|entry| entry.kind.has_label()).count();
    for _ in 0..count {
        let (&length, rest) = block.split_first().ok_or(2)?;
        let length = usize::from(length);
        if length > MOST_LABEL {
            return Err(10);
        }
        let (text, rest) = rest.split_at_checked(length).ok_or(2)?;
        if !text.iter().all(|byte| (0x20..=0x7E).contains(byte)) {
            return Err(10);
        }
        block = rest;
    }
    if block.is_empty() {
        Ok(())
    } else {
        Err(11)
    }
}

/// The block of labels of an accepted script, as the writer takes it.
pub fn labels<'a>(script: &'a [u8], table: &Table) -> &'a [u8] {
    script.get(table.packed_size()..).unwrap_or_default()
}

/// Each alarm and property with the text of its label, by the block of an accepted script.
pub fn labelled<'a>(table: &'a Table, mut block: &'a [u8]) -> impl Iterator<Item = (usize, &'a [u8])> {
    let entries = table.used().iter().enumerate().filter(|(_, entry)| entry.kind.has_label());
    entries.map_while(move |(k, _)| {
        let (&length, rest) = block.split_first()?;
        let (text, rest) = rest.split_at_checked(usize::from(length))?;
        block = rest;
        Some((k, text))
    })
}

/// Writes a table and its labels as a script; how many bytes it fills, or the number of the first fault.
/// A refused write changes no byte.
pub fn write(table: &Table, labels: &[u8], out: &mut [u8]) -> Result<usize, u8> {
    judge_table(table)?;
    judge_labels(table, labels)?;
    let packed = table.packed_size();
    let size = packed + labels.len();
    if size > MOST_SCRIPT {
        return Err(1);
    }
    if size > out.len() {
        return Err(12);
    }
    pack(table, out);
    out[packed..size].copy_from_slice(labels);
    Ok(size)
}

/// 4, then 13 for variables, then 7, 8 and 13 for entries in order.
fn judge_table(table: &Table) -> Result<(), u8> {
    if !is_within_limits(table) {
        return Err(4);
    }
    for number in table.variables.iter().flatten() {
        judge_number(*number)?;
    }
    for (k, entry) in table.used().iter().enumerate() {
        for (place, operand) in entry.kind.operands().iter().enumerate() {
            table.judge(k, *operand, entry.operands[place])?;
        }
        if entry.kind == Kind::Constant {
            judge_number(table.constants[k])?;
        }
    }
    Ok(())
}

/// The counts, and the unused slots.
fn is_within_limits(table: &Table) -> bool {
    let (n, q, v) = (usize::from(table.n), usize::from(table.q), usize::from(table.v));
    if n < 1 || n > MOST_ENTRIES || q > MOST_IMPORTS || v > MOST_VARIABLES {
        return false;
    }
    let is_unused = |k: usize| table.entries[k].kind == Kind::Constant && table.constants[k] == 0;
    (n..MOST_ENTRIES).all(is_unused)
        && table.events >> q == 0
        && table.variables[v..].iter().all(|number| number.is_none())
}

fn judge_number(number: i64) -> Result<(), u8> {
    if signed(number as u64) == number {
        Ok(())
    } else {
        Err(13)
    }
}

/// Packs a table that was judged; the bytes have room for it.
fn pack(table: &Table, out: &mut [u8]) {
    let mut bits = Putter::new(out);
    bits.put(8, 1);
    bits.put(8, table.n.into());
    bits.put(6, table.q.into());
    bits.put(6, table.v.into());
    bits.put(4, 0);
    for import in 0..table.q {
        bits.put(1, table.is_event(import).into());
    }
    for number in &table.variables[..usize::from(table.v)] {
        bits.put(1, number.is_some().into());
        bits.put(48, number.unwrap_or(0) as u64);
    }
    for (k, entry) in table.used().iter().enumerate() {
        bits.put(5, entry.kind as u64);
        for (place, operand) in entry.kind.operands().iter().enumerate() {
            match operand {
                Operand::Constant => bits.put(48, table.constants[k] as u64),
                _ => bits.put(operand.width(), entry.operands[place].into()),
            }
        }
    }
    bits.finish();
}
