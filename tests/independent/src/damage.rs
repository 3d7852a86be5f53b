//! Damage to bytes as a radio link does it: bits turned round, bytes lost, bytes added, a cut.

use crate::random::Random;
use crate::stream::first_record;

/// One to three such things done to the bytes.
pub fn damaged(random: &mut Random, mut bytes: Vec<u8>) -> Vec<u8> {
    for _ in 0..1 + random.below(3) {
        once(random, &mut bytes);
    }
    bytes
}

fn once(random: &mut Random, bytes: &mut Vec<u8>) {
    let at = random.below(bytes.len() + 1);
    match random.below(7) {
        0..=2 if at < bytes.len() => bytes[at] ^= 1 << random.below(8),
        3 if at < bytes.len() => bytes[at] = random.pick(&[0, 0xFF, 0x80, 0x7F, 0x20, 0x7E]),
        4 if at < bytes.len() => {
            bytes.remove(at);
        }
        5 => bytes.truncate(at),
        _ => {
            let added = 1 + random.below(3);
            let added = random.bytes(added);
            bytes.splice(at..at, added);
        }
    }
}

/// A stream in which the length before a record, or before the script, is not the record's.
pub fn wrong_length(random: &mut Random, mut bytes: Vec<u8>) -> Vec<u8> {
    let mut places = vec![0];
    let mut rest = &bytes[..];
    while let Some((_, behind)) = first_record(rest) {
        places.push(bytes.len() - behind.len());
        rest = behind;
    }
    let place = random.pick(&places);
    if let Some(length) = bytes.get_mut(place..place + 2) {
        let wrong = match random.below(3) {
            0 => length[1].wrapping_add(1),
            1 => length[1].wrapping_sub(1),
            _ => random.next() as u8,
        };
        length[usize::from(random.chance(85))] = wrong;
    }
    bytes
}
