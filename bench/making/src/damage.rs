//! Bytes as a bad radio link leaves them.

use crate::Random;

/// Some bits turned, or the end cut off, or bytes more behind it.
pub fn damaged(bytes: &[u8], random: &mut Random) -> Vec<u8> {
    let mut bytes = bytes.to_vec();
    match random.below(4) {
        0 => bytes.truncate(random.below(bytes.len() + 1)),
        1 => bytes.extend((0..1 + random.below(3)).map(|_| random.pick(&[0, 0, 1, 0x80]))),
        _ if bytes.is_empty() => {}
        _ => {
            for _ in 0..1 + random.below(3) {
                let place = random.below(bytes.len());
                bytes[place] ^= 1 << random.below(8);
            }
        }
    }
    bytes
}
