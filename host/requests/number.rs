//! Numbers as request bytes: groups of seven bits, the low group first, the top bit set in all bytes but the last.

use crate::answers::{NUMBER, TOO_SHORT};

const MORE: u8 = 0x80;

/// 64 bits are nine groups of seven and one bit more.
const MOST_BYTES: usize = 10;

pub fn append_number(bytes: &mut Vec<u8>, mut number: u64) {
    while number >= u64::from(MORE) {
        bytes.push(number as u8 | MORE);
        number >>= 7;
    }
    bytes.push(number as u8);
}

/// The number at the front of the bytes and the count of bytes that it took, or its refusal.
pub fn read_number(bytes: &[u8]) -> Result<(u64, usize), u64> {
    let mut number = 0;
    for (place, byte) in bytes.iter().take(MOST_BYTES).enumerate() {
        // only bit 63 is left for the tenth byte, and a 0 there would not be the shortest form
        if place + 1 == MOST_BYTES && *byte != 1 {
            return Err(NUMBER);
        }
        number |= u64::from(byte & !MORE) << (7 * place);
        if byte & MORE == 0 {
            // a last group of 0 adds nothing: the number has a shorter form
            return if *byte == 0 && place > 0 { Err(NUMBER) } else { Ok((number, place + 1)) };
        }
    }
    Err(TOO_SHORT)
}
