//! The guard by long division: the bytes, highest bit first, then sixteen zero bits, divided by the generator.

use std::array;
use std::sync::LazyLock;

/// x^16 and the terms of 8BB7h.
const GENERATOR: u32 = 0x1_8BB7;

/// The guards of single bytes.
static SINGLE: LazyLock<[u16; 256]> = LazyLock::new(|| array::from_fn(|byte| guard(&[byte as u8])));

pub fn guard(bytes: &[u8]) -> u16 {
    let mut rest: u32 = 0;
    for byte in bytes.iter().chain(&[0, 0]) {
        for place in (0..8).rev() {
            rest = rest << 1 | u32::from(byte >> place & 1);
            if rest >> 16 == 1 {
                rest ^= GENERATOR;
            }
        }
    }
    rest as u16
}

/// The guard of a run whose beginning has the guard `register`, and which goes on with `bytes`.
pub fn go_on(register: u16, bytes: &[u8]) -> u16 {
    let single = &*SINGLE;
    bytes.iter().fold(register, |register, byte| {
        let [high, low] = register.to_be_bytes();
        u16::from_be_bytes([low, 0]) ^ single[usize::from(high ^ byte)]
    })
}
