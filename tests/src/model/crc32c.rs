//! CRC-32C by long division: the bits, the lowest of each byte first, and thirty-two zero bits after them, of all these the first thirty-two
//! turned, divided by the generator; of what is left every bit turned, the highest power as the lowest bit.

use super::Answer;
use std::array;
use std::sync::LazyLock;

/// x^32 and the terms of 1EDC6F41h.
const GENERATOR: u64 = 0x1_1EDC_6F41;

/// The bytes of a block.
pub const BLOCK: usize = 4_096;

/// Where a register starts.
pub const START: u32 = 0xFFFF_FFFF;

/// By what the guards of single bytes differ from that of a byte of zero.
static SINGLE: LazyLock<[u32; 256]> =
    LazyLock::new(|| array::from_fn(|byte| crc32c(&[byte as u8]) ^ crc32c(&[0])));

/// The guard of a block of zeros.
static BLANK: LazyLock<u32> = LazyLock::new(|| crc32c(&[0; BLOCK]));

pub fn crc32c(bytes: &[u8]) -> u32 {
    let mut rest: u64 = 0;
    for (at, byte) in bytes.iter().chain(&[0; 4]).enumerate() {
        let byte = if at < 4 { !byte } else { *byte };
        for place in 0..8 {
            rest = rest << 1 | u64::from(byte >> place & 1);
            if rest >> 32 == 1 {
                rest ^= GENERATOR;
            }
        }
    }
    !(rest as u32).reverse_bits()
}

/// The register of a run whose beginning left `register`, and which goes on with `bytes`. Every bit of it turned is the guard.
pub fn go_on(register: u32, bytes: &[u8]) -> u32 {
    let single = &*SINGLE;
    bytes.iter().fold(register, |register, byte| {
        let [low, rest @ ..] = register.to_le_bytes();
        u32::from_le_bytes([rest[0], rest[1], rest[2], 0]) ^ single[usize::from(low ^ byte)]
    })
}

/// What the stored guards of blocks combine to where they do not fit, None where they do: each as it differs from the guard of zeros, they
/// have to combine to zero.
pub fn quick_scrub(guards: &[u32]) -> Answer<Option<u32>> {
    if !(3..=16).contains(&guards.len()) {
        return Err(1);
    }
    if guards.iter().fold(0, |sum, guard| sum ^ guard ^ *BLANK) == 0 {
        return Ok(None);
    }
    Ok(Some(guards.iter().fold(0, |sum, guard| sum ^ guard)))
}
