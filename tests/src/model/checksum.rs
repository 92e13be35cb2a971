//! The checksum, twice: of whole runs as a remainder, and of runs that go on by rotating and adding.

use super::Answer;

/// Where a sum starts. It counts as zero, but no sum is 0 after it.
pub const START: u16 = 0xFFFF;

/// Words are added modulo this, so that a carry counts as one.
const ROUND: u64 = 65_535;

/// What the words leave as the digits of one number to the base of two: a word before another counts twice.
pub fn checksum(bytes: &[u8]) -> Answer<u16> {
    if bytes.len() % 2 == 1 {
        return Err(6);
    }
    let rest = bytes.chunks(2).fold(0, |rest, word| {
        let [high, low] = [word[0], word[1]].map(u64::from);
        (2 * rest + 256 * high + low) % ROUND
    });
    Ok(if rest == 0 { START } else { rest as u16 })
}

/// What a run has made so far: the sum over its whole words, and the byte that waits for its pair, if one does.
#[derive(Clone, Copy, Debug, PartialEq)]
pub struct Sum {
    pub value: u16,
    pub waiting: Option<u8>,
}

impl Sum {
    /// The sum of a run that goes on with `byte`.
    pub fn go_on(self, byte: u8) -> Self {
        match self.waiting {
            None => Sum {
                waiting: Some(byte),
                ..self
            },
            Some(high) => Sum {
                value: add(self.value, u16::from_be_bytes([high, byte])),
                waiting: None,
            },
        }
    }
}

/// The sum rotated left by one bit, and the word added with the carry wrapped round.
fn add(sum: u16, word: u16) -> u16 {
    let sum = u32::from(sum);
    let rotated = (sum << 1 | sum >> 15) & 0xFFFF;
    let added = rotated + u32::from(word);
    ((added & 0xFFFF) + (added >> 16)) as u16
}
