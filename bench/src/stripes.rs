//! The array that is measured, and stripes of random data.

use crate::library::{self, Plain};
use crate::random::Random;

pub const MEMBERS: usize = 16;
pub const STRIPES: u64 = 268_435_456;
pub const VOLUME: u8 = 7;
/// How many blocks lie in a row on one member.
pub const ROW: u8 = 1;

/// The bytes of a block's data, of a block and of a stripe, by methods 1 and 2.
pub const DATA: usize = 512;
pub const BLOCK: usize = 520;
pub const STRIPE: usize = MEMBERS * BLOCK;

/// The same by method 3.
pub const LARGE_DATA: usize = 4_096;
pub const LARGE_BLOCK: usize = 4_112;
pub const LARGE_STRIPE: usize = MEMBERS * LARGE_BLOCK;

/// The guard methods by their numbers.
pub const CRC: u8 = 1;
pub const CHECKSUM: u8 = 2;
pub const LARGE: u8 = 3;

/// The bytes of a block's data, and of a block, by a method.
pub fn lengths(method: u8) -> (usize, usize) {
    match method {
        LARGE => (LARGE_DATA, LARGE_BLOCK),
        _ => (DATA, BLOCK),
    }
}

/// The bytes of a stripe by a method.
pub fn stripe_length(method: u8) -> usize {
    MEMBERS * lengths(method).1
}

/// Guard, application tag and reference tag: whether each fits.
pub type Fits = [bool; 3];

#[derive(Clone, Copy, Debug, PartialEq)]
pub enum Verdict {
    Clean,
    Bad {
        member: usize,
        count: usize,
        fits: Fits,
    },
    Unchecked {
        member: usize,
        count: usize,
    },
    Torn {
        place: usize,
    },
}

impl Verdict {
    /// The verdict as one number.
    pub fn number(self) -> u64 {
        match self {
            Verdict::Clean => 0,
            Verdict::Bad {
                member,
                count,
                fits,
            } => {
                let fits = fits
                    .iter()
                    .fold(0, |number, fits| number << 1 | u64::from(*fits));
                1 << 32 | fits << 24 | (member as u64) << 16 | count as u64
            }
            Verdict::Torn { place } => 2 << 32 | place as u64,
            Verdict::Unchecked { member, count } => 3 << 32 | (member as u64) << 16 | count as u64,
        }
    }
}

pub fn parity_member(stripe: u64) -> usize {
    (stripe % MEMBERS as u64) as usize
}

/// The blocks of a stripe of methods 1 and 2, member by member.
pub fn blocks(bytes: &[u8]) -> impl Iterator<Item = &[u8]> {
    bytes.chunks_exact(BLOCK)
}

/// Fills a buffer with whole stripes of random data, numbered from 0, of so many members, whose guards are of a method.
pub fn seal(members: usize, method: u8, bytes: &mut [u8], random: &mut Random) {
    let (data, block) = lengths(method);
    let mut data = vec![0; (members - 1) * data];
    for (stripe, bytes) in bytes.chunks_exact_mut(members * block).enumerate() {
        random.fill(&mut data);
        let refusal = library::seal::<Plain>(members, method, stripe as u64, &data, bytes);
        assert_eq!(refusal, 0, "a stripe is sealed");
    }
}

/// The guard of a block's data as it stands in a tag.
fn guard_bytes(method: u8, data: &[u8]) -> Vec<u8> {
    match method {
        CRC => library::guard::<Plain>(data).to_be_bytes().to_vec(),
        CHECKSUM => library::checksum::<Plain>(data).to_be_bytes().to_vec(),
        _ => library::crc32c::<Plain>(data).to_be_bytes().to_vec(),
    }
}

/// Damages a stripe, or not: a bit of it, a bit of a tag, two blocks changed about, a block written anew without its parity, one marked as not to be checked, a
/// bit of the parity's guard, or all of it.
pub fn damage(method: u8, stripe: u64, bytes: &mut [u8], random: &mut Random) {
    let member = random.below(MEMBERS);
    let (data, block) = lengths(method);
    let begin = member * block;
    match random.below(8) {
        0 => {}
        1 => bytes[random.below(MEMBERS * block)] ^= 1 << random.below(8),
        2 => bytes[begin + data + random.below(block - data)] ^= 1 << random.below(8),
        3 => {
            let other = random.below(MEMBERS);
            for at in 0..block {
                bytes.swap(begin + at, other * block + at);
            }
        }
        4 => {
            bytes[begin + random.below(data)] ^= 1 << random.below(8);
            let guard = guard_bytes(method, &bytes[begin..begin + data]);
            bytes[begin + data..][..guard.len()].copy_from_slice(&guard);
            let torn = library::scrub::<Plain>(method, stripe, bytes);
            assert!(matches!(torn, Verdict::Torn { .. }), "{torn:?}");
        }
        // The application tag comes after a fourth of the tag.
        5 => bytes[begin + data + (block - data) / 4..][..2].fill(0xFF),
        6 => bytes[parity_member(stripe) * block + data] ^= 1 << random.below(8),
        _ => random.fill(bytes),
    }
}
