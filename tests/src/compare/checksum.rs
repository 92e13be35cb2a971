//! The checksum on runs of many lengths, refused on odd ones, and the one change of a word that it does not notice.

use super::runs::{ALIGNMENTS, Kind};
use super::{Outcome, known, refusal};
use crate::library::{self, Sum};
use crate::random::Random;
use model::checksum::{self, START, checksum};

const LONGEST: usize = 2_100;
const BLOCK: usize = 512;
const SHORT: usize = 64;
const RANDOM: usize = 80_000;

/// Words at which a carry comes or stays out.
const EDGES: [u16; 8] = [
    0x0000, 0x0001, 0x7FFF, 0x8000, 0x8001, 0xFFFD, 0xFFFE, 0xFFFF,
];

fn numbers(bytes: &[u8]) -> Sum {
    let answer = checksum(bytes);
    Sum {
        refusal: refusal(&answer),
        guard: u32::from(answer.unwrap_or(0)),
    }
}

/// The model's own second way: a byte at a time. None where a byte is left.
fn by_bytes(bytes: &[u8]) -> Option<u16> {
    let start = checksum::Sum {
        value: START,
        waiting: None,
    };
    let sum = bytes.iter().fold(start, |sum, byte| sum.go_on(*byte));
    sum.waiting.is_none().then_some(sum.value)
}

/// An odd length is refused, and no checksum is zero.
const SUM: Kind<Sum> = Kind {
    model: numbers,
    sound: |bytes, model| match by_bytes(bytes) {
        Some(sum) => model.refusal == 0 && model.guard == u32::from(sum) && sum != 0,
        None => model.refusal == 6 && model.guard == 0,
    },
    lent: library::checksum,
    in_place: library::checksum_at,
};

/// A word of a block changed: the checksum changes too, but for 0000h made FFFFh and back.
fn changed_word(
    block: &mut [u8],
    place: usize,
    [before, after]: [u16; 2],
    count: &mut u64,
) -> Outcome<()> {
    let [before_sum, after_sum] = [before, after].map(|word| {
        block[2 * place..][..2].copy_from_slice(&word.to_be_bytes());
        (numbers(block), library::checksum_at(block))
    });
    let alike = before == after || [before.min(after), before.max(after)] == [0x0000, 0xFFFF];
    known(alike, before_sum.0 == after_sum.0)
        .and_then(|()| super::same(before_sum.0, before_sum.1))
        .and_then(|()| super::same(after_sum.0, after_sum.1))
        .map_err(|difference| {
            format!("word {place} changed from {before:04X} to {after:04X}: {difference}")
        })?;
    *count += 1;
    Ok(())
}

/// At every place of a block; and at one place every change of zeros, of ones, and of another word.
fn changed_words(random: &mut Random, count: &mut u64) -> Outcome<()> {
    let mut block = random.bytes(BLOCK);
    for place in 0..BLOCK / 2 {
        for words in [[0x0000, 0xFFFF], [0xFFFF, 0x0000]] {
            changed_word(&mut block, place, words, count)?;
        }
        for _ in 0..200 {
            let words = [0, 1].map(|_| match random.below(2) {
                0 => random.pick(&EDGES),
                _ => random.next() as u16,
            });
            changed_word(&mut block, place, words, count)?;
        }
    }
    let place = random.below(BLOCK / 2);
    for before in [0x0000, 0xFFFF, random.next() as u16] {
        for after in 0..=u16::MAX {
            changed_word(&mut block, place, [before, after], count)?;
        }
    }
    Ok(())
}

pub fn compare(random: &mut Random) -> Outcome<String> {
    let (mut each, mut single, mut mixed, mut anywhere, mut words) = (0, 0, 0, 0, 0);
    SUM.each_length(LONGEST, random, &mut each)?;
    for length in (0..=SHORT).chain([BLOCK]) {
        SUM.single_bits(length, &mut single)?;
    }
    for _ in 0..RANDOM {
        let length = random.below(LONGEST + 1);
        let mut bytes = random.bytes(length);
        if random.one_in(2) {
            for word in bytes.chunks_exact_mut(2) {
                word.copy_from_slice(&random.pick(&EDGES).to_be_bytes());
            }
        }
        SUM.same("random", &bytes, &mut mixed)?;
    }
    let every = |_: &mut Random| (0..=LONGEST).collect();
    SUM.aligned(LONGEST, every, random, &mut anywhere)?;
    changed_words(random, &mut words)?;
    Ok(format!(
        "{} inputs alike, those of odd lengths refused: {each} at every length from 0 to {LONGEST} (all 00, all FF, random), \
         {single} with a single bit, {mixed} random or of words at the edges, {anywhere} at every length and every alignment below {ALIGNMENTS}; \
         {words} words changed in a block, at every place, of which just 0000h made FFFFh and back go unnoticed",
        each + single + mixed + anywhere
    ))
}
