//! CRC-32C on runs of many lengths, what it notices in a block, and the quick scrub of its guards.

use super::runs::{ALIGNMENTS, Kind};
use super::{Outcome, Tally, known, refusal, tally};
use crate::lent::Lent;
use crate::library::{self, Quick};
use crate::random::Random;
use model::crc32c::{self, BLOCK, START, crc32c, go_on};

const LONGEST: usize = 5_000;
const SHORT: usize = 64;
const RANDOM: usize = 2_000;
const CHANGES: usize = 200_000;
const SCRUBS: usize = 2_000;
const STRIPES: usize = 100;

/// The vectors of RFC 3720, the nine digits, and the guard of a block of zeros.
fn published(count: &mut u64) -> Outcome<()> {
    let rising: Vec<u8> = (0x00..=0x1F).collect();
    let falling: Vec<u8> = (0x00..=0x1F).rev().collect();
    let mut command = [0; 48];
    for (at, byte) in [
        (0, 0x01),
        (1, 0xC0),
        (16, 0x14),
        (22, 0x04),
        (27, 0x14),
        (31, 0x18),
        (32, 0x28),
        (40, 0x02),
    ] {
        command[at] = byte;
    }
    let rows: [(&[u8], u32); 8] = [
        (&[], 0x0000_0000),
        (&[0x00; 32], 0x8A91_36AA),
        (&[0xFF; 32], 0x62A8_AB43),
        (&rising, 0x46DD_794E),
        (&falling, 0x113F_DB5C),
        (&command, 0xD996_3A56),
        (b"123456789", 0xE306_9283),
        (&[0x00; BLOCK], 0x98F9_4189),
    ];
    for (bytes, due) in rows {
        known(due, crc32c(bytes))?;
        CRC.same("published", bytes, count)?;
    }
    Ok(())
}

/// By the table of single bytes, which the slower division has to agree with.
const CRC: Kind<u32> = Kind {
    model: |bytes| !go_on(START, bytes),
    sound: |bytes, model| *model == crc32c(bytes),
    lent: library::crc32c,
    in_place: library::crc32c_at,
};

/// Blocks, short runs and some others.
fn some_lengths(random: &mut Random) -> Vec<usize> {
    (0..=SHORT)
        .chain([BLOCK - 1, BLOCK, BLOCK + 1])
        .chain([0; 8].map(|_| random.below(LONGEST + 1)))
        .collect()
}

/// Bits of a run changed from a place on, counted from the lowest bit of each byte: a bit of `change` for each.
fn change_bits(bytes: &mut [u8], place: usize, change: u32) {
    for bit in (0..32).filter(|bit| change >> bit & 1 == 1) {
        bytes[(place + bit) / 8] ^= 1 << ((place + bit) % 8);
    }
}

/// A block changed in one bit, at every place, and within thirty-two successive bits: its guard changes too.
fn changed_bits(random: &mut Random, count: &mut u64) -> Outcome<()> {
    let mut block = random.bytes(BLOCK);
    let before = library::crc32c_at(&block);
    let single = (0..8 * BLOCK).map(|place| (place, 1));
    let within: Vec<(usize, u32)> = (0..CHANGES)
        .map(|_| (random.below(8 * BLOCK - 31), random.next() as u32 | 1))
        .collect();
    for (place, change) in single.chain(within) {
        change_bits(&mut block, place, change);
        if library::crc32c_at(&block) == before {
            return Err(format!(
                "bits {change:08X} from place {place} on changed unnoticed"
            ));
        }
        change_bits(&mut block, place, change);
        *count += 1;
    }
    Ok(())
}

/// The quick scrub of guards of thirty-two bits; whether they differ.
pub fn quick_scrub(guards: &[u32], tally: &mut Tally) -> Outcome<bool> {
    let answer = crc32c::quick_scrub(guards);
    let differs = answer.unwrap_or(None);
    let numbers = Quick {
        refusal: refusal(&answer),
        differs: u32::from(differs.is_some()),
        combination: differs.unwrap_or(0),
    };
    let lent = Lent::new(guards);
    super::same(numbers, library::quick_scrub_wide(&lent))
        .and_then(|()| lent.kept("guards"))
        .map_err(|difference| format!("quick scrub of {guards:08X?}: {difference}"))?;
    let name = match answer {
        Ok(None) => "fits",
        Ok(Some(_)) => "differs",
        Err(number) => tally::refused(number),
    };
    tally.add(if guards.len() % 2 == 0 { "even" } else { "odd" }, name);
    Ok(differs.is_some())
}

/// Some guards as they come, then with the first changed so that they combine to zero, and to the guard of a block of zeros.
fn any_guards(many: usize, random: &mut Random, tally: &mut Tally) -> Outcome<()> {
    let mut guards: Vec<u32> = (0..many).map(|_| random.next() as u32).collect();
    quick_scrub(&guards, tally)?;
    let sum = guards.iter().fold(0, |sum, guard| sum ^ guard);
    for change in [sum, crc32c(&[0; BLOCK])] {
        guards.iter_mut().take(1).for_each(|first| *first ^= change);
        quick_scrub(&guards, tally)?;
    }
    Ok(())
}

/// The guards of blocks that combine to zeros fit. With one bit of one guard changed they differ, and with bits of one block within
/// thirty-two successive ones.
fn stripe(many: usize, random: &mut Random, tally: &mut Tally) -> Outcome<()> {
    let mut blocks: Vec<Vec<u8>> = (1..many).map(|_| random.bytes(BLOCK)).collect();
    let parity = (0..BLOCK).map(|at| blocks.iter().fold(0, |sum, block| sum ^ block[at]));
    blocks.push(parity.collect());
    let guards: Vec<u32> = blocks
        .iter()
        .map(|block| library::crc32c_at(block))
        .collect();
    let fits = |guards: &[u32]| library::quick_scrub_wide(&Lent::new(guards)).differs == 0;
    known(true, fits(&guards))?;
    quick_scrub(&guards, tally)?;
    for bit in 0..32 * many {
        let mut changed = guards.clone();
        changed[bit / 32] ^= 1 << (bit % 32);
        known(false, fits(&changed))?;
        quick_scrub(&changed, tally)?;
    }
    for _ in 0..100 {
        let member = random.below(many);
        let mut changed = blocks[member].clone();
        change_bits(
            &mut changed,
            random.below(8 * BLOCK - 31),
            random.next() as u32 | 1,
        );
        let mut stored = guards.clone();
        stored[member] = library::crc32c_at(&changed);
        known(false, fits(&stored))?;
        quick_scrub(&stored, tally)?;
    }
    Ok(())
}

pub fn compare(random: &mut Random) -> Outcome<String> {
    let (mut vectors, mut each, mut single, mut mixed, mut anywhere, mut changes) =
        (0, 0, 0, 0, 0, 0);
    published(&mut vectors)?;
    CRC.each_length(LONGEST, random, &mut each)?;
    for length in 0..=SHORT {
        CRC.single_bits(length, &mut single)?;
    }
    for turn in 0..RANDOM {
        let length = if turn % 2 == 0 {
            BLOCK
        } else {
            random.below(LONGEST + 1)
        };
        CRC.same("random", &random.bytes(length), &mut mixed)?;
    }
    CRC.aligned(LONGEST, some_lengths, random, &mut anywhere)?;
    changed_bits(random, &mut changes)?;
    let mut tally = Tally::default();
    for many in (0..=20).cycle().take(SCRUBS) {
        any_guards(many, random, &mut tally)?;
    }
    for many in (3..=16).cycle().take(STRIPES) {
        stripe(many, random, &mut tally)?;
    }
    Ok(format!(
        "{vectors} published vectors and {} other inputs alike: {each} at every length from 0 to {LONGEST} (all 00, all FF, random), \
         {single} with a single bit, {mixed} random, half of them blocks, {anywhere} at every alignment below {ALIGNMENTS}; \
         {changes} changes of a block noticed, one bit at every place and within thirty-two bits at some; quick scrubs of guards: {}, {}",
        each + single + mixed + anywhere,
        tally.of("even", "fits differs 1")?,
        tally.of("odd", "fits differs 1")?
    ))
}
