//! The guard on runs of many lengths.

use super::Outcome;
use super::runs::{ALIGNMENTS, Kind};
use crate::lent::Lent;
use crate::library;
use crate::random::Random;
use model::guard::{go_on, guard};

const LONGEST: usize = 4_200;
const BLOCK: usize = 512;
const SHORT: usize = 64;
const RANDOM: usize = 80_000;
const RUNS: usize = 16;
const MANY: usize = 20_000;

/// By the table of single bytes, which the slower division has to agree with.
const CRC: Kind<u16> = Kind {
    model: |bytes| go_on(0, bytes),
    sound: |bytes, model| *model == guard(bytes),
    lent: library::guard,
    in_place: library::guard_at,
};

/// The guards of sixteen runs at once: whole stripes and parts of them, buffers that end anywhere, any stride.
fn side_by_side(random: &mut Random, count: &mut u64) -> Outcome<()> {
    const WHOLE: usize = RUNS * (BLOCK + 8);
    let mut bytes = [0; WHOLE + BLOCK];
    for turn in 0..MANY {
        let stride = match turn % 4 {
            0 => BLOCK,
            1 => BLOCK + 8,
            2 => random.below(2 * BLOCK),
            _ => usize::MAX >> random.below(usize::BITS as usize),
        };
        let length = match turn % 3 {
            0 => (RUNS - random.below(RUNS)) * (BLOCK + 8),
            1 => (RUNS - 1 - random.below(8)) * BLOCK,
            _ => random.below(WHOLE + BLOCK),
        };
        random.fill(&mut bytes[..length]);
        let lent = Lent::new(&bytes[..length]);
        let library = library::guards(&lent, stride);
        lent.kept("sixteen runs")?;
        for (run, library) in library.into_iter().enumerate() {
            let from = run.saturating_mul(stride).min(length);
            let model = guard(&bytes[from..length.min(from + BLOCK)]);
            if model != library {
                return Err(format!(
                    "run {run} of {length} bytes at stride {stride}: the model has {model:04X}, the library {library:04X}"
                ));
            }
        }
        *count += 1;
    }
    Ok(())
}

pub fn compare(random: &mut Random) -> Outcome<String> {
    let (mut each, mut single, mut mixed, mut anywhere, mut many) = (0, 0, 0, 0, 0);
    CRC.each_length(LONGEST, random, &mut each)?;
    for length in (0..=SHORT).chain([BLOCK]) {
        CRC.single_bits(length, &mut single)?;
    }
    for _ in 0..RANDOM {
        let length = random.below(LONGEST + 1);
        CRC.same("random", &random.bytes(length), &mut mixed)?;
    }
    let every = |_: &mut Random| (0..=LONGEST).collect();
    CRC.aligned(LONGEST, every, random, &mut anywhere)?;
    side_by_side(random, &mut many)?;
    Ok(format!(
        "{} inputs alike: {each} at every length from 0 to {LONGEST} (all 00, all FF, random), \
         {single} with a single bit, {mixed} random, {anywhere} at every length and every alignment below {ALIGNMENTS}; \
         and {many} buffers of sixteen runs each",
        each + single + mixed + anywhere
    ))
}
