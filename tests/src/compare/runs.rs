//! A guard on runs of bytes of many lengths and at many places: one walk for every kind of guard.

use super::Outcome;
use crate::lent::Lent;
use crate::random::Random;
use std::fmt::Debug;

pub const ALIGNMENTS: usize = 64;

/// A kind of guard: the model's, what else must hold of that, and the library's, of lent bytes and of bytes where they lie.
pub struct Kind<T> {
    pub model: fn(&[u8]) -> T,
    pub sound: fn(&[u8], &T) -> bool,
    pub lent: fn(&Lent<u8>) -> T,
    pub in_place: fn(&[u8]) -> T,
}

fn alike<T: PartialEq + Debug>(what: &str, model: T, library: T, count: &mut u64) -> Outcome<()> {
    if model != library {
        return Err(format!(
            "{what}: the model has {model:X?}, the library {library:X?}"
        ));
    }
    *count += 1;
    Ok(())
}

impl<T: PartialEq + Debug> Kind<T> {
    /// One input: counted, or the difference.
    pub fn same(&self, what: &str, bytes: &[u8], count: &mut u64) -> Outcome<()> {
        let length = bytes.len();
        let model = (self.model)(bytes);
        if !(self.sound)(bytes, &model) {
            return Err(format!(
                "{what}, {length} bytes: the model is at odds with itself"
            ));
        }
        let lent = Lent::new(bytes);
        let library = (self.lent)(&lent);
        lent.kept(what)?;
        alike(&format!("{what}, {length} bytes"), model, library, count)
    }

    /// Every length up to a longest: all 00, all FF, and random.
    pub fn each_length(&self, longest: usize, random: &mut Random, count: &mut u64) -> Outcome<()> {
        for length in 0..=longest {
            self.same("all 00", &vec![0x00; length], count)?;
            self.same("all FF", &vec![0xFF; length], count)?;
            self.same("random", &random.bytes(length), count)?;
        }
        Ok(())
    }

    /// Each run of `length` bytes that has a single bit.
    pub fn single_bits(&self, length: usize, count: &mut u64) -> Outcome<()> {
        let mut bytes = vec![0; length];
        for at in 0..length {
            for bit in 0..8 {
                bytes[at] = 1 << bit;
                self.same(&format!("only bit {bit} of byte {at} set"), &bytes, count)?;
            }
            bytes[at] = 0;
        }
        Ok(())
    }

    /// Some lengths up to a longest at every place within sixty-four bytes, so that no step of a vector always begins where its memory does.
    pub fn aligned(
        &self,
        longest: usize,
        lengths: impl Fn(&mut Random) -> Vec<usize>,
        random: &mut Random,
        count: &mut u64,
    ) -> Outcome<()> {
        let bytes = random.bytes(longest + 2 * ALIGNMENTS);
        let from = bytes.as_ptr().align_offset(ALIGNMENTS);
        for alignment in 0..ALIGNMENTS {
            for length in lengths(random) {
                let run = &bytes[from + alignment..][..length];
                let what = format!("{length} bytes, {alignment} past a multiple of {ALIGNMENTS}");
                alike(&what, (self.model)(run), (self.in_place)(run), count)?;
            }
        }
        Ok(())
    }
}
