//! What a block is, by the method of its guard: how long its data are, and what stands where in its tag.

use std::ops::Range;

/// How many bytes the data of a block have and, in the tag after them, the guard, what is spare behind the application tag, and the reference tag.
#[derive(Clone, Copy, Debug, PartialEq)]
pub struct Format {
    pub data: usize,
    guard: usize,
    spare: usize,
    reference: usize,
}

/// The bytes of the application tag itself.
const APPLICATION: usize = 2;

/// Blocks of methods 1 and 2.
const SMALL: Format = Format {
    data: 512,
    guard: 2,
    spare: 0,
    reference: 4,
};

/// Blocks of method 3.
const LARGE: Format = Format {
    data: 4_096,
    guard: 4,
    spare: 2,
    reference: 8,
};

impl Format {
    /// The format of a method. A number that is none has that of method 1; every call refuses it before a length matters.
    pub fn of(method: u8) -> Self {
        if method == 3 { LARGE } else { SMALL }
    }

    /// How many bytes a whole block has.
    pub fn block(&self) -> usize {
        self.data + self.tag()
    }

    /// How many bytes the tag has.
    pub fn tag(&self) -> usize {
        self.guard + APPLICATION + self.spare + self.reference
    }

    /// The bytes of a member in a stripe.
    pub fn span(&self, member: usize) -> Range<usize> {
        member * self.block()..(member + 1) * self.block()
    }

    // Where the fields stand in a block.

    pub fn guard(&self) -> Range<usize> {
        self.data..self.data + self.guard
    }

    /// The two bytes that say whether the block is to be checked.
    pub fn mark(&self) -> Range<usize> {
        self.guard().end..self.guard().end + APPLICATION
    }

    /// The bytes behind them that have to be zero.
    pub fn spare(&self) -> Range<usize> {
        self.mark().end..self.mark().end + self.spare
    }

    /// The field that is compared as one number: the application tag and what is spare behind it.
    pub fn application(&self) -> Range<usize> {
        self.mark().start..self.spare().end
    }

    pub fn reference(&self) -> Range<usize> {
        self.spare().end..self.block()
    }

    /// The three fields of a tag.
    pub fn fields<'a>(&self, tag: &'a [u8]) -> [&'a [u8]; 3] {
        [self.guard(), self.application(), self.reference()]
            .map(|places| &tag[places.start - self.data..places.end - self.data])
    }
}

/// A number from its bytes, the highest first.
pub fn number(bytes: &[u8]) -> u64 {
    bytes.iter().fold(0, |n, byte| n << 8 | u64::from(*byte))
}

/// A number in so many bytes, the highest first. It has no more.
pub fn in_bytes(number: u64, length: usize) -> Vec<u8> {
    let bytes = number.to_be_bytes();
    let (above, kept) = bytes.split_at(bytes.len() - length);
    assert!(above.iter().all(|byte| *byte == 0), "{number} is too large");
    kept.to_vec()
}
