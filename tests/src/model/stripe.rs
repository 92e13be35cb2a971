//! A stripe in memory: the tags due on its blocks, and the jobs on it. A job gives what it makes; a refused one makes nothing.

use super::format::{Format, in_bytes, number};
use super::layout::{Array, Owner};
use super::{Answer, checksum, crc32c, guard};

/// What stands in the two bytes of a block's application tag if the block is not to be checked.
pub const UNCHECKED: [u8; 2] = [0xFF; 2];

/// A field of a tag: what stands in the block, and what is due there.
#[derive(Clone, Copy, Debug, PartialEq)]
pub struct Field {
    pub found: u64,
    pub expected: u64,
}

impl Field {
    pub fn fits(&self) -> bool {
        self.found == self.expected
    }
}

#[derive(Clone, Copy, Debug, PartialEq)]
pub struct Fields {
    pub guard: Field,
    pub application: Field,
    pub reference: Field,
}

impl Fields {
    pub fn fits(&self) -> Fits {
        Fits {
            guard: self.guard.fits(),
            application: self.application.fits(),
            reference: self.reference.fits(),
        }
    }
}

/// Which fields of a block fit.
#[derive(Clone, Copy, Debug, PartialEq)]
pub struct Fits {
    pub guard: bool,
    pub application: bool,
    pub reference: bool,
}

impl Fits {
    pub const ALL: Fits = Fits {
        guard: true,
        application: true,
        reference: true,
    };
}

/// What is said of a block: all its fields, unless nobody is to check it.
#[derive(Clone, Copy, Debug, PartialEq)]
pub enum Checked {
    Good(Fields),
    Bad(Fields),
    Unchecked,
}

/// Where the data of a read come from: a good block, the other members, or a block that nobody checked.
#[derive(Clone, Copy, Debug, PartialEq)]
pub enum Source {
    Stored,
    Rebuilt,
    Unchecked,
}

#[derive(Clone, Debug, PartialEq)]
pub struct Read {
    pub source: Source,
    pub data: Vec<u8>,
}

#[derive(Clone, Copy, Debug, PartialEq)]
pub enum Verdict {
    Clean,
    /// The lowest bad member, how many they are, and which fields of the lowest fit.
    Bad {
        member: usize,
        count: usize,
        fits: Fits,
    },
    Unchecked {
        member: usize,
        count: usize,
    },
    /// The first byte at which the data do not combine to zero; the one behind the data, 512, where only the guards of method 2 do not.
    Torn {
        place: usize,
    },
}

pub(super) fn sized(bytes: &[u8], length: usize) -> Answer<()> {
    if bytes.len() == length {
        Ok(())
    } else {
        Err(6)
    }
}

/// The byte by byte exclusive-or of the data of some blocks.
pub fn combine<'a>(format: &Format, blocks: impl Iterator<Item = &'a [u8]>) -> Vec<u8> {
    let mut sum = vec![0; format.data];
    for block in blocks {
        for (place, byte) in block[..format.data].iter().enumerate() {
            sum[place] ^= byte;
        }
    }
    sum
}

/// The tag due at a place where the data have this guard: guard, application tag, zeros where bytes are spare, reference tag. Of
/// the block number the reference tag has the low thirty-two bits, by method 3 all of them.
pub fn due(array: &Array, stripe: u64, member: usize, guard: u32) -> Vec<u8> {
    let (kind, number) = match array.owners(stripe)[member] {
        Owner::Parity { lowest } => (0x80, lowest),
        Owner::Data { block } => (0x00, block),
    };
    let format = array.format();
    [
        in_bytes(guard.into(), format.guard().len()),
        vec![kind, array.volume],
        vec![0; format.spare().len()],
        match array.method {
            3 => number.to_be_bytes().to_vec(),
            _ => (number as u32).to_be_bytes().to_vec(),
        },
    ]
    .concat()
}

/// Data with the tag due at a place, where this guard is.
pub fn tagged(array: &Array, stripe: u64, member: usize, data: &[u8], guard: u32) -> Vec<u8> {
    [data, &due(array, stripe, member, guard)].concat()
}

/// The guard of a block's data by the array's method.
pub fn guard_of(array: &Array, data: &[u8]) -> u32 {
    match array.method {
        1 => guard::go_on(0, data).into(),
        2 => checksum::checksum(data)
            .expect("a block has whole words")
            .into(),
        _ => !crc32c::go_on(crc32c::START, data),
    }
}

/// Whether a guard at a place is what those of the data combine to, so that the block itself does not tell it: so has the parity of method 2.
pub fn is_combined(array: &Array, stripe: u64, member: usize) -> bool {
    array.method == 2 && member == array.parity_member(stripe)
}

/// What guards combine to.
pub fn combine_guards(guards: impl IntoIterator<Item = u32>) -> u32 {
    guards.into_iter().fold(0, |sum, guard| sum ^ guard)
}

/// The guard that stands in a tag.
pub fn guard_in(format: &Format, tag: &[u8]) -> u32 {
    let [guard, ..] = format.fields(tag);
    number(guard) as u32
}

/// What is said of a block at a place, whose data have the guard `own`. The mark in the application tag goes first, whatever the rest is.
pub fn told(array: &Array, stripe: u64, member: usize, own: u32, tag: &[u8]) -> Checked {
    let format = array.format();
    let found = format.fields(tag);
    if found[1][..2] == UNCHECKED {
        return Checked::Unchecked;
    }
    let guard = if is_combined(array, stripe, member) {
        guard_in(&format, tag)
    } else {
        own
    };
    let due = due(array, stripe, member, guard);
    let expected = format.fields(&due);
    let field = |at: usize| Field {
        found: number(found[at]),
        expected: number(expected[at]),
    };
    let fields = Fields {
        guard: field(0),
        application: field(1),
        reference: field(2),
    };
    if fields.fits() == Fits::ALL {
        Checked::Good(fields)
    } else {
        Checked::Bad(fields)
    }
}

/// What is said of a block at a place.
fn told_of(array: &Array, stripe: u64, member: usize, block: &[u8]) -> Checked {
    let (data, tag) = block.split_at(array.format().data);
    told(array, stripe, member, guard_of(array, data), tag)
}

pub fn is_good(array: &Array, stripe: u64, bytes: &[u8], member: usize) -> bool {
    let told = told_of(array, stripe, member, &bytes[array.format().span(member)]);
    matches!(told, Checked::Good(_))
}

fn others(array: &Array, member: usize) -> impl Iterator<Item = usize> + use<> {
    (0..array.members).filter(move |other| *other != member)
}

/// The block of a member, made from all others, if they are good. By method 2 their guards combine to its own; a member with data is made only if
/// that is the guard of what their data combine to.
fn from_others(array: &Array, stripe: u64, bytes: &[u8], member: usize) -> Answer<Vec<u8>> {
    if !others(array, member).all(|other| is_good(array, stripe, bytes, other)) {
        return Err(9);
    }
    let format = array.format();
    let blocks = others(array, member).map(|other| &bytes[format.span(other)]);
    let data = combine(&format, blocks);
    let own = guard_of(array, &data);
    let stored = stored_guards(&format, bytes);
    let combined = combine_guards(others(array, member).map(|other| stored[other]));
    let guard = match array.method {
        2 if is_combined(array, stripe, member) || combined == own => combined,
        2 => return Err(9),
        _ => own,
    };
    Ok(tagged(array, stripe, member, &data, guard))
}

pub fn check(array: &Array, stripe: u64, member: usize, block: &[u8]) -> Answer<Checked> {
    array.place_fits(stripe, member)?;
    sized(block, array.format().block())?;
    Ok(told_of(array, stripe, member, block))
}

/// The whole stripe over `data`; `bytes` is where it goes.
pub fn seal(array: &Array, stripe: u64, data: &[u8], bytes: &[u8]) -> Answer<Vec<u8>> {
    array.stripe_fits(stripe)?;
    let format = array.format();
    sized(data, array.data_members() * format.data)?;
    sized(bytes, array.stripe_length())?;
    let parity = combine(&format, data.chunks(format.data));
    let mut blocks = data.chunks(format.data);
    let mut whole = Vec::new();
    for (member, owner) in array.owners(stripe).iter().enumerate() {
        let block = match owner {
            Owner::Parity { .. } => &parity,
            Owner::Data { .. } => blocks.next().expect("a block for each data member"),
        };
        let guard = if is_combined(array, stripe, member) {
            combine_guards(data.chunks(format.data).map(|data| guard_of(array, data)))
        } else {
            guard_of(array, block)
        };
        whole.extend(tagged(array, stripe, member, block, guard));
    }
    Ok(whole)
}

/// What the block holds; `out` is where it goes.
pub fn read(array: &Array, block: u64, bytes: &[u8], out: &[u8]) -> Answer<Read> {
    let place = array.place(block)?;
    let format = array.format();
    sized(bytes, array.stripe_length())?;
    sized(out, format.data)?;
    let own = &bytes[format.span(place.member)];
    let (source, data) = match told_of(array, place.stripe, place.member, own) {
        Checked::Good(_) => (Source::Stored, own[..format.data].to_vec()),
        Checked::Unchecked => (Source::Unchecked, own[..format.data].to_vec()),
        Checked::Bad(_) => {
            let block = from_others(array, place.stripe, bytes, place.member)?;
            (Source::Rebuilt, block[..format.data].to_vec())
        }
    };
    Ok(Read { source, data })
}

/// The stripe with one member made from the others.
pub fn rebuild(array: &Array, stripe: u64, member: usize, bytes: &[u8]) -> Answer<Vec<u8>> {
    array.place_fits(stripe, member)?;
    sized(bytes, array.stripe_length())?;
    let block = from_others(array, stripe, bytes, member)?;
    let mut whole = bytes.to_vec();
    whole[array.format().span(member)].copy_from_slice(&block);
    Ok(whole)
}

/// Whether the stored guards, as they stand, combine to what those of a clean stripe do: to zero, but by method 3, where that of a block of zeros is not
/// zero, to this one if they are odd in number.
fn guards_agree(array: &Array, bytes: &[u8]) -> bool {
    let format = array.format();
    let due = match (array.method, array.members % 2) {
        (3, 1) => guard_of(array, &vec![0; format.data]),
        _ => 0,
    };
    combine_guards(stored_guards(&format, bytes)) == due
}

/// The stripe with `data` for a block, and its parity brought along; nothing is built on a stripe whose guards tell that it is torn.
pub fn update(array: &Array, block: u64, data: &[u8], bytes: &[u8]) -> Answer<Vec<u8>> {
    let place = array.place(block)?;
    let format = array.format();
    sized(data, format.data)?;
    sized(bytes, array.stripe_length())?;
    let parity = array.parity_member(place.stripe);
    if ![place.member, parity]
        .iter()
        .all(|member| is_good(array, place.stripe, bytes, *member))
    {
        return Err(9);
    }
    if !guards_agree(array, bytes) {
        return Err(9);
    }
    let [old_parity, old] = [parity, place.member].map(|member| &bytes[format.span(member)]);
    let sum = combine(&format, [old_parity, old, data].into_iter());
    let new = guard_of(array, data);
    let stored = stored_guards(&format, bytes);
    let sum_guard = match array.method {
        2 => combine_guards([stored[parity], stored[place.member], new]),
        _ => guard_of(array, &sum),
    };
    let mut whole = bytes.to_vec();
    for (member, data, guard) in [(place.member, data, new), (parity, &sum, sum_guard)] {
        let block = tagged(array, place.stripe, member, data, guard);
        whole[format.span(member)].copy_from_slice(&block);
    }
    Ok(whole)
}

/// The verdict on members of which this is said, on what their data combine to, and on their stored guards: bad ones go first, then unchecked ones,
/// then the data, and last, by method 2, the guards.
pub fn verdict(method: u8, members: &[Checked], sum: &[u8], guards: &[u32]) -> Verdict {
    let (mut bad, mut unchecked) = (Vec::new(), Vec::new());
    for (member, told) in members.iter().enumerate() {
        match told {
            Checked::Good(_) => {}
            Checked::Bad(fields) => bad.push((member, fields.fits())),
            Checked::Unchecked => unchecked.push(member),
        }
    }
    if let [(member, fits), ..] = bad[..] {
        let count = bad.len();
        return Verdict::Bad {
            member,
            count,
            fits,
        };
    }
    if let [member, ..] = unchecked[..] {
        let count = unchecked.len();
        return Verdict::Unchecked { member, count };
    }
    if let Some(place) = sum.iter().position(|byte| *byte != 0) {
        return Verdict::Torn { place };
    }
    if method == 2 && combine_guards(guards.iter().copied()) != 0 {
        return Verdict::Torn { place: sum.len() };
    }
    Verdict::Clean
}

pub fn scrub(array: &Array, stripe: u64, bytes: &[u8]) -> Answer<Verdict> {
    array.stripe_fits(stripe)?;
    sized(bytes, array.stripe_length())?;
    let format = array.format();
    let members: Vec<Checked> = (0..array.members)
        .map(|member| told_of(array, stripe, member, &bytes[format.span(member)]))
        .collect();
    let sum = combine(&format, bytes.chunks(format.block()));
    let guards = stored_guards(&format, bytes);
    Ok(verdict(array.method, &members, &sum, &guards))
}

/// What guards of sixteen bits combine to: they fit where that is zero.
pub fn quick_scrub(guards: &[u16]) -> Answer<u16> {
    if !(3..=16).contains(&guards.len()) {
        return Err(1);
    }
    Ok(guards.iter().fold(0, |sum, guard| sum ^ guard))
}

/// The guards that stand in the blocks' tags.
pub fn stored_guards(format: &Format, bytes: &[u8]) -> Vec<u32> {
    bytes
        .chunks(format.block())
        .map(|block| guard_in(format, &block[format.data..]))
        .collect()
}
