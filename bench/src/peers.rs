//! The same jobs in ordinary Rust, each over a way to make guards and a way to combine bytes: guards by a loop over bits or by ISA-L, of method 2 by a loop
//! over words; bytes combined by a loop that is left to the compiler, or by rows.

use crate::stripes::{
    BLOCK, CHECKSUM, CRC, DATA, Fits, LARGE, LARGE_BLOCK, LARGE_DATA, MEMBERS, VOLUME, Verdict,
    parity_member,
};
use std::array;
use std::ops::Range;

/// Blocks of a length, and the tag behind their data.
pub trait Shape {
    const DATA: usize;
    const BLOCK: usize;
    /// The data of a block, and zeros for them.
    type Data: AsRef<[u8]> + AsMut<[u8]>;
    const CLEAR: Self::Data;
    const ZEROS: &'static [u8];
    type Tag: AsRef<[u8]>;
    /// Where guard, application tag and reference tag stand in a tag.
    const FIELDS: [Range<usize>; 3];

    fn tag(guard: u32, kind: u8, reference: u32) -> Self::Tag;
}

/// Blocks of methods 1 and 2.
pub struct Small;

impl Shape for Small {
    const DATA: usize = DATA;
    const BLOCK: usize = BLOCK;
    type Data = [u8; DATA];
    const CLEAR: [u8; DATA] = [0; DATA];
    const ZEROS: &'static [u8] = &[0; DATA];
    type Tag = [u8; 8];
    const FIELDS: [Range<usize>; 3] = [0..2, 2..4, 4..8];

    fn tag(guard: u32, kind: u8, reference: u32) -> [u8; 8] {
        let [_, _, g0, g1] = guard.to_be_bytes();
        let [r0, r1, r2, r3] = reference.to_be_bytes();
        [g0, g1, kind, VOLUME, r0, r1, r2, r3]
    }
}

/// Blocks of method 3.
pub struct Large;

impl Shape for Large {
    const DATA: usize = LARGE_DATA;
    const BLOCK: usize = LARGE_BLOCK;
    type Data = [u8; LARGE_DATA];
    const CLEAR: [u8; LARGE_DATA] = [0; LARGE_DATA];
    const ZEROS: &'static [u8] = &[0; LARGE_DATA];
    type Tag = [u8; 16];
    const FIELDS: [Range<usize>; 3] = [0..4, 4..8, 8..16];

    fn tag(guard: u32, kind: u8, reference: u32) -> [u8; 16] {
        let [g0, g1, g2, g3] = guard.to_be_bytes();
        let [r0, r1, r2, r3] = reference.to_be_bytes();
        [
            g0, g1, g2, g3, kind, VOLUME, 0, 0, 0, 0, 0, 0, r0, r1, r2, r3,
        ]
    }
}

/// A way to make guards.
pub trait Guard {
    /// The method, what its blocks are, and where the register of a guard starts.
    const METHOD: u8;
    type Shape: Shape;
    const START: u32;

    /// The register of the guard after more bytes.
    fn go_on(register: u32, bytes: &[u8]) -> u32;

    /// The guard that a register gives at the end.
    fn end(register: u32) -> u32 {
        register
    }
}

/// Method 1 as anyone would write it. The compiler may make of it what it likes.
pub struct Bits;

impl Guard for Bits {
    const METHOD: u8 = CRC;
    type Shape = Small;
    const START: u32 = 0;

    #[inline(never)]
    fn go_on(register: u32, bytes: &[u8]) -> u32 {
        let mut register = register as u16;
        for byte in bytes {
            register ^= u16::from(*byte) << 8;
            for _ in 0..8 {
                register = if register & 0x8000 != 0 {
                    register << 1 ^ 0x8BB7
                } else {
                    register << 1
                };
            }
        }
        register.into()
    }
}

/// The loop that document 000 suggests for the checksum, carries wrapped after every eight words. It goes on after whole words.
pub struct Words;

impl Guard for Words {
    const METHOD: u8 = CHECKSUM;
    type Shape = Small;
    const START: u32 = 0xFFFF;

    #[inline(never)]
    fn go_on(register: u32, bytes: &[u8]) -> u32 {
        let wrapped = |sum: u32| (sum & 0xFFFF) + (sum >> 16);
        let mut sum = register;
        for eight in bytes.chunks(16) {
            for word in eight.chunks_exact(2) {
                sum = (sum << 1) + u32::from(u16::from_be_bytes([word[0], word[1]]));
            }
            sum = wrapped(sum);
        }
        wrapped(sum)
    }
}

/// Method 3 as anyone would write it.
pub struct LargeBits;

impl Guard for LargeBits {
    const METHOD: u8 = LARGE;
    type Shape = Large;
    const START: u32 = u32::MAX;

    #[inline(never)]
    fn go_on(register: u32, bytes: &[u8]) -> u32 {
        let mut register = register;
        for byte in bytes {
            register ^= u32::from(*byte);
            for _ in 0..8 {
                register = if register & 1 != 0 {
                    register >> 1 ^ 0x82F6_3B78
                } else {
                    register >> 1
                };
            }
        }
        register
    }

    fn end(register: u32) -> u32 {
        !register
    }
}

/// Method 1 by ISA-L.
pub struct IsalGuard;

impl Guard for IsalGuard {
    const METHOD: u8 = CRC;
    type Shape = Small;
    const START: u32 = 0;

    #[inline(always)]
    fn go_on(register: u32, bytes: &[u8]) -> u32 {
        isal::guard(register as u16, bytes).into()
    }
}

/// Method 3 by ISA-L.
pub struct IsalLargeGuard;

impl Guard for IsalLargeGuard {
    const METHOD: u8 = LARGE;
    type Shape = Large;
    const START: u32 = u32::MAX;

    #[inline(always)]
    fn go_on(register: u32, bytes: &[u8]) -> u32 {
        isal::crc32c(register, bytes)
    }

    fn end(register: u32) -> u32 {
        !register
    }
}

/// A way to combine bytes.
pub trait Combine {
    /// Combines bytes into others.
    fn add(sum: &mut [u8], bytes: &[u8]);

    /// What the data of all members but `skip` combine to.
    fn combined<S: Shape>(bytes: &[u8], skip: usize) -> S::Data;
}

/// What anyone would write.
pub struct Plainly;

impl Combine for Plainly {
    fn add(sum: &mut [u8], bytes: &[u8]) {
        xor_into(sum, bytes);
    }

    #[inline(never)]
    fn combined<S: Shape>(bytes: &[u8], skip: usize) -> S::Data {
        let mut sum = S::CLEAR;
        for (member, block) in blocks::<S>(bytes).enumerate() {
            if member != skip {
                xor_into(sum.as_mut(), &block[..S::DATA]);
            }
        }
        sum
    }
}

/// ISA-L's own exclusive-or wants blocks at multiples of 16 bytes, which small ones do not lie at; this is a loop that keeps sixty-four bytes in registers while the
/// members go by.
pub struct ByRows;

impl Combine for ByRows {
    fn add(sum: &mut [u8], bytes: &[u8]) {
        xor_into(sum, bytes);
    }

    fn combined<S: Shape>(bytes: &[u8], skip: usize) -> S::Data {
        by_rows::<S>(|at| row::<S>(bytes, skip, at))
    }
}

/// The same, compiled for processors with AVX2. It is called only where the processor has it.
pub struct ByRowsV3;

impl Combine for ByRowsV3 {
    fn add(sum: &mut [u8], bytes: &[u8]) {
        // SAFETY: the processor has AVX2.
        unsafe { v3::xor_into(sum, bytes) }
    }

    fn combined<S: Shape>(bytes: &[u8], skip: usize) -> S::Data {
        // SAFETY: the processor has AVX2.
        by_rows::<S>(|at| unsafe { v3::row::<S>(bytes, skip, at) })
    }
}

/// A way to make guards and a way to combine bytes.
pub trait Peer {
    type Guard: Guard;
    type Combine: Combine;
}

impl<G: Guard, C: Combine> Peer for (G, C) {
    type Guard = G;
    type Combine = C;
}

pub type Ordinary = (Bits, Plainly);
pub type Summed = (Words, Plainly);
pub type OrdinaryLarge = (LargeBits, Plainly);
pub type Isal = (IsalGuard, ByRows);
pub type IsalV3 = (IsalGuard, ByRowsV3);
pub type IsalLarge = (IsalLargeGuard, ByRows);
pub type IsalLargeV3 = (IsalLargeGuard, ByRowsV3);

/// What the blocks of a peer are.
type ShapeOf<P> = <<P as Peer>::Guard as Guard>::Shape;

/// The blocks of a stripe, member by member.
fn blocks<S: Shape>(bytes: &[u8]) -> impl Iterator<Item = &[u8]> {
    bytes.chunks_exact(S::BLOCK)
}

const ROW: usize = 64;

#[inline(always)]
fn by_rows<S: Shape>(row: impl Fn(usize) -> [u8; ROW]) -> S::Data {
    let mut sum = S::CLEAR;
    for (place, part) in sum.as_mut().chunks_exact_mut(ROW).enumerate() {
        part.copy_from_slice(&row(place * ROW));
    }
    sum
}

#[inline(never)]
fn row<S: Shape>(bytes: &[u8], skip: usize, at: usize) -> [u8; ROW] {
    row_inline::<S>(bytes, skip, at)
}

#[inline(always)]
fn row_inline<S: Shape>(bytes: &[u8], skip: usize, at: usize) -> [u8; ROW] {
    let mut row = [0; ROW];
    for (member, block) in blocks::<S>(bytes).enumerate() {
        if member != skip {
            xor_into(&mut row, &block[at..at + ROW]);
        }
    }
    row
}

/// Compiled for processors with AVX2.
mod v3 {
    use super::{ROW, Shape};

    #[inline(never)]
    #[target_feature(enable = "avx2")]
    pub fn row<S: Shape>(bytes: &[u8], skip: usize, at: usize) -> [u8; ROW] {
        super::row_inline::<S>(bytes, skip, at)
    }

    #[target_feature(enable = "avx2")]
    pub fn xor_into(sum: &mut [u8], bytes: &[u8]) {
        super::xor_into(sum, bytes);
    }
}

pub mod isal {
    /// None where ISA-L is not installed; then nothing here is called.
    pub const VERSION: Option<&str> = option_env!("BENCH_ISAL");

    /// The register of CRC-32C after more bytes.
    #[cfg(isal)]
    pub fn crc32c(register: u32, bytes: &[u8]) -> u32 {
        unsafe extern "C" {
            fn crc32_iscsi(bytes: *const u8, length: i32, register: u32) -> u32;
        }
        // SAFETY: the pointer comes with the length of its buffer, which is short and only read.
        unsafe { crc32_iscsi(bytes.as_ptr(), bytes.len() as i32, register) }
    }

    #[cfg(not(isal))]
    pub fn crc32c(_: u32, _: &[u8]) -> u32 {
        panic!("ISA-L is not installed")
    }

    #[cfg(isal)]
    pub fn guard(register: u16, bytes: &[u8]) -> u16 {
        unsafe extern "C" {
            fn crc16_t10dif(register: u16, bytes: *const u8, length: u64) -> u16;
        }
        // SAFETY: the pointer comes with the length of its buffer, which is only read.
        unsafe { crc16_t10dif(register, bytes.as_ptr(), bytes.len() as u64) }
    }

    #[cfg(not(isal))]
    pub fn guard(_: u16, _: &[u8]) -> u16 {
        panic!("ISA-L is not installed")
    }
}

#[inline(always)]
fn xor_into(sum: &mut [u8], bytes: &[u8]) {
    for (place, byte) in sum.iter_mut().zip(bytes) {
        *place ^= byte;
    }
}

/// The register of a peer's guard after more bytes.
#[inline(always)]
pub fn go_on<P: Peer>(register: u32, bytes: &[u8]) -> u32 {
    P::Guard::go_on(register, bytes)
}

pub fn guard<P: Peer>(bytes: &[u8]) -> u32 {
    P::Guard::end(P::Guard::go_on(P::Guard::START, bytes))
}

/// The guard that stands in a tag.
fn stored<S: Shape>(tag: &[u8]) -> u32 {
    let [guard, ..] = S::FIELDS;
    tag[guard]
        .iter()
        .fold(0, |number, byte| number << 8 | u32::from(*byte))
}

/// What the guards combine to that stand in the blocks of all members but `skip`.
fn combined_guards<S: Shape>(bytes: &[u8], skip: usize) -> u32 {
    let others = blocks::<S>(bytes)
        .enumerate()
        .filter(|(member, _)| *member != skip);
    others.fold(0, |sum, (_, block)| sum ^ stored::<S>(&block[S::DATA..]))
}

/// Whether the guard on a member is what those of the data combine to, which the block itself does not tell.
fn is_combined<P: Peer>(stripe: u64, member: usize) -> bool {
    P::Guard::METHOD == CHECKSUM && member == parity_member(stripe)
}

/// The tag due on a member of a stripe where the data have this guard.
fn due<S: Shape>(stripe: u64, member: usize, guard: u32) -> S::Tag {
    let parity = parity_member(stripe);
    let lowest = stripe as u32 * (MEMBERS as u32 - 1);
    let (kind, reference) = if member == parity {
        (0x80, lowest)
    } else {
        (0x00, lowest + member as u32 - u32::from(member > parity))
    };
    S::tag(guard, kind, reference)
}

#[derive(Clone, Copy, PartialEq)]
enum Standing {
    Good,
    Bad(Fits),
    Unchecked,
}

/// How a block stands on a member, with this tag and data of that guard.
fn standing<P: Peer>(stripe: u64, member: usize, tag: &[u8], own: u32) -> Standing {
    let guard = if is_combined::<P>(stripe, member) {
        stored::<ShapeOf<P>>(tag)
    } else {
        own
    };
    let due = due::<ShapeOf<P>>(stripe, member, guard);
    let due = due.as_ref();
    let fields = <ShapeOf<P>>::FIELDS;
    if tag == due {
        Standing::Good
    } else if tag[fields[1].start..][..2] == [0xFF; 2] {
        Standing::Unchecked
    } else {
        Standing::Bad(fields.map(|field| tag[field.clone()] == due[field]))
    }
}

fn standing_at<P: Peer>(stripe: u64, member: usize, block: &[u8]) -> Standing {
    let (data, tag) = block.split_at(<ShapeOf<P>>::DATA);
    standing::<P>(stripe, member, tag, guard::<P>(data))
}

/// What is said of a stripe: how its members stand, what its data combine to, and by method 2 what its guards do.
fn verdict<P: Peer>(
    members: [Standing; MEMBERS],
    sum: &[u8],
    guards: impl FnOnce() -> u32,
) -> Verdict {
    let mut bad = members
        .iter()
        .enumerate()
        .filter_map(|(member, standing)| match standing {
            Standing::Bad(fits) => Some((member, *fits)),
            _ => None,
        });
    if let Some((member, fits)) = bad.next() {
        let count = 1 + bad.count();
        return Verdict::Bad {
            member,
            count,
            fits,
        };
    }
    let mut unchecked = (0..MEMBERS).filter(|member| members[*member] == Standing::Unchecked);
    if let Some(member) = unchecked.next() {
        let count = 1 + unchecked.count();
        return Verdict::Unchecked { member, count };
    }
    if sum == <ShapeOf<P>>::ZEROS {
        return match P::Guard::METHOD == CHECKSUM && guards() != 0 {
            true => Verdict::Torn { place: DATA },
            false => Verdict::Clean,
        };
    }
    let place = sum.iter().position(|byte| *byte != 0);
    let place = place.expect("a byte is not zero");
    Verdict::Torn { place }
}

pub fn scrub<P: Peer>(stripe: u64, bytes: &[u8]) -> Verdict {
    let length = <ShapeOf<P>>::BLOCK;
    let members = array::from_fn(|member| {
        standing_at::<P>(stripe, member, &bytes[member * length..][..length])
    });
    let sum = P::Combine::combined::<ShapeOf<P>>(bytes, MEMBERS);
    verdict::<P>(members, sum.as_ref(), || {
        combined_guards::<ShapeOf<P>>(bytes, MEMBERS)
    })
}

/// Whether the member was rebuilt: all others must be good, and by method 2 the guards must fit what is made of them, unless that is the parity.
pub fn rebuild<P: Peer>(stripe: u64, member: usize, bytes: &mut [u8]) -> bool {
    let good = |(other, block)| {
        other == member || standing_at::<P>(stripe, other, block) == Standing::Good
    };
    if !blocks::<ShapeOf<P>>(bytes).enumerate().all(good) {
        return false;
    }
    let data = P::Combine::combined::<ShapeOf<P>>(bytes, member);
    let own = guard::<P>(data.as_ref());
    let combined = match P::Guard::METHOD {
        CHECKSUM => combined_guards::<ShapeOf<P>>(bytes, member),
        _ => own,
    };
    if combined != own && !is_combined::<P>(stripe, member) {
        return false;
    }
    let tag = due::<ShapeOf<P>>(stripe, member, combined);
    let length = <ShapeOf<P>>::BLOCK;
    let (to, to_tag) = bytes[member * length..][..length].split_at_mut(<ShapeOf<P>>::DATA);
    to.copy_from_slice(data.as_ref());
    to_tag.copy_from_slice(tag.as_ref());
    true
}

/// Whether the lowest block of a stripe got new data: it and the parity must be good, and the guards of all members combine to zero, as those of an even
/// number do in a right stripe. Guards of three blocks combine as the blocks do, by every method.
pub fn update<P: Peer>(stripe: u64, new: &[u8], bytes: &mut [u8]) -> bool {
    let (data, length) = (<ShapeOf<P>>::DATA, <ShapeOf<P>>::BLOCK);
    let parity = parity_member(stripe);
    let own = usize::from(parity == 0);
    let good = |member: usize| {
        let block = &bytes[member * length..][..length];
        standing_at::<P>(stripe, member, block) == Standing::Good
    };
    if !good(own) || !good(parity) || combined_guards::<ShapeOf<P>>(bytes, MEMBERS) != 0 {
        return false;
    }
    let (low, high) = bytes.split_at_mut(own.max(parity) * length);
    let (first, second) = (
        &mut low[own.min(parity) * length..][..length],
        &mut high[..length],
    );
    let (block, sum) = match own < parity {
        true => (first, second),
        false => (second, first),
    };
    let own_guard = guard::<P>(new);
    let combined =
        stored::<ShapeOf<P>>(&sum[data..]) ^ stored::<ShapeOf<P>>(&block[data..]) ^ own_guard;
    P::Combine::add(&mut sum[..data], &block[..data]);
    P::Combine::add(&mut sum[..data], new);
    block[..data].copy_from_slice(new);
    block[data..].copy_from_slice(due::<ShapeOf<P>>(stripe, own, own_guard).as_ref());
    sum[data..].copy_from_slice(due::<ShapeOf<P>>(stripe, parity, combined).as_ref());
    true
}

/// What a scan of small blocks holds between its pieces, beside the work buffer.
struct Scan {
    at: [usize; MEMBERS],
    register: [u32; MEMBERS],
    tag: [[u8; 8]; MEMBERS],
}

impl Scan {
    fn piece<P: Peer>(&mut self, member: usize, bytes: &[u8], work: &mut [u8; DATA]) {
        let at = self.at[member];
        let (data, tag) = bytes.split_at(bytes.len().min(DATA.saturating_sub(at)));
        self.register[member] = go_on::<P>(self.register[member], data);
        P::Combine::add(&mut work[at.min(DATA)..], data);
        let from = (at + data.len()).saturating_sub(DATA);
        self.tag[member][from..from + tag.len()].copy_from_slice(tag);
        self.at[member] = at + bytes.len();
    }
}

/// A scan of a stripe of small blocks, one piece for each of them.
pub fn scan<'a, P: Peer>(
    stripe: u64,
    blocks: impl Iterator<Item = &'a [u8]>,
    work: &mut [u8; DATA],
) -> Verdict {
    work.fill(0);
    let mut scan = Scan {
        at: [0; MEMBERS],
        register: [P::Guard::START; MEMBERS],
        tag: [[0; 8]; MEMBERS],
    };
    for (member, block) in blocks.enumerate() {
        scan.piece::<P>(member, block, work);
    }
    assert_eq!(scan.at, [BLOCK; MEMBERS], "every member is whole");
    let members = array::from_fn(|member| {
        standing::<P>(stripe, member, &scan.tag[member], scan.register[member])
    });
    verdict::<P>(members, work, || {
        let guards = scan.tag.iter().map(|tag| stored::<Small>(tag));
        guards.fold(0, |sum, guard| sum ^ guard)
    })
}
