//! The calls of include/irumbolai.h that are measured, of either archive, on the one array of this program.

use crate::stripes::{BLOCK, CRC, MEMBERS, ROW, STRIPES, VOLUME, Verdict};

#[repr(C)]
struct Answer {
    refusal: u32,
    kind: u32,
    first: u32,
    count: u32,
    guard_fits: u32,
    application_fits: u32,
    reference_fits: u32,
}

#[repr(C)]
struct Scan {
    members: usize,
    stripes: u64,
    volume: u8,
    method: u8,
    row: u8,
    stripe: u64,
    at: [u16; 16],
    register: [u32; 16],
    waiting: [u8; 16],
    tag: [u8; 256],
}

#[repr(C)]
struct Taken {
    refusal: u32,
    state: Scan,
}

#[repr(C)]
struct Guards {
    guard: [u16; MEMBERS],
}

#[repr(C)]
struct Sum {
    refusal: u32,
    guard: u32,
}

/// Declares the calls of both archives, which have the same functions; build.rs gives those of the second a mark before their names.
macro_rules! calls {
    ($($call:ident, $name:ident, $marked:literal, ($($argument:ident: $kind:ty),+) -> $answer:ty;)+) => {
        pub struct Calls {
            $($call: unsafe extern "C" fn($($kind),+) -> $answer,)+
        }

        mod plain {
            use super::{Answer, Guards, Scan, Sum, Taken};
            unsafe extern "C" {
                $(pub fn $name($($argument: $kind),+) -> $answer;)+
            }
        }

        mod v3 {
            use super::{Answer, Guards, Scan, Sum, Taken};
            unsafe extern "C" {
                $(#[link_name = $marked] pub fn $name($($argument: $kind),+) -> $answer;)+
            }
        }

        impl Archive for Plain {
            const CALLS: Calls = Calls { $($call: plain::$name),+ };
        }

        impl Archive for V3 {
            const CALLS: Calls = Calls { $($call: v3::$name),+ };
        }
    };
}

pub trait Archive {
    const CALLS: Calls;
}

/// libirumbolai.a, for every x86-64.
pub struct Plain;

/// libirumbolai-v3.a, for those with AVX2.
pub struct V3;

#[rustfmt::skip]
calls! {
    guard, irumbolai_guard, "v3_irumbolai_guard", (bytes: *const u8, length: usize) -> u16;
    guards, irumbolai_guards, "v3_irumbolai_guards", (bytes: *const u8, length: usize, stride: usize) -> Guards;
    checksum, irumbolai_checksum, "v3_irumbolai_checksum", (bytes: *const u8, length: usize) -> Sum;
    crc32c, irumbolai_crc32c, "v3_irumbolai_crc32c", (bytes: *const u8, length: usize) -> u32;
    join, irumbolai_join, "v3_irumbolai_join", (a: u16, b: u16, length_of_b: u32) -> u16;
    seal, irumbolai_seal, "v3_irumbolai_seal", (members: usize, stripes: u64, volume: u8, method: u8, row: u8, stripe: u64, data: *const u8, data_length: usize, bytes: *mut u8, length: usize) -> u32;
    rebuild, irumbolai_rebuild, "v3_irumbolai_rebuild", (members: usize, stripes: u64, volume: u8, method: u8, row: u8, stripe: u64, member: usize, bytes: *mut u8, length: usize) -> u32;
    update, irumbolai_update, "v3_irumbolai_update", (members: usize, stripes: u64, volume: u8, method: u8, row: u8, block: u64, data: *const u8, data_length: usize, bytes: *mut u8, length: usize) -> u32;
    scrub, irumbolai_scrub, "v3_irumbolai_scrub", (members: usize, stripes: u64, volume: u8, method: u8, row: u8, stripe: u64, bytes: *const u8, length: usize) -> Answer;
    start, irumbolai_start, "v3_irumbolai_start", (members: usize, stripes: u64, volume: u8, method: u8, row: u8, stripe: u64, work: *mut u8, work_length: usize) -> Taken;
    piece, irumbolai_piece, "v3_irumbolai_piece", (state: Scan, member: usize, bytes: *const u8, length: usize, work: *mut u8, work_length: usize) -> Taken;
    finish, irumbolai_finish, "v3_irumbolai_finish", (state: Scan, work: *const u8, work_length: usize) -> Answer;
}

// SAFETY, for every call: each pointer comes with the length of its own buffer, which is lent for the call alone,
// and is not const only where the header lets the call write.

/// A call on an array of so many members, by a guard method. The array's numbers go first, one by one. No call is handed them elsewhere.
macro_rules! on_members {
    ($members:expr, $archive:ident, $call:ident, $method:expr, $($rest:expr),+) => {
        unsafe { ($archive::CALLS.$call)($members, STRIPES, VOLUME, $method, ROW, $($rest),+) }
    };
}

/// A call on the array of this program.
macro_rules! on_array {
    ($($rest:tt)+) => {
        on_members!(MEMBERS, $($rest)+)
    };
}

pub fn guard<A: Archive>(bytes: &[u8]) -> u16 {
    unsafe { (A::CALLS.guard)(bytes.as_ptr(), bytes.len()) }
}

/// The guards of the blocks of a stripe, in one call.
pub fn guards<A: Archive>(bytes: &[u8]) -> [u16; MEMBERS] {
    unsafe { (A::CALLS.guards)(bytes.as_ptr(), bytes.len(), BLOCK) }.guard
}

/// The checksum of an even number of bytes.
pub fn checksum<A: Archive>(bytes: &[u8]) -> u16 {
    let sum = unsafe { (A::CALLS.checksum)(bytes.as_ptr(), bytes.len()) };
    assert_eq!(sum.refusal, 0, "the call is not refused");
    sum.guard as u16
}

pub fn crc32c<A: Archive>(bytes: &[u8]) -> u32 {
    unsafe { (A::CALLS.crc32c)(bytes.as_ptr(), bytes.len()) }
}

pub fn join<A: Archive>(a: u16, b: u16, length_of_b: u32) -> u16 {
    unsafe { (A::CALLS.join)(a, b, length_of_b) }
}

/// Makes a stripe of its data, for so many members. Gives the refusal.
pub fn seal<A: Archive>(
    members: usize,
    method: u8,
    stripe: u64,
    data: &[u8],
    bytes: &mut [u8],
) -> u32 {
    let (from, from_length) = (data.as_ptr(), data.len());
    let (to, to_length) = (bytes.as_mut_ptr(), bytes.len());
    on_members!(
        members,
        A,
        seal,
        method,
        stripe,
        from,
        from_length,
        to,
        to_length
    )
}

/// Gives the refusal.
pub fn rebuild<A: Archive>(method: u8, stripe: u64, member: usize, bytes: &mut [u8]) -> u32 {
    let (to, length) = (bytes.as_mut_ptr(), bytes.len());
    on_array!(A, rebuild, method, stripe, member, to, length)
}

/// Puts new data into a block. Gives the refusal.
pub fn update<A: Archive>(method: u8, block: u64, data: &[u8], bytes: &mut [u8]) -> u32 {
    let (from, from_length) = (data.as_ptr(), data.len());
    let (to, to_length) = (bytes.as_mut_ptr(), bytes.len());
    on_array!(A, update, method, block, from, from_length, to, to_length)
}

pub fn scrub<A: Archive>(method: u8, stripe: u64, bytes: &[u8]) -> Verdict {
    let (from, length) = (bytes.as_ptr(), bytes.len());
    verdict(on_array!(A, scrub, method, stripe, from, length))
}

/// A scan of a stripe by method 1, one piece for each of the blocks.
pub fn scan<'a, A: Archive>(
    stripe: u64,
    blocks: impl Iterator<Item = &'a [u8]>,
    work: &mut [u8],
) -> Verdict {
    let (to, to_length) = (work.as_mut_ptr(), work.len());
    let mut taken = on_array!(A, start, CRC, stripe, to, to_length);
    for (member, block) in blocks.enumerate() {
        let (from, length) = (block.as_ptr(), block.len());
        taken = unsafe { (A::CALLS.piece)(taken.state, member, from, length, to, to_length) };
    }
    assert_eq!(taken.refusal, 0, "a piece is taken");
    verdict(unsafe { (A::CALLS.finish)(taken.state, to, to_length) })
}

fn verdict(answer: Answer) -> Verdict {
    assert_eq!(answer.refusal, 0, "the call is not refused");
    match answer.kind {
        0 => Verdict::Clean,
        1 => Verdict::Bad {
            member: answer.first as usize,
            count: answer.count as usize,
            fits: [
                answer.guard_fits,
                answer.application_fits,
                answer.reference_fits,
            ]
            .map(|fits| fits == 1),
        },
        2 => Verdict::Torn {
            place: answer.first as usize,
        },
        3 => Verdict::Unchecked {
            member: answer.first as usize,
            count: answer.count as usize,
        },
        kind => panic!("no verdict has the number {kind}"),
    }
}
