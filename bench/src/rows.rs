//! What is measured: each row is one job, done by the library and by its peers. A new row is a new entry of ROWS.

use crate::library::{self, Archive};
use crate::peers::{self, Isal, IsalLarge, IsalLargeV3, IsalV3, Ordinary, OrdinaryLarge, Summed};
use crate::stripes::{
    BLOCK, CHECKSUM, CRC, DATA, LARGE, LARGE_BLOCK, LARGE_DATA, LARGE_STRIPE, MEMBERS, STRIPE,
    blocks,
};
use std::hint::black_box;

/// Where a job writes beside the stripe.
pub struct Room {
    pub copy: [u8; LARGE_STRIPE],
    pub work: [u8; DATA],
    /// What a block is updated with.
    pub new: [u8; LARGE_DATA],
}

impl Room {
    pub fn new() -> Self {
        Room {
            copy: [0; LARGE_STRIPE],
            work: [0; DATA],
            new: std::array::from_fn(|at| (at * at % 251) as u8),
        }
    }
}

/// Does a job on the stripe of a number, and gives what it finds as one number.
pub type Job = fn(u64, &mut [u8], &mut Room) -> u64;

/// Who does a job, in the order of the columns: the library's two archives, then the peers.
pub const PLAIN: usize = 0;
pub const V3: usize = 1;
pub const ORDINARY: usize = 2;
pub const ISAL: usize = 3;
pub const ISAL_V3: usize = 4;
pub const MEMCPY: usize = 5;
pub const CONTESTANTS: usize = 6;

/// Where the bytes of a row lie before its job: one stripe over and over is in the L1 cache, but one of large blocks has 65,792 bytes, and no L1 holds it.
#[derive(Clone, Copy, Debug, PartialEq)]
pub enum Source {
    L1,
    L2,
    Memory,
}

pub struct Row {
    pub name: &'static str,
    /// What a time is told of, how many of them a job does, and the bytes of one.
    pub unit: &'static str,
    pub units: usize,
    pub bytes: usize,
    pub sources: &'static [Source],
    /// The guard method of its stripes.
    pub method: u8,
    /// None of a contestant that has no such job.
    pub jobs: [Option<Job>; CONTESTANTS],
}

const fn all(jobs: [Job; CONTESTANTS]) -> [Option<Job>; CONTESTANTS] {
    let [plain, v3, ordinary, isal, isal_v3, memcpy] = jobs;
    [
        Some(plain),
        Some(v3),
        Some(ordinary),
        Some(isal),
        Some(isal_v3),
        Some(memcpy),
    ]
}

/// ISA-L has no checksum.
const fn without_isal(jobs: [Job; 4]) -> [Option<Job>; CONTESTANTS] {
    let [plain, v3, ordinary, memcpy] = jobs;
    [
        Some(plain),
        Some(v3),
        Some(ordinary),
        None,
        None,
        Some(memcpy),
    ]
}

/// The member that is rebuilt. It holds the parity of one stripe in sixteen.
const LOST: usize = 5;

pub const ROWS: &[Row] = &[
    Row {
        name: "guard of one block alone",
        unit: "block",
        units: MEMBERS,
        bytes: DATA,
        sources: &[Source::L1],
        method: CRC,
        jobs: all([
            |_, bytes, _| alone(library::guard::<library::Plain>, bytes),
            |_, bytes, _| alone(library::guard::<library::V3>, bytes),
            |_, bytes, _| alone(peers::guard::<Ordinary>, bytes),
            |_, bytes, _| alone(peers::guard::<Isal>, bytes),
            |_, bytes, _| alone(peers::guard::<IsalV3>, bytes),
            |_, bytes, room| copy_one(bytes, room),
        ]),
    },
    Row {
        name: "guard of many blocks",
        unit: "block",
        units: MEMBERS,
        bytes: DATA,
        sources: &[Source::L1, Source::Memory],
        method: CRC,
        jobs: all([
            |_, bytes, _| together(library::guards::<library::Plain>(bytes)),
            |_, bytes, _| together(library::guards::<library::V3>(bytes)),
            |_, bytes, _| guards(peers::guard::<Ordinary>, bytes),
            |_, bytes, _| guards(peers::guard::<Isal>, bytes),
            |_, bytes, _| guards(peers::guard::<IsalV3>, bytes),
            |_, bytes, room| copy_blocks(bytes, room),
        ]),
    },
    Row {
        name: "full scrub",
        unit: "stripe",
        units: 1,
        bytes: STRIPE,
        sources: &[Source::L1, Source::Memory],
        method: CRC,
        jobs: all([
            |stripe, bytes, _| library::scrub::<library::Plain>(CRC, stripe, bytes).number(),
            |stripe, bytes, _| library::scrub::<library::V3>(CRC, stripe, bytes).number(),
            |stripe, bytes, _| peers::scrub::<Ordinary>(stripe, bytes).number(),
            |stripe, bytes, _| peers::scrub::<Isal>(stripe, bytes).number(),
            |stripe, bytes, _| peers::scrub::<IsalV3>(stripe, bytes).number(),
            |_, bytes, room| copy_stripe(bytes, room),
        ]),
    },
    Row {
        name: "rebuild of one member",
        unit: "stripe",
        units: 1,
        bytes: STRIPE,
        sources: &[Source::L1, Source::Memory],
        method: CRC,
        jobs: all([
            |stripe, bytes, _| rebuilt::<library::Plain>(CRC, stripe, bytes),
            |stripe, bytes, _| rebuilt::<library::V3>(CRC, stripe, bytes),
            |stripe, bytes, _| u64::from(peers::rebuild::<Ordinary>(stripe, LOST, bytes)),
            |stripe, bytes, _| u64::from(peers::rebuild::<Isal>(stripe, LOST, bytes)),
            |stripe, bytes, _| u64::from(peers::rebuild::<IsalV3>(stripe, LOST, bytes)),
            |_, bytes, room| copy_stripe(bytes, room),
        ]),
    },
    Row {
        name: "scan in 520-byte pieces",
        unit: "stripe",
        units: 1,
        bytes: STRIPE,
        sources: &[Source::L1, Source::Memory],
        method: CRC,
        jobs: all([
            |stripe, bytes, room| {
                library::scan::<library::Plain>(stripe, blocks(bytes), &mut room.work).number()
            },
            |stripe, bytes, room| {
                library::scan::<library::V3>(stripe, blocks(bytes), &mut room.work).number()
            },
            |stripe, bytes, room| {
                peers::scan::<Ordinary>(stripe, blocks(bytes), &mut room.work).number()
            },
            |stripe, bytes, room| {
                peers::scan::<Isal>(stripe, blocks(bytes), &mut room.work).number()
            },
            |stripe, bytes, room| {
                peers::scan::<IsalV3>(stripe, blocks(bytes), &mut room.work).number()
            },
            |_, bytes, room| copy_stripe(bytes, room),
        ]),
    },
    Row {
        name: "update of one block",
        unit: "block",
        units: 1,
        bytes: DATA,
        sources: &[Source::L1, Source::Memory],
        method: CRC,
        jobs: all([
            |stripe, bytes, room| updated::<library::Plain>(CRC, stripe, &room.new[..DATA], bytes),
            |stripe, bytes, room| updated::<library::V3>(CRC, stripe, &room.new[..DATA], bytes),
            |stripe, bytes, room| {
                peers::update::<Ordinary>(stripe, &room.new[..DATA], bytes).into()
            },
            |stripe, bytes, room| peers::update::<Isal>(stripe, &room.new[..DATA], bytes).into(),
            |stripe, bytes, room| peers::update::<IsalV3>(stripe, &room.new[..DATA], bytes).into(),
            |_, bytes, room| copy_front(DATA, bytes, room),
        ]),
    },
    Row {
        name: "checksum of one block alone",
        unit: "block",
        units: MEMBERS,
        bytes: DATA,
        sources: &[Source::L1],
        method: CHECKSUM,
        jobs: without_isal([
            |_, bytes, _| alone(library::checksum::<library::Plain>, bytes),
            |_, bytes, _| alone(library::checksum::<library::V3>, bytes),
            |_, bytes, _| alone(peers::guard::<Summed>, bytes),
            |_, bytes, room| copy_one(bytes, room),
        ]),
    },
    Row {
        name: "checksum of many blocks",
        unit: "block",
        units: MEMBERS,
        bytes: DATA,
        sources: &[Source::L1, Source::Memory],
        method: CHECKSUM,
        jobs: without_isal([
            |_, bytes, _| guards(library::checksum::<library::Plain>, bytes),
            |_, bytes, _| guards(library::checksum::<library::V3>, bytes),
            |_, bytes, _| guards(peers::guard::<Summed>, bytes),
            |_, bytes, room| copy_blocks(bytes, room),
        ]),
    },
    Row {
        name: "full scrub, method 2",
        unit: "stripe",
        units: 1,
        bytes: STRIPE,
        sources: &[Source::L1, Source::Memory],
        method: CHECKSUM,
        jobs: without_isal([
            |stripe, bytes, _| library::scrub::<library::Plain>(CHECKSUM, stripe, bytes).number(),
            |stripe, bytes, _| library::scrub::<library::V3>(CHECKSUM, stripe, bytes).number(),
            |stripe, bytes, _| peers::scrub::<Summed>(stripe, bytes).number(),
            |_, bytes, room| copy_stripe(bytes, room),
        ]),
    },
    Row {
        name: "rebuild of one member, method 2",
        unit: "stripe",
        units: 1,
        bytes: STRIPE,
        sources: &[Source::L1, Source::Memory],
        method: CHECKSUM,
        jobs: without_isal([
            |stripe, bytes, _| rebuilt::<library::Plain>(CHECKSUM, stripe, bytes),
            |stripe, bytes, _| rebuilt::<library::V3>(CHECKSUM, stripe, bytes),
            |stripe, bytes, _| u64::from(peers::rebuild::<Summed>(stripe, LOST, bytes)),
            |_, bytes, room| copy_stripe(bytes, room),
        ]),
    },
    Row {
        name: "update of one block, method 2",
        unit: "block",
        units: 1,
        bytes: DATA,
        sources: &[Source::L1, Source::Memory],
        method: CHECKSUM,
        jobs: without_isal([
            |stripe, bytes, room| {
                updated::<library::Plain>(CHECKSUM, stripe, &room.new[..DATA], bytes)
            },
            |stripe, bytes, room| {
                updated::<library::V3>(CHECKSUM, stripe, &room.new[..DATA], bytes)
            },
            |stripe, bytes, room| peers::update::<Summed>(stripe, &room.new[..DATA], bytes).into(),
            |_, bytes, room| copy_front(DATA, bytes, room),
        ]),
    },
    Row {
        name: "CRC-32C of one block alone",
        unit: "block",
        units: MEMBERS,
        bytes: LARGE_DATA,
        sources: &[Source::L1],
        method: LARGE,
        jobs: all([
            |_, bytes, _| alone_large(library::crc32c::<library::Plain>, bytes),
            |_, bytes, _| alone_large(library::crc32c::<library::V3>, bytes),
            |_, bytes, _| alone_large(peers::guard::<OrdinaryLarge>, bytes),
            |_, bytes, _| alone_large(peers::guard::<IsalLarge>, bytes),
            |_, bytes, _| alone_large(peers::guard::<IsalLargeV3>, bytes),
            |_, bytes, room| copy_one_large(bytes, room),
        ]),
    },
    Row {
        name: "CRC-32C of many blocks",
        unit: "block",
        units: MEMBERS,
        bytes: LARGE_DATA,
        sources: &[Source::L2, Source::Memory],
        method: LARGE,
        jobs: all([
            |_, bytes, _| guards_large(library::crc32c::<library::Plain>, bytes),
            |_, bytes, _| guards_large(library::crc32c::<library::V3>, bytes),
            |_, bytes, _| guards_large(peers::guard::<OrdinaryLarge>, bytes),
            |_, bytes, _| guards_large(peers::guard::<IsalLarge>, bytes),
            |_, bytes, _| guards_large(peers::guard::<IsalLargeV3>, bytes),
            |_, bytes, room| copy_large(bytes, room),
        ]),
    },
    Row {
        name: "full scrub, method 3",
        unit: "stripe",
        units: 1,
        bytes: LARGE_STRIPE,
        sources: &[Source::L2, Source::Memory],
        method: LARGE,
        jobs: all([
            |stripe, bytes, _| library::scrub::<library::Plain>(LARGE, stripe, bytes).number(),
            |stripe, bytes, _| library::scrub::<library::V3>(LARGE, stripe, bytes).number(),
            |stripe, bytes, _| peers::scrub::<OrdinaryLarge>(stripe, bytes).number(),
            |stripe, bytes, _| peers::scrub::<IsalLarge>(stripe, bytes).number(),
            |stripe, bytes, _| peers::scrub::<IsalLargeV3>(stripe, bytes).number(),
            |_, bytes, room| copy_stripe(bytes, room),
        ]),
    },
    Row {
        name: "rebuild of one member, method 3",
        unit: "stripe",
        units: 1,
        bytes: LARGE_STRIPE,
        sources: &[Source::L2, Source::Memory],
        method: LARGE,
        jobs: all([
            |stripe, bytes, _| rebuilt::<library::Plain>(LARGE, stripe, bytes),
            |stripe, bytes, _| rebuilt::<library::V3>(LARGE, stripe, bytes),
            |stripe, bytes, _| u64::from(peers::rebuild::<OrdinaryLarge>(stripe, LOST, bytes)),
            |stripe, bytes, _| u64::from(peers::rebuild::<IsalLarge>(stripe, LOST, bytes)),
            |stripe, bytes, _| u64::from(peers::rebuild::<IsalLargeV3>(stripe, LOST, bytes)),
            |_, bytes, room| copy_stripe(bytes, room),
        ]),
    },
    Row {
        name: "update of one block, method 3",
        unit: "block",
        units: 1,
        bytes: LARGE_DATA,
        sources: &[Source::L2, Source::Memory],
        method: LARGE,
        jobs: all([
            |stripe, bytes, room| updated::<library::Plain>(LARGE, stripe, &room.new, bytes),
            |stripe, bytes, room| updated::<library::V3>(LARGE, stripe, &room.new, bytes),
            |stripe, bytes, room| peers::update::<OrdinaryLarge>(stripe, &room.new, bytes).into(),
            |stripe, bytes, room| peers::update::<IsalLarge>(stripe, &room.new, bytes).into(),
            |stripe, bytes, room| peers::update::<IsalLargeV3>(stripe, &room.new, bytes).into(),
            |_, bytes, room| copy_front(LARGE_DATA, bytes, room),
        ]),
    },
];

fn rebuilt<A: Archive>(method: u8, stripe: u64, bytes: &mut [u8]) -> u64 {
    u64::from(library::rebuild::<A>(method, stripe, LOST, bytes) == 0)
}

/// The lowest block of a stripe with new data.
fn updated<A: Archive>(method: u8, stripe: u64, new: &[u8], bytes: &mut [u8]) -> u64 {
    let lowest = stripe * (MEMBERS as u64 - 1);
    u64::from(library::update::<A>(method, lowest, new, bytes) == 0)
}

/// Guards of the first block, each begun when the one before is known: where it starts depends on it.
fn alone<G: Into<u64>>(guard: impl Fn(&[u8]) -> G, bytes: &[u8]) -> u64 {
    one_by_one(|at| guard(&bytes[at..at + DATA]).into())
}

fn alone_large(guard: impl Fn(&[u8]) -> u32, bytes: &[u8]) -> u64 {
    one_by_one(|at| guard(&bytes[at..at + LARGE_DATA]).into())
}

#[inline(always)]
fn one_by_one(guard: impl Fn(usize) -> u64) -> u64 {
    let nothing = black_box(0);
    let mut last = 0;
    for _ in 0..MEMBERS {
        last = guard(last as usize & nothing);
    }
    last
}

/// The guards of all blocks, none of which waits for another.
pub fn guards<G: Into<u64>>(guard: impl Fn(&[u8]) -> G, bytes: &[u8]) -> u64 {
    together(blocks(bytes).map(|block| guard(&block[..DATA])))
}

fn guards_large(guard: impl Fn(&[u8]) -> u32, bytes: &[u8]) -> u64 {
    let blocks = bytes.chunks_exact(LARGE_BLOCK);
    together(blocks.map(|block| guard(&block[..LARGE_DATA])))
}

/// Guards as one number.
fn together<G: Into<u64>>(guards: impl IntoIterator<Item = G>) -> u64 {
    guards
        .into_iter()
        .fold(0, |all, guard| all.rotate_left(5) ^ guard.into())
}

fn copy(from: &[u8], to: &mut [u8]) {
    to.copy_from_slice(black_box(from));
    black_box(to);
}

fn copy_one(bytes: &[u8], room: &mut Room) -> u64 {
    for _ in 0..MEMBERS {
        copy(&bytes[..DATA], &mut room.copy[..DATA]);
    }
    0
}

fn copy_blocks(bytes: &[u8], room: &mut Room) -> u64 {
    for (from, to) in blocks(bytes).zip(room.copy.chunks_exact_mut(BLOCK)) {
        copy(&from[..DATA], &mut to[..DATA]);
    }
    0
}

fn copy_one_large(bytes: &[u8], room: &mut Room) -> u64 {
    for _ in 0..MEMBERS {
        copy(&bytes[..LARGE_DATA], &mut room.copy[..LARGE_DATA]);
    }
    0
}

fn copy_large(bytes: &[u8], room: &mut Room) -> u64 {
    for (from, to) in bytes
        .chunks_exact(LARGE_BLOCK)
        .zip(room.copy.chunks_exact_mut(LARGE_BLOCK))
    {
        copy(&from[..LARGE_DATA], &mut to[..LARGE_DATA]);
    }
    0
}

fn copy_front(length: usize, bytes: &[u8], room: &mut Room) -> u64 {
    copy_stripe(&bytes[..length], room)
}

pub fn copy_stripe(bytes: &[u8], room: &mut Room) -> u64 {
    copy(bytes, &mut room.copy[..bytes.len()]);
    0
}
