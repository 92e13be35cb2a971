//! A join of two guards, beside what it spares: going through the second run again, which comes from memory.

use crate::library::{self, Plain};
use crate::peers::{Isal, Ordinary, go_on};
use crate::random::{self, Random};
use crate::rows::{ISAL, MEMCPY, ORDINARY};
use crate::timing::{is_here, keep, timed};
use std::hint::black_box;

pub const ROUNDS: usize = 30;

/// The lengths of the second run. Each bit of a length that is one costs a multiplication.
pub const LENGTHS: [usize; 3] = [512, 1 << 20, (1 << 24) - 1];

/// The longest length there is, which no peer goes through here.
pub const LONGEST: u32 = u32::MAX;

/// The runs lie in so many bytes, and each turn takes the next.
const MEMORY: usize = 256 << 20;

/// A turn joins so many times, each when the join before is known.
const JOINS: usize = 10_000;

/// The join, the ordinary program, ISA-L, memcpy.
pub const COLUMNS: usize = 4;

/// Goes through a run, or copies it.
type Peers = fn(&[u8], &mut [u8]) -> u32;

pub struct Ground {
    bytes: Vec<u8>,
    copy: Vec<u8>,
    next: usize,
}

impl Ground {
    pub fn new() -> Self {
        let mut bytes = vec![0; MEMORY];
        Random::new(random::seed()).fill(&mut bytes);
        let longest = LENGTHS.iter().max().expect("there are lengths");
        Ground {
            bytes,
            copy: vec![1; *longest],
            next: 0,
        }
    }

    /// The next run of a length, and where its copy goes.
    fn run(&mut self, length: usize) -> (&[u8], &mut [u8]) {
        if self.next + length > MEMORY {
            self.next = 0;
        }
        let run = &self.bytes[self.next..self.next + length];
        self.next += length.max(1 << 20);
        (black_box(run), &mut self.copy[..length])
    }

    /// The best time of a join with a run of a length, then of each peer that goes through the run; in nanoseconds.
    pub fn best(&mut self, length: usize) -> [Option<f64>; COLUMNS] {
        let mut best = [None; COLUMNS];
        best[0] = Some(join(length as u32));
        let peers: [(usize, Peers); COLUMNS - 1] = [
            (ORDINARY, |run, _| go_on::<Ordinary>(0x8BB7, run)),
            (ISAL, |run, _| go_on::<Isal>(0x8BB7, run)),
            (MEMCPY, |run, copy| {
                copy.copy_from_slice(run);
                black_box(copy);
                0
            }),
        ];
        for _ in 0..ROUNDS {
            for (column, (who, peer)) in (1..).zip(peers) {
                if is_here(who) {
                    let (run, copy) = self.run(length);
                    keep(&mut best[column], timed(|| peer(run, copy)));
                }
            }
        }
        best
    }

    /// Each peer, from the first run's guard through the second run, gives what the join gives.
    pub fn compare(&mut self) {
        for length in LENGTHS {
            let (run, _) = self.run(length);
            let of_run = library::guard::<Plain>(run);
            let due = u32::from(library::join::<Plain>(0x8BB7, of_run, length as u32));
            assert_eq!(go_on::<Ordinary>(0x8BB7, run), due, "a join, ordinary");
            if is_here(ISAL) {
                assert_eq!(go_on::<Isal>(0x8BB7, run), due, "a join, ISA-L");
            }
        }
    }
}

/// The best time of a join at a length, in nanoseconds.
pub fn join(length: u32) -> f64 {
    let mut best = None;
    for _ in 0..ROUNDS {
        let time = timed(|| {
            (0..JOINS).fold(black_box(0x8BB7), |last, _| {
                library::join::<Plain>(last, 0x1234, length)
            })
        });
        keep(&mut best, time / JOINS as f64);
    }
    best.expect("there are rounds")
}
