//! The library and its peers take turns, and the best time of each counts.

use crate::machine;
use crate::peers::isal;
use crate::random::{self, Random};
use crate::rows::{CONTESTANTS, ISAL, ISAL_V3, Job, MEMCPY, Room, Row, Source, V3};
use crate::stripes::{CHECKSUM, CRC, LARGE, MEMBERS, STRIPE, damage, seal, stripe_length};
use std::hint::black_box;
use std::time::Instant;

/// So often all rows are gone through, so that what disturbs the machine for a second meets no row alone.
pub const PASSES: usize = 20;

/// How many turns each contestant has at a row in a pass.
const TURNS: usize = 10;

/// How many turns each contestant has at a row in all.
pub const ROUNDS: usize = PASSES * TURNS;

/// On how many stripes, most of them damaged, the answers are compared.
const CASES: usize = 300;

/// A turn in the cache does one stripe over and over, until about so many bytes went by.
const REPEATED: usize = 64 * STRIPE;

/// A turn in memory walks over stripes of about so many bytes.
const SEGMENT: usize = 1 << 20;

/// So many segments lie in memory. Each turn takes the next, so that a segment comes again when all others went by.
pub const SEGMENTS: usize = 256;

/// How many stripes of a method come nearest to so many bytes.
fn stripes_in(method: u8, bytes: usize) -> usize {
    (bytes + stripe_length(method) / 2) / stripe_length(method)
}

/// Stripes of a method that lie on a boundary of 64 bytes.
struct Stripes {
    bytes: Vec<u8>,
    from: usize,
    length: usize,
}

impl Stripes {
    fn new(method: u8, count: usize, random: &mut Random) -> Self {
        let length = stripe_length(method);
        let mut bytes = vec![0; count * length + 64];
        let from = bytes.as_ptr().align_offset(64);
        seal(
            MEMBERS,
            method,
            &mut bytes[from..from + count * length],
            random,
        );
        Stripes {
            bytes,
            from,
            length,
        }
    }

    fn stripe(&mut self, number: usize) -> &mut [u8] {
        &mut self.bytes[self.from + number * self.length..][..self.length]
    }
}

/// The stripes that all rows of a method are measured on.
struct OfMethod {
    one: Stripes,
    repeats: usize,
    many: Stripes,
    segment: usize,
    next: usize,
}

impl OfMethod {
    fn new(method: u8, random: &mut Random) -> Self {
        let segment = stripes_in(method, SEGMENT);
        OfMethod {
            one: Stripes::new(method, 1, random),
            repeats: stripes_in(method, REPEATED),
            many: Stripes::new(method, segment * SEGMENTS, random),
            segment,
            next: 0,
        }
    }
}

/// The stripes that all rows are measured on.
pub struct Ground {
    crc: OfMethod,
    checksum: OfMethod,
    large: OfMethod,
}

impl Ground {
    pub fn new() -> Self {
        let mut random = Random::new(random::seed());
        Ground {
            crc: OfMethod::new(CRC, &mut random),
            checksum: OfMethod::new(CHECKSUM, &mut random),
            large: OfMethod::new(LARGE, &mut random),
        }
    }

    /// The turns of a pass at a row. Keeps the best time of each contestant for one unit, in nanoseconds; none of one that is not here.
    pub fn turns(&mut self, row: &Row, source: Source, best: &mut [Option<f64>; CONTESTANTS]) {
        let mut room = Room::new();
        let ground = match row.method {
            CRC => &mut self.crc,
            CHECKSUM => &mut self.checksum,
            _ => &mut self.large,
        };
        for _ in 0..TURNS {
            for (who, job) in taking_part(row) {
                let (from, first, stripes, repeats) = match source {
                    Source::L1 | Source::L2 => (&mut ground.one, 0, 1, ground.repeats),
                    Source::Memory => {
                        ground.next = (ground.next + 1) % SEGMENTS;
                        let first = ground.next * ground.segment;
                        (&mut ground.many, first, ground.segment, 1)
                    }
                };
                let time = timed(|| {
                    for _ in 0..repeats {
                        for number in first..first + stripes {
                            let bytes = black_box(from.stripe(number));
                            black_box(job(number as u64, bytes, &mut room));
                        }
                    }
                });
                let units = repeats * stripes * row.units;
                keep(&mut best[who], time / units as f64);
            }
        }
    }
}

/// Whether a contestant can take part: ISA-L is installed, the processor has what the code was compiled for.
pub fn is_here(who: usize) -> bool {
    match who {
        V3 => machine::is_v3(),
        ISAL => isal::VERSION.is_some(),
        ISAL_V3 => isal::VERSION.is_some() && machine::is_v3(),
        _ => true,
    }
}

/// Who takes part in a row, and with which job.
fn taking_part(row: &Row) -> impl Iterator<Item = (usize, Job)> {
    let jobs = row.jobs.iter().enumerate();
    jobs.filter_map(|(who, job)| job.filter(|_| is_here(who)).map(|job| (who, job)))
}

/// How long some work takes, in nanoseconds. Every time that this program tells is taken here.
pub fn timed<T>(work: impl FnOnce() -> T) -> f64 {
    clear_upper_halves();
    let start = Instant::now();
    black_box(work());
    start.elapsed().as_nanos() as f64
}

/// Clears the upper halves of the vector registers. ISA-L leaves them in use, which can slow code for any x86_64 processor that runs after it.
fn clear_upper_halves() {
    #[cfg(target_arch = "x86_64")]
    if is_x86_feature_detected!("avx") {
        // SAFETY: the processor has the instruction, and what it clears this program's own code does not use.
        unsafe { std::arch::x86_64::_mm256_zeroupper() }
    }
}

/// Keeps the lesser time.
pub fn keep(best: &mut Option<f64>, time: f64) {
    *best = Some(best.map_or(time, |best| best.min(time)));
}

/// The very jobs that are timed give the same answers and leave the same stripes, on good stripes and on damaged ones.
pub fn compare(row: &Row) {
    let mut random = Random::new(random::seed());
    let mut room = Room::new();
    let mut stripes = Stripes::new(row.method, MEMBERS, &mut random);
    for _ in 0..CASES {
        let number = random.below(MEMBERS);
        let mut before = stripes.stripe(number).to_vec();
        damage(row.method, number as u64, &mut before, &mut random);
        // What the first does, the plain archive, is due of all.
        let mut due = None;
        for (who, job) in taking_part(row) {
            let mut after = before.clone();
            let found = job(number as u64, &mut after, &mut room);
            if who == MEMCPY {
                let copied = room.copy[..row.bytes] == before[..row.bytes];
                assert!(copied && after == before, "{}: memcpy", row.name);
                continue;
            }
            let (answer, left) = due.get_or_insert((found, after.clone()));
            assert_eq!(found, *answer, "{}: contestant {who}", row.name);
            assert!(after == *left, "{}: contestant {who}", row.name);
        }
    }
}
