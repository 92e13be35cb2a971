//! The scrub in pieces, twice: as a history, kept from the calls alone; and as a scan from any state, a byte at a time.

use super::format::Format;
use super::layout::Array;
use super::stripe::{self, Checked, Verdict};
use super::{Answer, checksum, crc32c, guard};

/// The state of a scan, laid out as the C header has it.
#[repr(C)]
#[derive(Clone, Copy, Debug, PartialEq)]
pub struct Scan {
    pub members: usize,
    pub stripes: u64,
    pub volume: u8,
    pub method: u8,
    pub row: u8,
    pub stripe: u64,
    pub at: [u16; 16],
    pub register: [u32; 16],
    pub waiting: [u8; 16],
    pub tag: [u8; 256],
}

impl Scan {
    pub const ZEROS: Scan = Scan {
        members: 0,
        stripes: 0,
        volume: 0,
        method: 0,
        row: 0,
        stripe: 0,
        at: [0; 16],
        register: [0; 16],
        waiting: [0; 16],
        tag: [0; 256],
    };

    /// The tags of all members, as far as they were taken.
    fn tags(&self, format: &Format) -> impl Iterator<Item = &[u8]> {
        self.tag.chunks(format.tag())
    }
}

/// A work buffer, as long as the data of a block.
pub type Work = Vec<u8>;

/// What paper 01 calls the book of a scan: the numbers of the start, and for each member the bytes taken so far.
pub struct History {
    array: Array,
    stripe: u64,
    taken: Vec<Vec<u8>>,
}

impl History {
    /// The history after a start that was accepted.
    pub fn open(array: Array, stripe: u64) -> Self {
        History {
            array,
            stripe,
            taken: vec![Vec::new(); array.members],
        }
    }

    pub fn piece(&mut self, member: usize, bytes: &[u8]) -> Answer<()> {
        let taken = self.taken.get_mut(member).ok_or(5u32)?;
        if bytes.len() > self.array.format().block() - taken.len() {
            return Err(7);
        }
        taken.extend(bytes);
        Ok(())
    }

    pub fn finish(&self) -> Answer<Verdict> {
        let whole = self.array.format().block();
        if self.taken.iter().any(|taken| taken.len() < whole) {
            return Err(8);
        }
        stripe::scrub(&self.array, self.stripe, &self.taken.concat())
    }

    /// How many bytes of a member were taken.
    pub fn position(&self, member: usize) -> usize {
        self.taken[member].len()
    }

    /// The state that the bytes taken so far make.
    pub fn state(&self) -> Scan {
        let format = self.array.format();
        let mut state = opened(&self.array, self.stripe);
        for (member, taken) in self.taken.iter().enumerate() {
            let (data, tag) = taken.split_at(taken.len().min(format.data));
            state.at[member] = taken.len() as u16;
            (state.register[member], state.waiting[member]) = register_of(self.array.method, data);
            state.tag[format.tag() * member..][..tag.len()].copy_from_slice(tag);
        }
        state
    }

    /// The work buffer that the bytes taken so far make.
    pub fn work(&self) -> Work {
        let mut work = vec![0; self.array.format().data];
        for taken in &self.taken {
            for (place, byte) in work.iter_mut().zip(taken) {
                *place ^= byte;
            }
        }
        work
    }
}

/// The register that the first data of a block make, and the byte that waits, or 0.
fn register_of(method: u8, data: &[u8]) -> (u32, u8) {
    match method {
        1 => (guard::go_on(0, data).into(), 0),
        2 => of_words(data),
        _ => (crc32c::go_on(crc32c::START, data), 0),
    }
}

/// The checksum of the whole words of a run, and the byte that is left, or 0.
fn of_words(data: &[u8]) -> (u32, u8) {
    let (words, left) = data.split_at(data.len() / 2 * 2);
    let sum = checksum::checksum(words).expect("whole words");
    (sum.into(), left.first().copied().unwrap_or(0))
}

fn opened(array: &Array, stripe: u64) -> Scan {
    let (start, _) = register_of(array.method, &[]);
    Scan {
        members: array.members,
        stripes: array.stripes,
        volume: array.volume,
        method: array.method,
        row: array.row,
        stripe,
        register: [start; 16],
        ..Scan::ZEROS
    }
}

fn work_sized(array: &Array, work: &[u8]) -> Answer<Work> {
    if work.len() == array.format().data {
        Ok(work.to_vec())
    } else {
        Err(6)
    }
}

/// The array of a state that is fit.
fn fit(state: &Scan) -> Answer<Array> {
    let array = Array {
        members: state.members,
        stripes: state.stripes,
        volume: state.volume,
        method: state.method,
        row: state.row,
    };
    array.stripe_fits(state.stripe).map_err(|_| 4u32)?;
    for member in 0..array.members {
        let at = usize::from(state.at[member]);
        if at > array.format().block() || (state.waiting[member] != 0 && !waits(&array, at)) {
            return Err(4);
        }
        if array.method != 3 && state.register[member] > 0xFFFF {
            return Err(4);
        }
    }
    Ok(array)
}

/// A register of sixteen bits in a fit state.
fn narrow(register: u32) -> u16 {
    u16::try_from(register).expect("a fit state")
}

/// The guard that a register over all data of a block stands for: by method 3 with the end step, which the register has not had.
fn guard_from(method: u8, register: u32) -> u32 {
    if method == 3 { !register } else { register }
}

/// Whether a byte waits for its pair once so many of a block are taken.
fn waits(array: &Array, at: usize) -> bool {
    array.method == 2 && at < array.format().data && at % 2 == 1
}

/// A register and the byte that waits, of a member at this place, after one more byte of its data.
fn go_on(array: &Array, at: usize, (register, waiting): (u32, u8), byte: u8) -> (u32, u8) {
    match array.method {
        1 => (guard::go_on(narrow(register), &[byte]).into(), 0),
        2 => {
            let sum = checksum::Sum {
                value: narrow(register),
                waiting: waits(array, at).then_some(waiting),
            };
            let sum = sum.go_on(byte);
            (sum.value.into(), sum.waiting.unwrap_or(0))
        }
        _ => (crc32c::go_on(register, &[byte]), 0),
    }
}

/// The first state, and the work buffer cleared.
pub fn start(array: &Array, stripe: u64, work: &[u8]) -> Answer<(Scan, Work)> {
    array.stripe_fits(stripe)?;
    let work = work_sized(array, work)?;
    Ok((opened(array, stripe), vec![0; work.len()]))
}

/// The state and the work buffer after some bytes for a member.
pub fn piece(state: &Scan, member: usize, bytes: &[u8], work: &[u8]) -> Answer<(Scan, Work)> {
    let array = fit(state)?;
    if member >= array.members {
        return Err(5);
    }
    let mut work = work_sized(&array, work)?;
    let format = array.format();
    if bytes.len() > format.block() - usize::from(state.at[member]) {
        return Err(7);
    }
    let mut next = *state;
    for byte in bytes {
        let at = usize::from(next.at[member]);
        if at < format.data {
            let before = (next.register[member], next.waiting[member]);
            let after = go_on(&array, at, before, *byte);
            (next.register[member], next.waiting[member]) = after;
            work[at] ^= byte;
        } else {
            next.tag[format.tag() * member + at - format.data] = *byte;
        }
        next.at[member] += 1;
    }
    Ok((next, work))
}

/// The verdict, by what the state and the work buffer hold.
pub fn finish(state: &Scan, work: &[u8]) -> Answer<Verdict> {
    let array = fit(state)?;
    let work = work_sized(&array, work)?;
    let format = array.format();
    let whole = |at: &u16| usize::from(*at) == format.block();
    if !state.at[..array.members].iter().all(whole) {
        return Err(8);
    }
    let tags = || state.tags(&format).take(array.members);
    let members: Vec<Checked> = tags()
        .enumerate()
        .map(|(member, tag)| {
            let own = guard_from(array.method, state.register[member]);
            stripe::told(&array, state.stripe, member, own, tag)
        })
        .collect();
    let guards: Vec<u32> = tags().map(|tag| stripe::guard_in(&format, tag)).collect();
    Ok(stripe::verdict(array.method, &members, &work, &guards))
}
