//! Guards joined from guards and lengths: against the guards of the bytes, and on any numbers against powers of x.

use super::{Outcome, same};
use crate::library;
use crate::random::Random;
use model::guard::{go_on, guard};
use model::join;

const LONGEST: usize = 2_100;
const RUNS: usize = 20_000;
const RECORDS: usize = 1_000;
const NUMBERS: usize = 200_000;
/// Zero bytes that are really gone through: more than make the powers of x come round.
const MANY: usize = 20_000_000;

/// A difference, and where it came up.
fn at<T>(outcome: Outcome<T>, what: impl FnOnce() -> String) -> Outcome<T> {
    outcome.map_err(|difference| format!("{}: {difference}", what()))
}

/// Each call on the guards of two runs, against the guard of the bytes.
fn runs(random: &mut Random) -> Outcome<()> {
    let (first, second) = (random.below(LONGEST + 1), random.below(LONGEST + 1));
    let (a, b) = (random.bytes(first), random.bytes(second));
    let what = || format!("runs of {first} and {second} bytes");
    let joined = guard(&[&a[..], &b].concat());
    at(
        same(joined, library::join(guard(&a), guard(&b), second as u32)),
        || format!("join, {}", what()),
    )?;
    let padded = guard(&[&a[..], &vec![0; second]].concat());
    at(
        same(padded, library::add_zeros(guard(&a), second as u32)),
        || format!("add_zeros, {}", what()),
    )?;
    at(
        same(guard(&a), library::remove_zeros(padded, second as u32)),
        || format!("remove_zeros, {}", what()),
    )?;
    let other = random.bytes(first);
    let combined: Vec<u8> = a.iter().zip(&other).map(|(x, y)| x ^ y).collect();
    at(
        same(guard(&combined), library::combine(guard(&a), guard(&other))),
        || format!("combine, {first} bytes"),
    )
}

/// A record of up to forty pieces, joined from their guards.
fn record(random: &mut Random) -> Outcome<()> {
    let (mut whole, mut joined) = (Vec::new(), 0);
    for _ in 0..random.below(41) {
        let length = random.below(600);
        let piece = random.bytes(length);
        joined = library::join(joined, guard(&piece), length as u32);
        whole.extend(piece);
    }
    at(same(guard(&whole), joined), || {
        format!("a record of {} bytes", whole.len())
    })
}

/// Each call on any numbers, against the model's powers, and back.
fn numbers(a: u16, b: u16, n: u32) -> Outcome<()> {
    let calls = |library: bool| match library {
        true => (
            library::join(a, b, n),
            library::add_zeros(a, n),
            library::remove_zeros(a, n),
            library::combine(a, b),
        ),
        false => (
            join::join(a, b, n),
            join::add_zeros(a, n),
            join::remove_zeros(a, n),
            a ^ b,
        ),
    };
    let back = (
        library::remove_zeros(library::add_zeros(a, n), n),
        library::add_zeros(library::remove_zeros(a, n), n),
    );
    let none = (
        library::join(a, b, 0),
        library::add_zeros(a, 0),
        library::remove_zeros(a, 0),
    );
    let what = || format!("{a:04X}, {b:04X} and length {n}");
    at(same(calls(false), calls(true)), what)?;
    at(same((a, a), back), || format!("there and back, {}", what()))?;
    at(same((a ^ b, a, a), none), || {
        format!("length 0, {}", what())
    })
}

/// A length of thirty-two bits: any, of few bits, or near an end.
fn length(random: &mut Random) -> u32 {
    let any = random.next() as u32;
    match random.below(4) {
        0 => any,
        1 => 1 << random.below(32),
        2 => any >> random.below(32),
        _ => u32::MAX - random.below(4) as u32,
    }
}

pub fn compare(random: &mut Random) -> Outcome<String> {
    for _ in 0..RUNS {
        runs(random)?;
    }
    for _ in 0..RECORDS {
        record(random)?;
    }
    let mut single = 0;
    for (guard, place) in (0..16).flat_map(|bit| (0..32).map(move |place| (1 << bit, place))) {
        numbers(guard, 0, 1 << place)?;
        single += 1;
    }
    for _ in 0..NUMBERS {
        numbers(random.next() as u16, random.next() as u16, length(random))?;
    }
    let first = random.next() as u16;
    let long = go_on(first, &vec![0; MANY]);
    at(same(long, library::add_zeros(first, MANY as u32)), || {
        format!("{first:04X} and {MANY} zero bytes gone through")
    })?;
    Ok(format!(
        "{RUNS} pairs of runs and {RECORDS} records against the guards of their bytes, {MANY} zero bytes gone through, \
         {single} guards of one bit at lengths of one bit and {NUMBERS} random numbers against powers of x"
    ))
}
