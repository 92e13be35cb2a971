//! The full scrub and the quick scrub of whole stripes.

use super::cases::{self, Case};
use super::{
    Outcome, Tally, VERDICTS, crc32c, refusal, same, tally, verdict_name, verdict_numbers,
};
use crate::lent::Lent;
use crate::library;
use crate::random::Random;
use model::layout::Array;
use model::stripe::{self, Verdict};

pub fn scrub(array: &Array, stripe: u64, bytes: &[u8], tally: &mut Tally) -> Outcome<()> {
    let answer = stripe::scrub(array, stripe, bytes);
    let lent = Lent::new(bytes);
    same(
        verdict_numbers(&answer),
        library::scrub(array, stripe, &lent),
    )
    .and_then(|()| lent.kept("stripe"))
    .map_err(|difference| format!("scrub of stripe {stripe} in {array:?}: {difference}"))?;
    let name = verdict_name(array.method, &answer);
    tally.add_by(array.method, "scrub", name);
    Ok(())
}

/// The quick scrub of guards of sixteen bits; whether they differ.
fn quick_scrub(guards: &[u16], tally: &mut Tally) -> Outcome<bool> {
    let answer = stripe::quick_scrub(guards);
    let combination = answer.unwrap_or(0);
    let numbers = library::Quick {
        refusal: refusal(&answer),
        differs: u32::from(combination != 0),
        combination: u32::from(combination),
    };
    let lent = Lent::new(guards);
    same(numbers, library::quick_scrub(&lent))
        .and_then(|()| lent.kept("guards"))
        .map_err(|difference| format!("quick scrub of {guards:04X?}: {difference}"))?;
    let name = match answer {
        Ok(0) => "fits",
        Ok(_) => "differs",
        Err(number) => tally::refused(number),
    };
    tally.add("quick scrub", name);
    Ok(combination != 0)
}

/// The quick scrub of the guards that stand in a stripe, by that of its method; whether they differ.
fn quick_of(case: &Case, tally: &mut Tally) -> Outcome<bool> {
    let guards = case.stored_guards();
    if case.array.method == 3 {
        return crc32c::quick_scrub(&guards, tally);
    }
    let guards: Vec<u16> = guards.iter().map(|guard| *guard as u16).collect();
    quick_scrub(&guards, tally)
}

/// The one bits of a run lie within as many successive places as a CRC has bits, counted as it takes them: sixteen, from the highest bit of each byte
/// on, or by method 3 thirty-two, from the lowest on.
fn within_guard(method: u8, bytes: &[u8]) -> bool {
    let (width, first_bit): (usize, fn(u8) -> u8) = match method {
        3 => (32, |byte| byte),
        _ => (16, u8::reverse_bits),
    };
    let bits: Vec<usize> = (0..8 * bytes.len())
        .filter(|bit| first_bit(bytes[bit / 8]) >> (bit % 8) & 1 == 1)
        .collect();
    match (bits.first(), bits.last()) {
        (Some(first), Some(last)) => last - first < width,
        _ => true,
    }
}

/// Where every member is good, the quick scrub fits on a clean stripe, and by a CRC never where the difference is within as many bits as its guard has; by
/// method 2 never where the guards alone do not combine.
fn quick_by_verdict(case: &Case, tally: &mut Tally) -> Outcome<()> {
    let differs = quick_of(case, tally)?;
    let (format, method) = (case.format(), case.array.method);
    let sum = stripe::combine(&format, case.bytes.chunks(format.block()));
    let (stripes, due) = match stripe::scrub(&case.array, case.stripe, &case.bytes) {
        Ok(Verdict::Clean) => ("clean", Some(false)),
        Ok(Verdict::Torn { place }) if place == format.data => ("torn by guards alone", Some(true)),
        Ok(Verdict::Torn { .. }) if method != 2 && within_guard(method, &sum) => {
            ("torn within the guard's bits", Some(true))
        }
        Ok(Verdict::Torn { .. }) => ("torn", None),
        _ => return Ok(()),
    };
    same(due.unwrap_or(differs), differs)
        .map_err(|difference| format!("quick scrub of a {stripes} stripe: {difference}"))?;
    let name = if differs { "differs" } else { "fits" };
    tally.add_by(method, stripes, name);
    Ok(())
}

fn refusals(random: &mut Random, tally: &mut Tally) -> Outcome<()> {
    let array = cases::any_array(random);
    let stripe = cases::any_stripe(&array, random);
    let bytes = cases::any_stripe_bytes(&array, stripe, random);
    scrub(&array, stripe, &bytes, tally)?;
    let count = random.below(21);
    let mut guards: Vec<u16> = (0..count).map(|_| random.next() as u16).collect();
    if random.one_in(2) {
        let sum = guards.iter().skip(1).fold(0, |sum, guard| sum ^ guard);
        guards.iter_mut().take(1).for_each(|first| *first = sum);
    }
    quick_scrub(&guards, tally)?;
    Ok(())
}

pub fn compare(random: &mut Random) -> Outcome<String> {
    let mut tally = Tally::default();
    let stripes = cases::each_stripe(random, |case, _| {
        scrub(&case.array, case.stripe, &case.bytes, &mut tally)?;
        quick_by_verdict(case, &mut tally)
    })?;
    for _ in 0..cases::REFUSALS {
        refusals(random, &mut tally)?;
    }
    let calls = [
        tally.of_each("scrub", &format!("{VERDICTS} 1 2 3 6 13"))?,
        tally.of("quick scrub", "fits differs 1")?,
        tally.of_each("clean", "fits")?,
        tally.of_some(&[1, 3], "torn within the guard's bits", "differs")?,
        tally.of("torn by guards alone", "differs")?,
        tally.of_each("torn", "fits differs")?,
    ];
    tally.of("scrub", "12 512")?;
    Ok(format!(
        "calls alike by all methods on {stripes} stripes and at refusals: {}",
        calls.join(", ")
    ))
}
