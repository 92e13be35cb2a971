//! The check of one block against the tag due at its place.

use super::{Outcome, Tally, cases, faults_name, refusal, same, tally};
use crate::lent::Lent;
use crate::library;
use crate::random::Random;
use model::Answer;
use model::format::Format;
use model::layout::Array;
use model::stripe::{self, Checked, Field};

fn field_numbers(field: Field) -> library::Field {
    let Field { found, expected } = field;
    library::Field {
        found,
        expected,
        fits: u32::from(found == expected),
    }
}

fn check_numbers(answer: &Answer<Checked>) -> library::Check {
    let (kind, fields) = match *answer {
        Ok(Checked::Good(fields)) => (0, Some(fields)),
        Ok(Checked::Bad(fields)) => (1, Some(fields)),
        Ok(Checked::Unchecked) => (2, None),
        Err(_) => (0, None),
    };
    let [guard, application, reference] = match fields {
        Some(fields) => [fields.guard, fields.application, fields.reference].map(field_numbers),
        None => [library::Field::default(); 3],
    };
    library::Check {
        refusal: refusal(answer),
        kind,
        guard,
        application,
        reference,
    }
}

fn check_name(answer: &Answer<Checked>) -> &'static str {
    match answer {
        Ok(Checked::Good(fields) | Checked::Bad(fields)) => faults_name(fields.fits()),
        Ok(Checked::Unchecked) => "unchecked",
        Err(number) => tally::refused(*number),
    }
}

/// What the model says of a block, and the library too.
pub fn checked(
    array: &Array,
    stripe: u64,
    member: usize,
    block: &[u8],
) -> Outcome<Answer<Checked>> {
    let answer = stripe::check(array, stripe, member, block);
    let lent = Lent::new(block);
    same(
        check_numbers(&answer),
        library::check(array, stripe, member, &lent),
    )
    .and_then(|()| lent.kept("block"))
    .map_err(|difference| {
        format!("check of stripe {stripe}, member {member} in {array:?}: {difference}")
    })?;
    Ok(answer)
}

fn check(
    array: &Array,
    stripe: u64,
    member: usize,
    block: &[u8],
    tally: &mut Tally,
) -> Outcome<()> {
    let answer = checked(array, stripe, member, block)?;
    tally.add_by(array.method, "check", check_name(&answer));
    Ok(())
}

fn refusals(random: &mut Random, tally: &mut Tally) -> Outcome<()> {
    let array = cases::any_array(random);
    let stripe = cases::any_stripe(&array, random);
    let member = cases::any_member(&array, random);
    let length = cases::any_length(array.method, Format::block, random);
    check(&array, stripe, member, &random.bytes(length), tally)
}

pub fn compare(random: &mut Random) -> Outcome<String> {
    let mut tally = Tally::default();
    let stripes = cases::each_stripe(random, |case, _| {
        let mut blocks = case.bytes.chunks(case.format().block()).enumerate();
        blocks.try_for_each(|(member, block)| {
            check(&case.array, case.stripe, member, block, &mut tally)
        })
    })?;
    for _ in 0..cases::REFUSALS {
        refusals(random, &mut tally)?;
    }
    tally.of("check", "12")?;
    let calls = tally.of_each(
        "check",
        "--- G-- -A- --R GA- G-R -AR GAR unchecked 1 2 3 5 6 13",
    )?;
    Ok(format!(
        "calls alike by all methods on {stripes} stripes and at refusals: {calls}"
    ))
}
