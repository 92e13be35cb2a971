//! The jobs on a stripe: on good and damaged stripes, and on numbers and lengths that must be refused.

use super::cases::{self, Case};
use super::{Outcome, Tally, done_name, refusal, same, tally};
use crate::lent::Lent;
use crate::library;
use crate::random::Random;
use model::layout::Array;
use model::stripe::{self, Source};

fn seal(array: &Array, stripe: u64, data: &[u8], before: &[u8], tally: &mut Tally) -> Outcome<()> {
    let answer = stripe::seal(array, stripe, data, before);
    let (lent, mut bytes) = (Lent::new(data), Lent::new(before));
    same(
        refusal(&answer),
        library::seal(array, stripe, &lent, &mut bytes),
    )
    .and_then(|()| lent.kept("data"))
    .and_then(|()| bytes.holds("stripe", answer.as_deref().unwrap_or(before)))
    .map_err(|difference| format!("seal of stripe {stripe} in {array:?}: {difference}"))?;
    tally.add_by(array.method, "seal", done_name(&answer));
    Ok(())
}

pub fn read(
    array: &Array,
    block: u64,
    bytes: &[u8],
    before: &[u8],
    tally: &mut Tally,
) -> Outcome<()> {
    let answer = stripe::read(array, block, bytes, before);
    let (kind, due) = match &answer {
        Ok(read) => (read.source as u32, &read.data[..]),
        Err(_) => (0, before),
    };
    let numbers = library::Read {
        refusal: refusal(&answer),
        kind,
    };
    let (lent, mut out) = (Lent::new(bytes), Lent::new(before));
    same(numbers, library::read(array, block, &lent, &mut out))
        .and_then(|()| lent.kept("stripe"))
        .and_then(|()| out.holds("out", due))
        .map_err(|difference| format!("read of block {block} in {array:?}: {difference}"))?;
    let name = match &answer {
        Ok(read) => match read.source {
            Source::Stored => "stored",
            Source::Rebuilt => "rebuilt",
            Source::Unchecked => "unchecked",
        },
        Err(number) => tally::refused(*number),
    };
    tally.add_by(array.method, "read", name);
    Ok(())
}

pub fn rebuild(
    array: &Array,
    stripe: u64,
    member: usize,
    before: &[u8],
    tally: &mut Tally,
) -> Outcome<()> {
    let answer = stripe::rebuild(array, stripe, member, before);
    let mut bytes = Lent::new(before);
    same(
        refusal(&answer),
        library::rebuild(array, stripe, member, &mut bytes),
    )
    .and_then(|()| bytes.holds("stripe", answer.as_deref().unwrap_or(before)))
    .map_err(|difference| {
        format!("rebuild of stripe {stripe}, member {member} in {array:?}: {difference}")
    })?;
    tally.add_by(array.method, "rebuild", done_name(&answer));
    Ok(())
}

pub fn update(
    array: &Array,
    block: u64,
    data: &[u8],
    before: &[u8],
    tally: &mut Tally,
) -> Outcome<()> {
    let answer = stripe::update(array, block, data, before);
    let (lent, mut bytes) = (Lent::new(data), Lent::new(before));
    same(
        refusal(&answer),
        library::update(array, block, &lent, &mut bytes),
    )
    .and_then(|()| lent.kept("data"))
    .and_then(|()| bytes.holds("stripe", answer.as_deref().unwrap_or(before)))
    .map_err(|difference| format!("update of block {block} in {array:?}: {difference}"))?;
    tally.add_by(array.method, "update", done_name(&answer));
    Ok(())
}

/// All jobs on one stripe.
fn jobs(case: &Case, random: &mut Random, tally: &mut Tally) -> Outcome<()> {
    let Case {
        array,
        stripe,
        data,
        bytes,
    } = case;
    seal(array, *stripe, data, &random.bytes(bytes.len()), tally)?;
    let blocks = array.blocks_of(*stripe);
    let length = case.format().data;
    let out = random.bytes(length);
    for block in &blocks {
        read(array, *block, bytes, &out, tally)?;
    }
    for _ in 0..2 {
        rebuild(array, *stripe, random.below(array.members), bytes, tally)?;
        let block = random.pick(&blocks);
        update(array, block, &random.bytes(length), bytes, tally)?;
    }
    Ok(())
}

/// One call of each job, with numbers or lengths that may be refused.
fn refusals(random: &mut Random, tally: &mut Tally) -> Outcome<()> {
    let array = cases::any_array(random);
    let (stripe, member) = (
        cases::any_stripe(&array, random),
        cases::any_member(&array, random),
    );
    let block = cases::any_block(&array, random);
    let bytes = cases::any_stripe_bytes(&array, stripe, random);
    rebuild(&array, stripe, member, &bytes, tally)?;
    let data_members = array.members.clamp(1, 20) - 1;
    let length = cases::any_length(array.method, |format| data_members * format.data, random);
    seal(&array, stripe, &random.bytes(length), &bytes, tally)?;
    let of_block = array.place(block).map_or(0, |place| place.stripe);
    let bytes = cases::any_stripe_bytes(&array, of_block, random);
    let length = cases::any_length(array.method, |format| format.data, random);
    let data = random.bytes(length);
    read(&array, block, &bytes, &data, tally)?;
    update(&array, block, &data, &bytes, tally)
}

pub fn compare(random: &mut Random) -> Outcome<String> {
    let mut tally = Tally::default();
    let stripes = cases::each_stripe(random, |case, random| jobs(case, random, &mut tally))?;
    for _ in 0..cases::REFUSALS {
        refusals(random, &mut tally)?;
    }
    let calls = [
        tally.of_each("seal", "done 1 2 3 6 13")?,
        tally.of_each("read", "stored rebuilt unchecked 1 2 3 6 9 13")?,
        tally.of_each("rebuild", "done 1 2 3 5 6 9 13")?,
        tally.of_each("update", "done 1 2 3 6 9 13")?,
    ];
    for call in ["seal", "read", "rebuild", "update"] {
        tally.of(call, "12")?;
    }
    Ok(format!(
        "calls alike by all methods on {stripes} stripes and at refusals: {}",
        calls.join(", ")
    ))
}
