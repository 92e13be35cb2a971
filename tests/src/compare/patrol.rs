//! The patrol, call by call: lists of turns, idle and busy, requests, refused calls and unfit states, each call with the state that the one before left.

use super::cases::{self, Case};
use super::{Outcome, Tally, VERDICTS, known, refusal, same, tally, verdict_name, verdict_numbers};
use crate::lent::Lent;
use crate::library;
use crate::random::Random;
use model::Answer;
use model::layout::Array;
use model::patrol::{self, Patrol, Seen};

/// How many lists of calls are tried by each row length, and how many calls a list has.
const LISTS_EACH: usize = 180;
const CALLS: usize = 14;

/// Numbers that say that a turn is idle: all but 0, some of them 0 if they are cut to fewer bits.
const IDLE: [u32; 7] = [1, 2, 255, 256, 65_536, 1 << 31, u32::MAX];

fn patrolled(seen: &Answer<Option<Seen>>, state: Patrol) -> library::Patrolled {
    let verdict = match seen {
        Ok(Some(seen)) => verdict_numbers(&Ok(seen.verdict)),
        Ok(None) => library::Verdict::ZEROS,
        Err(number) => verdict_numbers(&Err(*number)),
    };
    let stripe = match seen {
        Ok(Some(seen)) => seen.stripe,
        _ => 0,
    };
    library::Patrolled {
        verdict,
        stripe,
        state,
    }
}

fn name(method: u8, seen: &Answer<Option<Seen>>) -> &'static str {
    match seen {
        Ok(Some(seen)) => verdict_name(method, &Ok(seen.verdict)),
        Ok(None) => "busy",
        Err(number) => tally::refused(*number),
    }
}

/// An array with few rows, so that a patrol goes round, or with many.
fn array(row: u8, random: &mut Random) -> Array {
    let rows = match random.below(3) {
        0 => random.between(1, 2_097_152),
        _ => random.between(1, 4),
    };
    Array {
        stripes: u64::from(row) * rows,
        row,
        ..cases::array(random)
    }
}

fn begin(array: &Array, tally: &mut Tally) -> Outcome<Patrol> {
    let answer = patrol::begin(array);
    let begun = library::Begun {
        refusal: refusal(&answer),
        state: answer.unwrap_or(Patrol::ZEROS),
    };
    let found = library::patrol_begin(array);
    same(begun, found)
        .map_err(|difference| format!("the begin of a patrol of {array:?}: {difference}"))?;
    tally.add("begin", super::done_name(&answer));
    Ok(found.state)
}

/// A state with a number that is not fit.
fn spoilt(state: &Patrol, random: &mut Random) -> Patrol {
    let mut state = *state;
    match random.below(6) {
        0 => state.members = random.pick(&cases::FAR_MEMBERS),
        1 => state.stripes = random.pick(&cases::FAR_STRIPES),
        2 => state.method = random.pick(&cases::FAR_METHODS),
        3 => state.row = random.pick(&cases::FAR_ROWS),
        4 => state.next = state.stripes.saturating_add(random.pick(&[0, 1, 1 << 32])),
        _ => state.next = u64::MAX,
    }
    state
}

/// Bytes for a call on this stripe: mostly of it, now and then of another one, or not as many as a stripe has.
fn bytes(array: &Array, stripe: u64, random: &mut Random) -> Vec<u8> {
    if array.stripe_fits(stripe).is_err() || random.one_in(4) {
        return cases::any_stripe_bytes(array, stripe, random);
    }
    let of = match random.one_in(8) {
        true => cases::stripe_of(array, random),
        false => stripe,
    };
    Case::any(*array, of, random).bytes
}

/// A request for any stripe.
fn request(state: &Patrol, random: &mut Random, tally: &mut Tally) -> Outcome<Patrol> {
    let stripe = cases::any_below(state.stripes.min(1 << 60), random);
    let lent = Lent::new(&bytes(&state.array(), stripe, random));
    let answer = patrol::request(state, stripe, lent.contents());
    let found = library::patrol_request(*state, stripe, &lent);
    same(patrolled(&answer, *state), found)
        .and_then(|()| lent.kept("stripe"))
        .map_err(|difference| format!("request of {stripe} in {state:?}: {difference}"))?;
    tally.add_by(state.method, "request", name(state.method, &answer));
    Ok(found.state)
}

/// A turn. What an idle one saw that was not refused goes to those seen before.
fn turn(
    state: &Patrol,
    idle: u32,
    seen: &mut Vec<u64>,
    random: &mut Random,
    tally: &mut Tally,
) -> Outcome<Patrol> {
    let lent = match idle == 0 && random.one_in(2) {
        true => Lent::new(&random.bytes(300)),
        false => Lent::new(&bytes(&state.array(), state.next, random)),
    };
    let (answer, next) = patrol::turn(state, idle != 0, lent.contents());
    let found = library::patrol_turn(*state, idle, &lent);
    same(patrolled(&answer, next), found)
        .and_then(|()| lent.kept("stripe"))
        .map_err(|difference| format!("turn {idle} in {state:?}: {difference}"))?;
    tally.add_by(state.method, "turn", name(state.method, &answer));
    if idle != 0 && found.verdict.refusal == 0 {
        seen.push(found.stripe);
    }
    Ok(found.state)
}

/// Any call, with the state that it leaves.
fn call(
    state: &Patrol,
    seen: &mut Vec<u64>,
    random: &mut Random,
    tally: &mut Tally,
) -> Outcome<Patrol> {
    match random.below(5) {
        0 => request(state, random, tally),
        1 => turn(state, 0, seen, random, tally),
        _ => turn(state, random.pick(&IDLE), seen, random, tally),
    }
}

/// Those seen are the stripes from the first on, in order, and after the last the first; and as many successive ones as there are stripes are all of them.
fn in_order(array: &Array, first: u64, seen: &[u64], tally: &mut Tally) -> Outcome<()> {
    let due: Vec<u64> = (first..array.stripes)
        .chain((0..array.stripes).cycle())
        .take(seen.len())
        .collect();
    known(&due[..], seen)?;
    for round in seen.windows(array.stripes.min(1 << 20) as usize) {
        let mut round = round.to_vec();
        round.sort_unstable();
        known((0..array.stripes).collect(), round)?;
        tally.add_by(array.method, "round", "whole");
    }
    Ok(())
}

/// A list of calls from a fit state. Now and then a call is handed a state that is not fit, and the list goes on with the one before.
fn list(array: &Array, random: &mut Random, tally: &mut Tally) -> Outcome<()> {
    let mut state = begin(array, tally)?;
    if random.one_in(2) {
        state.next = array.stripes - random.between(1, array.stripes.min(3));
    }
    let (first, mut seen) = (state.next, Vec::new());
    for _ in 0..CALLS {
        if random.one_in(5) {
            call(&spoilt(&state, random), &mut Vec::new(), random, tally)?;
        } else {
            state = call(&state, &mut seen, random, tally)?;
        }
    }
    in_order(array, first, &seen, tally)
}

pub fn compare(random: &mut Random) -> Outcome<String> {
    let mut tally = Tally::default();
    for row in cases::ROWS {
        for _ in 0..LISTS_EACH {
            list(&array(row, random), random, &mut tally)?;
        }
    }
    for _ in 0..cases::REFUSALS {
        begin(&cases::any_array(random), &mut tally)?;
    }
    let calls = [
        tally.of("begin", "done 1 2 12 13")?,
        tally.of_each("turn", "clean unchecked torn busy 4 6")?,
        tally.of_each("request", "3 4")?,
        tally.of_each("round", "whole")?,
    ];
    tally.of("turn", VERDICTS)?;
    tally.of("request", "clean unchecked torn 6")?;
    Ok(format!(
        "calls and states alike by all methods and all row lengths: {}",
        calls.join(", ")
    ))
}
