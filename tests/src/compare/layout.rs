//! Places: around every edge, at random, and every place of small arrays once, for every row length.

use super::{Outcome, Tally, cases, done_name, known, refusal, same, tally};
use crate::library;
use crate::random::Random;
use model::Answer;
use model::layout::{Array, Owner, Place};

const RANDOM: usize = 40_000;

pub fn place_numbers(answer: &Answer<Place>) -> library::Place {
    let place = answer.unwrap_or(Place {
        stripe: 0,
        member: 0,
    });
    library::Place {
        refusal: refusal(answer),
        member: place.member as u32,
        stripe: place.stripe,
    }
}

pub fn owner_numbers(answer: &Answer<Owner>) -> library::Owner {
    let (parity, block) = match *answer {
        Ok(Owner::Parity { lowest }) => (1, lowest),
        Ok(Owner::Data { block }) => (0, block),
        Err(_) => (0, 0),
    };
    library::Owner {
        refusal: refusal(answer),
        parity,
        block,
    }
}

/// The place of a block; where there is one, what lies there is that block.
fn place(array: &Array, block: u64, tally: &mut Tally) -> Outcome<()> {
    let answer = array.place(block);
    let back = answer.map(|place| library::owner(array, place.stripe, place.member));
    same(place_numbers(&answer), library::place(array, block))
        .and_then(|()| match back {
            Ok(owner) => same(owner_numbers(&Ok(Owner::Data { block })), owner),
            Err(_) => Ok(()),
        })
        .map_err(|difference| format!("place of block {block} in {array:?}: {difference}"))?;
    tally.add_by(array.method, "place", done_name(&answer));
    if answer.is_ok() {
        tally.add("place by row length", row_name(array.row));
    }
    Ok(())
}

/// A row length that is one, for the tally.
fn row_name(row: u8) -> &'static str {
    const NAMES: [&str; 8] = ["1", "2", "4", "8", "16", "32", "64", "128"];
    NAMES[row.ilog2() as usize]
}

/// What lies at a place; where it is a block, that block lies there.
fn owner(array: &Array, stripe: u64, member: usize, tally: &mut Tally) -> Outcome<()> {
    let answer = array.owner(stripe, member);
    same(
        owner_numbers(&answer),
        library::owner(array, stripe, member),
    )
    .and_then(|()| match answer {
        Ok(Owner::Data { block }) => {
            let due = Place { stripe, member };
            same(place_numbers(&Ok(due)), library::place(array, block))
        }
        _ => Ok(()),
    })
    .map_err(|difference| {
        format!("owner of stripe {stripe}, member {member} in {array:?}: {difference}")
    })?;
    tally.add_by(
        array.method,
        "owner",
        match answer {
            Ok(Owner::Parity { .. }) => "parity",
            Ok(Owner::Data { .. }) => "data",
            Err(number) => tally::refused(number),
        },
    );
    Ok(())
}

/// Each point, and the numbers beside it.
fn around(points: &[u64]) -> Vec<u64> {
    let beside = |point: &u64| [point.wrapping_sub(1), *point, point.wrapping_add(1)];
    let mut numbers: Vec<u64> = points.iter().flat_map(beside).collect();
    numbers.sort();
    numbers.dedup();
    numbers
}

/// One array at the edges of its blocks, stripes and members.
fn edges(array: &Array, tally: &mut Tally) -> Outcome<()> {
    let data = (array.members as u64).wrapping_sub(1);
    let row = u64::from(array.row);
    let end = array.stripes.wrapping_mul(data);
    for block in around(&[
        0,
        row,
        data,
        data.wrapping_mul(row),
        65_536,
        end / 2,
        end,
        1 << 32,
        end.wrapping_add(1 << 32),
    ]) {
        place(array, block, tally)?;
    }
    let members = array.members as u64;
    let end = array.stripes;
    for stripe in around(&[
        0,
        row,
        members,
        members.wrapping_mul(row),
        65_536,
        1 << 32,
        end / 2,
        end,
        end.wrapping_add(1 << 32),
    ]) {
        for member in (0..=17).chain([256, 65_536, 1 << 32, usize::MAX]) {
            owner(array, stripe, member, tally)?;
        }
        owner(array, stripe, array.members, tally)?;
    }
    Ok(())
}

/// What lies on each member of a stripe, of an array that fits.
fn line(array: &Array, stripe: u64) -> Outcome<Vec<library::Owner>> {
    let owners = (0..array.members).map(|member| library::owner(array, stripe, member));
    let line: Vec<library::Owner> = owners.collect();
    match line.iter().find(|owner| owner.refusal != 0) {
        Some(owner) => Err(format!("a place is refused by {}", owner.refusal)),
        None => Ok(line),
    }
}

/// A stripe has one parity, its number the lowest of the stripe; the blocks beside it rise from member to member, by as many as a row has.
fn one_stripe(array: &Array, line: &[library::Owner]) -> Outcome<()> {
    let numbers = |parity: u32| -> Vec<u64> {
        let those = line.iter().filter(|owner| owner.parity == parity);
        those.map(|owner| owner.block).collect()
    };
    let (blocks, parities) = (numbers(0), numbers(1));
    known(&blocks[..1], &parities[..])?;
    let row = u64::from(array.row);
    known(true, blocks.is_sorted_by(|one, next| *next == one + row))
}

/// From a stripe to the next: within a row every member goes on with the next block, or the next parity; at its end the parity moves on by one member.
fn next_stripe(array: &Array, stripe: u64, lines: [&[library::Owner]; 2]) -> Outcome<()> {
    let [line, next] = lines;
    if stripe % u64::from(array.row) != 0 {
        let gone_on = line.iter().map(|owner| library::Owner {
            block: owner.block + 1,
            ..*owner
        });
        return known(&gone_on.collect::<Vec<_>>()[..], next);
    }
    let [from, to] = lines.map(|line| line.iter().position(|owner| owner.parity == 1));
    known(from.map(|member| (member + 1) % array.members), to)
}

/// Every place of an array holds one block or the parity of its stripe, no block is missing, and as many lie in a row as are due.
fn filled(array: &Array) -> Outcome<u64> {
    let mut seen = vec![false; array.blocks() as usize];
    let mut before: Option<Vec<library::Owner>> = None;
    for stripe in 0..array.stripes {
        let line = line(array, stripe)?;
        one_stripe(array, &line)
            .and_then(|()| match &before {
                Some(before) => next_stripe(array, stripe, [before, &line]),
                None => known(1, line[0].parity),
            })
            .map_err(|difference| format!("{array:?}, stripe {stripe}: {difference}"))?;
        for owner in line.iter().filter(|owner| owner.parity == 0) {
            match seen.get_mut(owner.block as usize) {
                Some(seen) if !*seen => *seen = true,
                _ => {
                    return Err(format!(
                        "{array:?} has block {} twice or past its end",
                        owner.block
                    ));
                }
            }
        }
        before = Some(line);
    }
    if seen.contains(&false) {
        return Err(format!("{array:?} lacks a block"));
    }
    Ok(array.stripes * array.members as u64)
}

/// Small arrays of every row length, up to those where the parity has been on every member and begins anew; how many places they have.
fn small_arrays() -> Outcome<u64> {
    let mut places = 0;
    for members in 3..=16 {
        let turn = members as u64;
        for row in cases::ROWS {
            let rows: Vec<u64> = match row {
                1 => (1..=2 * turn + 1).collect(),
                _ => vec![1, 2, turn + 1],
            };
            for stripes in rows.into_iter().map(|rows| rows * u64::from(row)) {
                for method in cases::METHODS {
                    places += filled(&Array {
                        members,
                        stripes,
                        volume: 0,
                        method,
                        row,
                    })?;
                }
            }
        }
    }
    Ok(places)
}

/// Where several numbers are wrong: members, stripes, method, row length, and only then the block or the stripe.
fn order() -> Outcome<()> {
    let fits = Array {
        members: 3,
        stripes: 6,
        volume: 7,
        method: 1,
        row: 2,
    };
    let far = Array {
        members: 2,
        stripes: 0,
        volume: 7,
        method: 4,
        row: 3,
    };
    let Array {
        members,
        stripes,
        method,
        ..
    } = fits;
    for (due, array) in [
        (1, far),
        (2, Array { members, ..far }),
        (
            12,
            Array {
                members,
                stripes,
                ..far
            },
        ),
        (
            13,
            Array {
                members,
                stripes,
                method,
                ..far
            },
        ),
        (13, Array { row: 4, ..fits }),
        (13, Array { row: 0, ..fits }),
        (3, fits),
    ] {
        known(due, library::place(&array, 12).refusal)
            .and_then(|()| known(due, library::owner(&array, 6, 3).refusal))
            .map_err(|difference| format!("refusals of {array:?}: {difference}"))?;
    }
    Ok(())
}

pub fn compare(random: &mut Random) -> Outcome<String> {
    let mut tally = Tally::default();
    order()?;
    for members in (3..=20).chain(cases::FAR_MEMBERS) {
        for stripes in cases::STRIPES.into_iter().chain(cases::FAR_STRIPES) {
            let far = random.pick(&cases::FAR_METHODS);
            for method in cases::METHODS.into_iter().chain([far]) {
                let (any, far) = (random.pick(&cases::ROWS), random.pick(&cases::FAR_ROWS));
                for row in [cases::row_of(stripes, random), any, far] {
                    let array = Array {
                        members,
                        stripes,
                        volume: random.next() as u8,
                        method,
                        row,
                    };
                    edges(&array, &mut tally)?;
                }
            }
        }
    }
    for _ in 0..RANDOM {
        let array = cases::array(random);
        place(&array, random.between(0, array.blocks() - 1), &mut tally)?;
        let stripe = random.between(0, array.stripes - 1);
        owner(&array, stripe, random.below(array.members), &mut tally)?;
    }
    let places = small_arrays()?;
    for call in ["place", "owner"] {
        tally.of(call, "12")?;
    }
    tally.of("place by row length", "1 2 4 8 16 32 64 128")?;
    Ok(format!(
        "calls alike, both ways: {}, {}; {places} places of small arrays filled once each, in rows of every length",
        tally.of_each("place", "done 1 2 3 13")?,
        tally.of_each("owner", "data parity 1 2 3 5 13")?
    ))
}
