//! Blocks and tags that a Linux kernel wrote: good where they belong, bad with any bit changed or anywhere else, and unchecked once they are marked.

use super::cases::ROWS;
use super::{Outcome, bytes_of, known, same, tag};
use crate::lent::Lent;
use crate::library;
use crate::random::Random;
use model::guard::guard;
use model::layout::{Array, MOST_STRIPES, Owner, Place};
use model::stripe::{Checked, Fits, UNCHECKED};
use std::collections::BTreeSet;
use std::ops::Range;

/// One block a line: its number, its data and its tag. The README beside the file tells where they come from.
const BLOCKS: &str = include_str!("../../vectors/t10-pi.txt");

/// The kernel leaves the application tag at zero, as data of volume 0 have it.
const VOLUME: u8 = 0;
/// Blocks whose numbers differ by this have the same reference tag.
const REFERENCES: u64 = 1 << 32;

/// The lengths of a sector and of a block, which is the sector and its tag, and where the application tag stands.
const DATA: usize = 512;
const BLOCK: usize = 520;
const APPLICATION: Range<usize> = 514..516;

/// What was seen.
#[derive(Default)]
struct Seen {
    blocks: usize,
    good: usize,
    alike: usize,
    elsewhere: usize,
    bits: usize,
    past: usize,
}

/// The number and the bytes of a block in a line.
fn read(line: &str) -> Outcome<(u64, Vec<u8>)> {
    let words: Vec<&str> = line.split(' ').collect();
    let [number, data, tag] = words[..] else {
        return Err(format!("{} words", words.len()));
    };
    let number = number.parse().map_err(|error| format!("{error}"))?;
    let bytes = [bytes_of(data)?, bytes_of(tag)?];
    same((DATA, BLOCK - DATA), (bytes[0].len(), bytes[1].len()))?;
    Ok((number, bytes.concat()))
}

/// The guard that the kernel wrote is the model's and the library's.
fn guards(bytes: &[u8]) -> Outcome<()> {
    let (data, tag) = bytes.split_at(DATA);
    let written = u16::from_be_bytes([tag[0], tag[1]]);
    same(guard(data), library::guard(&Lent::new(data)))?;
    if guard(data) == written {
        return Ok(());
    }
    Err(format!(
        "the model has {:04X}, the kernel {written:04X}",
        guard(data)
    ))
}

/// Just these fields of a block fit at a place, to the library and to the model.
fn due(array: &Array, place: Place, bytes: &[u8], fits: Fits) -> Outcome<()> {
    let found = match tag::checked(array, place.stripe, place.member, bytes)? {
        Ok(Checked::Good(fields) | Checked::Bad(fields)) => fields.fits(),
        Ok(Checked::Unchecked) => return Err(String::from("a block with no mark is unchecked")),
        Err(number) => return Err(format!("a check is refused by {number}")),
    };
    known(fits, found).map_err(|difference| format!("{place:?} of {array:?}: {difference}"))
}

/// At every other place of the stripe, of its neighbours, of those a row away and of those a turn of the parity away, the kind or the number is wrong, or both;
/// for every other volume just that is, and by the checksum just the guard. For method 3 it is too short.
fn elsewhere(array: &Array, place: Place, bytes: &[u8], seen: &mut Seen) -> Outcome<()> {
    let row = i64::from(array.row);
    let turn = array.members as i64 * row;
    let near = BTreeSet::from([-turn, -row, -1, 0, 1, row, turn]);
    for stripe in near
        .into_iter()
        .filter_map(|far| place.stripe.checked_add_signed(far))
    {
        for member in 0..array.members {
            let other = Place { stripe, member };
            let (application, number) = match array.owner(stripe, member) {
                Ok(Owner::Parity { lowest }) => (false, lowest),
                Ok(Owner::Data { block }) if other != place => (true, block),
                _ => continue,
            };
            let fits = Fits {
                guard: true,
                application,
                reference: array.place(number) == Ok(place),
            };
            due(array, other, bytes, fits)?;
            seen.elsewhere += 1;
        }
    }
    for volume in 1..=u8::MAX {
        let other = Array { volume, ..*array };
        let fits = Fits {
            application: false,
            ..Fits::ALL
        };
        due(&other, place, bytes, fits)?;
        seen.elsewhere += 1;
    }
    let summed = Array {
        method: 2,
        ..*array
    };
    let fits = Fits {
        guard: false,
        ..Fits::ALL
    };
    due(&summed, place, bytes, fits)?;
    seen.elsewhere += 1;
    let large = Array {
        method: 3,
        ..*array
    };
    let said = tag::checked(&large, place.stripe, place.member, bytes)?;
    known(Err(6), said)
}

/// Each bit of the block changed by itself: just its field is wrong, or the guard if it is a bit of the data.
fn changed(array: &Array, place: Place, bytes: &[u8], seen: &mut Seen) -> Outcome<()> {
    let mut bytes = bytes.to_vec();
    for bit in 0..8 * BLOCK {
        let byte = bit / 8;
        let fits = Fits {
            guard: byte >= 514,
            application: !APPLICATION.contains(&byte),
            reference: byte < 516,
        };
        bytes[byte] ^= 0x80 >> (bit % 8);
        due(array, place, &bytes, fits)
            .map_err(|difference| format!("bit {bit} changed: {difference}"))?;
        bytes[byte] ^= 0x80 >> (bit % 8);
        seen.bits += 1;
    }
    Ok(())
}

/// Marked as not to be checked, the block is unchecked where it belongs and on every other member.
fn marked(array: &Array, place: Place, bytes: &[u8]) -> Outcome<()> {
    let mut bytes = bytes.to_vec();
    bytes[APPLICATION].copy_from_slice(&UNCHECKED);
    for member in 0..array.members {
        let said = tag::checked(array, place.stripe, member, &bytes)?;
        known(Ok(Checked::Unchecked), said)
            .map_err(|difference| format!("marked, on member {member}: {difference}"))?;
    }
    Ok(())
}

/// The largest array of each number of members, every row length among them.
fn arrays() -> impl Iterator<Item = Array> {
    (3..=16).map(|members| Array {
        members,
        stripes: MOST_STRIPES,
        volume: VOLUME,
        method: 1,
        row: ROWS[members % ROWS.len()],
    })
}

/// The place of a block of the array, to the library and to the model.
fn placed(array: &Array, number: u64) -> Outcome<Place> {
    let found = library::place(array, number);
    let place = Place {
        stripe: found.stripe,
        member: found.member as usize,
    };
    same(array.place(number), Ok(place))?;
    Ok(place)
}

/// A tag holds the lower thirty-two bits of the number, so a block is good at every place of data whose number has the same ones, and at no place between.
fn alike(array: &Array, number: u64, bytes: &[u8], seen: &mut Seen) -> Outcome<()> {
    let low = number % REFERENCES;
    let last = low + (array.blocks() - 1 - low) / REFERENCES * REFERENCES;
    for other in [low, low + REFERENCES, low + 2 * REFERENCES, last] {
        due(array, placed(array, other)?, bytes, Fits::ALL)?;
        let between = placed(array, other.abs_diff(REFERENCES / 2))?;
        let fits = Fits {
            reference: false,
            ..Fits::ALL
        };
        due(array, between, bytes, fits)?;
        seen.alike += 1;
    }
    Ok(())
}

/// A block in every array; its bits are changed in one of them, for each block another.
fn block(number: u64, bytes: &[u8], seen: &mut Seen) -> Outcome<()> {
    guards(bytes)?;
    if number >= REFERENCES {
        seen.past += 1;
    }
    for (turn, array) in arrays().enumerate() {
        let array = &array;
        let place = placed(array, number)?;
        due(array, place, bytes, Fits::ALL)?;
        alike(array, number, bytes, seen)?;
        elsewhere(array, place, bytes, seen)?;
        marked(array, place, bytes)?;
        if turn == seen.blocks % arrays().count() {
            changed(array, place, bytes, seen)?;
        }
        seen.good += 1;
    }
    seen.blocks += 1;
    Ok(())
}

pub fn compare(_: &mut Random) -> Outcome<String> {
    let mut seen = Seen::default();
    for (line, at) in BLOCKS.lines().zip(1..) {
        read(line)
            .and_then(|(number, bytes)| block(number, &bytes, &mut seen))
            .map_err(|difference| format!("line {at}: {difference}"))?;
    }
    Ok(format!(
        "{} blocks that Linux wrote ({} past thirty-two bits), guards alike: good at {} places and at {} with the same reference tag, bad at {} others and with {} bits changed one by one, unchecked when marked",
        seen.blocks, seen.past, seen.good, seen.alike, seen.elsewhere, seen.bits
    ))
}
