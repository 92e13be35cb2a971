//! The record of stripes with an update open, updates in four stores, and the recovery of a stripe.

use super::Answer;
use super::layout::{Array, Owner};
use super::stripe::{self, sized};
use std::collections::BTreeSet;

pub const ENTRIES: usize = 64;
pub const ENTRY: usize = 8;
pub const RECORD: usize = ENTRIES * ENTRY;

/// What a call leaves in the two lent buffers.
#[derive(Clone, Debug, PartialEq)]
pub struct Left {
    pub bytes: Vec<u8>,
    pub record: Vec<u8>,
}

#[derive(Clone, Copy, Debug, PartialEq)]
pub enum Recovery {
    NotEntered,
    Recovered,
    /// The lowest data member that is bad or unchecked.
    Left {
        member: usize,
    },
}

/// The entries, big-endian: free ones are zero, the others a stripe plus one.
pub fn entries(record: &[u8]) -> Vec<u64> {
    let bytes = record.as_chunks::<ENTRY>().0.iter();
    bytes.map(|entry| u64::from_be_bytes(*entry)).collect()
}

/// The entry that a stripe has.
pub fn entry_of(stripe: u64) -> u64 {
    stripe + 1
}

pub fn put(record: &mut [u8], at: usize, entry: u64) {
    record[at * ENTRY..][..ENTRY].copy_from_slice(&entry.to_be_bytes());
}

/// Every stripe that is named is one of the array, and is named once.
fn fits(array: &Array, record: &[u8]) -> Answer<()> {
    let mut seen = BTreeSet::new();
    let mut named = entries(record).into_iter().filter(|entry| *entry != 0);
    match named.all(|entry| entry - 1 < array.stripes && seen.insert(entry)) {
        true => Ok(()),
        false => Err(16),
    }
}

/// The first so many of these stores: the stripe entered in the lowest free entry, the block, the parity, the entry struck out.
pub fn update(
    array: &Array,
    block: u64,
    data: &[u8],
    bytes: &[u8],
    record: &[u8],
    stores: usize,
) -> Answer<Left> {
    let place = array.place(block)?;
    let format = array.format();
    sized(data, format.data)?;
    sized(bytes, array.stripe_length())?;
    sized(record, RECORD)?;
    fits(array, record)?;
    let entries = entries(record);
    let free = entries.iter().position(|entry| *entry == 0).ok_or(14u32)?;
    if entries.contains(&entry_of(place.stripe)) {
        return Err(15);
    }
    let whole = stripe::update(array, block, data, bytes)?;
    let mut left = Left {
        bytes: bytes.to_vec(),
        record: record.to_vec(),
    };
    let parity = array.parity_member(place.stripe);
    for store in 0..stores.min(4) {
        match store {
            0 => put(&mut left.record, free, entry_of(place.stripe)),
            3 => put(&mut left.record, free, 0),
            _ => {
                let span = format.span([place.member, parity][store - 1]);
                left.bytes[span.clone()].copy_from_slice(&whole[span]);
            }
        }
    }
    Ok(left)
}

/// The parity as sealing makes it over the data members, if each of these is good; the parity itself is not looked at.
pub fn recover(
    array: &Array,
    stripe: u64,
    bytes: &[u8],
    record: &[u8],
) -> Answer<(Recovery, Left)> {
    array.stripe_fits(stripe)?;
    sized(bytes, array.stripe_length())?;
    sized(record, RECORD)?;
    fits(array, record)?;
    let mut left = Left {
        bytes: bytes.to_vec(),
        record: record.to_vec(),
    };
    let entry = entry_of(stripe);
    let Some(at) = entries(record).iter().position(|found| *found == entry) else {
        return Ok((Recovery::NotEntered, left));
    };
    let format = array.format();
    let mut data = Vec::new();
    for (member, owner) in array.owners(stripe).iter().enumerate() {
        if let Owner::Data { .. } = owner {
            if !stripe::is_good(array, stripe, bytes, member) {
                return Ok((Recovery::Left { member }, left));
            }
            data.extend(&bytes[format.span(member)][..format.data]);
        }
    }
    let sealed = stripe::seal(array, stripe, &data, bytes)?;
    let parity = format.span(array.parity_member(stripe));
    left.bytes[parity.clone()].copy_from_slice(&sealed[parity]);
    put(&mut left.record, at, 0);
    Ok((Recovery::Recovered, left))
}
