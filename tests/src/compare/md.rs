//! Arrays that a Linux kernel's md driver wrote: every sector lies where it has put it, to the library and to the model, and so does the parity, whose
//! bytes are those that md has put there, as far as they are at hand, and else the exclusive-or of the others.

use super::{Outcome, bytes_of, known, layout};
use crate::lent::Lent;
use crate::library;
use crate::random::Random;
use model::layout::{Array, Owner, Place};
use model::stripe;
use std::collections::BTreeMap;

/// An array of md: how many members it has, how many sectors a chunk, for each stripe a line that tells what lies on its members, and for some
/// stripes a line with the number of the stripe and the bytes of its parity.
struct Written {
    members: usize,
    chunk: u8,
    stripes: &'static str,
    parities: &'static str,
}

/// The length of a sector.
const SECTOR: usize = 512;

/// The README beside the files tells where they come from.
const ARRAYS: [Written; 4] = [
    Written {
        members: 3,
        chunk: 8,
        stripes: include_str!("../../vectors/md/right-asymmetric-3-members-chunk-8.txt"),
        parities: include_str!("../../vectors/md/right-asymmetric-3-members-chunk-8-parity.txt"),
    },
    Written {
        members: 5,
        chunk: 8,
        stripes: include_str!("../../vectors/md/right-asymmetric-5-members-chunk-8.txt"),
        parities: include_str!("../../vectors/md/right-asymmetric-5-members-chunk-8-parity.txt"),
    },
    Written {
        members: 5,
        chunk: 128,
        stripes: include_str!("../../vectors/md/right-asymmetric-5-members-chunk-128.txt"),
        parities: include_str!("../../vectors/md/right-asymmetric-5-members-chunk-128-parity.txt"),
    },
    Written {
        members: 16,
        chunk: 8,
        stripes: include_str!("../../vectors/md/right-asymmetric-16-members-chunk-8.txt"),
        parities: include_str!("../../vectors/md/right-asymmetric-16-members-chunk-8-parity.txt"),
    },
];

impl Written {
    /// The array here whose places are md's: a sector is a block, a chunk is a row.
    fn array(&self, random: &mut Random) -> Array {
        Array {
            members: self.members,
            stripes: self.stripes.lines().count() as u64,
            volume: random.next() as u8,
            method: 1,
            row: self.chunk,
        }
    }

    /// The parities whose bytes are told, each by its stripe.
    fn parities(&self) -> Outcome<BTreeMap<u64, Vec<u8>>> {
        let told = |line: &str| {
            let (stripe, bytes) = line.split_once(' ').ok_or("no bytes")?;
            let stripe = stripe.parse().map_err(|error| format!("{error}"))?;
            let parity = bytes_of(bytes)?;
            known(SECTOR, parity.len())?;
            Ok((stripe, parity))
        };
        let parities: BTreeMap<_, _> = self.parities.lines().map(told).collect::<Outcome<_>>()?;
        known(self.parities.lines().count(), parities.len())?;
        Ok(parities)
    }
}

/// What lies on each member of a stripe: the number of a sector, or the parity, which here has the number of the lowest.
fn owners(line: &str) -> Outcome<Vec<Owner>> {
    let sector = |word: &str| match word {
        "P" => Ok(None),
        _ => word
            .parse()
            .map(Some)
            .map_err(|error| format!("{word:?}: {error}")),
    };
    let held: Vec<Option<u64>> = line.split(' ').map(sector).collect::<Outcome<_>>()?;
    let lowest = *held.iter().flatten().min().ok_or("no sector")?;
    let owner = |sector| match sector {
        Some(block) => Owner::Data { block },
        None => Owner::Parity { lowest },
    };
    Ok(held.into_iter().map(owner).collect())
}

/// What md has put at a place lies there, and a sector lies nowhere else.
fn lies_at(array: &Array, place: Place, owner: Owner) -> Outcome<()> {
    let Place { stripe, member } = place;
    known(Ok(owner), array.owner(stripe, member))?;
    let found = library::owner(array, stripe, member);
    known(layout::owner_numbers(&Ok(owner)), found)?;
    if let Owner::Data { block } = owner {
        known(Ok(place), array.place(block))?;
        let found = library::place(array, block);
        known(layout::place_numbers(&Ok(place)), found)?;
    }
    Ok(())
}

/// What was written to a sector: 64 numbers of SplitMix64, whose seed is the sector's number, the lowest byte of each first.
fn data_of(sector: u64) -> Vec<u8> {
    Random::new(sector).bytes(SECTOR)
}

/// The data that lie on each member of a stripe. The parity has what the sectors combine to, which are md's bytes where these are told.
fn held(array: &Array, owners: &[Owner], told: Option<&Vec<u8>>) -> Outcome<Vec<Vec<u8>>> {
    let sector = |owner: &Owner| match owner {
        Owner::Data { block } => Some(data_of(*block)),
        Owner::Parity { .. } => None,
    };
    let sectors: Vec<Option<Vec<u8>>> = owners.iter().map(sector).collect();
    let present = sectors.iter().flatten().map(|data| &data[..]);
    let combined = stripe::combine(&array.format(), present);
    if let Some(parity) = told {
        Lent::new(&combined).holds("the parity of the model", parity)?;
    }
    let parity = told.unwrap_or(&combined);
    let data = |sector: Option<Vec<u8>>| sector.unwrap_or_else(|| parity.clone());
    Ok(sectors.into_iter().map(data).collect())
}

/// A stripe has these data on its members.
fn holds(array: &Array, bytes: &Lent<u8>, held: &[Vec<u8>]) -> Outcome<()> {
    let format = array.format();
    for (member, data) in held.iter().enumerate() {
        let block = &bytes.contents()[format.span(member)];
        Lent::new(&block[..format.data]).holds(&format!("member {member}"), data)?;
    }
    Ok(())
}

/// A stripe sealed over its sectors has each of them on the member that md has it on, and on the one left the parity.
fn sealed(array: &Array, number: u64, owners: &[Owner], held: &[Vec<u8>]) -> Outcome<Lent<u8>> {
    let is_sector = |owner: &Owner| matches!(owner, Owner::Data { .. });
    let sectors = owners
        .iter()
        .zip(held)
        .filter(|(owner, _)| is_sector(owner));
    let data: Vec<u8> = sectors.flat_map(|(_, data)| data.iter().copied()).collect();
    let mut bytes = Lent::new(&vec![0xFF; array.stripe_length()]);
    known(
        0,
        library::seal(array, number, &Lent::new(&data), &mut bytes),
    )?;
    holds(array, &bytes, held)?;
    Ok(bytes)
}

/// Each member that is lost is made again from the others, the parity too.
fn rebuilt(array: &Array, number: u64, whole: &Lent<u8>, held: &[Vec<u8>]) -> Outcome<()> {
    for member in 0..array.members {
        let mut lost = whole.contents().to_vec();
        lost[array.format().span(member)].fill(0);
        let mut bytes = Lent::new(&lost);
        known(0, library::rebuild(array, number, member, &mut bytes))?;
        holds(array, &bytes, held)
            .map_err(|difference| format!("member {member} rebuilt: {difference}"))?;
    }
    Ok(())
}

/// One stripe of md, and its parity's bytes where they are told.
fn one_stripe(array: &Array, stripe: u64, line: &str, parity: Option<&Vec<u8>>) -> Outcome<()> {
    let owners = owners(line)?;
    known(array.members, owners.len())?;
    for (member, owner) in owners.iter().enumerate() {
        lies_at(array, Place { stripe, member }, *owner)?;
    }
    let held = held(array, &owners, parity)?;
    let whole = sealed(array, stripe, &owners, &held)?;
    if parity.is_some() {
        rebuilt(array, stripe, &whole, &held)?;
    }
    Ok(())
}

pub fn compare(random: &mut Random) -> Outcome<String> {
    let (mut stripes, mut sectors, mut told) = (0, 0, 0);
    for written in &ARRAYS {
        let array = written.array(random);
        let mut parities = written.parities()?;
        told += parities.len();
        for (line, stripe) in written.stripes.lines().zip(0..) {
            one_stripe(&array, stripe, line, parities.remove(&stripe).as_ref())
                .map_err(|difference| format!("{array:?}, stripe {stripe}: {difference}"))?;
            sectors += array.data_members();
            stripes += 1;
        }
        known(None, parities.keys().next())?;
    }
    Ok(format!(
        "{sectors} sectors and {stripes} parities of {} arrays that Linux md wrote, each at its place both ways, and sealed there; {told} of these parities, sealed and rebuilt, byte for byte md's",
        ARRAYS.len()
    ))
}
