//! Updates with a record of the stripes that are open, cut after any store, and recoveries: many stripes of a shelf in any order, and what must be refused.

use super::cases::{self, Case};
use super::{Outcome, Tally, known, refusal, same, standing, tally};
use crate::lent::Lent;
use crate::library;
use crate::random::Random;
use model::Answer;
use model::intent::{self, ENTRIES, Left, RECORD, Recovery};
use model::layout::{Array, Owner};
use model::stripe::{Read, Source, UNCHECKED, Verdict};

/// How many shelves are played, how many calls go over each, and how many calls are tried for refusals.
const SHELVES: usize = 60;
const CALLS: usize = 400;
const REFUSALS: usize = 20000;

/// An update by the model, and the library too.
fn update(
    array: &Array,
    block: u64,
    data: &[u8],
    before: (&[u8], &[u8]),
    stores: usize,
    tally: &mut Tally,
) -> Outcome<Answer<Left>> {
    let answer = intent::update(array, block, data, before.0, before.1, stores);
    let (lent, mut bytes, mut record) = (Lent::new(data), Lent::new(before.0), Lent::new(before.1));
    let told = library::update_recorded(array, block, &lent, &mut bytes, &mut record, stores);
    let due = match &answer {
        Ok(left) => (&left.bytes[..], &left.record[..]),
        Err(_) => before,
    };
    same(refusal(&answer), told)
        .and_then(|()| lent.kept("data"))
        .and_then(|()| bytes.holds("stripe", due.0))
        .and_then(|()| record.holds("record", due.1))
        .map_err(|difference| {
            format!("update of block {block} in {array:?}, {stores} stores: {difference}")
        })?;
    let name = match &answer {
        Ok(_) => ["none", "entered", "data", "parity", "struck"][stores.min(4)],
        Err(number) => tally::refused(*number),
    };
    tally.add_by(array.method, "recorded update", name);
    Ok(answer)
}

/// A recovery by the model, and the library too.
fn recover(
    array: &Array,
    stripe: u64,
    before: (&[u8], &[u8]),
    tally: &mut Tally,
) -> Outcome<Answer<(Recovery, Left)>> {
    let answer = intent::recover(array, stripe, before.0, before.1);
    let (kind, member, name) = match &answer {
        Ok((Recovery::NotEntered, _)) => (0, 0, "absent"),
        Ok((Recovery::Recovered, _)) => (1, 0, "recovered"),
        Ok((Recovery::Left { member }, _)) => (2, *member as u32, "left"),
        Err(number) => (0, 0, tally::refused(*number)),
    };
    let numbers = library::Recovery {
        refusal: refusal(&answer),
        kind,
        member,
    };
    let (mut bytes, mut record) = (Lent::new(before.0), Lent::new(before.1));
    let told = library::recover(array, stripe, &mut bytes, &mut record);
    let due = match &answer {
        Ok((_, left)) => (&left.bytes[..], &left.record[..]),
        Err(_) => before,
    };
    same(numbers, told)
        .and_then(|()| bytes.holds("stripe", due.0))
        .and_then(|()| record.holds("record", due.1))
        .map_err(|difference| format!("recovery of stripe {stripe} in {array:?}: {difference}"))?;
    tally.add_by(array.method, "recovery", name);
    Ok(answer)
}

/// All stripes of an array, each with the data that it has to hold, and the record.
struct Shelf {
    array: Array,
    stripes: Vec<Case>,
    record: Vec<u8>,
}

impl Shelf {
    fn new(method: u8, random: &mut Random) -> Self {
        let row = random.pick(&[1, 1, 2, 4]);
        let array = Array {
            members: random.pick(&[3, 3, 4, 5]),
            stripes: u64::from(row) * random.between(1, 24),
            volume: cases::any_volume(random),
            method,
            row,
        };
        let stripes = (0..array.stripes).map(|stripe| Case::sealed(array, stripe, random));
        Shelf {
            array,
            stripes: stripes.collect(),
            record: vec![0; RECORD],
        }
    }

    fn entered(&self, stripe: u64) -> bool {
        intent::entries(&self.record).contains(&intent::entry_of(stripe))
    }

    /// An update of any block, cut anywhere. It is refused exactly if its stripe is entered or no entry is free.
    fn update(&mut self, random: &mut Random, tally: &mut Tally) -> Outcome<()> {
        let block = random.between(0, self.array.blocks() - 1);
        let place = self.array.place(block).expect("a block of the array");
        let stores = random.pick(&[0, 1, 1, 2, 2, 3, 3, 4, 4, 5, 1000]);
        let case = &self.stripes[place.stripe as usize];
        let new = random.bytes(case.format().data);
        let before = (&case.bytes[..], &self.record[..]);
        let answer = update(&self.array, block, &new, before, stores, tally)?;
        let full = !intent::entries(&self.record).contains(&0);
        let due = match (full, self.entered(place.stripe)) {
            (true, _) => Err(14),
            (false, true) => Err(15),
            (false, false) => Ok(()),
        };
        known(due, answer.as_ref().map(|_| ()).map_err(|number| *number))?;
        let Ok(left) = answer else { return Ok(()) };
        let case = &mut self.stripes[place.stripe as usize];
        case.bytes = left.bytes;
        self.record = left.record;
        if stores >= 2 {
            let blocks = self.array.blocks_of(place.stripe);
            let index = blocks.iter().position(|other| *other == block);
            let at = new.len() * index.expect("a block of its stripe");
            case.data[at..][..new.len()].copy_from_slice(&new);
        }
        known((1..4).contains(&stores), self.entered(place.stripe))
    }

    /// Anything happens to the parity of a stripe that is entered.
    fn parity(&mut self, stripe: u64, random: &mut Random) {
        if self.entered(stripe) {
            let parity = self.array.parity_member(stripe);
            random.fill(self.stripes[stripe as usize].block(parity));
        }
    }

    /// A recovery while a data member is damaged: nothing is changed, and the lowest such member is told.
    fn damaged(&mut self, stripe: u64, random: &mut Random, tally: &mut Tally) -> Outcome<()> {
        let owners = self.array.owners(stripe);
        let mut case = self.stripes[stripe as usize].clone();
        let mut lowest = None;
        for (member, owner) in owners.iter().enumerate() {
            if matches!(owner, Owner::Data { .. }) && random.one_in(2) {
                match random.one_in(2) {
                    true => case.spoil(member, random.below(case.format().data), random),
                    false => {
                        let mark = case.format().mark();
                        case.block(member)[mark].copy_from_slice(&UNCHECKED);
                    }
                }
                lowest = lowest.or(Some(member));
            }
        }
        let before = (&case.bytes[..], &self.record[..]);
        let answer = recover(&self.array, stripe, before, tally)?;
        if let (true, Some(member)) = (self.entered(stripe), lowest) {
            let (said, left) = answer.map_err(|number| format!("refused by {number}"))?;
            known(Recovery::Left { member }, said)?;
            known(before, (&left.bytes[..], &left.record[..]))?;
        }
        Ok(())
    }

    /// Recovered, the stripe is clean and not entered, and every block reads as it has to.
    fn recover(&mut self, stripe: u64, random: &mut Random, tally: &mut Tally) -> Outcome<()> {
        let case = &self.stripes[stripe as usize];
        let before = (&case.bytes[..], &self.record[..]);
        let answer = recover(&self.array, stripe, before, tally)?;
        let (said, left) = answer.map_err(|number| format!("refused by {number}"))?;
        let due = match self.entered(stripe) {
            true => Recovery::Recovered,
            false => Recovery::NotEntered,
        };
        known(due, said)?;
        self.stripes[stripe as usize].bytes = left.bytes;
        self.record = left.record;
        known(false, self.entered(stripe))?;
        let case = &self.stripes[stripe as usize];
        standing::verdict(case, Verdict::Clean, random, tally)?;
        let length = case.format().data;
        for (block, data) in self
            .array
            .blocks_of(stripe)
            .iter()
            .zip(case.data.chunks(length))
        {
            let due = Read {
                source: Source::Stored,
                data: data.to_vec(),
            };
            known(Ok(due), standing::read(case, *block, random, tally)?)?;
        }
        Ok(())
    }

    /// Updates, cuts, damage and recoveries of all stripes, one after the other; at the end every stripe is recovered.
    fn play(&mut self, random: &mut Random, tally: &mut Tally) -> Outcome<()> {
        for _ in 0..CALLS {
            let stripe = random.between(0, self.array.stripes - 1);
            match random.below(16) {
                0 => self.parity(stripe, random),
                1 => self.damaged(stripe, random, tally)?,
                2 => self.recover(stripe, random, tally)?,
                _ => self.update(random, tally)?,
            }
        }
        for stripe in 0..self.array.stripes {
            self.recover(stripe, random, tally)?;
        }
        known(&vec![0; RECORD], &self.record)
    }
}

/// A record with some entries that fit the array, or, now and then, any.
fn any_record(array: &Array, stripe: u64, random: &mut Random) -> Vec<u8> {
    let length = if random.one_in(12) {
        random.pick(&[0, 8, 511, 513, 520])
    } else {
        RECORD
    };
    let mut record = vec![0; length];
    let some = random
        .pick(&[0, 1, 3, ENTRIES - 1, ENTRIES])
        .min(length / intent::ENTRY);
    for at in 0..some {
        let named = if random.one_in(40) {
            random.next()
        } else {
            random.between(0, array.stripes.max(1) - 1)
        };
        intent::put(&mut record, at, named.wrapping_add(1));
    }
    if length >= RECORD {
        match random.below(8) {
            0 => intent::put(&mut record, random.below(ENTRIES), stripe.wrapping_add(1)),
            1 => intent::put(
                &mut record,
                random.below(ENTRIES),
                array.stripes.wrapping_add(1),
            ),
            2 => random.fill(&mut record),
            _ => {}
        }
    }
    record
}

/// A full record, and the same with the stripe in it or another one twice: 14 before 15, and 16 before both.
fn full_record(random: &mut Random, tally: &mut Tally) -> Outcome<()> {
    let array = Array {
        members: 3,
        stripes: 128,
        volume: 7,
        method: cases::any_method(random),
        row: 1,
    };
    let case = Case::any(array, 100, random);
    let block = array.blocks_of(100)[0];
    let data = random.bytes(case.format().data);
    let mut record = vec![0; RECORD];
    for at in 0..ENTRIES {
        intent::put(&mut record, at, at as u64 + 1);
    }
    let due = |record: &[u8], number: u32, tally: &mut Tally| {
        let answer = update(&array, block, &data, (&case.bytes, record), 4, tally)?;
        known(Err(number), answer.map(|_| ()))
    };
    due(&record, 14, tally)?;
    intent::put(&mut record, 9, intent::entry_of(100));
    due(&record, 14, tally)?;
    intent::put(&mut record, 8, 0);
    due(&record, 15, tally)?;
    intent::put(&mut record, 8, 64);
    due(&record, 16, tally)
}

/// One call of each, with numbers, lengths or a record that may be refused.
fn refusals(random: &mut Random, tally: &mut Tally) -> Outcome<()> {
    let array = cases::any_array(random);
    let block = cases::any_block(&array, random);
    let stripe = array.place(block).map_or(0, |place| place.stripe);
    let bytes = cases::any_stripe_bytes(&array, stripe, random);
    let length = cases::any_length(array.method, |format| format.data, random);
    let data = random.bytes(length);
    let record = any_record(&array, stripe, random);
    let stores = random.below(6);
    let _ = update(&array, block, &data, (&bytes, &record), stores, tally)?;
    let stripe = cases::any_stripe(&array, random);
    let bytes = cases::any_stripe_bytes(&array, stripe, random);
    let record = any_record(&array, stripe, random);
    recover(&array, stripe, (&bytes, &record), tally).map(|_| ())
}

pub fn compare(random: &mut Random) -> Outcome<String> {
    let mut tally = Tally::default();
    for shelf in 0..SHELVES {
        let method = cases::METHODS[shelf % cases::METHODS.len()];
        Shelf::new(method, random).play(random, &mut tally)?;
        full_record(random, &mut tally)?;
    }
    for _ in 0..REFUSALS {
        refusals(random, &mut tally)?;
    }
    tally.of("recorded update", "1 2 12 13 3 6 16 14 15 9")?;
    tally.of("recovery", "1 2 12 13 3 6 16")?;
    let calls = [
        tally.of_each("recorded update", "none entered data parity struck 15")?,
        tally.of_each("recovery", "absent recovered left")?,
    ];
    Ok(format!(
        "calls alike by all methods on {SHELVES} shelves, every stripe recovered after its cuts, and at refusals: {}",
        calls.join(", ")
    ))
}
