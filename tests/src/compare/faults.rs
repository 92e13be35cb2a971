//! All faults of a block at once: which fields fit, and what stands in them, is known from what was done to the block.

use super::cases::{self, Case};
use super::{Outcome, Tally, all_named, known, standing, tag};
use crate::random::Random;
use model::layout::{Array, Owner};
use model::stripe::{self, Checked, Field, Fields, Fits, Verdict, guard_of, is_combined};
use std::ops::Range;

/// How often the cases are tried for each method and number of members.
const TIMES: usize = 7;

const GUARD: Fits = Fits {
    guard: false,
    ..Fits::ALL
};
const APPLICATION: Fits = Fits {
    application: false,
    ..Fits::ALL
};
const REFERENCE: Fits = Fits {
    reference: false,
    ..Fits::ALL
};

/// The block of a member: what stands in its fields, and what is due there. A guard that nobody checks is expected as found.
fn fields(case: &Case, member: usize) -> Fields {
    let block = &case.bytes[case.format().span(member)];
    let (kind, number) = match case.array.owners(case.stripe)[member] {
        Owner::Parity { lowest } => (0x8000, lowest),
        Owner::Data { block } => (0x0000, block),
    };
    let word = |at: usize| u64::from(u16::from_be_bytes([block[at], block[at + 1]]));
    let two = |at: usize| word(at) << 16 | word(at + 2);
    let application = kind + u64::from(case.array.volume);
    let found = match case.array.method {
        3 => [two(4_096), two(4_100), two(4_104) << 32 | two(4_108)],
        _ => [word(512), word(514), two(516)],
    };
    let expected = [
        match is_combined(&case.array, case.stripe, member) {
            true => found[0],
            false => u64::from(guard_of(&case.array, case.data_of(member))),
        },
        match case.array.method {
            3 => application << 16,
            _ => application,
        },
        match case.array.method {
            3 => number,
            _ => number % (1 << 32),
        },
    ];
    let field = |at: usize| Field {
        found: found[at],
        expected: expected[at],
    };
    Fields {
        guard: field(0),
        application: field(1),
        reference: field(2),
    }
}

/// The check of a member's block tells all its fields, and just these fit.
fn told(case: &Case, member: usize, fits: Fits) -> Outcome<()> {
    let fields = fields(case, member);
    known(fits, fields.fits())?;
    let due = if fits == Fits::ALL {
        Checked::Good(fields)
    } else {
        Checked::Bad(fields)
    };
    let block = &case.bytes[case.format().span(member)];
    known(
        Ok(due),
        tag::checked(&case.array, case.stripe, member, block)?,
    )
}

/// A sealed stripe, two of its members with data, and the one with the parity.
struct Faults<'a> {
    sealed: Case,
    one: usize,
    other: usize,
    parity: usize,
    tally: &'a mut Tally,
}

impl<'a> Faults<'a> {
    fn on(sealed: Case, random: &mut Random, tally: &'a mut Tally) -> Self {
        let Case { array, stripe, .. } = sealed;
        let parity = array.parity_member(stripe);
        let data: Vec<usize> = (0..array.members).filter(|one| *one != parity).collect();
        let first = random.below(data.len());
        let second = (first + 1 + random.below(data.len() - 1)) % data.len();
        Faults {
            sealed,
            one: data[first],
            other: data[second],
            parity,
            tally,
        }
    }

    /// Of these members just these fields fit, and all others are good: so the checks say, the scrub and a scan.
    fn just(&mut self, case: &Case, bad: &[(usize, Fits)], random: &mut Random) -> Outcome<()> {
        for member in 0..case.array.members {
            let of = bad.iter().find(|(bad, _)| *bad == member);
            told(case, member, of.map_or(Fits::ALL, |(_, fits)| *fits))?;
        }
        self.lowest(case, bad, random)
    }

    fn lowest(&mut self, case: &Case, bad: &[(usize, Fits)], random: &mut Random) -> Outcome<()> {
        let lowest = bad.iter().min_by_key(|(member, _)| *member);
        let (member, fits) = *lowest.expect("a member is bad");
        let due = Verdict::Bad {
            member,
            count: bad.len(),
            fits,
        };
        standing::verdict(case, due, random, self.tally)
    }

    fn all_good(&self) -> Outcome<()> {
        (0..self.sealed.array.members).try_for_each(|member| told(&self.sealed, member, Fits::ALL))
    }

    /// Data changed within as many successive bits as a CRC has, or by method 2 within an aligned word, zeros not turned into ones nor back: the guard as
    /// stored is found, that of the new data expected. Of the parity of method 2 only the whole stripe tells. By method 3 the lowest bit of a byte is its
    /// first, else the highest.
    fn changed_data(&mut self, member: usize, random: &mut Random) -> Outcome<()> {
        let mut case = self.sealed.clone();
        let end = 8 * case.format().data;
        let (from, bits) = match case.array.method {
            1 => (random.below(end - 15), random.between(1, 0xFFFF)),
            2 => (16 * random.below(end / 16), random.between(1, 0xFFFE)),
            _ => (random.below(end - 31), random.between(1, 0xFFFF_FFFF)),
        };
        for place in (0..32).filter(|place| bits >> place & 1 == 1) {
            let bit = from + place;
            case.block(member)[bit / 8] ^= match case.array.method {
                3 => 1 << (bit % 8),
                _ => 0x80 >> (bit % 8),
            };
        }
        let [before, after] = [&self.sealed, &case].map(|case| fields(case, member).guard);
        let combined = is_combined(&case.array, case.stripe, member);
        known(
            (before.found, !combined),
            (after.found, after.expected != after.found),
        )?;
        if combined {
            told(&case, member, Fits::ALL)?;
            let first = from + bits.trailing_zeros() as usize;
            let due = Verdict::Torn { place: first / 8 };
            return standing::verdict(&case, due, random, self.tally);
        }
        self.just(&case, &[(member, GUARD)], random)
    }

    /// The block of one data member laid on another, as it is.
    fn on_other_member(&mut self, random: &mut Random) -> Outcome<()> {
        let mut case = self.sealed.clone();
        let block = case.block(self.one).to_vec();
        case.block(self.other).copy_from_slice(&block);
        self.just(&case, &[(self.other, REFERENCE)], random)
    }

    /// The block that belongs on the same member some turns of the parity further on: data to data, parity to parity.
    fn of_other_stripe(&mut self, member: usize, random: &mut Random) -> Outcome<()> {
        let mut case = self.sealed.clone();
        let turn = case.array.members as u64 * u64::from(case.array.row);
        let stripe = case.stripe + turn * random.between(1, 3);
        let data = random.bytes(case.format().data);
        let guard = guard_of(&case.array, &data);
        let block = stripe::tagged(&case.array, stripe, member, &data, guard);
        case.block(member).copy_from_slice(&block);
        self.just(&case, &[(member, REFERENCE)], random)
    }

    /// The block of the same place in another volume.
    fn of_other_volume(&mut self, member: usize, random: &mut Random) -> Outcome<()> {
        let mut case = self.sealed.clone();
        let other = Array {
            volume: case.array.volume ^ random.between(1, 255) as u8,
            ..case.array
        };
        let guard = case.stored_guard(member);
        let block = stripe::tagged(&other, case.stripe, member, case.data_of(member), guard);
        case.block(member).copy_from_slice(&block);
        self.just(&case, &[(member, APPLICATION)], random)
    }

    /// Parity and data exchanged: guards fit, kinds do not, and numbers only where the block is the lowest of its stripe. By method 2 what the guards
    /// combine to is hardly the guard of the parity's data.
    fn exchanged(&mut self, member: usize, random: &mut Random) -> Outcome<()> {
        let mut case = self.sealed.clone();
        let parity = self.parity;
        let blocks = [member, parity].map(|member| case.block(member).to_vec());
        case.block(member).copy_from_slice(&blocks[1]);
        case.block(parity).copy_from_slice(&blocks[0]);
        let fits = Fits {
            reference: member == if parity == 0 { 1 } else { 0 },
            ..APPLICATION
        };
        let own = guard_of(&case.array, self.sealed.data_of(parity));
        let guard = own == self.sealed.stored_guard(parity);
        known(true, guard || case.array.method == 2)?;
        self.just(
            &case,
            &[(member, Fits { guard, ..fits }), (parity, fits)],
            random,
        )
    }

    /// Each set of faults by itself.
    fn each_set(&mut self, member: usize, random: &mut Random) -> Outcome<()> {
        for number in 1..=self.sealed.ways_wrong(member) {
            let mut case = self.sealed.clone();
            let fits = cases::some_wrong(number);
            case.spoil_fields(member, fits, random);
            self.just(&case, &[(member, fits)], random)?;
        }
        Ok(())
    }

    /// Two bad members whose faults are not the same.
    fn two_bad(&mut self, random: &mut Random) -> Outcome<()> {
        let first = random.below(7);
        let second = (first + 1 + random.below(6)) % 7;
        let bad = [(self.one, first), (self.other, second)];
        let bad = bad.map(|(member, number)| (member, cases::some_wrong(1 + number)));
        let mut case = self.sealed.clone();
        for (member, fits) in bad {
            case.spoil_fields(member, fits, random);
        }
        self.just(&case, &bad, random)
    }

    /// An unchecked member below a bad one.
    fn below_unchecked(&mut self, random: &mut Random) -> Outcome<()> {
        let [low, high] = [self.one.min(self.other), self.one.max(self.other)];
        let mut case = self.sealed.clone();
        let fits = case.any_wrong(high, random);
        case.mark(low, random);
        case.spoil_fields(high, fits, random);
        told(&case, high, fits)?;
        let block = &case.bytes[case.format().span(low)];
        let said = tag::checked(&case.array, case.stripe, low, block)?;
        known(Ok(Checked::Unchecked), said)?;
        self.lowest(&case, &[(high, fits)], random)
    }

    /// A bad member of a torn stripe, all of whose other members are good.
    fn in_torn(&mut self, random: &mut Random) -> Outcome<()> {
        let mut case = self.sealed.clone();
        let fits = case.any_wrong(self.one, random);
        let place = cases::any_place(&case.format(), random);
        case.tear(self.other, place, random);
        case.spoil_fields(self.one, fits, random);
        self.just(&case, &[(self.one, fits)], random)
    }

    /// Each byte of these places changed by itself, so that just this field is wrong; none of them makes a mark.
    fn each_byte(
        &mut self,
        member: usize,
        places: Range<usize>,
        fits: Fits,
        random: &mut Random,
    ) -> Outcome<()> {
        for place in places {
            let mut case = self.sealed.clone();
            case.spoil(member, place, random);
            self.just(&case, &[(member, fits)], random)?;
        }
        Ok(())
    }

    /// Every member wiped with zeros, whose guard is right by method 1, by method 2 nowhere but in the parity, where nobody checks it, and by method 3
    /// nowhere.
    fn wiped(&mut self, random: &mut Random) -> Outcome<()> {
        let mut case = self.sealed.clone();
        case.bytes.fill(0);
        let bad: Vec<(usize, Fits)> = (0..case.array.members)
            .map(|member| (member, fields(&case, member).fits()))
            .filter(|(_, fits)| *fits != Fits::ALL)
            .collect();
        let right = |member: usize| match case.array.method {
            1 => true,
            2 => member == self.parity,
            _ => false,
        };
        let as_due = |(member, fits): &(usize, Fits)| fits.guard == right(*member);
        known(true, bad.iter().all(as_due))?;
        self.just(&case, &bad, random)
    }
}

/// The cases, each by its name; and how many they are.
#[rustfmt::skip]
fn cases_of(method: u8, members: usize, random: &mut Random, tally: &mut Tally) -> Outcome<usize> {
    let mut on = Faults::on(standing::sealed(method, members, random), random, tally);
    let Faults { one, other, parity, .. } = on;
    let format = on.sealed.format();
    let tried = [
        ("all good", on.all_good()),
        ("data changed within a guard's bits or a word", on.changed_data(one, random)),
        ("parity changed within a guard's bits or a word", on.changed_data(parity, random)),
        ("data on another member", on.on_other_member(random)),
        ("data of another stripe", on.of_other_stripe(one, random)),
        ("parity of another stripe", on.of_other_stripe(parity, random)),
        ("data of another volume", on.of_other_volume(one, random)),
        ("parity of another volume", on.of_other_volume(parity, random)),
        ("parity and data exchanged", on.exchanged(one, random)),
        ("parity and other data exchanged", on.exchanged(other, random)),
        ("each set of faults in data", on.each_set(one, random)),
        ("each set of faults in parity", on.each_set(parity, random)),
        ("two bad with different faults", on.two_bad(random)),
        ("unchecked below bad", on.below_unchecked(random)),
        ("bad in a torn stripe", on.in_torn(random)),
        ("wiped with zeros", on.wiped(random)),
        ("each byte of the application field in data", on.each_byte(one, format.application(), APPLICATION, random)),
        ("each byte of the application field in parity", on.each_byte(parity, format.application(), APPLICATION, random)),
        ("each byte of the reference in data", on.each_byte(one, format.reference(), REFERENCE, random)),
        ("each byte of the reference in parity", on.each_byte(parity, format.reference(), REFERENCE, random)),
    ];
    all_named(members, &tried)
}

pub fn compare(random: &mut Random) -> Outcome<String> {
    let mut tally = Tally::default();
    let mut tried = 0;
    for method in cases::METHODS {
        for members in (3..=16).flat_map(|members| [members; TIMES]) {
            tried = cases_of(method, members, random, &mut tally)
                .map_err(|difference| format!("method {method}: {difference}"))?;
        }
    }
    let calls = [
        tally.of_each("scrub", "G-- -A- --R GA- G-R -AR GAR")?,
        tally.of_each("finish", "G-- -A- --R GA- G-R -AR GAR")?,
    ];
    Ok(format!(
        "known beforehand by all methods in {tried} named cases, all fields of every block: {}",
        calls.join(", ")
    ))
}
