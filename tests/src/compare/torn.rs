//! No update builds on a torn stripe whose guards tell of it; one whose guards combine all the same is still updated, as before.

use super::cases::{self, Case};
use super::standing::{self, guards_agree, sealed};
use super::{Outcome, Tally, all_named, known};
use crate::random::Random;
use model::layout::Array;
use model::stripe::{UNCHECKED, Verdict, combine_guards};

/// How often the cases are tried for each method and number of members.
const OFTEN: usize = 5;

/// A sealed stripe, a block of it, the member with its parity, and a data member beside the two.
struct Stripe {
    sealed: Case,
    block: u64,
    parity: usize,
    third: usize,
}

impl Stripe {
    fn on(sealed: Case, random: &mut Random) -> Self {
        let Case { array, stripe, .. } = sealed;
        let parity = array.parity_member(stripe);
        let data: Vec<usize> = (0..array.members).filter(|one| *one != parity).collect();
        let own = random.below(data.len());
        let third = data[(own + 1 + random.below(data.len() - 1)) % data.len()];
        Stripe {
            block: array.blocks_of(stripe)[own],
            sealed,
            parity,
            third,
        }
    }

    fn refused(&self, case: &Case, random: &mut Random, tally: &mut Tally) -> Outcome<()> {
        known(Err(9), standing::update(case, self.block, random, tally)?)
    }

    /// It is updated, and this is the verdict afterwards.
    fn taken(
        &self,
        case: &Case,
        after: Verdict,
        random: &mut Random,
        tally: &mut Tally,
    ) -> Outcome<()> {
        let updated = standing::update(case, self.block, random, tally)?;
        let bytes = updated.map_err(|number| format!("an update is refused by {number}"))?;
        let case = Case {
            bytes,
            ..case.clone()
        };
        standing::verdict(&case, after, random, tally)
    }

    fn clean(&self, random: &mut Random, tally: &mut Tally) -> Outcome<()> {
        self.taken(&self.sealed, Verdict::Clean, random, tally)
    }

    /// A member written anew, another than before within as many successive bits as a guard reaches over: the third, or the parity.
    fn within_reach(&self, random: &mut Random, tally: &mut Tally) -> Outcome<()> {
        let mut case = self.sealed.clone();
        let member = random.pick(&[self.third, self.parity]);
        let end = 8 * case.format().data;
        let reach = if case.array.method == 3 { 32 } else { 16 };
        let from = random.below(end - reach + 1);
        let lowest_first = case.array.method == 3;
        for bit in (from..from + reach).filter(|bit| *bit == from || random.one_in(2)) {
            let within = if lowest_first { bit % 8 } else { 7 - bit % 8 };
            case.block(member)[bit / 8] ^= 1 << within;
        }
        case.tag_again(member);
        let torn = Verdict::Torn { place: from / 8 };
        standing::verdict(&case, torn, random, tally)?;
        self.refused(&case, random, tally)
    }

    /// A member written anew whose guard is the old one: the stripe stays as torn as it was.
    fn combining(&self, random: &mut Random, tally: &mut Tally) -> Outcome<()> {
        let mut case = self.sealed.clone();
        cases::torn_unnoticed(&mut case, self.third, random);
        let format = case.format();
        let [now, before] = [&case, &self.sealed].map(|case| case.data_of(self.third));
        let place = (0..format.data).find(|at| now[*at] != before[*at]);
        let place = place.expect("data that differ");
        self.taken(&case, Verdict::Torn { place }, random, tally)
    }

    /// The guard of a third member counts as it stands, though nobody checks the block; its data do not.
    fn unchecked_third(&self, random: &mut Random, tally: &mut Tally) -> Outcome<()> {
        let mut case = self.sealed.clone();
        let format = case.format();
        random.fill(&mut case.block(self.third)[..format.data]);
        case.block(self.third)[format.mark()].copy_from_slice(&UNCHECKED);
        let after = Verdict::Unchecked {
            member: self.third,
            count: 1,
        };
        self.taken(&case, after, random, tally)?;
        let guard = case.stored_guard(self.third) ^ 1 << random.below(16);
        case.put_guard(self.third, guard);
        self.refused(&case, random, tally)
    }

    /// Guards that combine to zero where those of a clean stripe do not, and the other way round.
    fn other_rule(&self, random: &mut Random, tally: &mut Tally) -> Outcome<()> {
        let mut case = self.sealed.clone();
        let guard = case.stored_guard(self.third) ^ 0x98F9_4189;
        case.put_guard(self.third, guard);
        known(false, guards_agree(&case))?;
        let Array {
            method, members, ..
        } = case.array;
        let zero = combine_guards(case.stored_guards()) == 0;
        known(method == 3 && members % 2 == 1, zero)?;
        self.refused(&case, random, tally)
    }

    /// By method 2 the parity's guard alone may tell.
    fn guards_alone(&self, random: &mut Random, tally: &mut Tally) -> Outcome<()> {
        let mut case = self.sealed.clone();
        let torn = case.tear_guards(random);
        standing::verdict(&case, torn, random, tally)?;
        self.refused(&case, random, tally)
    }
}

/// The cases, each by its name; and how many they are.
#[rustfmt::skip]
fn named(method: u8, members: usize, random: &mut Random, tally: &mut Tally) -> Outcome<usize> {
    let on = Stripe::on(sealed(method, members, random), random);
    let mut tried = vec![
        ("a clean stripe", on.clean(random, tally)),
        ("an unchecked third member", on.unchecked_third(random, tally)),
        ("the rule for another number of members", on.other_rule(random, tally)),
    ];
    match method {
        2 => tried.push(("guards alone", on.guards_alone(random, tally))),
        _ => tried.extend([
            ("torn within reach", on.within_reach(random, tally)),
            ("torn, the guards combining", on.combining(random, tally)),
        ]),
    }
    all_named(members, &tried)
}

pub fn compare(random: &mut Random) -> Outcome<String> {
    let mut tally = Tally::default();
    for method in cases::METHODS {
        for members in (3..=16).flat_map(|members| [members; OFTEN]) {
            named(method, members, random, &mut tally)
                .map_err(|difference| format!("method {method}: {difference}"))?;
        }
    }
    Ok(format!(
        "updates of torn and of clean stripes by all methods: {}",
        tally.of_each("update", "done 9")?
    ))
}
