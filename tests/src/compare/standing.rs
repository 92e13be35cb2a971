//! How the members of a stripe stand, good, bad or unchecked: what each call has to answer follows from that alone, and is known before the call.

use super::cases::{self, Case, NEAR_MARKS};
use super::{
    Outcome, Tally, VERDICTS, all_named, known, scan, scrub, stripe as jobs, tag, verdict_numbers,
};
use crate::random::Random;
use model::Answer;
use model::layout::{Array, Owner};
use model::stripe::{
    self, Checked, Fits, Read, Source, UNCHECKED, Verdict, combine_guards, guard_of, is_combined,
};

/// Up to so many members are tried in every way in which they can stand, more of them in some ways.
const EVERY: usize = 6;
const SOME: usize = 400;
/// How often the sentences of the rule are tried for each method and number of members.
const SENTENCES: usize = 7;

#[derive(Clone, Copy, Debug, PartialEq)]
pub enum Standing {
    Good,
    Bad,
    Unchecked,
}

use Standing::{Bad, Good, Unchecked};

/// In how many ways so many members can stand.
pub fn ways(members: usize) -> usize {
    3usize.pow(members as u32)
}

/// One of these ways, by its digits to the base of three.
pub fn standings(members: usize, way: usize) -> Vec<Standing> {
    (0..members)
        .map(|member| [Good, Bad, Unchecked][way / ways(member) % 3])
        .collect()
}

/// Members that are mostly good.
fn mostly_good(members: usize, random: &mut Random) -> Vec<Standing> {
    let mut standings = vec![Good; members];
    for _ in 0..random.pick(&[0, 0, 1, 1, 2, 3]) {
        standings[random.below(members)] = random.pick(&[Bad, Unchecked]);
    }
    standings
}

fn that_stand(kind: Standing, standings: &[Standing]) -> Vec<usize> {
    (0..standings.len())
        .filter(|member| standings[*member] == kind)
        .collect()
}

/// Makes the members of a sealed stripe stand so, and gives the verdict on it. To tear it, one that stays good is written anew first: this must
/// not show beside a bad or an unchecked one.
pub fn stand(case: &mut Case, standings: &[Standing], tear: bool, random: &mut Random) -> Verdict {
    let [good, bad, unchecked] = [Good, Bad, Unchecked].map(|kind| that_stand(kind, standings));
    let parity = case.array.parity_member(case.stripe);
    let mut verdict = Verdict::Clean;
    if tear && case.array.method == 2 && good.contains(&parity) && random.one_in(2) {
        verdict = case.tear_guards(random);
    } else if tear && !good.is_empty() {
        let place = cases::any_place(&case.format(), random);
        verdict = case.tear(random.pick(&good), place, random);
    }
    let wrong: Vec<Fits> = bad
        .iter()
        .map(|member| case.any_wrong(*member, random))
        .collect();
    for (member, fits) in bad.iter().zip(&wrong) {
        case.spoil_fields(*member, *fits, random);
    }
    for member in &unchecked {
        case.mark(*member, random);
    }
    match (&bad[..], &unchecked[..]) {
        ([member, ..], _) => Verdict::Bad {
            member: *member,
            count: bad.len(),
            fits: wrong[0],
        },
        ([], [member, ..]) => Verdict::Unchecked {
            member: *member,
            count: unchecked.len(),
        },
        ([], []) => verdict,
    }
}

/// What the guards of a clean stripe combine to: zero, but by method 3, where that of a block of zeros is not zero, this one if they are odd in number.
fn when_clean(array: &Array) -> u32 {
    match (array.method, array.members % 2) {
        (3, 1) => 0x98F9_4189,
        _ => 0,
    }
}

/// The guards that stand in a stripe combine as those of a clean one do, whoever is bad or unchecked.
pub fn guards_agree(case: &Case) -> bool {
    combine_guards(case.stored_guards()) == when_clean(&case.array)
}

/// A whole stripe that a job leaves.
pub type Whole = Answer<Vec<u8>>;

// What the model answers, and the library too.

pub fn read(
    case: &Case,
    block: u64,
    random: &mut Random,
    tally: &mut Tally,
) -> Outcome<Answer<Read>> {
    let out = random.bytes(case.format().data);
    jobs::read(&case.array, block, &case.bytes, &out, tally)?;
    Ok(stripe::read(&case.array, block, &case.bytes, &out))
}

pub fn rebuild(case: &Case, member: usize, tally: &mut Tally) -> Outcome<Whole> {
    let Case { array, bytes, .. } = case;
    jobs::rebuild(array, case.stripe, member, bytes, tally)?;
    Ok(stripe::rebuild(array, case.stripe, member, bytes))
}

pub fn update(case: &Case, block: u64, random: &mut Random, tally: &mut Tally) -> Outcome<Whole> {
    let data = random.bytes(case.format().data);
    jobs::update(&case.array, block, &data, &case.bytes, tally)?;
    Ok(stripe::update(&case.array, block, &data, &case.bytes))
}

/// The full scrub gives this verdict, and a scan too.
pub fn verdict(case: &Case, due: Verdict, random: &mut Random, tally: &mut Tally) -> Outcome<()> {
    let Case { array, bytes, .. } = case;
    scrub::scrub(array, case.stripe, bytes, tally)?;
    known(Ok(due), stripe::scrub(array, case.stripe, bytes))?;
    let scanned = scan::scanned(case, random, tally)?;
    known(verdict_numbers(&Ok(due)), scanned)
}

/// A member's block is good.
fn good(case: &Case, member: usize, block: &[u8]) -> Outcome<()> {
    let said = tag::checked(&case.array, case.stripe, member, block)?;
    known(true, matches!(said, Ok(Checked::Good(_))))
}

/// Done where it may be, else refused for damage.
fn done_if<T>(may: bool, answer: &Answer<T>) -> Outcome<()> {
    let due = if may { Ok(()) } else { Err(9) };
    known(due, answer.as_ref().map(|_| ()).map_err(|number| *number))
}

/// A stripe, how its members were made to stand, whether it was torn, and the verdict on it.
struct Made {
    case: Case,
    standings: Vec<Standing>,
    torn: bool,
    verdict: Verdict,
}

impl Made {
    fn new(mut case: Case, standings: Vec<Standing>, tear: bool, random: &mut Random) -> Self {
        let verdict = stand(&mut case, &standings, tear, random);
        Made {
            case,
            standings,
            torn: tear,
            verdict,
        }
    }

    fn block(&self, member: usize) -> &[u8] {
        &self.case.bytes[self.case.format().span(member)]
    }

    fn others(&self, member: usize) -> impl Iterator<Item = usize> {
        (0..self.standings.len()).filter(move |other| *other != member)
    }

    fn others_good(&self, member: usize) -> bool {
        self.others(member)
            .all(|other| self.standings[other] == Good)
    }

    fn from_others(&self, member: usize) -> Vec<u8> {
        let blocks = self.others(member).map(|other| self.block(other));
        stripe::combine(&self.case.format(), blocks)
    }

    /// What the others' guards combine to is the guard of what their data combine to. So it is in every stripe that is not torn.
    fn guards_fit(&self, member: usize) -> bool {
        let stored = self.case.stored_guards();
        let combined = combine_guards(self.others(member).map(|other| stored[other]));
        combined == guard_of(&self.case.array, &self.from_others(member))
    }

    /// A member is made if all others are good; by method 2 a data member only if their guards fit too.
    fn can_be_made(&self, member: usize) -> bool {
        let Case { array, stripe, .. } = self.case;
        let by_guards = array.method == 2 && !is_combined(&array, stripe, member) && self.torn;
        self.others_good(member) && (!by_guards || self.guards_fit(member))
    }

    fn check(&self, member: usize) -> Outcome<()> {
        let Case { array, stripe, .. } = self.case;
        let said = tag::checked(&array, stripe, member, self.block(member))?;
        let standing = said.map(|said| match said {
            Checked::Good(_) => Good,
            Checked::Bad(_) => Bad,
            Checked::Unchecked => Unchecked,
        });
        known(Ok(self.standings[member]), standing)
    }

    /// What a read of the block on a member has to give.
    fn due_read(&self, member: usize) -> Answer<Read> {
        let own = self.case.data_of(member).to_vec();
        let (source, data) = match self.standings[member] {
            Good => (Source::Stored, own),
            Unchecked => (Source::Unchecked, own),
            Bad if self.can_be_made(member) => (Source::Rebuilt, self.from_others(member)),
            Bad => return Err(9),
        };
        Ok(Read { source, data })
    }

    /// A rebuild is done where all others are good, and by method 2 fit, however the member itself stands. It leaves these, makes a good block of their
    /// data, and all guards combine as those of a clean stripe do.
    fn rebuild(&self, member: usize, tally: &mut Tally) -> Outcome<()> {
        let rebuilt = rebuild(&self.case, member, tally)?;
        done_if(self.can_be_made(member), &rebuilt)?;
        let Ok(whole) = rebuilt else { return Ok(()) };
        let format = self.case.format();
        let block = &whole[format.span(member)];
        known(&self.from_others(member)[..], &block[..format.data])?;
        good(&self.case, member, block)?;
        let combined = combine_guards(stripe::stored_guards(&format, &whole));
        known(when_clean(&self.case.array), combined)?;
        self.left(&whole, &[member])
    }

    /// An update is done where the block and the parity are good and all guards agree, however the others stand. It leaves these, and what all guards
    /// combine to.
    fn update(
        &self,
        member: usize,
        block: u64,
        random: &mut Random,
        tally: &mut Tally,
    ) -> Outcome<()> {
        let both = [member, self.case.array.parity_member(self.case.stripe)];
        let updated = update(&self.case, block, random, tally)?;
        let stand = both.iter().all(|member| self.standings[*member] == Good);
        done_if(stand && guards_agree(&self.case), &updated)?;
        let Ok(whole) = updated else { return Ok(()) };
        let format = self.case.format();
        for member in both {
            good(&self.case, member, &whole[format.span(member)])?;
        }
        let [before, after] =
            [&self.case.bytes, &whole].map(|bytes| stripe::stored_guards(&format, bytes));
        known(combine_guards(before), combine_guards(after))?;
        self.left(&whole, &both)
    }

    /// All members are as they were, but for these.
    fn left(&self, whole: &[u8], written: &[usize]) -> Outcome<()> {
        let mut blocks = whole.chunks(self.case.format().block()).enumerate();
        blocks.try_for_each(|(member, block)| match written.contains(&member) {
            true => Ok(()),
            false => known(self.block(member), block),
        })
    }

    /// Every call, on every member and every block.
    fn calls(&self, random: &mut Random, tally: &mut Tally) -> Outcome<()> {
        verdict(&self.case, self.verdict, random, tally)?;
        let owners = self.case.array.owners(self.case.stripe);
        for (member, owner) in owners.into_iter().enumerate() {
            self.check(member)?;
            self.rebuild(member, tally)?;
            if let Owner::Data { block } = owner {
                let read = read(&self.case, block, random, tally)?;
                known(self.due_read(member), read)?;
                self.update(member, block, random, tally)?;
            }
        }
        Ok(())
    }
}

/// A sealed stripe of a method and so many members.
pub fn sealed(method: u8, members: usize, random: &mut Random) -> Case {
    let array = Array {
        members,
        method,
        ..cases::array(random)
    };
    Case::sealed(array, cases::stripe_of(&array, random), random)
}

/// Every call on stripes whose members stand in every way, or, where they are many, in some; and how many these stripes were.
fn every_way(random: &mut Random, tally: &mut Tally) -> Outcome<usize> {
    let mut stripes = 0;
    for members in 3..=16 {
        let number = if members <= EVERY {
            ways(members)
        } else {
            SOME
        };
        for way in 0..number {
            let standings = match members {
                ..=EVERY => standings(members, way),
                _ => mostly_good(members, random),
            };
            let case = sealed(cases::any_method(random), members, random);
            let made = Made::new(case, standings, random.one_in(2), random);
            made.calls(random, tally).map_err(|difference| {
                format!("members that stand {:?}: {difference}", made.standings)
            })?;
            stripes += 1;
        }
    }
    Ok(stripes)
}

/// A sealed stripe for the sentences of the rule: two of its members with data, the block on the first, and the member with the parity.
struct Sentences {
    sealed: Case,
    one: usize,
    block: u64,
    other: usize,
    parity: usize,
}

impl Sentences {
    fn on(sealed: Case, random: &mut Random) -> Self {
        let Case { array, stripe, .. } = sealed;
        let parity = array.parity_member(stripe);
        let data: Vec<usize> = (0..array.members).filter(|one| *one != parity).collect();
        let first = random.below(data.len());
        let second = (first + 1 + random.below(data.len() - 1)) % data.len();
        Sentences {
            sealed,
            one: data[first],
            block: array.blocks_of(stripe)[first],
            other: data[second],
            parity,
        }
    }

    /// The stripe with some members that stand so, and the rest otherwise.
    fn with(&self, those: &[(usize, Standing)], rest: Standing, random: &mut Random) -> Case {
        let mut standings = vec![rest; self.sealed.array.members];
        for (member, standing) in those {
            standings[*member] = *standing;
        }
        Made::new(self.sealed.clone(), standings, false, random).case
    }

    /// The data of an unchecked block come out, whatever the others hold.
    fn read_unchecked(
        &self,
        rest: Standing,
        random: &mut Random,
        tally: &mut Tally,
    ) -> Outcome<()> {
        let case = self.with(&[(self.one, Unchecked)], rest, random);
        let due = Read {
            source: Source::Unchecked,
            data: case.data_of(self.one).to_vec(),
        };
        known(Ok(due), read(&case, self.block, random, tally)?)
    }

    /// A bad block is not made from an unchecked one.
    fn read_from(&self, marked: usize, random: &mut Random, tally: &mut Tally) -> Outcome<()> {
        let case = self.with(&[(self.one, Bad), (marked, Unchecked)], Good, random);
        known(Err(9), read(&case, self.block, random, tally)?)
    }

    /// No member is made from an unchecked one, however it stands itself.
    fn rebuild_from(
        &self,
        stands: Standing,
        random: &mut Random,
        tally: &mut Tally,
    ) -> Outcome<()> {
        let those = [(self.one, stands), (self.other, Unchecked)];
        let case = self.with(&those, Good, random);
        known(Err(9), rebuild(&case, self.one, tally)?)
    }

    /// The old bytes of the member that is rebuilt do not matter: the sealed stripe is there again, the mark is gone.
    fn rebuild_marked(&self, marked: usize, random: &mut Random, tally: &mut Tally) -> Outcome<()> {
        let case = self.with(&[(marked, Unchecked)], Good, random);
        known(
            Ok(self.sealed.bytes.clone()),
            rebuild(&case, marked, tally)?,
        )
    }

    fn update_beside(
        &self,
        marked: usize,
        done: bool,
        random: &mut Random,
        tally: &mut Tally,
    ) -> Outcome<()> {
        let case = self.with(&[(marked, Unchecked)], Good, random);
        let done = done && guards_agree(&case);
        done_if(done, &update(&case, self.block, random, tally)?)
    }

    /// Unchecked goes before torn, also where the marked block itself makes the stripe torn.
    fn torn(&self, torn: usize, random: &mut Random, tally: &mut Tally) -> Outcome<()> {
        let mut case = self.sealed.clone();
        let format = case.format();
        case.tear(torn, cases::any_place(&format, random), random);
        case.block(self.one)[format.mark()].copy_from_slice(&UNCHECKED);
        let (member, count) = (self.one, 1);
        verdict(&case, Verdict::Unchecked { member, count }, random, tally)
    }

    /// Bad goes before unchecked, and is counted alone.
    fn bad_beside(&self, random: &mut Random, tally: &mut Tally) -> Outcome<()> {
        let fits = self.sealed.any_wrong(self.one, random);
        let mut case = self.with(&[(self.one, Good)], Unchecked, random);
        case.spoil_fields(self.one, fits, random);
        let due = Verdict::Bad {
            member: self.one,
            count: 1,
            fits,
        };
        verdict(&case, due, random, tally)
    }

    fn all_unchecked(&self, random: &mut Random, tally: &mut Tally) -> Outcome<()> {
        let case = self.with(&[], Unchecked, random);
        let (member, count) = (0, self.sealed.array.members);
        verdict(&case, Verdict::Unchecked { member, count }, random, tally)
    }

    /// The two bytes of the application tag alone make a block unchecked.
    fn near_marks(&self) -> Outcome<()> {
        let mark = self.sealed.format().mark();
        for (from, value) in NEAR_MARKS {
            let mut case = self.sealed.clone();
            let block = case.block(self.one);
            let at = mark.start.strict_add_signed(from);
            block[at..at + value.len()].copy_from_slice(value);
            let marked = block[mark.start] == 0xFF && block[mark.start + 1] == 0xFF;
            let said = tag::checked(&self.sealed.array, self.sealed.stripe, self.one, block)?;
            known(marked, said == Ok(Checked::Unchecked))
                .map_err(|difference| format!("{value:02X?} at {at}: {difference}"))?;
        }
        Ok(())
    }

    /// The mark goes before everything, whatever is in the spare bytes behind it, where there are any.
    fn marked_before_spare(&self) -> Outcome<()> {
        let Case { array, stripe, .. } = self.sealed;
        let format = self.sealed.format();
        for (spare, value) in format.spare().flat_map(|at| [(at, 0x01), (at, 0xFF)]) {
            let mut case = self.sealed.clone();
            case.block(self.one)[spare] = value;
            let block = case.block(self.one).to_vec();
            let said = tag::checked(&array, stripe, self.one, &block)?;
            known(true, matches!(said, Ok(Checked::Bad(_))))?;
            case.block(self.one)[format.mark()].copy_from_slice(&UNCHECKED);
            let said = tag::checked(&array, stripe, self.one, case.block(self.one))?;
            known(Ok(Checked::Unchecked), said)?;
        }
        Ok(())
    }
}

/// The sentences of the rule, each by its name; and how many they are.
#[rustfmt::skip]
fn sentences(method: u8, members: usize, random: &mut Random, tally: &mut Tally) -> Outcome<usize> {
    let on = Sentences::on(sealed(method, members, random), random);
    let Sentences { one, other, parity, .. } = on;
    let tried = [
        ("an unchecked block is read, the others good", on.read_unchecked(Good, random, tally)),
        ("an unchecked block is read, the others bad", on.read_unchecked(Bad, random, tally)),
        ("an unchecked block is read, the others unchecked", on.read_unchecked(Unchecked, random, tally)),
        ("a bad block is not read from an unchecked one", on.read_from(other, random, tally)),
        ("a bad block is not read from an unchecked parity", on.read_from(parity, random, tally)),
        ("a bad member is not rebuilt from an unchecked one", on.rebuild_from(Bad, random, tally)),
        ("a good member is not rebuilt from an unchecked one", on.rebuild_from(Good, random, tally)),
        ("an unchecked member is not rebuilt from another one", on.rebuild_from(Unchecked, random, tally)),
        ("an unchecked block is rebuilt", on.rebuild_marked(one, random, tally)),
        ("an unchecked parity is rebuilt", on.rebuild_marked(parity, random, tally)),
        ("an unchecked block is not updated", on.update_beside(one, false, random, tally)),
        ("a block with an unchecked parity is not updated", on.update_beside(parity, false, random, tally)),
        ("a block beside an unchecked one is updated if all guards agree", on.update_beside(other, true, random, tally)),
        ("one member unchecked, another torn", on.torn(other, random, tally)),
        ("one member unchecked and torn", on.torn(one, random, tally)),
        ("one member bad, all others unchecked", on.bad_beside(random, tally)),
        ("all members unchecked", on.all_unchecked(random, tally)),
        ("nearly marked", on.near_marks()),
        ("marked, and a spare byte not zero", on.marked_before_spare()),
    ];
    all_named(members, &tried)
}

pub fn compare(random: &mut Random) -> Outcome<String> {
    let mut tally = Tally::default();
    let stripes = every_way(random, &mut tally)?;
    let mut tried = 0;
    for method in cases::METHODS {
        for members in (3..=16).flat_map(|members| [members; SENTENCES]) {
            tried = sentences(method, members, random, &mut tally)
                .map_err(|difference| format!("method {method}: {difference}"))?;
        }
    }
    let calls = [
        tally.of_each("scrub", VERDICTS)?,
        tally.of_each("finish", VERDICTS)?,
        tally.of_each("read", "stored rebuilt unchecked 9")?,
        tally.of_each("rebuild", "done 9")?,
        tally.of_each("update", "done 9")?,
    ];
    for call in ["scrub", "finish"] {
        tally.of(call, "512")?;
    }
    Ok(format!(
        "answers known beforehand by all methods on {stripes} stripes, up to {EVERY} members in every way to stand, and in {tried} named cases: {}",
        calls.join(", ")
    ))
}
