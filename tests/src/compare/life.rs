//! Whole lives of stripes: updates, reads, rebuilds and losses in any order, through the library. Beside each runs a ledger that is told the events and
//! which updates were accepted, and sees no byte of the stripe. While no second member is lost before the first is rebuilt, every read gives what the
//! ledger keeps. Lives that break this come to refusals and to wrong data, so that the comparison can fail.

use super::cases::{self, Case, METHODS};
use super::{Outcome, Tally, known, tally};
use crate::lent::Lent;
use crate::library;
use crate::random::Random;
use model::layout::{Array, Owner};
use model::stripe::{self, Checked};
use std::collections::BTreeMap;

/// How many lives there are for each method and number of members: a stripe of method 3 takes eight times as long.
const LIVES: [usize; 3] = [100, 100, 25];
/// How many break the condition in each way.
const BROKEN: usize = 5;
/// How many events a life has.
const EVENTS: usize = 60;

/// How a life may break the condition, or that it does not.
#[derive(Clone, Copy, PartialEq)]
enum Condition {
    Kept,
    /// A second member is lost before the first is rebuilt.
    SecondLost,
    /// A block is replaced by one that it was before, which checks good.
    Stale,
}

/// What is known without the stripe: what was accepted last for each block, and the lost member.
struct Ledger {
    contents: BTreeMap<u64, Vec<u8>>,
    lost: Option<usize>,
}

struct Life {
    array: Array,
    stripe: u64,
    blocks: Vec<u64>,
    bytes: Vec<u8>,
    /// What the stripe was when it was sealed.
    sealed: Vec<u8>,
    ledger: Ledger,
    condition: Condition,
}

impl Life {
    fn begun(array: Array, condition: Condition, random: &mut Random) -> Outcome<Self> {
        let stripe = cases::stripe_of(&array, random);
        let data = random.bytes(array.data_members() * array.format().data);
        let mut bytes = Lent::new(&random.bytes(array.stripe_length()));
        let number = library::seal(&array, stripe, &Lent::new(&data), &mut bytes);
        known(0, number)?;
        let blocks = array.blocks_of(stripe);
        let contents = data.chunks(array.format().data).map(<[u8]>::to_vec);
        Ok(Life {
            ledger: Ledger {
                contents: blocks.iter().copied().zip(contents).collect(),
                lost: None,
            },
            array,
            stripe,
            blocks,
            sealed: bytes.contents().to_vec(),
            bytes: bytes.contents().to_vec(),
            condition,
        })
    }

    /// The member on which a block of this stripe lies.
    fn member_of(&self, block: u64) -> usize {
        let owners = self.array.owners(self.stripe);
        let member = owners
            .iter()
            .position(|owner| *owner == Owner::Data { block });
        member.expect("a block of this stripe")
    }

    /// As many bytes as a block's data have, now and then some less or more.
    fn any_data(&self, random: &mut Random) -> Vec<u8> {
        let length = self.array.format().data;
        let length = match random.below(12) {
            0 => random.pick(&[0, length - 1, length + 1, 2 * length]),
            _ => length,
        };
        random.bytes(length)
    }

    fn fits(&self, data: &[u8]) -> bool {
        data.len() == self.array.format().data
    }

    /// Whether the ledger can tell that an update is refused, or done: not where another block with data is lost, since then it may be either.
    fn update_number(&self, block: u64, data: &[u8]) -> Option<u32> {
        if !self.fits(data) {
            return Some(6);
        }
        let member = self.ledger.lost?;
        let needed = [self.member_of(block), self.array.parity_member(self.stripe)];
        needed.contains(&member).then_some(9)
    }

    fn update(&mut self, random: &mut Random, tally: &mut Tally) -> Outcome<()> {
        let block = random.pick(&self.blocks);
        let data = self.any_data(random);
        let (lent, mut bytes) = (Lent::new(&data), Lent::new(&self.bytes));
        let number = library::update(&self.array, block, &lent, &mut bytes);
        lent.kept("data")?;
        if self.condition == Condition::Kept {
            match (self.update_number(block, &data), self.ledger.lost) {
                (Some(due), _) => known(due, number)?,
                (None, None) => known(0, number)?,
                (None, Some(_)) => {
                    known(true, [0, 9].contains(&number))?;
                    tally.add_by(self.array.method, "update beside a loss", done(number));
                }
            }
        }
        tally.add_by(self.array.method, "update", done(number));
        if number == 0 {
            self.bytes = bytes.contents().to_vec();
            self.ledger.contents.insert(block, data);
            return Ok(());
        }
        bytes.kept("stripe")
    }

    /// A read is compared whole: its answer and its buffer.
    fn read(&mut self, random: &mut Random, tally: &mut Tally) -> Outcome<()> {
        let block = random.pick(&self.blocks);
        let before = self.any_data(random);
        let (bytes, mut out) = (Lent::new(&self.bytes), Lent::new(&before));
        let read = library::read(&self.array, block, &bytes, &mut out);
        bytes.kept("stripe")?;
        let (refusal, due) = match self.fits(&before) {
            true => (0, &self.ledger.contents[&block]),
            false => (6, &before),
        };
        let rebuilt = refusal == 0 && self.ledger.lost == Some(self.member_of(block));
        if self.condition != Condition::Kept {
            let name = match (read.refusal, out.contents() == &due[..]) {
                (9, _) => "refused",
                (_, false) => "wrong",
                (_, true) => "as kept",
            };
            tally.add_by(self.array.method, "broken read", name);
            return Ok(());
        }
        let kind = u32::from(rebuilt);
        known(library::Read { refusal, kind }, read)?;
        out.holds("out", due)?;
        let name = match (refusal, rebuilt) {
            (0, true) => "rebuilt",
            (0, false) => "stored",
            _ => tally::refused(refusal),
        };
        tally.add_by(self.array.method, "read", name);
        Ok(())
    }

    /// A rebuild of any member, often of the lost one.
    fn rebuild(&mut self, random: &mut Random, tally: &mut Tally) -> Outcome<()> {
        let any = cases::any_member(&self.array, random);
        let member = random.pick(&[any, self.ledger.lost.unwrap_or(any)]);
        let mut bytes = Lent::new(&self.bytes);
        let number = library::rebuild(&self.array, self.stripe, member, &mut bytes);
        let alone = self.ledger.lost.is_none_or(|lost| lost == member);
        if self.condition == Condition::Kept {
            let due = match (member < self.array.members, alone) {
                (false, _) => 5,
                (true, false) => 9,
                (true, true) => 0,
            };
            known(due, number)?;
        }
        tally.add_by(self.array.method, "rebuild", done(number));
        if number == 0 {
            self.bytes = bytes.contents().to_vec();
            self.ledger.lost = self.ledger.lost.filter(|lost| *lost != member);
            return Ok(());
        }
        bytes.kept("stripe")
    }

    /// A member's block replaced: any, or the lost one again.
    fn lose(&mut self, random: &mut Random, tally: &mut Tally) {
        let any = random.below(self.array.members);
        let member = match self.condition {
            Condition::SecondLost => any,
            _ => self.ledger.lost.unwrap_or(any),
        };
        let block = match self.condition {
            Condition::Stale => self.sealed[self.array.format().span(member)].to_vec(),
            _ => self.damaged(member, random),
        };
        let span = self.array.format().span(member);
        self.bytes[span].copy_from_slice(&block);
        let name = match self.ledger.lost {
            Some(_) => "again",
            None => "first",
        };
        tally.add_by(self.array.method, "loss", name);
        if self.condition != Condition::Stale {
            self.ledger.lost = Some(member);
        }
    }

    /// A block that checks bad at a member's place: noise, another member's, or this one with some fields that do not fit, its guard often as it was.
    fn damaged(&self, member: usize, random: &mut Random) -> Vec<u8> {
        loop {
            let mut case = Case {
                array: self.array,
                stripe: self.stripe,
                data: Vec::new(),
                bytes: self.bytes.clone(),
            };
            match random.below(6) {
                0 => random.fill(case.block(member)),
                1 => {
                    let other = case.block(random.below(self.array.members)).to_vec();
                    case.block(member).copy_from_slice(&other);
                }
                _ => {
                    let wrong = case.any_wrong(member, random);
                    case.spoil_fields(member, wrong, random);
                }
            }
            let block = case.block(member).to_vec();
            let said = stripe::check(&self.array, self.stripe, member, &block);
            if matches!(said, Ok(Checked::Bad(_))) {
                return block;
            }
        }
    }

    fn event(&mut self, random: &mut Random, tally: &mut Tally) -> Outcome<()> {
        match random.below(10) {
            0..3 => self.update(random, tally),
            3..7 => self.read(random, tally),
            7..9 => self.rebuild(random, tally),
            _ => {
                self.lose(random, tally);
                Ok(())
            }
        }
    }

    /// With the lost member rebuilt, the stripe is the one that sealing what is kept would give, and it scrubs clean.
    fn end(&mut self) -> Outcome<()> {
        if let Some(lost) = self.ledger.lost {
            let mut bytes = Lent::new(&self.bytes);
            known(
                0,
                library::rebuild(&self.array, self.stripe, lost, &mut bytes),
            )?;
            self.bytes = bytes.contents().to_vec();
        }
        let kept: Vec<u8> = self.ledger.contents.values().flatten().copied().collect();
        let due = stripe::seal(&self.array, self.stripe, &kept, &self.bytes);
        known(due.as_ref(), Ok(&self.bytes))?;
        let verdict = library::scrub(&self.array, self.stripe, &Lent::new(&self.bytes));
        known((0, 0), (verdict.refusal, verdict.kind))
    }
}

fn done(number: u32) -> &'static str {
    match number {
        0 => "done",
        _ => tally::refused(number),
    }
}

/// One life from its seal to its end, by all that may happen.
fn live(array: Array, condition: Condition, random: &mut Random, tally: &mut Tally) -> Outcome<()> {
    let mut life = Life::begun(array, condition, random)?;
    for event in 0..EVENTS {
        life.event(random, tally)
            .map_err(|difference| format!("event {event} of {array:?}: {difference}"))?;
    }
    if condition == Condition::Kept {
        life.end()
            .map_err(|difference| format!("the end of {array:?}: {difference}"))?;
    }
    Ok(())
}

pub fn compare(random: &mut Random) -> Outcome<String> {
    let mut tally = Tally::default();
    let mut lives = 0;
    for (method, times) in METHODS.into_iter().zip(LIVES) {
        for members in 3..=16 {
            let mut any = |condition| {
                let any = cases::array(random);
                let array = Array {
                    members,
                    method,
                    ..any
                };
                live(array, condition, random, &mut tally)
            };
            for _ in 0..times {
                any(Condition::Kept)?;
                lives += 1;
            }
            for _ in 0..BROKEN {
                any(Condition::SecondLost)?;
                any(Condition::Stale)?;
            }
        }
    }
    let calls = [
        tally.of_each("update", "done 6 9")?,
        tally.of_each("read", "stored rebuilt 6")?,
        tally.of_each("rebuild", "done 5 9")?,
        tally.of_each("loss", "first again")?,
    ];
    tally.of_each("update beside a loss", "done")?;
    let broken = tally.of_each("broken read", "refused wrong")?;
    Ok(format!(
        "{lives} lives by all methods, every read as the ledger has it: {}; and lives that break the condition come to refusals and wrong data: {broken}",
        calls.join(", ")
    ))
}
