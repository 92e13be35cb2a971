//! A block is updated, and data or parity are not written; then a member is lost. By methods 1 and 3 any other block comes out wrong and looks right. By method 2
//! it is refused, unless the guards happen to fit. What each call has to answer is known from what was done to the stripe.

use super::cases::{self, Case, METHODS};
use super::{Outcome, Tally, all_named, known, standing, stripe as jobs, tag};
use crate::random::Random;
use model::format::Format;
use model::layout::{Array, MOST_STRIPES, Owner};
use model::stripe::{self, Checked, Fits, Read, Source, Verdict, combine_guards, guard_of};

/// How often the cases are tried for each method and number of members: a stripe of method 3 takes eight times as long.
const TIMES: [usize; 3] = [12, 12, 3];
/// How many updates go over a stripe.
const UPDATES: usize = 5;
/// At how many places of a block a word is turned.
const TURNED: usize = 256;

/// The data of the block that is updated, before and after, and those of another block of its stripe.
struct Blocks {
    old: Vec<u8>,
    new: Vec<u8>,
    other: Vec<u8>,
}

impl Blocks {
    fn any(length: usize, random: &mut Random) -> Self {
        let [old, new, other] = [(); 3].map(|()| random.bytes(length));
        Blocks { old, new, other }
    }

    /// One byte is updated.
    fn near(length: usize, random: &mut Random) -> Self {
        let mut blocks = Blocks::any(length, random);
        blocks.new = blocks.old.clone();
        blocks.new[random.below(length)] ^= random.between(1, 255) as u8;
        blocks
    }

    fn like_old(length: usize, random: &mut Random) -> Self {
        let mut blocks = Blocks::any(length, random);
        blocks.other = blocks.old.clone();
        blocks
    }

    fn like_new(length: usize, random: &mut Random) -> Self {
        let mut blocks = Blocks::any(length, random);
        blocks.other = blocks.new.clone();
        blocks
    }

    /// A word of zeros is made ones or back, at the place of this word of the other block.
    fn turned(length: usize, other: u16, random: &mut Random) -> Self {
        let mut blocks = Blocks::any(length, random);
        let place = 2 * random.below(length / 2);
        let [before, after] = random.pick(&[[0x00, 0xFF], [0xFF, 0x00]]);
        blocks.old[place..place + 2].fill(before);
        blocks.new = blocks.old.clone();
        blocks.new[place..place + 2].fill(after);
        blocks.other[place..place + 2].copy_from_slice(&other.to_be_bytes());
        blocks
    }

    /// The worked stripe of document 000 has words of four bits. Here each is four times over in a word of sixteen, and three zero words lie between two
    /// of them, so that the sum comes round: the sums are the document's, four times over.
    fn worked(length: usize, nibbles: &[u8; 5]) -> Vec<u8> {
        let mut data = vec![0; length];
        for (word, nibble) in data.rchunks_mut(8).zip(nibbles.iter().rev()) {
            word[6..].fill(nibble * 0x11);
        }
        data
    }
}

/// A sealed stripe, the members of the two blocks in it, and the number of the one that is updated.
struct Cut {
    sealed: Case,
    blocks: Blocks,
    one: usize,
    number: u64,
    other: usize,
    parity: usize,
}

impl Cut {
    fn of(array: Array, blocks: Blocks, random: &mut Random) -> Self {
        let stripe = cases::stripe_of(&array, random);
        let data = array.data_members();
        let first = random.below(data);
        let second = (first + 1 + random.below(data - 1)) % data;
        let length = array.format().data;
        let mut bytes = random.bytes(data * length);
        for (index, block) in [(first, &blocks.old), (second, &blocks.other)] {
            bytes[index * length..][..length].copy_from_slice(block);
        }
        Cut::on(Case::over(array, stripe, bytes), blocks, [first, second])
    }

    fn on(sealed: Case, blocks: Blocks, [first, second]: [usize; 2]) -> Self {
        let parity = sealed.array.parity_member(sealed.stripe);
        let member = |index| index + usize::from(index >= parity);
        Cut {
            one: member(first),
            number: sealed.array.blocks_of(sealed.stripe)[first],
            other: member(second),
            sealed,
            blocks,
            parity,
        }
    }

    /// What comes out for the other block where the old and the new data do not belong together.
    fn wrong(&self) -> Vec<u8> {
        let Blocks { old, new, other } = &self.blocks;
        let blocks = [old, new, other].into_iter().map(|data| &data[..]);
        stripe::combine(&self.sealed.format(), blocks)
    }

    /// By method 2 the other block is made only if the guards combine as the data do.
    fn fits(&self) -> bool {
        let guard = |data: &[u8]| guard_of(&self.sealed.array, data);
        let Blocks { old, new, other } = &self.blocks;
        let combined = combine_guards([old, new, other].map(|data| guard(data)));
        combined == guard(&self.wrong())
    }

    /// A stripe with the block updated.
    fn updated(&self, before: &Case, tally: &mut Tally) -> Outcome<Case> {
        let (array, new, bytes) = (&before.array, &self.blocks.new, &before.bytes);
        jobs::update(array, self.number, new, bytes, tally)?;
        let updated = stripe::update(array, self.number, new, bytes);
        Ok(Case {
            bytes: updated.map_err(|number| format!("an update is refused by {number}"))?,
            ..before.clone()
        })
    }

    /// The stripe after an update of which just this member was written.
    fn written(&self, member: usize, tally: &mut Tally) -> Outcome<Case> {
        let mut updated = self.updated(&self.sealed, tally)?;
        let mut case = self.sealed.clone();
        case.block(member).copy_from_slice(updated.block(member));
        Ok(case)
    }

    /// Either way to cut the update, and then another member lost: its block is made of the wrong data, or, if it is refused, not at all.
    fn other_lost(&self, refused: bool, random: &mut Random, tally: &mut Tally) -> Outcome<()> {
        known(refused, self.sealed.array.method == 2 && !self.fits())?;
        known(true, self.wrong() != self.blocks.other)?;
        for written in [self.one, self.parity] {
            let torn = self.written(written, tally)?;
            let Blocks { old, new, .. } = &self.blocks;
            let place = old.iter().zip(new).position(|(old, new)| old != new);
            let place = place.expect("the new data are others");
            standing::verdict(&torn, Verdict::Torn { place }, random, tally)?;
            let lost = lost(&torn, self.other, random);
            if refused {
                not_made(&lost, self.other, random, tally)?;
                continue;
            }
            let made = made(&lost, self.other, &self.wrong(), random, tally)?;
            standing::verdict(&made, Verdict::Clean, random, tally)?;
        }
        Ok(())
    }

    /// The document's other case: the updated block itself is lost, and comes out as the parity has it.
    fn itself_lost(&self, random: &mut Random, tally: &mut Tally) -> Outcome<()> {
        let Blocks { old, new, .. } = &self.blocks;
        for (written, due) in [(self.one, old), (self.parity, new)] {
            let lost = lost(&self.written(written, tally)?, self.one, random);
            let made = made(&lost, self.one, due, random, tally)?;
            standing::verdict(&made, Verdict::Clean, random, tally)?;
        }
        Ok(())
    }

    /// The parity is made anew from the data as they are, old or new.
    fn parity_lost(&self, random: &mut Random, tally: &mut Tally) -> Outcome<()> {
        let updated = self.updated(&self.sealed, tally)?;
        for (written, due) in [(self.one, &updated), (self.parity, &self.sealed)] {
            let lost = lost(&self.written(written, tally)?, self.parity, random);
            let data = due.data_of(self.parity);
            let made = made(&lost, self.parity, data, random, tally)?;
            known(&due.bytes, &made.bytes)?;
            standing::verdict(&made, Verdict::Clean, random, tally)?;
        }
        Ok(())
    }

    /// Updates one after the other leave a clean stripe, whose guards are those of its data.
    fn updates(&self, random: &mut Random, tally: &mut Tally) -> Outcome<()> {
        let mut case = self.sealed.clone();
        let length = case.format().data;
        for _ in 0..UPDATES {
            let index = random.below(case.array.data_members());
            let block = case.array.blocks_of(case.stripe)[index];
            let new = random.bytes(length);
            jobs::update(&case.array, block, &new, &case.bytes, tally)?;
            case.data[index * length..][..length].copy_from_slice(&new);
            let updated = stripe::update(&case.array, block, &new, &case.bytes);
            let due = Case::over(case.array, case.stripe, case.data.clone());
            known(Ok(&due.bytes), updated.as_ref())?;
            case = due;
            standing::verdict(&case, Verdict::Clean, random, tally)?;
        }
        Ok(())
    }

    /// Every member of a clean stripe, lost by itself, is made as it was.
    fn each_lost(&self, random: &mut Random, tally: &mut Tally) -> Outcome<()> {
        for member in 0..self.sealed.array.members {
            let lost = lost(&self.sealed, member, random);
            let data = self.sealed.data_of(member);
            let made = made(&lost, member, data, random, tally)?;
            known(&self.sealed.bytes, &made.bytes)?;
        }
        Ok(())
    }
}

/// What only method 2 has: a guard of the parity that nobody checks.
impl Cut {
    /// The parity is good, its guard expected as found.
    fn parity_good(&self, case: &Case) -> Outcome<()> {
        let block = &case.bytes[case.format().span(self.parity)];
        let said = tag::checked(&case.array, case.stripe, self.parity, block)?;
        let Ok(Checked::Good(fields)) = said else {
            return Err(format!("the parity is {said:?}"));
        };
        let stored = u64::from(case.stored_guard(self.parity));
        known(
            (stored, stored),
            (fields.guard.found, fields.guard.expected),
        )
    }

    /// No member with data is made while the parity has another guard; the parity is, and good blocks are read.
    fn guard_changed(&self, random: &mut Random, tally: &mut Tally) -> Outcome<()> {
        let mut case = self.sealed.clone();
        let torn = case.tear_guards(random);
        self.parity_good(&case)?;
        standing::verdict(&case, torn, random, tally)?;
        let read = standing::read(&case, self.number, random, tally)?;
        let due = Read {
            source: Source::Stored,
            data: self.blocks.old.clone(),
        };
        known(Ok(due), read)?;
        for member in [self.one, self.other] {
            not_made(&lost(&case, member, random), member, random, tally)?;
        }
        self.parity_as_sealed(&case, random, tally)
    }

    /// Nothing is built on guards that are wrong together.
    fn guard_changed_before_update(&self, random: &mut Random, tally: &mut Tally) -> Outcome<()> {
        let mut case = self.sealed.clone();
        case.tear_guards(random);
        known(Err(9), standing::update(&case, self.number, random, tally)?)
    }

    /// A byte of the parity's data changed: only the whole stripe tells, and no member with data is made.
    fn parity_changed(&self, random: &mut Random, tally: &mut Tally) -> Outcome<()> {
        let mut case = self.sealed.clone();
        let place = random.below(case.format().data);
        case.spoil(self.parity, place, random);
        self.parity_good(&case)?;
        standing::verdict(&case, Verdict::Torn { place }, random, tally)?;
        for member in [self.one, self.other] {
            not_made(&lost(&case, member, random), member, random, tally)?;
        }
        self.parity_as_sealed(&case, random, tally)
    }

    fn parity_as_sealed(&self, case: &Case, random: &mut Random, tally: &mut Tally) -> Outcome<()> {
        let lost = lost(case, self.parity, random);
        let data = self.sealed.data_of(self.parity);
        let made = made(&lost, self.parity, data, random, tally)?;
        known(&self.sealed.bytes, &made.bytes)
    }

    /// Two members written with the same change, and the parity not: the data combine to zero, and the guards do too if they are `alike`.
    fn both_written(&self, alike: bool, random: &mut Random, tally: &mut Tally) -> Outcome<()> {
        let mut case = self.written(self.one, tally)?;
        let data = self.wrong();
        let guard = guard_of(&case.array, &data);
        let block = stripe::tagged(&case.array, case.stripe, self.other, &data, guard);
        case.block(self.other).copy_from_slice(&block);
        let due = match alike {
            true => Verdict::Clean,
            false => Verdict::Torn { place: data.len() },
        };
        standing::verdict(&case, due, random, tally)
    }
}

/// The stripe with a member that is bad.
fn lost(case: &Case, member: usize, random: &mut Random) -> Case {
    let mut case = case.clone();
    let fits = case.any_wrong(member, random);
    case.spoil_fields(member, fits, random);
    case
}

/// What a read of a lost member gives, if it has data.
fn read(
    case: &Case,
    member: usize,
    random: &mut Random,
    tally: &mut Tally,
) -> Outcome<Option<model::Answer<Read>>> {
    match case.array.owners(case.stripe)[member] {
        Owner::Data { block } => standing::read(case, block, random, tally).map(Some),
        Owner::Parity { .. } => Ok(None),
    }
}

/// A lost member is made of these data, by a read and by a rebuild; the stripe that the rebuild leaves.
fn made(
    case: &Case,
    member: usize,
    data: &[u8],
    random: &mut Random,
    tally: &mut Tally,
) -> Outcome<Case> {
    if let Some(read) = read(case, member, random, tally)? {
        let due = Read {
            source: Source::Rebuilt,
            data: data.to_vec(),
        };
        known(Ok(due), read)?;
    }
    let rebuilt = standing::rebuild(case, member, tally)?;
    let whole = Case {
        bytes: rebuilt.map_err(|number| format!("a rebuild is refused by {number}"))?,
        ..case.clone()
    };
    known(data, whole.data_of(member))?;
    Ok(whole)
}

/// A lost member is not made, by a read nor by a rebuild.
fn not_made(case: &Case, member: usize, random: &mut Random, tally: &mut Tally) -> Outcome<()> {
    known(Some(Err(9)), read(case, member, random, tally)?)?;
    known(Err(9), standing::rebuild(case, member, tally)?)
}

/// The cases, each by its name; and how many they are.
#[rustfmt::skip]
fn cases_of(method: u8, members: usize, random: &mut Random, tally: &mut Tally) -> Outcome<usize> {
    let array = Array { members, method, ..cases::array(random) };
    let refused = method == 2;
    let length = array.format().data;
    let cut = |blocks: fn(usize, &mut Random) -> Blocks, random: &mut Random| {
        let blocks = blocks(length, random);
        Cut::of(array, blocks, random)
    };
    let [any, near] = [Blocks::any, Blocks::near].map(|blocks| cut(blocks, random));
    let [like_old, like_new] = [Blocks::like_old, Blocks::like_new].map(|blocks| cut(blocks, random));
    let between = random.between(1, 65_534) as u16;
    let end = random.pick(&[0x0000, 0xFFFF]);
    let [between, end] = [between, end].map(|other| Cut::of(array, Blocks::turned(length, other, random), random));
    let unseen = |cut: &Cut| !refused || cut.fits();
    let mut tried = vec![
        ("any data, another block lost", any.other_lost(!unseen(&any), random, tally)),
        ("a byte changed, another block lost", near.other_lost(!unseen(&near), random, tally)),
        ("a lost block like the old data", like_old.other_lost(false, random, tally)),
        ("a lost block like the new data", like_new.other_lost(false, random, tally)),
        ("a word turned, the lost word between", between.other_lost(refused, random, tally)),
        ("a word turned, the lost word at an end", end.other_lost(false, random, tally)),
        ("the updated block lost", any.itself_lost(random, tally)),
        ("the updated block lost, a byte changed", near.itself_lost(random, tally)),
        ("the parity lost", any.parity_lost(random, tally)),
        ("updates leave a clean stripe", any.updates(random, tally)),
        ("each member lost", any.each_lost(random, tally)),
    ];
    if method == 2 {
        tried.extend([
            ("another guard of the parity", any.guard_changed(random, tally)),
            ("another guard of the parity, then an update", any.guard_changed_before_update(random, tally)),
            ("a byte of the parity changed", any.parity_changed(random, tally)),
            ("two members changed alike, one guard stays", between.both_written(false, random, tally)),
            ("two members changed alike, both guards stay", end.both_written(true, random, tally)),
        ]);
    }
    all_named(members, &tried)
}

/// The worked stripe of document 000: blocks A to D with the parity last, block A updated and block B lost, in both of its cases.
fn worked(method: u8, random: &mut Random, tally: &mut Tally) -> Outcome<()> {
    let row = random.pick(&cases::ROWS);
    let in_row = u64::from(row);
    let array = Array {
        members: 5,
        stripes: in_row * random.between(5, MOST_STRIPES / in_row),
        volume: cases::any_volume(random),
        method,
        row,
    };
    let columns = [
        [0x9, 0x0, 0x8, 0x6, 0x1],
        [0x4, 0xF, 0xF, 0x1, 0x5],
        [0x8, 0xA, 0xB, 0x0, 0xD],
        [0xC, 0x3, 0x2, 0x7, 0x4],
    ];
    let worked = |column: &[u8; 5]| Blocks::worked(array.format().data, column);
    let [a, b, c, d] = columns.map(|column| worked(&column));
    let blocks = Blocks {
        old: a.clone(),
        new: worked(&[0x4, 0xA, 0x8, 0x7, 0x3]),
        other: b.clone(),
    };
    let stripe = random.between(4 * in_row, 5 * in_row - 1);
    let sealed = Case::over(array, stripe, [a, b, c, d].concat());
    let cut = Cut::on(sealed, blocks, [0, 1]);
    let rebuilt = worked(&[0x9, 0x5, 0xF, 0x0, 0x7]);
    known(&rebuilt, &cut.wrong())?;
    if method == 2 {
        let due = [0x9999, 0xAAAA, 0xCCCC, 0xDDDD, 0x2222];
        known(&due[..], &cut.sealed.stored_guards())?;
        let [first, second] = [cut.one, cut.parity].map(|member| cut.written(member, tally));
        let [first, second] = [first?, second?].map(|torn| torn.stored_guards());
        known([0x2222, 0x2222], [first[0], first[4]])?;
        known([0x9999, 0x9999], [second[0], second[4]])?;
        for guards in [first, second] {
            let others = [0, 2, 3, 4].map(|member| guards[member]);
            known(0x1111, combine_guards(others))?;
        }
        // The document has 8 for this one; 9, 5, F, 0 and 7 make 6 by its rule. Either way it is not the 1 of the guards.
        known(0x6666, guard_of(&array, &rebuilt))?;
        known(0xCCCC, guard_of(&array, cut.sealed.data_of(4)))?;
    }
    cut.other_lost(method == 2, random, tally)?;
    cut.itself_lost(random, tally)
}

/// A word of a block turned from zeros to ones or back, at each place, or by method 3 at one in eight. By methods 1 and 3 the guard tells, by method 2 only
/// the whole stripe; any other change of the word is told by the guard of each.
fn turned_words(method: u8, random: &mut Random, tally: &mut Tally) -> Outcome<usize> {
    let mut tried = 0;
    let length = Format::of(method).data;
    let step = length / 2 / TURNED;
    for place in (0..TURNED).map(|turn| turn * step + turn % step) {
        for [before, after] in [[0x0000, 0xFFFF], [0xFFFF, 0x0000]] {
            for turned in [true, false] {
                let array = Array {
                    method,
                    ..cases::array(random)
                };
                let index = random.below(array.data_members());
                let stripe = cases::stripe_of(&array, random);
                let mut data = random.bytes(array.data_members() * length);
                let word = |word: u16, data: &mut [u8]| {
                    data[2 * place..2 * place + 2].copy_from_slice(&word.to_be_bytes());
                };
                word(before, &mut data[index * length..]);
                let mut case = Case::over(array, stripe, data);
                let member = index + usize::from(index >= array.parity_member(stripe));
                let between = random.between(1, 65_534) as u16;
                word(if turned { after } else { between }, case.block(member));
                let unseen = method == 2 && turned;
                let fits = Fits {
                    guard: unseen,
                    ..Fits::ALL
                };
                let due = match unseen {
                    true => Verdict::Torn { place: 2 * place },
                    false => Verdict::Bad {
                        member,
                        count: 1,
                        fits,
                    },
                };
                let block = case.block(member).to_vec();
                let said = tag::checked(&array, stripe, member, &block)?;
                known(unseen, matches!(said, Ok(Checked::Good(_))))
                    .and_then(|()| standing::verdict(&case, due, random, tally))
                    .map_err(|difference| {
                        format!("method {method}, word {place} of member {member}: {difference}")
                    })?;
                tried += 1;
            }
        }
    }
    Ok(tried)
}

pub fn compare(random: &mut Random) -> Outcome<String> {
    let mut tally = Tally::default();
    let (mut tried, mut turned) = (0, 0);
    for (method, times) in METHODS.into_iter().zip(TIMES) {
        worked(method, random, &mut tally)
            .map_err(|difference| format!("method {method}, the worked stripe: {difference}"))?;
        for members in 3..=16 {
            for _ in 0..times {
                let named = cases_of(method, members, random, &mut tally)
                    .map_err(|difference| format!("method {method}: {difference}"))?;
                tried = tried.max(named);
            }
        }
        turned += turned_words(method, random, &mut tally)?;
    }
    let calls = [
        tally.of_each("scrub", "clean torn G--")?,
        tally.of_each("finish", "clean torn G--")?,
        tally.of_each("read", "rebuilt")?,
        tally.of_each("rebuild", "done")?,
        tally.of_each("update", "done")?,
    ];
    for (call, answers) in [
        ("scrub", "512"),
        ("finish", "512"),
        ("read", "stored 9"),
        ("rebuild", "9"),
    ] {
        tally.of(call, answers)?;
    }
    Ok(format!(
        "known beforehand by all methods, for the worked stripe of document 000, in {tried} named cases, and with {turned} words turned, all over a block: {}",
        calls.join(", ")
    ))
}
