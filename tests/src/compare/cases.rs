//! What to compare on: arrays and their stripes, good and damaged, and numbers and lengths that must be refused.

use super::Outcome;
use crate::random::Random;
use model::format::{Format, in_bytes};
use model::layout::{Array, MOST_STRIPES, Owner};
use model::stripe::{self, Fits, UNCHECKED, Verdict, guard_of, is_combined};
use model::{crc32c, guard};
use std::ops::Range;

/// How many stripes are tried of each number of members.
const STRIPES_EACH: usize = 1_430;
/// How many calls are made with numbers or lengths that may be refused.
pub const REFUSALS: usize = 20_000;

#[rustfmt::skip]
pub const STRIPES: [u64; 20] = [
    1, 2, 3, 7, 100, 384, 65_535, 65_536, 65_537, 268_435_455, 268_435_456, 268_435_457, 1_073_741_824, (1 << 32) - 1, 1 << 32, (1 << 32) + 1, (1 << 32) + 128,
    MOST_STRIPES - 128, MOST_STRIPES - 1, MOST_STRIPES,
];

/// Numbers of stripes and of members that are refused; some are fit if they are cut to fewer bits.
pub const FAR_STRIPES: [u64; 6] = [
    0,
    MOST_STRIPES + 1,
    MOST_STRIPES + (1 << 32),
    1 << 40,
    1 << 63,
    u64::MAX,
];
#[rustfmt::skip]
pub const FAR_MEMBERS: [usize; 11] = [0, 1, 2, 17, 18, 255, 256, 259, 65_539, (1 << 32) + 5, usize::MAX];

/// The methods, and numbers that are none.
pub const METHODS: [u8; 3] = [1, 2, 3];
pub const FAR_METHODS: [u8; 7] = [0, 4, 128, 129, 130, 131, 255];

/// The row lengths, and numbers that are none.
pub const ROWS: [u8; 8] = [1, 2, 4, 8, 16, 32, 64, 128];
pub const FAR_ROWS: [u8; 10] = [0, 3, 5, 6, 12, 96, 127, 129, 192, 255];

/// A row length that divides this number of stripes, each as likely.
pub fn row_of(stripes: u64, random: &mut Random) -> u8 {
    let divides = |row: &u8| stripes % u64::from(*row) == 0;
    random.pick(&ROWS.into_iter().filter(divides).collect::<Vec<_>>())
}

/// How often each method comes up where it is any: a stripe of method 3 has eight times the bytes, and takes as much longer.
const ANY_METHOD: [u8; 5] = [1, 1, 2, 2, 3];

pub fn any_method(random: &mut Random) -> u8 {
    random.pick(&ANY_METHOD)
}

/// A volume: any, and often FFh, with which a tag that is due comes nearest to the mark of an unchecked block.
pub fn any_volume(random: &mut Random) -> u8 {
    let any = random.next() as u8;
    random.pick(&[any, any, any, 0xFF])
}

pub fn array(random: &mut Random) -> Array {
    let stripes = match random.below(4) {
        0 => random.pick(&STRIPES),
        1 => random.between(1, MOST_STRIPES),
        2 => 128 * random.between(1, 20),
        _ => 128 * random.between(1, MOST_STRIPES / 128),
    };
    Array {
        members: random.between(3, 16) as usize,
        stripes,
        volume: any_volume(random),
        method: any_method(random),
        row: row_of(stripes, random),
    }
}

pub fn stripe_of(array: &Array, random: &mut Random) -> u64 {
    let last = array.stripes - 1;
    match random.below(3) {
        0 => random.pick(&[
            0,
            last,
            last / 2,
            last.min(65_536),
            last.min((1 << 32) - 1),
            last.min(1 << 32),
        ]),
        1 => beside_far_block(array, random),
        _ => random.between(0, last),
    }
}

/// A stripe with the block 2^32 or one beside it, where the array has it: there reference tags start anew.
fn beside_far_block(array: &Array, random: &mut Random) -> u64 {
    let block = random.between((1 << 32) - 2, (1 << 32) + 1);
    match array.place(block) {
        Ok(place) => place.stripe,
        Err(_) => random.between(0, array.stripes - 1),
    }
}

/// Numbers of an array, now and then refused. A row length may then be one that does not divide the stripes.
pub fn any_array(random: &mut Random) -> Array {
    let mut array = array(random);
    if random.one_in(6) {
        array.members = random.pick(&FAR_MEMBERS);
    }
    if random.one_in(6) {
        array.stripes = random.pick(&FAR_STRIPES);
    }
    if random.one_in(6) {
        array.method = random.pick(&FAR_METHODS);
    }
    if random.one_in(6) {
        array.row = random.pick(&FAR_ROWS);
    }
    if random.one_in(12) {
        array.row = random.pick(&ROWS);
    }
    array
}

/// A number, now and then at or past the end.
pub fn any_below(end: u64, random: &mut Random) -> u64 {
    if end == 0 || random.one_in(5) {
        let far = [end, end + 1, end + 65_536, end + (1 << 32), u64::MAX];
        return random.pick(&far);
    }
    random.between(0, end - 1)
}

pub fn any_stripe(array: &Array, random: &mut Random) -> u64 {
    any_below(array.stripes.min(1 << 60), random)
}

pub fn any_block(array: &Array, random: &mut Random) -> u64 {
    let data = (array.members as u64).clamp(1, 17) - 1;
    any_below(array.stripes.min(1 << 48) * data, random)
}

pub fn any_member(array: &Array, random: &mut Random) -> usize {
    any_below(array.members.min(300) as u64, random) as usize
}

/// A length that is due in a format of blocks, now and then not the one that is due by this method, but some bytes or blocks less or more, or what is due
/// in the other format.
pub fn any_length(method: u8, due: impl Fn(&Format) -> usize, random: &mut Random) -> usize {
    let format = Format::of(method);
    let length = due(&format);
    if !random.one_in(4) {
        return length;
    }
    let others = METHODS.map(|other| due(&Format::of(other)));
    if random.one_in(3) {
        return random.pick(&others);
    }
    let by = random.pick(&[1, format.tag(), format.data, format.block(), length]);
    random.pick(&[length.saturating_sub(by), length + by])
}

/// A place in a block's data: any, and often one at an end of them, or where those of the other format end.
pub fn any_place(format: &Format, random: &mut Random) -> usize {
    match random.below(8) {
        0 => random.pick(&[0, 511, 512.min(format.data - 1), format.data - 1]),
        _ => random.below(format.data),
    }
}

/// The bytes of a stripe of an array, now and then too few or too many.
pub fn any_stripe_bytes(array: &Array, stripe: u64, random: &mut Random) -> Vec<u8> {
    let members = array.members.min(20);
    let length = any_length(array.method, |format| members * format.block(), random);
    if array.stripe_fits(stripe).is_err() || length != array.stripe_length() {
        return random.bytes(length);
    }
    let mut case = Case::sealed(*array, stripe, random);
    if random.one_in(2) {
        case.damage(random);
    }
    case.bytes
}

/// A job on stripes, good and damaged, as many for each number of members; and how many they were.
pub fn each_stripe(
    random: &mut Random,
    mut job: impl FnMut(&Case, &mut Random) -> Outcome<()>,
) -> Outcome<usize> {
    let mut stripes = 0;
    for members in 3..=16 {
        for _ in 0..STRIPES_EACH {
            let array = Array {
                members,
                ..array(random)
            };
            let stripe = stripe_of(&array, random);
            job(&Case::any(array, stripe, random), random)?;
            stripes += 1;
        }
    }
    Ok(stripes)
}

/// A stripe in memory.
#[derive(Clone)]
pub struct Case {
    pub array: Array,
    pub stripe: u64,
    /// What was sealed.
    pub data: Vec<u8>,
    pub bytes: Vec<u8>,
}

/// So many bytes of data: random, all alike, or zeros with a few other bytes.
fn data(length: usize, random: &mut Random) -> Vec<u8> {
    match random.below(4) {
        0 => vec![random.pick(&[0x00, 0xFF, 0x80]); length],
        1 => {
            let mut data = vec![0; length];
            for _ in 0..random.below(5) {
                let place = random.below(data.len());
                data[place] = random.next() as u8;
            }
            data
        }
        _ => random.bytes(length),
    }
}

impl Case {
    pub fn sealed(array: Array, stripe: u64, random: &mut Random) -> Self {
        let length = array.data_members() * array.format().data;
        Case::over(array, stripe, data(length, random))
    }

    /// A stripe sealed over these data.
    pub fn over(array: Array, stripe: u64, data: Vec<u8>) -> Self {
        let room = vec![0; array.stripe_length()];
        let bytes = stripe::seal(&array, stripe, &data, &room).expect("a fit array and stripe");
        Case {
            array,
            stripe,
            data,
            bytes,
        }
    }

    /// A stripe that is good, or damaged once or several times.
    pub fn any(array: Array, stripe: u64, random: &mut Random) -> Self {
        let mut case = Case::sealed(array, stripe, random);
        for _ in 0..random.pick(&[0, 1, 1, 1, 1, 2, 2, 3, 5]) {
            case.damage(random);
        }
        case
    }

    pub fn format(&self) -> Format {
        self.array.format()
    }

    pub fn damage(&mut self, random: &mut Random) {
        let member = random.below(self.array.members);
        random.pick(&DAMAGES)(self, member, random);
    }

    /// Another byte at a place of a member's block, which does not make it unchecked.
    pub fn spoil(&mut self, member: usize, place: usize, random: &mut Random) {
        let mark = self.format().mark();
        let block = self.block(member);
        let before = block[place];
        while block[place] == before || (mark.contains(&place) && block[mark.clone()] == UNCHECKED)
        {
            block[place] = random.next() as u8;
        }
    }

    /// Another byte for each field that shall not fit, in a good block of a member. A byte of the data is one for the guard.
    pub fn spoil_fields(&mut self, member: usize, fits: Fits, random: &mut Random) {
        let format = self.format();
        let fields = [
            (fits.guard, 0..format.guard().end),
            (fits.application, format.application()),
            (fits.reference, format.reference()),
        ];
        for (_, places) in fields.into_iter().filter(|(fits, _)| !fits) {
            let place = places.start + random.below(places.len());
            self.spoil(member, place, random);
        }
    }

    /// In how many ways fields of a member's block can be wrong, by the numbers of `some_wrong`: a guard that nobody checks fits.
    pub fn ways_wrong(&self, member: usize) -> usize {
        match is_combined(&self.array, self.stripe, member) {
            true => 3,
            false => 7,
        }
    }

    /// A member's block in which one field does not fit, or several.
    pub fn any_wrong(&self, member: usize, random: &mut Random) -> Fits {
        some_wrong(1 + random.below(self.ways_wrong(member)))
    }

    /// Another guard for the parity. By method 2 it stays good, and the stripe is torn.
    pub fn tear_guards(&mut self, random: &mut Random) -> Verdict {
        let parity = self.array.parity_member(self.stripe);
        let guard = self.stored_guard(parity) ^ random.between(1, self.widest_guard()) as u32;
        self.put_guard(parity, guard);
        Verdict::Torn {
            place: self.format().data,
        }
    }

    /// The guards that stand in the stripe.
    pub fn stored_guards(&self) -> Vec<u32> {
        stripe::stored_guards(&self.format(), &self.bytes)
    }

    pub fn stored_guard(&self, member: usize) -> u32 {
        self.stored_guards()[member]
    }

    /// The largest number that a guard can be.
    fn widest_guard(&self) -> u64 {
        (1 << (8 * self.format().guard().len())) - 1
    }

    /// Puts a guard into a tag, as much of it as goes in there.
    pub fn put_guard(&mut self, member: usize, guard: u32) {
        let places = self.format().guard();
        let guard = in_bytes(u64::from(guard) & self.widest_guard(), places.len());
        self.block(member)[places].copy_from_slice(&guard);
    }

    /// The data of a member.
    pub fn data_of(&self, member: usize) -> &[u8] {
        &self.bytes[self.format().span(member)][..self.format().data]
    }

    /// A member written anew from a place on, data and tag.
    pub fn tear(&mut self, member: usize, place: usize, random: &mut Random) -> Verdict {
        self.spoil(member, place, random);
        let end = self.format().data;
        if place + 1 < end && random.one_in(2) {
            let later = random.between(place as u64 + 1, end as u64 - 1);
            self.spoil(member, later as usize, random);
        }
        self.tag_again(member);
        Verdict::Torn { place }
    }

    /// Marks a member's block as not to be checked, whatever its other bytes are: as they were, some changed, or any.
    pub fn mark(&mut self, member: usize, random: &mut Random) {
        let format = self.format();
        let block = self.block(member);
        match random.below(6) {
            0 => block[random.below(format.data)] ^= random.between(1, 255) as u8,
            1 => block[format.data..].fill(0xFF),
            2 => random.fill(&mut block[format.data..]),
            3 => random.fill(block),
            4 => random.fill(&mut block[format.spare()]),
            _ => {}
        }
        block[format.mark()].copy_from_slice(&UNCHECKED);
    }

    pub fn block(&mut self, member: usize) -> &mut [u8] {
        let span = self.format().span(member);
        &mut self.bytes[span]
    }

    /// A member's data as they are, with the tag due at a place that may be another. A guard that these data do not tell stays.
    fn tag_as(&mut self, array: Array, stripe: u64, member: usize, place: usize) {
        let data = self.data_of(member);
        let guard = match is_combined(&array, stripe, place) {
            true => self.stored_guard(member),
            false => guard_of(&array, data),
        };
        let tagged = stripe::tagged(&array, stripe, place, data, guard);
        self.block(member).copy_from_slice(&tagged);
    }

    /// A member's tag made due again, so that changed data make the stripe torn.
    pub fn tag_again(&mut self, member: usize) {
        self.tag_as(self.array, self.stripe, member, member);
    }
}

/// The fields of which some do not fit, by a number from 1 to 7.
pub fn some_wrong(number: usize) -> Fits {
    let [guard, application, reference] = [4, 2, 1].map(|bit| number & bit == 0);
    Fits {
        guard,
        application,
        reference,
    }
}

type Damage = fn(&mut Case, usize, &mut Random);

const DAMAGES: [Damage; 37] = [
    fields,
    fields,
    fields,
    flip,
    flip,
    guard_field,
    kind,
    volume,
    spare,
    reference,
    far_reference,
    marked,
    marked,
    marked,
    nearly_marked,
    nearly_marked,
    swap,
    shift,
    other_stripe,
    far_stripe,
    other_member,
    other_volume,
    torn,
    torn,
    torn_unnoticed,
    torn_unnoticed,
    update_cut,
    update_cut,
    parity_guard,
    parity_guard_own,
    turned_word,
    fields_reversed,
    guard_from_elsewhere,
    guard_of_other_method,
    parity_tag_combined,
    blank,
    noise,
];

/// One field, or several at once.
fn fields(case: &mut Case, member: usize, random: &mut Random) {
    let fits = case.any_wrong(member, random);
    case.spoil_fields(member, fits, random);
}

/// A few bits of the data.
fn flip(case: &mut Case, member: usize, random: &mut Random) {
    for _ in 0..random.between(1, 3) {
        let bit = random.below(8 * case.format().data);
        case.block(member)[bit / 8] ^= 0x80 >> (bit % 8);
    }
}

/// Another byte at one of these places, or none where there are no places.
fn change_one(case: &mut Case, member: usize, places: Range<usize>, random: &mut Random) {
    if !places.is_empty() {
        let place = places.start + random.below(places.len());
        case.block(member)[place] ^= random.between(1, 255) as u8;
    }
}

fn guard_field(case: &mut Case, member: usize, random: &mut Random) {
    change_one(case, member, case.format().guard(), random);
}

fn kind(case: &mut Case, member: usize, random: &mut Random) {
    let place = case.format().mark().start;
    case.block(member)[place] ^= random.pick(&[0x80, 0x80, 0x01, 0xFF]);
}

fn volume(case: &mut Case, member: usize, random: &mut Random) {
    let mark = case.format().mark();
    change_one(case, member, mark.start + 1..mark.end, random);
}

/// A byte behind the application tag that is not zero.
fn spare(case: &mut Case, member: usize, random: &mut Random) {
    change_one(case, member, case.format().spare(), random);
}

fn reference(case: &mut Case, member: usize, random: &mut Random) {
    change_one(case, member, case.format().reference(), random);
}

/// Another number above thirty-two bits, where there is room for one: the lower half is the one due.
fn far_reference(case: &mut Case, member: usize, random: &mut Random) {
    let places = case.format().reference();
    change_one(case, member, places.start..places.end - 4, random);
}

/// The mark by which T10 lets a reader skip a block.
fn marked(case: &mut Case, member: usize, random: &mut Random) {
    case.mark(member, random);
}

/// A tag that comes near the mark, or has it in another place.
fn nearly_marked(case: &mut Case, member: usize, random: &mut Random) {
    let (from, value) = random.pick(&NEAR_MARKS);
    let at = case.format().mark().start.strict_add_signed(from);
    case.block(member)[at..at + value.len()].copy_from_slice(value);
}

/// Places in a tag, counted from where the mark would be, and what they hold instead of what is due. Only with a volume of FFh does one of them, the one
/// that begins before it, make the mark.
pub const NEAR_MARKS: [(isize, &[u8]); 13] = [
    (0, &[0xFF, 0xFE]),
    (0, &[0xFE, 0xFF]),
    (0, &[0xFF, 0x7F]),
    (0, &[0x7F, 0xFF]),
    (0, &[0xFF, 0x00]),
    (0, &[0x00, 0xFF]),
    (0, &[0x80, 0xFF]),
    (-2, &[0xFF, 0xFF]),
    (-1, &[0xFF, 0xFF]),
    (1, &[0xFF, 0xFF]),
    (2, &[0xFF, 0xFF]),
    (2, &[0xFF, 0xFF, 0xFF, 0xFF]),
    (1, &[0xFF, 0xFF, 0xFF]),
];

fn swap(case: &mut Case, member: usize, random: &mut Random) {
    let other = random.below(case.array.members);
    let blocks = [member, other].map(|member| case.block(member).to_vec());
    case.block(member).copy_from_slice(&blocks[1]);
    case.block(other).copy_from_slice(&blocks[0]);
}

/// Every block one member too far, as if the parity were not stepped over.
fn shift(case: &mut Case, _: usize, _: &mut Random) {
    let block = case.format().block();
    case.bytes.rotate_right(block);
}

/// A block of the next or the previous stripe, of one a row away, or of one a turn of the parity away.
fn other_stripe(case: &mut Case, member: usize, random: &mut Random) {
    let row = u64::from(case.array.row);
    let turn = case.array.members as u64 * row;
    let far = random.pick(&[1, row, turn, 2 * turn]);
    let stripe = if random.one_in(2) {
        case.stripe + far
    } else {
        case.stripe.saturating_sub(far)
    };
    case.tag_as(case.array, stripe, member, member);
}

/// The block 65,536 stripes away: the two are told apart only by numbers that are not cut to sixteen bits.
fn far_stripe(case: &mut Case, member: usize, _: &mut Random) {
    let stripe = if case.stripe < 65_536 {
        case.stripe + 65_536
    } else {
        case.stripe - 65_536
    };
    case.tag_as(case.array, stripe, member, member);
}

/// The tag of another member, with a fitting guard.
fn other_member(case: &mut Case, member: usize, random: &mut Random) {
    let place = random.below(case.array.members);
    case.tag_as(case.array, case.stripe, member, place);
}

fn other_volume(case: &mut Case, member: usize, random: &mut Random) {
    let mut array = case.array;
    array.volume ^= random.between(1, 255) as u8;
    case.tag_as(array, case.stripe, member, member);
}

/// A member's data written anew with its tag, and the other members as before.
fn torn(case: &mut Case, member: usize, random: &mut Random) {
    let end = 8 * case.format().data;
    let (from, bits) = (random.below(end), random.between(1, 40) as usize);
    for bit in from..(from + bits).min(end) {
        case.block(member)[bit / 8] ^= (random.next() as u8) & (0x80 >> (bit % 8));
    }
    case.tag_again(member);
}

/// A torn stripe whose guards fit all the same: the difference is a multiple of the generator.
pub fn torn_unnoticed(case: &mut Case, member: usize, random: &mut Random) {
    let change = generator(case.array.method);
    let place = random.below(case.format().data - change.len() + 1);
    for (at, byte) in change.iter().enumerate() {
        case.block(member)[place + at] ^= byte;
    }
    case.tag_again(member);
}

/// The generator of a CRC as the bytes of a run, of which no guard tells: seventeen bits, the highest of each byte first, or by method 3 thirty-three,
/// the lowest first. By method 2 it is a change like any other.
fn generator(method: u8) -> &'static [u8] {
    match method {
        3 => &[0xF1, 0x76, 0xEC, 0x05, 0x01],
        _ => &[0x01, 0x8B, 0xB7],
    }
}

/// A block updated, of which the data or the parity was not written; the new data are any, or the old ones with a byte changed.
fn update_cut(case: &mut Case, _: usize, random: &mut Random) {
    let parity = case.array.parity_member(case.stripe);
    let index = random.below(case.array.data_members());
    let member = index + usize::from(index >= parity);
    let mut data = case.data_of(member).to_vec();
    match random.below(2) {
        0 => random.fill(&mut data),
        _ => data[random.below(case.format().data)] ^= random.between(1, 255) as u8,
    }
    let block = case.array.blocks_of(case.stripe)[index];
    if let Ok(updated) = stripe::update(&case.array, block, &data, &case.bytes) {
        let written = case.format().span(random.pick(&[member, parity]));
        case.bytes[written.clone()].copy_from_slice(&updated[written]);
    }
}

fn parity_guard(case: &mut Case, _: usize, random: &mut Random) {
    case.tear_guards(random);
}

/// The parity's guard as that of its own data.
fn parity_guard_own(case: &mut Case, _: usize, _: &mut Random) {
    let parity = case.array.parity_member(case.stripe);
    let guard = guard_of(&case.array, case.data_of(parity));
    case.put_guard(parity, guard);
}

/// A word of zeros made ones, which no checksum notices, or any other made zeros.
fn turned_word(case: &mut Case, member: usize, random: &mut Random) {
    let place = 2 * random.below(case.format().data / 2);
    let word = &mut case.block(member)[place..place + 2];
    let zeros = word == [0; 2];
    word.fill(if zeros { 0xFF } else { 0x00 });
}

/// Reference, application and guard in the wrong order.
fn fields_reversed(case: &mut Case, member: usize, _: &mut Random) {
    let format = case.format();
    let tag = &mut case.block(member)[format.data..];
    let [guard, application, reference] = format.fields(tag);
    let reversed = [reference, application, guard].concat();
    tag.copy_from_slice(&reversed);
}

/// A guard of the data whose register starts where another's does, or whose end step is left out.
fn guard_from_elsewhere(case: &mut Case, member: usize, random: &mut Random) {
    let data = case.data_of(member);
    let guard = match (case.array.method, random.below(2)) {
        (3, 0) => !crc32c::go_on(0, data),
        (3, _) => crc32c::go_on(crc32c::START, data),
        _ => guard::go_on(0xFFFF, data).into(),
    };
    case.put_guard(member, guard);
}

fn guard_of_other_method(case: &mut Case, member: usize, random: &mut Random) {
    let turns = random.between(1, METHODS.len() as u64 - 1) as u8;
    let other = Array {
        method: (case.array.method - 1 + turns) % METHODS.len() as u8 + 1,
        ..case.array
    };
    let guard = guard_of(&other, case.data_of(member));
    case.put_guard(member, guard);
}

/// The parity's tag as the exclusive-or of the other tags.
fn parity_tag_combined(case: &mut Case, _: usize, _: &mut Random) {
    let owners = case.array.owners(case.stripe);
    let format = case.format();
    let mut tag = vec![0; format.tag()];
    let holds_data = |member: &usize| matches!(owners[*member], Owner::Data { .. });
    for member in (0..owners.len()).filter(holds_data) {
        for (sum, byte) in tag.iter_mut().zip(&case.block(member)[format.data..]) {
            *sum ^= byte;
        }
    }
    let parity = case.array.parity_member(case.stripe);
    case.block(parity)[format.data..].copy_from_slice(&tag);
}

fn blank(case: &mut Case, member: usize, random: &mut Random) {
    let byte = random.pick(&[0x00, 0xFF]);
    case.block(member).fill(byte);
}

fn noise(case: &mut Case, member: usize, random: &mut Random) {
    random.fill(case.block(member));
}
