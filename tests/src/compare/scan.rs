//! The scrub in pieces: lists of calls against a history, and single calls from states that no start gives.

use super::cases::{self, Case};
use super::{
    Outcome, Tally, VERDICTS, done_name, known, refusal, same, verdict_name, verdict_numbers,
};
use crate::lent::{Lent, between_margins};
use crate::library::{self, Taken};
use crate::random::Random;
use model::format::Format;
use model::layout::Array;
use model::scan::{self, History, Scan};
use model::stripe::{self, UNCHECKED};
use std::cmp::Ordering;

const LISTS: usize = 50_000;
const STATES: usize = 100_000;
/// How many stripes come in pieces of odd lengths alone, by each method.
const ODD: usize = 1_000;
/// No cut is longer than a block and so many bytes.
const OVER: usize = 80;

fn start(array: &Array, stripe: u64, work: &mut Lent<u8>, tally: &mut Tally) -> Outcome<Taken> {
    let before = work.contents().to_vec();
    let answer = scan::start(array, stripe, &before);
    let (state, due) = match &answer {
        Ok((state, work)) => (*state, &work[..]),
        Err(_) => (Scan::ZEROS, &before[..]),
    };
    let refusal = refusal(&answer);
    let taken = between_margins(|| library::start(array, stripe, work))?;
    same(Taken { refusal, state }, taken)
        .and_then(|()| work.holds("work", due))
        .map_err(|difference| format!("start of stripe {stripe} in {array:?}: {difference}"))?;
    tally.add_by(array.method, "start", done_name(&answer));
    Ok(taken)
}

fn piece(
    state: Scan,
    member: usize,
    bytes: &[u8],
    work: &mut Lent<u8>,
    tally: &mut Tally,
) -> Outcome<Taken> {
    let before = work.contents().to_vec();
    let answer = scan::piece(&state, member, bytes, &before);
    let (next, due) = match &answer {
        Ok((next, work)) => (*next, &work[..]),
        Err(_) => (state, &before[..]),
    };
    let refusal = refusal(&answer);
    let lent = Lent::new(bytes);
    let taken = between_margins(|| library::piece(state, member, &lent, work))?;
    same(
        Taken {
            refusal,
            state: next,
        },
        taken,
    )
    .and_then(|()| lent.kept("piece"))
    .and_then(|()| work.holds("work", due))
    .map_err(|difference| {
        format!(
            "piece of {} for member {member} at {state:?}: {difference}",
            bytes.len()
        )
    })?;
    tally.add_by(state.method, "piece", done_name(&answer));
    Ok(taken)
}

fn finish(state: Scan, work: &Lent<u8>, tally: &mut Tally) -> Outcome<library::Verdict> {
    let before = work.contents().to_vec();
    let answer = scan::finish(&state, &before);
    let verdict = between_margins(|| library::finish(state, work))?;
    same(verdict_numbers(&answer), verdict)
        .and_then(|()| work.holds("work", &before))
        .map_err(|difference| format!("finish at {state:?}: {difference}"))?;
    let name = verdict_name(state.method, &answer);
    tally.add_by(state.method, "finish", name);
    Ok(verdict)
}

/// A list of calls after a start: what the scan left last, and the history of the calls.
struct List {
    array: Array,
    /// The blocks that the pieces are cut from.
    blocks: Vec<u8>,
    /// No cut is longer.
    longest: usize,
    state: Scan,
    work: Lent<u8>,
    history: History,
}

impl List {
    fn start(random: &mut Random, tally: &mut Tally) -> Outcome<Self> {
        let array = cases::array(random);
        let stripe = cases::stripe_of(&array, random);
        List::over(&Case::any(array, stripe, random), random, tally)
    }

    fn over(case: &Case, random: &mut Random, tally: &mut Tally) -> Outcome<Self> {
        let Case { array, stripe, .. } = *case;
        let format = case.format();
        let mut work = Lent::new(&random.bytes(format.data));
        Ok(List {
            array,
            blocks: case.bytes.clone(),
            longest: longest_cut(&format, random),
            state: start(&array, stripe, &mut work, tally)?.state,
            work,
            history: History::open(array, stripe),
        })
    }

    /// A member that still lacks some.
    fn lacking(&self) -> Option<usize> {
        let whole = self.array.format().block();
        (0..self.array.members).find(|member| self.history.position(*member) < whole)
    }

    fn is_whole(&self) -> bool {
        self.lacking().is_none()
    }

    /// What a member still lacks.
    fn rest(&self, member: usize) -> &[u8] {
        let span = self.array.format().span(member);
        &self.blocks[span][self.history.position(member)..]
    }

    /// What is next of a member, cut anywhere; now and then more than it lacks.
    fn cut(&self, member: usize, random: &mut Random) -> Vec<u8> {
        let rest = self.rest(member);
        let length = random.below(self.longest + 1);
        if length <= rest.len() {
            return rest[..length].to_vec();
        }
        if !random.one_in(4) {
            return rest.to_vec();
        }
        let more = random.bytes(length - rest.len());
        [rest, &more].concat()
    }

    fn piece(&mut self, member: usize, bytes: &[u8], tally: &mut Tally) -> Outcome<()> {
        let taken = piece(self.state, member, bytes, &mut self.work, tally)?;
        same(refusal(&self.history.piece(member, bytes)), taken.refusal)
            .map_err(|difference| format!("piece by the history: {difference}"))?;
        self.state = taken.state;
        Ok(())
    }

    fn finish(&self, tally: &mut Tally) -> Outcome<library::Verdict> {
        let verdict = finish(self.state, &self.work, tally)?;
        same(verdict_numbers(&self.history.finish()), verdict)
            .map_err(|difference| format!("finish by the history: {difference}"))?;
        Ok(verdict)
    }

    /// The next call: mostly a piece, for a member that lacks some if there is one.
    fn call(&mut self, random: &mut Random, tally: &mut Tally) -> Outcome<()> {
        if random.one_in(16) {
            self.finish(tally)?;
            return Ok(());
        }
        let mut member = random.below(self.array.members);
        if random.one_in(24) {
            let past = [0, 1, 16, 256, 1 << 32].map(|far| self.array.members + far);
            return self.piece(random.pick(&past), &random.bytes(3), tally);
        }
        if self.rest(member).is_empty() && !random.one_in(3) {
            member = self.lacking().unwrap_or(member);
        }
        let bytes = self.cut(member, random);
        self.piece(member, &bytes, tally)
    }

    /// The state and the work buffer are what the bytes so far make them.
    fn holds(&self) -> Outcome<()> {
        same(self.history.state(), self.state)
            .and_then(|()| self.work.holds("work", &self.history.work()))
            .map_err(|difference| format!("by the history: {difference}"))
    }
}

/// The verdict on a stripe whose blocks come in cuts of any length, of one member and another.
pub fn scanned(case: &Case, random: &mut Random, tally: &mut Tally) -> Outcome<library::Verdict> {
    let mut list = List::over(case, random, tally)?;
    while !list.is_whole() {
        let member = random.below(list.array.members);
        let bytes = list.cut(member, random);
        list.piece(member, &bytes, tally)?;
    }
    list.finish(tally)
}

/// A stripe of a method, good or damaged, whose scan is begun.
fn begun(method: u8, random: &mut Random, tally: &mut Tally) -> Outcome<List> {
    let array = Array {
        method,
        ..cases::array(random)
    };
    let case = Case::any(array, cases::stripe_of(&array, random), random);
    List::over(&case, random, tally)
}

/// One member's block in two pieces, and each of the others in one.
fn cut_once(method: u8, cut: usize, random: &mut Random, tally: &mut Tally) -> Outcome<()> {
    let mut list = begun(method, random, tally)?;
    let in_two = random.below(list.array.members);
    for member in 0..list.array.members {
        let block = list.rest(member).to_vec();
        if member != in_two {
            list.piece(member, &block, tally)?;
            continue;
        }
        let (first, second) = block.split_at(cut);
        for piece in [first, second] {
            list.piece(member, piece, tally)?;
            list.holds()?;
        }
    }
    list.holds()?;
    list.finish(tally)?;
    Ok(())
}

/// All blocks in pieces of odd lengths, but for what is left at the end of one.
fn oddly(method: u8, random: &mut Random, tally: &mut Tally) -> Outcome<()> {
    let mut list = begun(method, random, tally)?;
    let block = list.array.format().block();
    let longest = random.pick(&[block / 260, block / 26, block]);
    while !list.is_whole() {
        let member = random.below(list.array.members);
        let rest = list.rest(member);
        let length = 2 * random.below(longest / 2) + 1;
        let piece = rest[..length.min(rest.len())].to_vec();
        list.piece(member, &piece, tally)?;
    }
    list.holds()?;
    list.finish(tally)?;
    Ok(())
}

/// A member at a position, and a byte that waits there: in the first n members it can wait only by method 2, after an odd number of data bytes.
fn waiting(
    (method, at, byte): (u8, usize, u8),
    inside: bool,
    random: &mut Random,
    tally: &mut Tally,
) -> Outcome<()> {
    let array = Array {
        method,
        members: random.between(3, 15) as usize,
        ..cases::array(random)
    };
    let member = match inside {
        true => random.below(array.members),
        false => random.between(array.members as u64, 15) as usize,
    };
    let stripe = cases::stripe_of(&array, random);
    let format = array.format();
    let whole = format.block();
    let clear = vec![0; format.data];
    let (mut state, _) = scan::start(&array, stripe, &clear).expect("a start that is fit");
    state.at = [whole as u16; 16];
    state.at[member] = at as u16;
    state.waiting[member] = byte;
    let can_wait = method == 2 && at < format.data && at % 2 == 1;
    let (piece_due, finish_due) = match (inside, at.cmp(&whole)) {
        (false, _) => (0, 0),
        (true, Ordering::Equal) if byte == 0 => (0, 0),
        (true, Ordering::Less) if byte == 0 || can_wait => (0, 8),
        _ => (4, 4),
    };
    let mut work = Lent::new(&random.bytes(format.data));
    let of_model = [
        refusal(&scan::piece(&state, 0, &[], work.contents())),
        refusal(&scan::finish(&state, work.contents())),
    ];
    known([piece_due, finish_due], of_model)?;
    finish(state, &work, tally)?;
    piece(state, random.below(array.members), &[], &mut work, tally)?;
    Ok(())
}

/// Each place of a cut, stripes in odd pieces, and each position with and without a byte that waits, by each method; how many of each.
fn named(random: &mut Random, tally: &mut Tally) -> Outcome<[usize; 3]> {
    let mut tried = [0; 3];
    for method in cases::METHODS {
        let block = Format::of(method).block();
        for cut in 0..=block {
            cut_once(method, cut, random, tally)
                .map_err(|difference| format!("method {method}, cut at {cut}: {difference}"))?;
            tried[0] += 1;
        }
        for _ in 0..ODD {
            oddly(method, random, tally)
                .map_err(|difference| format!("method {method}, odd pieces: {difference}"))?;
            tried[1] += 1;
        }
        for at in 0..=block + 2 {
            for (byte, inside) in [0x00, 0x01, 0x80, 0xFF]
                .into_iter()
                .flat_map(|byte| [(byte, true), (byte, false)])
            {
                waiting((method, at, byte), inside, random, tally).map_err(|difference| {
                    format!("method {method}, {byte:02X} waits at {at}: {difference}")
                })?;
                tried[2] += 1;
            }
        }
    }
    Ok(tried)
}

/// How long the cuts of a list are: mostly any, now and then short.
fn longest_cut(format: &Format, random: &mut Random) -> usize {
    match random.below(1_000) {
        0 => 1,
        1..30 => format.data / 16,
        30..200 => format.data / 4,
        _ => format.block() + OVER,
    }
}

/// A list of calls: mostly until every member is whole, and then some more.
fn list(random: &mut Random, tally: &mut Tally) -> Outcome<()> {
    let mut list = List::start(random, tally)?;
    let mut left = if random.one_in(5) {
        random.below(60)
    } else {
        usize::MAX
    };
    let seldom = list.array.format().data / 32;
    while left > 0 && !list.is_whole() {
        list.call(random, tally)?;
        if random.one_in(seldom) {
            list.holds()?;
        }
        left -= 1;
    }
    for _ in 0..random.pick(&[0, 1, 3, 6, 30]) {
        list.call(random, tally)?;
    }
    list.finish(tally)?;
    list.holds()
}

/// A position: mostly one that a scan reaches, and now and then one above, which blocks of the other format may have.
fn any_position(format: &Format, random: &mut Random) -> u16 {
    let block = format.block();
    let position = match random.below(40) {
        0 => random.pick(&[block + 1, block + 2, block + format.data, 32_768, 65_535]),
        1..5 => random.pick(&[0, 511, 512, 513, 514, 516, 519, 520]),
        5..10 => format.data - 1 + random.below(format.tag() + 1),
        10..20 => random.below(block),
        _ => block,
    };
    position as u16
}

/// A state that no start gives; its tags fit its registers, mostly, where that can be, and some are marked as not to be checked. Now and then a byte
/// waits where none can, or a register has more than the sixteen bits of methods 1 and 2.
fn any_state(random: &mut Random) -> Scan {
    let array = cases::any_array(random);
    let format = array.format();
    let stripe = cases::any_stripe(&array, random);
    let mut state = Scan {
        members: array.members,
        stripes: array.stripes,
        volume: array.volume,
        method: array.method,
        row: array.row,
        stripe,
        ..Scan::ZEROS
    };
    random.fill(&mut state.tag);
    random.fill(&mut state.waiting);
    let whole = random.one_in(2);
    let wrong = random.pick(&[2, 20, 1_000]);
    let marked = random.pick(&[2, 20, 1_000]);
    let astray = random.pick(&[20, 1_000, 1_000]);
    for member in 0..16 {
        state.at[member] = if whole {
            format.block() as u16
        } else {
            any_position(&format, random)
        };
        if member < array.members && !waits(&state, member) && !random.one_in(astray) {
            state.waiting[member] = 0;
        }
        let guard = any_guard(&format, random);
        state.register[member] = if array.method == 3 { !guard } else { guard };
        if array.method != 3 && (member >= array.members || random.one_in(astray)) {
            state.register[member] += random.pick(&[0, 0x1_0000, 0x8000_0000, 0xFFFF_0000]);
        }
        let tag = &mut state.tag[format.tag() * member..][..format.tag()];
        if array.place_fits(stripe, member).is_ok() && !random.one_in(wrong) {
            tag.copy_from_slice(&stripe::due(&array, stripe, member, guard));
            if random.one_in(wrong) {
                spoil_fields(&format, tag, random);
            }
        }
        if random.one_in(marked) {
            tag[format.guard().len()..][..2].copy_from_slice(&UNCHECKED);
        }
    }
    if array.method == 2 && array.stripe_fits(stripe).is_ok() && random.one_in(2) {
        combine_guards(&array, &mut state);
    }
    state
}

/// Any number that a guard can be.
fn any_guard(format: &Format, random: &mut Random) -> u32 {
    let guard = random.next() as u32;
    guard >> (32 - 8 * format.guard().len())
}

/// A bit changed in some fields of a tag.
fn spoil_fields(format: &Format, tag: &mut [u8], random: &mut Random) {
    for field in [format.guard(), format.application(), format.reference()] {
        if random.one_in(2) {
            tag[field.start - format.data + random.below(field.len())] ^= 1;
        }
    }
}

/// By method 2 a byte waits after an odd number of data bytes.
fn waits(state: &Scan, member: usize) -> bool {
    let at = usize::from(state.at[member]);
    state.method == 2 && at < Format::of(2).data && at % 2 == 1
}

/// The parity's guard of method 2 made what the others combine to.
fn combine_guards(array: &Array, state: &mut Scan) {
    let parity = 8 * array.parity_member(state.stripe);
    for place in 0..2 {
        let others = (0..8 * array.members).step_by(8).filter(|at| *at != parity);
        state.tag[parity + place] = others.fold(0, |sum, at| sum ^ state.tag[at + place]);
    }
}

/// A work buffer for a method with anything in it, now and then of a wrong length.
fn any_work(method: u8, random: &mut Random) -> Lent<u8> {
    let length = cases::any_length(method, |format| format.data, random);
    let mut work = vec![0; length];
    match random.below(3) {
        0 => random.fill(&mut work),
        1 if length > 0 => work[random.below(length)] = random.between(1, 255) as u8,
        _ => {}
    }
    Lent::new(&work)
}

/// A start, and a piece and a finish from any state.
fn states(random: &mut Random, tally: &mut Tally) -> Outcome<()> {
    let array = cases::any_array(random);
    let stripe = cases::any_stripe(&array, random);
    start(&array, stripe, &mut any_work(array.method, random), tally)?;
    let state = any_state(random);
    finish(state, &any_work(state.method, random), tally)?;
    let member = cases::any_member(
        &Array {
            members: state.members,
            ..array
        },
        random,
    );
    let block = Format::of(state.method).block();
    let mut length = random.below(block + OVER + 1);
    if let Some(at) = state.at.get(member) {
        length = length.min(random.pick(&[length, block.saturating_sub(usize::from(*at))]));
    }
    let mut work = any_work(state.method, random);
    let taken = piece(state, member, &random.bytes(length), &mut work, tally)?;
    finish(taken.state, &work, tally)?;
    Ok(())
}

fn calls(tally: &Tally, start: &str, piece: &str, finish: &str) -> Outcome<String> {
    Ok(format!(
        "{}, {}, {}",
        tally.of_each("start", start)?,
        tally.of_each("piece", piece)?,
        tally.of_each("finish", finish)?
    ))
}

pub fn compare(random: &mut Random) -> Outcome<String> {
    let (mut listed, mut single) = (Tally::default(), Tally::default());
    let [cuts, odd, waiting] = named(random, &mut Tally::default())?;
    for number in 0..LISTS {
        list(random, &mut listed).map_err(|difference| format!("list {number}: {difference}"))?;
    }
    for _ in 0..STATES {
        states(random, &mut single)?;
    }
    for tally in [&listed, &single] {
        tally.of("finish", "512")?;
    }
    single.of("start", "12")?;
    let listed = calls(&listed, "done", "done 5 7", &format!("{VERDICTS} 8"))?;
    let single = calls(
        &single,
        "done 1 2 3 6 13",
        "done 4 5 6 7",
        &format!("{VERDICTS} 4 6 8"),
    )?;
    Ok(format!(
        "calls alike by all methods in {LISTS} lists: {listed}; from any state: {single}; in {cuts} stripes cut at each place, {odd} in odd pieces, and {waiting} states in which a byte waits or none"
    ))
}
