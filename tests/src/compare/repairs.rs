//! The repair program on images of every kind, through pipes in small pieces. What it writes is what the model writes; and the report program, asked before
//! and after, finds each stripe rebuilt or listed as its verdict wants.

use super::cases::{self, Case, ROWS};
use super::images::{self, Judge, longest_piece, now_and_then_wait, of_image, same_report};
use super::{Outcome, Tally, known, tally};
use crate::program;
use crate::random::Random;
use model::format::Format;
use model::layout::Array;
use model::repair::{self, Mended, Repaired};
use model::report::{self, line};
use model::stripe::{self, UNCHECKED, Verdict};
use std::io::Read;
use std::slice::ChunksExact;
use std::thread;
use std::time::Duration;

/// The methods whose images are repaired.
pub const METHODS: [u8; 2] = [1, 2];
/// How many images have a random header, and how many random stripes.
const HEADERS: usize = 200;
const IMAGES: usize = 600;
/// How many stripes an image has whose list does not go into a pipe before it is read.
const LISTED: u64 = 8_192;

/// Headers and the numbers of their refusals, where these are not a report's, or could be taken for others.
#[rustfmt::skip]
const REFUSED: [(u32, &[u8]); 17] = [
    (12, &[0, 8, 2, 3, 7, 0, 0, 0, 1, 3]),
    (12, &[0, 8, 2, 16, 7, 255, 255, 255, 255, 3]),
    (12, &[0, 9, 3, 3, 7, 0, 0, 0, 1, 3, 1]),
    (12, &[0, 9, 3, 3, 7, 0, 0, 0, 1, 3, 0]),
    (12, &[0, 9, 3, 3, 7, 0, 0, 0, 1, 3, 2]),
    (12, &[0, 9, 3, 5, 7, 0, 0, 0, 6, 3, 3]),
    (12, &[0, 13, 4, 5, 7, 0, 0, 0, 0, 0, 0, 0, 1, 3, 1]),
    (12, &[0, 13, 4, 16, 7, 0, 0, 0, 16, 0, 0, 0, 0, 3, 255]),
    (12, &[0, 9, 3, 3, 7, 0, 0, 0, 1, 4, 3]),
    (13, &[0, 9, 3, 3, 7, 0, 0, 0, 1, 1, 3]),
    (13, &[0, 9, 3, 3, 7, 0, 0, 0, 1, 2, 2]),
    (1, &[0, 8, 2, 2, 7, 0, 0, 0, 1, 3]),
    (1, &[0, 9, 3, 17, 7, 0, 0, 0, 0, 3, 3]),
    (2, &[0, 8, 2, 3, 7, 0, 0, 0, 0, 3]),
    (2, &[0, 13, 4, 3, 7, 0, 0, 0, 16, 0, 0, 0, 1, 3, 3]),
    (10, &[0, 7, 2, 3, 7, 0, 0, 0, 1, 3]),
    (10, &[0, 9, 2, 3, 7, 0, 0, 0, 1, 3, 1]),
];

/// Reads an output in pieces that are random and small, now and then only after a while.
fn slowly(mut output: impl Read, length: usize, random: &mut Random) -> Outcome<Vec<u8>> {
    let mut piece = vec![0; longest_piece(length, random)];
    let mut whole = Vec::new();
    if random.one_in(30) {
        thread::sleep(Duration::from_millis(2));
    }
    loop {
        let room = 1 + random.below(piece.len());
        let read = output.read(&mut piece[..room]);
        match read.map_err(|error| format!("the program's output: {error}"))? {
            0 => return Ok(whole),
            count => whole.extend(&piece[..count]),
        }
        now_and_then_wait(random);
    }
}

fn as_text(bytes: Vec<u8>) -> Outcome<String> {
    String::from_utf8(bytes).map_err(|error| format!("the list is no text: {error}"))
}

/// What the program writes.
fn repair(image: &[u8], random: &mut Random) -> Outcome<Repaired> {
    let [mut feeds, mut reads, mut lists] = [(); 3].map(|()| Random::new(random.next()));
    let ((), found, list) = program::repaired(
        |input| images::in_pieces(image, input, &mut feeds),
        |output| slowly(output, image.len(), &mut reads),
        |error| slowly(error, image.len() / 100, &mut lists),
    )?;
    Ok(Repaired {
        image: found,
        list: as_text(list)?,
    })
}

/// What the report program writes.
fn report_on(image: &[u8]) -> Outcome<String> {
    let ((), text) = program::piped(|input| input.write(image), program::text)?;
    Ok(text)
}

pub fn same_image(due: &[u8], found: &[u8]) -> Outcome<()> {
    let differs = due.iter().zip(found).position(|(due, found)| due != found);
    match differs {
        Some(place) => Err(format!(
            "byte {place} of the image is {:02X}h, and {:02X}h is due",
            found[place], due[place]
        )),
        None if due.len() == found.len() => Ok(()),
        None => Err(format!(
            "the image has {} bytes, and {} are due",
            found.len(),
            due.len()
        )),
    }
}

fn same_repair(due: &Repaired, found: &Repaired) -> Outcome<()> {
    same_report(&due.list, &found.list).map_err(|difference| format!("the list: {difference}"))?;
    same_image(&due.image, &found.image)
}

/// The whole stripes of an image whose header is not refused.
fn stripes(image: &[u8]) -> ChunksExact<'_, u8> {
    let (_, body) = image.split_at(header_length(image));
    body.chunks_exact(usize::from(image[3]) * block())
}

/// How long the header is, as it says itself.
fn header_length(image: &[u8]) -> usize {
    2 + usize::from(image[1])
}

/// How long a block is by every method whose images are repaired.
fn block() -> usize {
    Format::of(1).block()
}

/// The lines that a report has for stripes.
fn stripe_lines(report: &str) -> Vec<&str> {
    let numbered = |line: &&str| line.starts_with(|sign: char| sign.is_ascii_digit());
    report.split_inclusive('\n').filter(numbered).collect()
}

/// The members whose blocks differ.
fn changed(old: &[u8], new: &[u8]) -> Vec<String> {
    let blocks = old.chunks(block()).zip(new.chunks(block()));
    let changed = blocks.enumerate().filter(|(_, (old, new))| old != new);
    changed.map(|(member, _)| member.to_string()).collect()
}

/// One stripe, by its bytes and its report's line before and after: what the list has of it.
fn listed(old: &[u8], new: &[u8], before: &str, after: &str) -> Outcome<String> {
    let words: Vec<&str> = before.split_whitespace().collect();
    let changed = changed(old, new);
    if changed.is_empty() {
        known(before, after)?;
        return match words[..] {
            [_, "CLEAN"] => Ok(String::new()),
            [stripe, "BAD", ..] => Ok(format!("{stripe} LOST\n")),
            _ => Ok(String::from(before)),
        };
    }
    match words[..] {
        [stripe, "BAD", member, "1", _] => {
            known(vec![String::from(member)], changed)?;
            known(format!("{stripe} CLEAN\n").as_str(), after)?;
            Ok(String::new())
        }
        _ => Err(format!(
            "the stripe of the line {before:?} has other bytes now"
        )),
    }
}

/// What is so of every repair, by the reports on the image and on what was written for it: the header is the same; a stripe that changed did so in its one
/// bad member and is clean now; and the list has the stripes that stay and are not clean, and no other.
fn agrees_with_reports(image: &[u8], found: &Repaired) -> Outcome<()> {
    let [before, after] = [image, &found.image].map(report_on);
    let (before, after) = (before?, after?);
    let header = header_length(image);
    known(Some(&image[..header]), found.image.get(..header))?;
    let [old, new] = [image, &found.image].map(stripes);
    known(0, new.remainder().len())?;
    let lines = [&before, &after].map(|report| stripe_lines(report));
    known([new.len(); 2], [lines[0].len(), lines[1].len()])?;
    let mut due = String::new();
    for (stripe, (old, new)) in old.zip(new).enumerate() {
        due += &listed(old, new, lines[0][stripe], lines[1][stripe])?;
    }
    if let Some(refused) = before.lines().find(|line| line.starts_with("REFUSED")) {
        due += &format!("{refused}\n");
    }
    same_report(&due, &found.list).map_err(|difference| format!("by the reports: {difference}"))
}

/// What became of a stripe, for the tally.
fn fate(array: &Array, stripe: u64, bytes: &[u8]) -> &'static str {
    match (
        repair::mend(array, stripe, bytes),
        stripe::scrub(array, stripe, bytes),
    ) {
        (Mended::Clean, _) => "clean",
        (Mended::Rebuilt(_), _) => "rebuilt",
        (Mended::Listed(_), Ok(Verdict::Torn { place: 512 })) => "512",
        (Mended::Listed(_), Ok(Verdict::Torn { .. })) => "torn",
        (Mended::Listed(_), Ok(Verdict::Unchecked { .. })) => "unchecked",
        (Mended::Listed(_), Ok(Verdict::Bad { count: 1, .. })) => {
            let mark = array.format().mark();
            let mut blocks = bytes.chunks(block());
            match blocks.any(|block| block[mark.clone()] == UNCHECKED) {
                true => "marked",
                false => "refused",
            }
        }
        (Mended::Listed(_), _) => "several",
    }
}

/// How many images were compared, and what became of their stripes.
#[derive(Default)]
struct Repairs {
    images: u64,
    twice: u64,
    tally: Tally,
}

impl Repairs {
    fn repair(&mut self, image: &[u8], random: &mut Random) -> Outcome<()> {
        let due = repair::repair(image);
        let found = repair(image, random)?;
        same_repair(&due, &found)?;
        self.images += 1;
        let last = found.list.lines().last().unwrap_or("");
        let refused = last.strip_prefix("REFUSED ");
        if let Some(number) = refused {
            let number = number.parse().expect("the model's own number");
            self.tally.add("images", tally::refused(number));
        }
        if refused.is_some_and(|number| number != "11") {
            return known(0, found.image.len());
        }
        if refused.is_none() || random.one_in(4) {
            agrees_with_reports(image, &found)?;
        }
        if refused.is_none() {
            let again = repair(&found.image, random)?;
            same_repair(&found, &again).map_err(|difference| format!("again: {difference}"))?;
            self.twice += 1;
        }
        Ok(())
    }

    /// Counts what becomes of the stripes of an array, in an image that is whole.
    fn count(&mut self, array: &Array, image: &[u8]) {
        for (stripe, bytes) in (0..).zip(stripes(image)) {
            let fate = fate(array, stripe, bytes);
            self.tally.add_by(array.method, "stripes", fate);
        }
    }

    /// An image of which it is known what becomes of it.
    fn foreseen(
        &mut self,
        what: &str,
        image: &[u8],
        due: &Repaired,
        random: &mut Random,
    ) -> Outcome<()> {
        same_repair(due, &repair::repair(image))
            .map_err(|difference| format!("the model: {difference}"))
            .map_err(|difference| of_image(what, image, difference))?;
        self.compare(what, image, random)
    }
}

impl Judge for Repairs {
    fn compare(&mut self, what: &str, image: &[u8], random: &mut Random) -> Outcome<()> {
        self.repair(image, random)
            .map_err(|difference| of_image(what, image, difference))
    }
}

/// A refusal without an image.
fn refused(number: u32) -> Repaired {
    Repaired {
        image: Vec::new(),
        list: format!("REFUSED {number}\n"),
    }
}

/// Headers that are refused, alone and with bytes behind them, and one of method 3 that is cut: 10 goes before 12.
fn refused_headers(repairs: &mut Repairs, random: &mut Random) -> Outcome<()> {
    for (number, header) in REFUSED {
        for length in [0, 1, 3 * 520, 3 * 4_112] {
            let image = [header, &random.bytes(length)].concat();
            repairs.foreseen("refused header", &image, &refused(number), random)?;
        }
    }
    let large = [0, 13, 4, 5, 7, 0, 0, 0, 0, 0, 0, 0, 1, 3, 1];
    for cut in 0..large.len() {
        repairs.foreseen("cut header", &large[..cut], &refused(10), random)?;
    }
    Ok(())
}

/// Every method, and every row length by methods 1 and 3, before a stripe sealed by the first method: by the second it is not clean.
fn every_number(repairs: &mut Repairs, random: &mut Random) -> Outcome<()> {
    for number in 0..=u8::MAX {
        let methods = (
            [0, 8, 2, 3, 7, 0, 0, 0, 1, number].to_vec(),
            match number {
                1 => Ok(""),
                2 => Ok("0 LOST\n"),
                _ => Err(12),
            },
        );
        let rows = (
            [0, 9, 3, 3, 7, 0, 0, 0, 1, 1, number].to_vec(),
            match number {
                1 => Ok(""),
                _ => Err(13),
            },
        );
        let large = ([0, 9, 3, 3, 7, 0, 0, 0, 1, 3, number].to_vec(), Err(12));
        for (header, due) in [methods, rows, large] {
            let image = [header, outlined()].concat();
            let due = match due {
                Ok(list) => Repaired {
                    image: image.clone(),
                    list: String::from(list),
                },
                Err(number) => refused(number),
            };
            repairs.foreseen("every number", &image, &due, random)?;
        }
    }
    Ok(())
}

/// The stripe that the outline has sealed: three members, volume 7, data zero but for the last bytes 01 and 02.
fn outlined() -> Vec<u8> {
    let ends: [[u8; 9]; 3] = [
        [0x03, 0x17, 0x6E, 0x80, 0x07, 0, 0, 0, 0],
        [0x01, 0x8B, 0xB7, 0x00, 0x07, 0, 0, 0, 0],
        [0x02, 0x9C, 0xD9, 0x00, 0x07, 0, 0, 0, 1],
    ];
    ends.iter()
        .flat_map(|end| [&[0; 511][..], end].concat())
        .collect()
}

/// The outline's stripe with one byte of it changed, each in turn; it is as it was after the repair.
fn outline(repairs: &mut Repairs, random: &mut Random) -> Outcome<()> {
    let header = [0x00, 0x07, 0x01, 0x03, 0x07, 0x00, 0x00, 0x00, 0x01];
    let due = Repaired {
        image: [&header[..], &outlined()].concat(),
        list: String::new(),
    };
    let places = (0..3).flat_map(|member| {
        [0, 1, 255, 510, 511, 512, 513, 514, 515, 516, 519].map(|place| 520 * member + place)
    });
    for place in places {
        let mut image = due.image.clone();
        image[header.len() + place] ^= 1;
        repairs.foreseen("the outline's stripe", &image, &due, random)?;
    }
    Ok(())
}

/// What becomes of a stripe is known from how it was made: its bytes before and after, and its line in the list, which may be none.
struct Fate {
    old: Vec<u8>,
    new: Vec<u8>,
    line: String,
}

impl Fate {
    /// It stays as it is.
    fn stays(case: Case, line: String) -> Self {
        Fate {
            old: case.bytes.clone(),
            new: case.bytes,
            line,
        }
    }

    fn lost(case: Case) -> Self {
        let line = format!("{} LOST\n", case.stripe);
        Fate::stays(case, line)
    }

    /// It is what it was before one member became bad.
    fn comes_back(mut case: Case, member: usize, random: &mut Random) -> Self {
        let new = case.bytes.clone();
        make_bad(&mut case, member, random);
        Fate {
            old: case.bytes,
            new,
            line: String::new(),
        }
    }
}

/// A good member made bad: some fields, or every byte of the block.
fn make_bad(case: &mut Case, member: usize, random: &mut Random) {
    let fits = case.any_wrong(member, random);
    case.spoil_fields(member, fits, random);
    if random.one_in(4) {
        // Of no kind and not the mark, so that the block stays bad.
        let mark = case.format().mark().start;
        random.fill(case.block(member));
        case.block(member)[mark] = 0x55;
    }
}

/// Members of a stripe that differ, so many of them.
fn some_members(array: &Array, count: usize, random: &mut Random) -> Vec<usize> {
    let mut members: Vec<usize> = (0..array.members).collect();
    for place in 0..count {
        let other = place + random.below(members.len() - place);
        members.swap(place, other);
    }
    members.truncate(count);
    members
}

/// A data member, other than `but`.
fn data_member(case: &Case, but: Option<usize>, random: &mut Random) -> usize {
    let parity = case.array.parity_member(case.stripe);
    let members =
        (0..case.array.members).filter(|member| ![Some(parity), but].contains(&Some(*member)));
    random.pick(&members.collect::<Vec<_>>())
}

type Making = fn(Case, &mut Random) -> Fate;

/// Ways to make a stripe of which it is known what becomes of it.
const MAKINGS: [Making; 10] = [
    clean,
    one_bad,
    several_bad,
    bad_and_unchecked,
    unchecked,
    torn,
    torn_by_guards,
    parity_of_torn,
    data_of_torn,
    data_beside_guard,
];

fn clean(case: Case, _: &mut Random) -> Fate {
    Fate::stays(case, String::new())
}

fn one_bad(case: Case, random: &mut Random) -> Fate {
    let member = random.below(case.array.members);
    Fate::comes_back(case, member, random)
}

fn several_bad(mut case: Case, random: &mut Random) -> Fate {
    let count = random.between(2, case.array.members as u64) as usize;
    for member in some_members(&case.array, count, random) {
        make_bad(&mut case, member, random);
    }
    Fate::lost(case)
}

fn bad_and_unchecked(mut case: Case, random: &mut Random) -> Fate {
    let count = random.between(2, case.array.members as u64) as usize;
    let members = some_members(&case.array, count, random);
    make_bad(&mut case, members[0], random);
    for member in &members[1..] {
        case.mark(*member, random);
    }
    Fate::lost(case)
}

fn unchecked(mut case: Case, random: &mut Random) -> Fate {
    let count = random.between(1, case.array.members as u64) as usize;
    let members = some_members(&case.array, count, random);
    for member in &members {
        case.mark(*member, random);
    }
    let member = *members.iter().min().expect("at least one");
    let line = line(case.stripe, Verdict::Unchecked { member, count });
    Fate::stays(case, line)
}

fn torn(mut case: Case, random: &mut Random) -> Fate {
    let member = random.below(case.array.members);
    let place = cases::any_place(&case.format(), random);
    let verdict = case.tear(member, place, random);
    let line = line(case.stripe, verdict);
    Fate::stays(case, line)
}

/// Only method 2 has stripes that are torn by their guards alone; by method 1 the parity is bad then.
fn torn_by_guards(mut case: Case, random: &mut Random) -> Fate {
    let sealed = case.bytes.clone();
    let verdict = case.tear_guards(random);
    match case.array.method {
        2 => {
            let line = line(case.stripe, verdict);
            Fate::stays(case, line)
        }
        _ => Fate {
            old: case.bytes,
            new: sealed,
            line: String::new(),
        },
    }
}

/// The parity made again, over the data as they are.
fn parity_of_torn(mut case: Case, random: &mut Random) -> Fate {
    let member = data_member(&case, None, random);
    let place = cases::any_place(&case.format(), random);
    case.tear(member, place, random);
    let parity = case.array.parity_member(case.stripe);
    let data = (0..case.array.members)
        .filter(|member| *member != parity)
        .flat_map(|member| case.data_of(member).to_vec());
    let again = Case::over(case.array, case.stripe, data.collect());
    let mut fate = Fate::comes_back(case, parity, random);
    fate.new = again.bytes;
    fate
}

/// A block of data made again from a stripe that is torn: by method 1 a wrong one that fits, by method 2 none if the guards tell.
fn data_of_torn(mut case: Case, random: &mut Random) -> Fate {
    let member = data_member(&case, None, random);
    let other = data_member(&case, Some(member), random);
    let stored = case.stored_guard(member);
    let written = case.stored_guard(other);
    let place = cases::any_place(&case.format(), random);
    let before = case.data_of(other).to_vec();
    case.tear(other, place, random);
    let differences = [&before[..], case.data_of(other), case.data_of(member)];
    let wrong = stripe::combine(&case.format(), differences.into_iter());
    let guard = stripe::guard_of(&case.array, &wrong);
    let told = stored ^ written ^ case.stored_guard(other);
    let Case { array, stripe, .. } = case;
    if array.method == 2 && told != guard {
        make_bad(&mut case, member, random);
        return Fate::lost(case);
    }
    let span = case.format().span(member);
    let mut fate = Fate::comes_back(case, member, random);
    fate.new[span].copy_from_slice(&stripe::tagged(&array, stripe, member, &wrong, guard));
    fate
}

/// By method 2 the guards do not fit then; by method 1 the parity is bad too.
fn data_beside_guard(mut case: Case, random: &mut Random) -> Fate {
    case.tear_guards(random);
    let member = data_member(&case, None, random);
    make_bad(&mut case, member, random);
    Fate::lost(case)
}

/// Images of every number of members and every row length, in which it is known what becomes of each stripe.
fn known_fates(repairs: &mut Repairs, random: &mut Random) -> Outcome<()> {
    for members in 3..=16 {
        for method in METHODS {
            let row = ROWS[(members + usize::from(method)) % ROWS.len()];
            let array = Array {
                members,
                stripes: u64::from(row).max(64),
                volume: cases::any_volume(random),
                method,
                row,
            };
            let mut image = images::any_version(&array, random);
            let mut due = Repaired {
                image: image.clone(),
                list: String::new(),
            };
            for stripe in 0..array.stripes {
                let case = Case::sealed(array, stripe, random);
                let fate = random.pick(&MAKINGS)(case, random);
                image.extend(fate.old);
                due.image.extend(fate.new);
                due.list += &fate.line;
            }
            repairs.count(&array, &image);
            repairs.foreseen("known fates", &image, &due, random)?;
        }
    }
    Ok(())
}

/// A list that is much longer than a pipe, of an image that is too; and nobody reads either before the program waits for that.
fn long_list(random: &mut Random) -> Outcome<()> {
    let array = Array {
        members: 3,
        stripes: LISTED,
        volume: 7,
        method: 1,
        row: 1,
    };
    let mut image = report::header(&array);
    let mut list = String::new();
    for stripe in 0..array.stripes {
        let mut case = Case::over(array, stripe, vec![stripe as u8; 1_024]);
        case.mark(2, random);
        list += &line(
            stripe,
            Verdict::Unchecked {
                member: 2,
                count: 1,
            },
        );
        image.extend(case.bytes);
    }
    let late = |output: &mut dyn Read| {
        thread::sleep(Duration::from_millis(100));
        let mut bytes = Vec::new();
        let read = output.read_to_end(&mut bytes);
        read.map(|_| bytes)
            .map_err(|error| format!("the program's output: {error}"))
    };
    let ((), found, told) = program::repaired(
        |input| input.write(&image),
        |mut output| late(&mut output),
        |mut error| late(&mut error),
    )?;
    let due = Repaired { image, list };
    let found = Repaired {
        image: found,
        list: as_text(told)?,
    };
    same_repair(&due, &found).map_err(|difference| format!("a long list: {difference}"))
}

pub fn compare(random: &mut Random) -> Outcome<String> {
    let mut repairs = Repairs::default();
    repairs.foreseen("empty", &[], &refused(10), random)?;
    outline(&mut repairs, random)?;
    images::refused_headers(&mut repairs, random)?;
    refused_headers(&mut repairs, random)?;
    every_number(&mut repairs, random)?;
    known_fates(&mut repairs, random)?;
    long_list(random)?;
    images::each(&mut repairs, &METHODS, (HEADERS, IMAGES), random)?;
    let fates = "clean rebuilt several marked unchecked torn";
    repairs.tally.of_some(&[2], "stripes", "refused 512")?;
    Ok(format!(
        "{} alike, through pipes in small pieces, {} of them twice over; known beforehand: {}; refused: {}",
        repairs.images,
        repairs.twice,
        repairs.tally.of_some(&METHODS, "stripes", fates)?,
        repairs.tally.of("images", "1 2 10 11 12 13")?,
    ))
}
