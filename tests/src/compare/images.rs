//! The report program on images of every kind, through a pipe in small writes.

use super::cases::{self, Case};
use super::standing::{self, Standing};
use super::{Outcome, Tally, VERDICTS, faults_name, known, tally};
use crate::program::{self, Input};
use crate::random::Random;
use model::format::Format;
use model::layout::{Array, MOST_STRIPES};
use model::report;
use model::stripe::{self, Fits, Verdict};
use std::ops::Range;
use std::thread;
use std::time::Duration;

/// The numbers of members that each kind of image is made for.
const MEMBERS: [usize; 3] = [3, 5, 16];
/// How many images have a random header, and how many random stripes.
const HEADERS: usize = 800;
const IMAGES: usize = 1_500;
/// How many stripes an image of torn ones has.
const TORN: usize = 512;

/// The versions of a header are 1 to this one.
const LAST_VERSION: u8 = 4;

/// Places in a block: the ends of the data, and each byte of the tag.
fn places(format: &Format) -> Vec<usize> {
    [0, 1]
        .into_iter()
        .chain(format.data - 1..format.block())
        .collect()
}

/// Headers and the numbers of their refusals: where several numbers fit, 10 goes first, then 1, 2, 12 and 13.
#[rustfmt::skip]
const REFUSED: [(u32, &[u8]); 87] = [
    (10, &[0, 6, 1, 3, 7, 0, 0, 0, 1]),
    (10, &[0, 8, 1, 3, 7, 0, 0, 0, 1]),
    (10, &[1, 7, 1, 3, 7, 0, 0, 0, 1]),
    (10, &[7, 0, 1, 3, 7, 0, 0, 0, 1]),
    (10, &[0, 9, 1, 3, 7, 0, 0, 0, 1]),
    (10, &[0, 7, 0, 3, 7, 0, 0, 0, 1]),
    (10, &[0, 7, 2, 3, 7, 0, 0, 0, 1]),
    (10, &[0, 7, 3, 3, 7, 0, 0, 0, 1]),
    (10, &[0, 7, 255, 3, 7, 0, 0, 0, 1]),
    (10, &[0, 8, 1, 2, 7, 0, 0, 0, 0]),
    (10, &[0, 7, 2, 17, 7, 255, 255, 255, 255]),
    (10, &[0, 8, 1, 3, 7, 0, 0, 0, 1, 1]),
    (10, &[0, 7, 2, 3, 7, 0, 0, 0, 1, 2]),
    (10, &[0, 8, 0, 3, 7, 0, 0, 0, 1, 2]),
    (10, &[0, 8, 3, 3, 7, 0, 0, 0, 1, 2]),
    (10, &[0, 8, 255, 3, 7, 0, 0, 0, 1, 2]),
    (10, &[1, 8, 2, 3, 7, 0, 0, 0, 1, 2]),
    (10, &[8, 0, 2, 3, 7, 0, 0, 0, 1, 2]),
    (10, &[0, 9, 2, 3, 7, 0, 0, 0, 1, 2]),
    (10, &[0, 9, 2, 3, 7, 0, 0, 0, 1, 2, 1]),
    (10, &[0, 8, 3, 3, 7, 0, 0, 0, 1, 2, 1]),
    (10, &[0, 10, 3, 3, 7, 0, 0, 0, 1, 2, 1]),
    (10, &[9, 0, 3, 3, 7, 0, 0, 0, 1, 2, 1]),
    (10, &[1, 9, 3, 3, 7, 0, 0, 0, 1, 2, 1]),
    (10, &[0, 9, 4, 3, 7, 0, 0, 0, 1, 2, 1]),
    (10, &[0, 9, 1, 3, 7, 0, 0, 0, 1, 1, 1]),
    (10, &[0, 9, 0, 2, 7, 0, 0, 0, 0, 0, 0]),
    (10, &[0, 12, 4, 3, 7, 0, 0, 0, 0, 0, 0, 0, 1, 1, 1]),
    (10, &[0, 14, 4, 3, 7, 0, 0, 0, 0, 0, 0, 0, 1, 1, 1]),
    (10, &[13, 0, 4, 3, 7, 0, 0, 0, 0, 0, 0, 0, 1, 1, 1]),
    (10, &[1, 13, 4, 3, 7, 0, 0, 0, 0, 0, 0, 0, 1, 1, 1]),
    (10, &[0, 10, 4, 3, 7, 0, 0, 0, 1, 1, 1, 1]),
    (10, &[0, 13, 3, 3, 7, 0, 0, 0, 0, 0, 0, 0, 1, 1, 1]),
    (10, &[0, 13, 5, 2, 7, 0, 0, 0, 0, 0, 0, 0, 1, 1, 1]),
    (10, &[0, 9, 2, 2, 7, 0, 0, 0, 0, 3]),
    (10, &[0, 10, 2, 3, 7, 0, 0, 0, 1, 2]),
    (1, &[0, 7, 1, 0, 7, 0, 0, 0, 1]),
    (1, &[0, 7, 1, 1, 7, 0, 0, 0, 1]),
    (1, &[0, 7, 1, 2, 7, 0, 0, 0, 1]),
    (1, &[0, 7, 1, 17, 7, 0, 0, 0, 1]),
    (1, &[0, 7, 1, 131, 7, 0, 0, 0, 1]),
    (1, &[0, 7, 1, 255, 7, 0, 0, 0, 1]),
    (1, &[0, 7, 1, 2, 7, 0, 0, 0, 0]),
    (1, &[0, 7, 1, 17, 7, 16, 0, 0, 1]),
    (1, &[0, 13, 4, 2, 7, 0, 0, 0, 16, 0, 0, 0, 1, 4, 3]),
    (1, &[0, 8, 2, 2, 7, 0, 0, 0, 1, 1]),
    (1, &[0, 8, 2, 17, 7, 0, 0, 0, 1, 2]),
    (1, &[0, 8, 2, 2, 7, 0, 0, 0, 1, 3]),
    (1, &[0, 8, 2, 2, 7, 0, 0, 0, 1, 4]),
    (1, &[0, 8, 2, 17, 7, 0, 0, 0, 0, 0]),
    (1, &[0, 9, 3, 2, 7, 0, 0, 0, 1, 1, 1]),
    (1, &[0, 9, 3, 17, 7, 0, 0, 0, 0, 4, 3]),
    (2, &[0, 7, 1, 3, 7, 0, 0, 0, 0]),
    (2, &[0, 13, 4, 3, 7, 0, 0, 0, 0, 0, 0, 0, 0, 1, 1]),
    (2, &[0, 13, 4, 3, 7, 0, 0, 0, 16, 0, 0, 0, 1, 1, 1]),
    (2, &[0, 13, 4, 16, 7, 0, 0, 1, 0, 0, 0, 0, 1, 1, 1]),
    (2, &[0, 13, 4, 16, 7, 128, 0, 0, 0, 0, 0, 0, 1, 4, 3]),
    (2, &[0, 13, 4, 5, 7, 255, 255, 255, 255, 255, 255, 255, 255, 1, 1]),
    (2, &[0, 8, 2, 3, 7, 0, 0, 0, 0, 2]),
    (2, &[0, 8, 2, 3, 7, 0, 0, 0, 0, 0]),
    (2, &[0, 8, 2, 16, 7, 0, 0, 0, 0, 255]),
    (2, &[0, 9, 3, 3, 7, 0, 0, 0, 0, 1, 1]),
    (2, &[0, 9, 3, 3, 7, 0, 0, 0, 0, 4, 3]),
    (12, &[0, 13, 4, 3, 7, 0, 0, 0, 16, 0, 0, 0, 0, 0, 3]),
    (12, &[0, 13, 4, 3, 7, 0, 0, 0, 0, 0, 0, 0, 1, 4, 1]),
    (12, &[0, 8, 2, 3, 7, 0, 0, 0, 1, 0]),
    (12, &[0, 8, 2, 3, 7, 0, 0, 0, 1, 4]),
    (12, &[0, 8, 2, 5, 7, 0, 0, 0, 6, 4]),
    (12, &[0, 8, 2, 16, 7, 16, 0, 0, 0, 129]),
    (12, &[0, 8, 2, 16, 7, 0, 0, 0, 1, 130]),
    (12, &[0, 8, 2, 16, 7, 0, 0, 0, 1, 131]),
    (12, &[0, 8, 2, 3, 0, 0, 0, 0, 1, 254]),
    (12, &[0, 8, 2, 3, 255, 0, 0, 0, 1, 255]),
    (12, &[0, 9, 3, 3, 7, 0, 0, 0, 1, 0, 1]),
    (12, &[0, 9, 3, 3, 7, 0, 0, 0, 1, 4, 3]),
    (12, &[0, 9, 3, 3, 7, 0, 0, 0, 1, 255, 2]),
    (13, &[0, 9, 3, 3, 7, 0, 0, 0, 1, 1, 0]),
    (13, &[0, 9, 3, 3, 7, 0, 0, 0, 1, 1, 2]),
    (13, &[0, 9, 3, 3, 7, 0, 0, 0, 3, 2, 3]),
    (13, &[0, 9, 3, 5, 7, 0, 0, 0, 5, 3, 5]),
    (13, &[0, 9, 3, 5, 7, 0, 0, 0, 6, 1, 6]),
    (13, &[0, 9, 3, 5, 7, 0, 0, 0, 6, 1, 4]),
    (13, &[0, 9, 3, 16, 7, 0, 0, 1, 192, 1, 128]),
    (13, &[0, 9, 3, 16, 7, 16, 0, 0, 0, 3, 129]),
    (13, &[0, 9, 3, 16, 7, 0, 0, 0, 255, 3, 255]),
    (13, &[0, 13, 4, 16, 7, 0, 0, 0, 15, 255, 255, 255, 192, 3, 128]),
    (13, &[0, 13, 4, 16, 7, 0, 0, 0, 16, 0, 0, 0, 0, 1, 0]),
];

/// The header of an image, of a version that can say its numbers.
pub fn any_version(array: &Array, random: &mut Random) -> Vec<u8> {
    let first = report::first_version(array);
    let version = random.between(first.into(), LAST_VERSION.into());
    report::header_of(version as u8, array)
}

/// How long a piece of so many bytes may be.
pub fn longest_piece(length: usize, random: &mut Random) -> usize {
    match length {
        0..8_192 => random.pick(&[1, 7, 521, 4_096]),
        _ => random.pick(&[521, 4_096, 4_113, 70_000]),
    }
}

/// Writes an image in pieces that are random and small. Now and then it waits, so that the program reads less than it has room for.
pub fn in_pieces(image: &[u8], input: &mut Input, random: &mut Random) -> Outcome<()> {
    let longest = longest_piece(image.len(), random);
    let mut rest = image;
    while !rest.is_empty() {
        let length = 1 + random.below(longest.min(rest.len()));
        let (piece, later) = rest.split_at(length);
        input.write(piece)?;
        rest = later;
        now_and_then_wait(random);
    }
    Ok(())
}

pub fn now_and_then_wait(random: &mut Random) {
    match random.below(200) {
        0 => thread::sleep(Duration::from_micros(50)),
        1..10 => thread::yield_now(),
        _ => {}
    }
}

/// The letters of a line, as the tally has them.
fn letters_name(letters: &str) -> &'static str {
    let mut names = (1..8).map(|number| faults_name(cases::some_wrong(number)));
    names
        .find(|name| *name == letters)
        .expect("the model's own letters")
}

/// The method that an image's header names, 0 where it names none.
fn method_of(image: &[u8]) -> u8 {
    match image {
        [_, _, 1, ..] => 1,
        [_, _, 2 | 3, _, _, _, _, _, _, method, ..] => *method,
        _ => 0,
    }
}

/// What a line on an image of a method says, for the tally.
fn line_name(method: u8, line: &str) -> &'static str {
    match line.split(' ').collect::<Vec<_>>()[..] {
        ["SCRUB", ..] => "scrub",
        ["TOTAL", ..] => "total",
        ["REFUSED", number] => tally::refused(number.parse().expect("the model's own number")),
        [_, "CLEAN"] => "clean",
        [_, "BAD", _, _, letters] => letters_name(letters),
        [_, "UNCHECKED", ..] => "unchecked",
        [_, "TORN", "512"] if method == 2 => "512",
        [_, "TORN", _] => "torn",
        _ => panic!("the model wrote the line {line}"),
    }
}

/// The report that is due is the one that was found, to the byte.
pub fn same_report(due: &str, found: &str) -> Outcome<()> {
    if due == found {
        return Ok(());
    }
    let mut lines = found.split_inclusive('\n');
    for (number, line) in due.split_inclusive('\n').enumerate() {
        let found = lines.next().unwrap_or("");
        if found != line {
            return Err(format!("line {number} is {found:?}, and {line:?} is due"));
        }
    }
    Err(format!(
        "{:?} comes after its end",
        lines.collect::<String>()
    ))
}

/// Says which image a difference is of.
pub fn of_image(what: &str, image: &[u8], difference: String) -> String {
    let header = &image[..image.len().min(11)];
    let length = image.len();
    format!("{what}, {length} bytes, header {header:02X?}: {difference}")
}

/// How many images were compared, and what their lines were.
#[derive(Default)]
struct Compared {
    images: u64,
    lines: Tally,
}

impl Judge for Compared {
    fn compare(&mut self, what: &str, image: &[u8], random: &mut Random) -> Outcome<()> {
        let due = report::report(image);
        let compared = program::piped(|input| in_pieces(image, input, random), program::text);
        compared
            .and_then(|((), found)| same_report(&due, &found))
            .map_err(|difference| of_image(what, image, difference))?;
        self.images += 1;
        let method = method_of(image);
        for line in due.lines() {
            let name = line_name(method, line);
            self.lines.add_by(method, "lines", name);
        }
        Ok(())
    }
}

/// Compares a program with its model, an image at a time.
pub trait Judge {
    fn compare(&mut self, what: &str, image: &[u8], random: &mut Random) -> Outcome<()>;

    /// An image whose verdicts are known from the damage that was done.
    fn known(
        &mut self,
        what: &str,
        (members, method, stripes): (usize, u8, usize),
        random: &mut Random,
        mut damage: impl FnMut(&mut Case, &mut Random) -> Verdict,
    ) -> Outcome<()> {
        let array = Array {
            members,
            stripes: stripes as u64,
            volume: cases::any_volume(random),
            method,
            row: cases::row_of(stripes as u64, random),
        };
        let mut image = any_version(&array, random);
        for stripe in 0..array.stripes {
            let mut case = Case::sealed(array, stripe, random);
            let known = damage(&mut case, random);
            let verdict = stripe::scrub(&array, stripe, &case.bytes);
            if verdict != Ok(known) {
                return Err(format!(
                    "{what}: the model has {verdict:?} for {known:?} in stripe {stripe}"
                ));
            }
            image.extend(case.bytes);
        }
        self.compare(what, &image, random)
    }
}

/// The members in one of the ways in which they can stand; now and then one is torn too.
fn stand(case: &mut Case, way: usize, random: &mut Random) -> Verdict {
    let standings = standing::standings(case.array.members, way);
    standing::stand(case, &standings, random.one_in(2), random)
}

/// The members of a set bad or unchecked, and the others good; now and then one of these is torn, which must not show.
fn set_apart(case: &mut Case, kind: Standing, set: u64, random: &mut Random) -> Verdict {
    let standings: Vec<Standing> = (0..case.array.members)
        .map(|member| [Standing::Good, kind][(set >> member & 1) as usize])
        .collect();
    standing::stand(case, &standings, random.one_in(2), random)
}

/// Any of the four verdicts.
fn any_verdict(case: &mut Case, random: &mut Random) -> Verdict {
    let members = case.array.members;
    let set = random.between(1, (1 << members) - 1);
    match random.below(6) {
        5 if case.array.method == 2 => case.tear_guards(random),
        0 => Verdict::Clean,
        1 => set_apart(case, Standing::Bad, set, random),
        2 => set_apart(case, Standing::Unchecked, set, random),
        3 => stand(case, random.below(standing::ways(members)), random),
        _ => {
            let place = cases::any_place(&case.format(), random);
            case.tear(random.below(members), place, random)
        }
    }
}

/// One byte of the stripe changed, another in each: its member is bad, or, where nobody checks the guard that it belongs to, the stripe is torn.
fn one_byte(case: &mut Case, random: &mut Random) -> Verdict {
    let format = case.format();
    let (number, places) = (case.stripe as usize, places(&format));
    let (member, place) = (number / places.len(), places[number % places.len()]);
    case.spoil(member, place, random);
    let guarded = 0..format.guard().end;
    if stripe::is_combined(&case.array, case.stripe, member) && guarded.contains(&place) {
        let place = place.min(format.data);
        return Verdict::Torn { place };
    }
    let fits = Fits {
        guard: !guarded.contains(&place),
        application: !format.application().contains(&place),
        reference: !format.reference().contains(&place),
    };
    Verdict::Bad {
        member,
        count: 1,
        fits,
    }
}

/// Each set of faults that a member can have, one after the other.
fn one_set(case: &mut Case, random: &mut Random) -> Verdict {
    let (member, number) = (case.stripe as usize / 7, case.stripe as usize % 7);
    let fits = cases::some_wrong(1 + number % case.ways_wrong(member));
    case.spoil_fields(member, fits, random);
    Verdict::Bad {
        member,
        count: 1,
        fits,
    }
}

/// Clean, bad, unchecked, torn and mixed images.
fn verdicts(
    members: usize,
    method: u8,
    compared: &mut impl Judge,
    random: &mut Random,
) -> Outcome<()> {
    let of = |stripes| (members, method, stripes);
    compared.known("clean", of(40), random, |_, _| Verdict::Clean)?;
    let format = Format::of(method);
    let bytes = members * places(&format).len();
    compared.known("one bad byte", of(bytes), random, one_byte)?;
    compared.known("each set of faults", of(7 * members), random, one_set)?;
    if members <= 5 {
        let sets = (1 << members) - 1;
        compared.known("each set bad", of(sets), random, |case, random| {
            set_apart(case, Standing::Bad, case.stripe + 1, random)
        })?;
        let ways = standing::ways(members);
        compared.known("each way to stand", of(ways), random, |case, random| {
            stand(case, case.stripe as usize, random)
        })?;
    }
    for (what, kind) in [
        ("some bad", Standing::Bad),
        ("some unchecked", Standing::Unchecked),
    ] {
        compared.known(what, of(100), random, |case, random| {
            set_apart(case, kind, random.between(1, (1 << members) - 1), random)
        })?;
    }
    compared.known("one unchecked", of(members), random, |case, random| {
        set_apart(case, Standing::Unchecked, 1 << case.stripe, random)
    })?;
    let step = format.data / TORN;
    compared.known("torn", of(TORN), random, |case, random| {
        let turn = case.stripe as usize;
        case.tear(random.below(members), step * turn + turn % step, random)
    })?;
    if method == 2 {
        compared.known("torn by guards", of(40), random, |case, random| {
            case.tear_guards(random)
        })?;
    }
    compared.known("mixed", of(100), random, any_verdict)
}

/// An image of some stripes, good and damaged.
fn any_image(array: &Array, random: &mut Random) -> Vec<u8> {
    let mut image = any_version(array, random);
    for stripe in 0..array.stripes {
        image.extend(Case::any(*array, stripe, random).bytes);
    }
    image
}

/// Images that end too early, at every kind of place, or too late.
fn ends(
    members: usize,
    (version, method): (u8, u8),
    compared: &mut impl Judge,
    random: &mut Random,
) -> Outcome<()> {
    let array = Array {
        members,
        stripes: 4,
        volume: random.next() as u8,
        method,
        row: if version >= 3 { 2 } else { 1 },
    };
    let length = array.stripe_length();
    let mut image = report::header_of(version, &array);
    let header = image.len();
    for stripe in 0..array.stripes {
        image.extend(Case::any(array, stripe, random).bytes);
    }
    for cut in 0..=header {
        compared.compare("cut in its header or after it", &image[..cut], random)?;
    }
    for stripe in 0..4 {
        let begin = header + stripe * length;
        let block = array.format().block();
        for more in (0..=array.format().tag())
            .map(|from_end| block - from_end)
            .chain([1, block + 1, length - 1])
        {
            compared.compare("cut in a stripe", &image[..begin + more], random)?;
        }
        let cut = begin + 1 + random.below(length - 1);
        compared.compare("cut in a stripe", &image[..cut], random)?;
    }
    for stripes in [1, 2, 3] {
        let cut = header + stripes * length;
        compared.compare("cut at a stripe's end", &image[..cut], random)?;
    }
    compared.compare("whole", &image, random)?;
    for more in [1, 2, array.format().block(), length, 3 * length] {
        let longer = [&image[..], &random.bytes(more)].concat();
        compared.compare("too long", &longer, random)?;
    }
    Ok(())
}

/// Headers that are refused, alone and with a stripe behind them.
pub fn refused_headers(compared: &mut impl Judge, random: &mut Random) -> Outcome<()> {
    for (number, header) in REFUSED {
        let due = format!("REFUSED {number}\n");
        for length in [0, 1, 3 * 520, 3 * 4_112] {
            let image = [&header[..], &random.bytes(length)].concat();
            same_report(&due, &report::report(&image))
                .map_err(|difference| format!("the model at {header:02X?}: {difference}"))?;
            compared.compare("refused header", &image, random)?;
        }
    }
    Ok(())
}

/// Every version with the length of each that there is, every method, and every row length, before a stripe sealed by one of the methods. What is due is
/// known.
fn every_number(compared: &mut Compared, random: &mut Random) -> Outcome<()> {
    let array = Array {
        stripes: 1,
        row: 1,
        ..any_array(random)
    };
    let stripe = Case::sealed(array, 0, random).bytes;
    let header = |[length, version]: [u8; 2], stripes: u8, rest: &[u8]| {
        let (members, volume) = (array.members as u8, array.volume);
        let first = [0, length, version, members, volume, 0, 0, 0, stripes];
        [&first[..], rest].concat()
    };
    for number in 0..=u8::MAX {
        let versions = [7, 8, 9, 13].map(|length| {
            let refused = match (number, length) {
                (1, 7) => None,
                (2, 8) | (3, 9) | (4, 13) => Some(12),
                _ => Some(10),
            };
            (header([length, number], 1, &[0; 6]), refused)
        });
        let no_method = (!cases::METHODS.contains(&number)).then_some(12);
        let no_row = (!cases::ROWS.contains(&number)).then_some(13);
        let others = [
            (header([8, 2], 1, &[number]), no_method),
            (header([9, 3], 1, &[number, 1]), no_method),
            (header([9, 3], 128, &[array.method, number]), no_row),
            (header([13, 4], 0, &[0, 0, 0, 1, number, 1]), no_method),
            (
                header([13, 4], 0, &[0, 0, 0, 128, array.method, number]),
                no_row,
            ),
            (
                header([13, 4], number, &[0, 0, 0, 0, array.method, 128]),
                (!(1..=16).contains(&number)).then_some(2),
            ),
            (
                header([9, 3], 1, &[array.method, number]),
                (number != 1).then_some(13),
            ),
        ];
        for (header, refused) in versions.into_iter().chain(others) {
            let image = [&header[..], &stripe].concat();
            let reported = report::report(&image);
            match refused {
                Some(refused) => same_report(&format!("REFUSED {refused}\n"), &reported),
                None => known(true, reported.starts_with("SCRUB ")),
            }
            .map_err(|difference| format!("the model at {header:02X?}: {difference}"))?;
            compared.compare("every number", &image, random)?;
        }
    }
    Ok(())
}

/// Where the stripes stand in an image's header.
fn stripes_in(image: &[u8]) -> Range<usize> {
    if image[2] == LAST_VERSION {
        5..13
    } else {
        5..9
    }
}

/// A header in which one or two fields are others; now and then it is cut, or something follows.
fn any_header(compared: &mut impl Judge, random: &mut Random) -> Outcome<()> {
    let mut image = any_version(&any_array(random), random);
    let (header, stripes) = (image.len(), stripes_in(&image));
    for _ in 0..random.between(1, 2) {
        let place = random.pick(&[0, 1, 2, 3, 3, 5, 5, header - 2, header - 1, header - 1]);
        image[place] = random.next() as u8;
    }
    match random.below(24) {
        0..3 => image[stripes.end - 1] = 0,
        3 => image[1] = random.pick(&[7, 8, 9, 13]),
        4 => image[2] = random.pick(&[1, 2, 3, 4]),
        _ => {}
    }
    match random.below(4) {
        0 => image.truncate(random.below(header)),
        1 => {
            let more = random.below(2_000);
            image.extend(random.bytes(more));
        }
        _ => {}
    }
    compared.compare("header", &image, random)
}

fn any_array(random: &mut Random) -> Array {
    let any = random.between(3, 16) as usize;
    let stripes = random.between(1, 8);
    Array {
        members: random.pick(&[3, 5, 16, any]),
        stripes,
        volume: random.next() as u8,
        method: random.pick(&cases::METHODS),
        row: cases::row_of(stripes, random),
    }
}

/// Stripes of all kinds; often the image is whole, else it is cut, goes on, or has another number of stripes in its header.
fn any_stripes(compared: &mut impl Judge, random: &mut Random) -> Outcome<()> {
    let array = any_array(random);
    let mut image = any_image(&array, random);
    match random.below(6) {
        0 => image.truncate(random.below(image.len())),
        1 => {
            let more = 1 + random.below(600);
            image.extend(random.bytes(more));
        }
        2 => {
            let stripes =
                random.pick(&[1, 2, 9, 65_536, 65_537, 268_435_456, 1 << 32, MOST_STRIPES]);
            let places = stripes_in(&image);
            let bytes = stripes.to_be_bytes();
            let low = &bytes[bytes.len() - places.len()..];
            image[places].copy_from_slice(low);
        }
        _ => {}
    }
    compared.compare("random", &image, random)
}

/// Images with stripes of every kind by these methods, whole and cut; so many have a random header, and so many random stripes, by any method.
pub fn each(
    compared: &mut impl Judge,
    methods: &[u8],
    (headers, images): (usize, usize),
    random: &mut Random,
) -> Outcome<()> {
    for members in MEMBERS {
        for method in methods {
            verdicts(members, *method, compared, random)?;
        }
        for said in [
            (1, 1),
            (2, 1),
            (2, 2),
            (2, 3),
            (3, 1),
            (3, 2),
            (3, 3),
            (4, 1),
            (4, 2),
            (4, 3),
        ] {
            if methods.contains(&said.1) {
                ends(members, said, compared, random)?;
            }
        }
    }
    for _ in 0..headers {
        any_header(compared, random)?;
    }
    for _ in 0..images {
        any_stripes(compared, random)?;
    }
    Ok(())
}

pub fn compare(random: &mut Random) -> Outcome<String> {
    let mut compared = Compared::default();
    compared.compare("empty", &[], random)?;
    refused_headers(&mut compared, random)?;
    every_number(&mut compared, random)?;
    each(&mut compared, &cases::METHODS, (HEADERS, IMAGES), random)?;
    compared.lines.of("lines", "512 1 2 10 12 13")?;
    Ok(format!(
        "{} of all versions alike, through a pipe in small writes: {}",
        compared.images,
        compared
            .lines
            .of_each("lines", &format!("{VERDICTS} total 11"))?
    ))
}
