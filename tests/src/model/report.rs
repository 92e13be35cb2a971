//! An image and the report on it: a header, then the stripes one after the other.

use super::Answer;
use super::format::number;
use super::layout::Array;
use super::stripe::{self, Fits, Verdict};

/// The header of an image, of the first version that says enough.
pub fn header(array: &Array) -> Vec<u8> {
    header_of(first_version(array), array)
}

/// The first version that can say an array's numbers.
pub fn first_version(array: &Array) -> u8 {
    match (array.stripes, array.method, array.row) {
        (0x1_0000_0000.., _, _) => 4,
        (_, 1, 1) => 1,
        (_, _, 1) => 2,
        _ => 3,
    }
}

/// The header of an image: how many bytes follow in it, the version, and the array's numbers, of which the first version leaves out the method,
/// and the first two the row length. The fourth has eight bytes for the stripes.
pub fn header_of(version: u8, array: &Array) -> Vec<u8> {
    let members = u8::try_from(array.members).expect("a header has one byte for the members");
    let mut rest = vec![version, members, array.volume];
    if version >= 4 {
        rest.extend(array.stripes.to_be_bytes());
    } else {
        let stripes = u32::try_from(array.stripes).expect("it has four bytes for the stripes");
        rest.extend(stripes.to_be_bytes());
    }
    if version >= 2 {
        rest.push(array.method);
    }
    if version >= 3 {
        rest.push(array.row);
    }
    let length = rest.len() as u16;
    [&length.to_be_bytes()[..], &rest].concat()
}

/// The array that the header of an image speaks of, whatever its numbers are, and what follows the header.
pub(super) fn opened(image: &[u8]) -> Answer<(Array, &[u8])> {
    let following = match *image {
        [0, length @ 7..=9, version @ 1..=3, ..] if length == version + 6 => length.into(),
        [0, 13, 4, ..] => 13,
        _ => return Err(10),
    };
    let Some((header, body)) = image.split_at_checked(2 + following) else {
        return Err(10);
    };
    let stripes = if header[2] < 4 { 5..9 } else { 5..13 };
    let more = &header[stripes.end..];
    let array = Array {
        members: usize::from(header[3]),
        stripes: number(&header[stripes]),
        volume: header[4],
        method: more.first().copied().unwrap_or(1),
        row: more.get(1).copied().unwrap_or(1),
    };
    Ok((array, body))
}

/// The lines of a report, in the order in which the stripes come.
pub struct Report {
    array: Array,
    clean: u64,
    bad: u64,
    unchecked: u64,
    torn: u64,
}

impl Report {
    /// The report on an array that fits.
    pub fn open(array: Array) -> Self {
        Report {
            array,
            clean: 0,
            bad: 0,
            unchecked: 0,
            torn: 0,
        }
    }

    pub fn first_line(&self) -> String {
        let Array {
            members, stripes, ..
        } = self.array;
        format!("SCRUB v1 members {members} stripes {stripes}\n")
    }

    /// The line of the next stripe.
    pub fn stripe_line(&mut self, bytes: &[u8]) -> String {
        let stripe = self.clean + self.bad + self.unchecked + self.torn;
        let verdict = stripe::scrub(&self.array, stripe, bytes).expect("a whole stripe");
        match verdict {
            Verdict::Clean => self.clean += 1,
            Verdict::Bad { .. } => self.bad += 1,
            Verdict::Unchecked { .. } => self.unchecked += 1,
            Verdict::Torn { .. } => self.torn += 1,
        }
        line(stripe, verdict)
    }

    pub fn total_line(&self) -> String {
        let Report {
            array,
            clean,
            bad,
            unchecked,
            torn,
        } = self;
        let stripes = array.stripes;
        format!("TOTAL {stripes} clean {clean} bad {bad} unchecked {unchecked} torn {torn}\n")
    }
}

/// The line of a stripe.
pub fn line(stripe: u64, verdict: Verdict) -> String {
    match verdict {
        Verdict::Clean => format!("{stripe} CLEAN\n"),
        Verdict::Bad {
            member,
            count,
            fits,
        } => format!("{stripe} BAD {member} {count} {}\n", letters(fits)),
        Verdict::Unchecked { member, count } => format!("{stripe} UNCHECKED {member} {count}\n"),
        Verdict::Torn { place } => format!("{stripe} TORN {place}\n"),
    }
}

/// A letter for each field, and a dash for one that fits.
pub fn letters(fits: Fits) -> String {
    let fields = [
        ('G', fits.guard),
        ('A', fits.application),
        ('R', fits.reference),
    ];
    fields
        .map(|(letter, fits)| if fits { '-' } else { letter })
        .iter()
        .collect()
}

pub fn refused_line(number: u32) -> String {
    format!("REFUSED {number}\n")
}

/// The whole report on an image.
pub fn report(image: &[u8]) -> String {
    let fit = |(array, body): (Array, _)| array.fits().map(|()| (array, body));
    let (array, body) = match opened(image).and_then(fit) {
        Ok(opened) => opened,
        Err(number) => return refused_line(number),
    };
    let length = array.stripe_length();
    let due = array.stripes as usize * length;
    let mut report = Report::open(array);
    let mut text = report.first_line();
    for stripe in body[..body.len().min(due)].chunks_exact(length) {
        text += &report.stripe_line(stripe);
    }
    text + &if body.len() == due {
        report.total_line()
    } else {
        refused_line(11)
    }
}
