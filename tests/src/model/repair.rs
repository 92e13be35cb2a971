//! The repair of an image: each stripe rebuilt or left as it is, and a list of those that somebody has to look at.

use super::Answer;
use super::layout::Array;
use super::report::{self, refused_line};
use super::stripe::{self, Checked, Verdict};

/// What is written: the image and the list.
#[derive(Debug, Default, PartialEq)]
pub struct Repaired {
    pub image: Vec<u8>,
    pub list: String,
}

/// What becomes of a stripe.
#[derive(Debug, PartialEq)]
pub enum Mended {
    /// It is clean, and stays.
    Clean,
    /// These are its bytes now.
    Rebuilt(Vec<u8>),
    /// It stays as it is, and this is its line in the list.
    Listed(String),
}

/// The members that are bad, and how many are unchecked.
fn faults(array: &Array, stripe: u64, bytes: &[u8]) -> (Vec<usize>, usize) {
    let (mut bad, mut unchecked) = (Vec::new(), 0);
    for (member, block) in bytes.chunks(array.format().block()).enumerate() {
        match stripe::check(array, stripe, member, block).expect("a block of the array") {
            Checked::Good(_) => {}
            Checked::Bad(_) => bad.push(member),
            Checked::Unchecked => unchecked += 1,
        }
    }
    (bad, unchecked)
}

/// A member is rebuilt if it is the only bad one and none is unchecked. Any other stripe stays: one with a bad member, or whose rebuild is refused, is
/// lost, and one without has the line of the report.
pub fn mend(array: &Array, stripe: u64, bytes: &[u8]) -> Mended {
    let lost = || Mended::Listed(format!("{stripe} LOST\n"));
    match faults(array, stripe, bytes) {
        (bad, _) if bad.is_empty() => match stripe::scrub(array, stripe, bytes) {
            Ok(Verdict::Clean) => Mended::Clean,
            Ok(verdict) => Mended::Listed(report::line(stripe, verdict)),
            Err(number) => panic!("the scrub of a whole stripe gave refusal {number}"),
        },
        (bad, 0) if bad.len() == 1 => match stripe::rebuild(array, stripe, bad[0], bytes) {
            Ok(bytes) => Mended::Rebuilt(bytes),
            Err(_) => lost(),
        },
        _ => lost(),
    }
}

/// The array of an image, and what follows its header. Here method 3 is none.
fn opened(image: &[u8]) -> Answer<(Array, &[u8])> {
    let (array, body) = report::opened(image)?;
    let method = match array.method {
        3 => 0,
        method => method,
    };
    Array { method, ..array }.fits()?;
    Ok((array, body))
}

/// The repair of a whole image. Where it ends too early or goes on, what is written has its whole stripes.
pub fn repair(image: &[u8]) -> Repaired {
    let (array, body) = match opened(image) {
        Ok(opened) => opened,
        Err(number) => {
            return Repaired {
                list: refused_line(number),
                ..Repaired::default()
            };
        }
    };
    let mut repaired = Repaired {
        image: image[..image.len() - body.len()].to_vec(),
        ..Repaired::default()
    };
    let length = array.stripe_length();
    let due = array.stripes as usize * length;
    let stripes = body[..body.len().min(due)].chunks_exact(length);
    for (stripe, bytes) in (0..).zip(stripes) {
        match mend(&array, stripe, bytes) {
            Mended::Clean => repaired.image.extend(bytes),
            Mended::Rebuilt(rebuilt) => repaired.image.extend(rebuilt),
            Mended::Listed(line) => {
                repaired.image.extend(bytes);
                repaired.list += &line;
            }
        }
    }
    if body.len() != due {
        repaired.list += &refused_line(11);
    }
    repaired
}
