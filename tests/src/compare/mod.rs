//! Comparisons of the library and the programs with the model.

pub mod cases;
pub mod checksum;
pub mod crc32c;
pub mod failed_writes;
pub mod faults;
pub mod guard;
pub mod images;
pub mod intent;
pub mod join;
pub mod kernel;
pub mod large;
pub mod large_repair;
pub mod layout;
pub mod life;
pub mod md;
pub mod patrol;
pub mod repairs;
mod runs;
pub mod scan;
pub mod scrub;
pub mod standing;
pub mod stripe;
pub mod tag;
mod tally;
pub mod torn;
pub mod write_hole;

use crate::library;
use model::Answer;
use model::stripe::{Fits, Verdict};
use std::fmt::Debug;
use tally::Tally;

/// What was compared, or the first difference.
pub type Outcome<T> = Result<T, String>;

/// The two answers are the same.
fn same<T: PartialEq + Debug>(model: T, library: T) -> Outcome<()> {
    if model == library {
        return Ok(());
    }
    Err(format!("the model has {model:?}, the library {library:?}"))
}

/// The answer is the one that is known beforehand.
fn known<T: PartialEq + Debug>(due: T, found: T) -> Outcome<()> {
    if due == found {
        return Ok(());
    }
    Err(format!("due is {due:?}, found {found:?}"))
}

/// Bytes from their hexadecimal digits.
fn bytes_of(digits: &str) -> Outcome<Vec<u8>> {
    let pairs = (0..digits.len()).step_by(2);
    pairs
        .map(|at| digits.get(at..at + 2).unwrap_or(""))
        .map(|pair| u8::from_str_radix(pair, 16).map_err(|error| format!("{pair:?}: {error}")))
        .collect()
}

/// How many named cases were tried, or the first of them that went wrong.
fn all_named(members: usize, tried: &[(&str, Outcome<()>)]) -> Outcome<usize> {
    for (name, outcome) in tried {
        if let Err(difference) = outcome {
            return Err(format!("{name}, {members} members: {difference}"));
        }
    }
    Ok(tried.len())
}

/// The refusal number of an answer: 0 where it is done.
fn refusal<T>(answer: &Answer<T>) -> u32 {
    answer.as_ref().err().copied().unwrap_or(0)
}

fn verdict_numbers(answer: &Answer<Verdict>) -> library::Verdict {
    let (kind, first, count) = match *answer {
        Ok(Verdict::Clean) | Err(_) => (0, 0, 0),
        Ok(Verdict::Bad { member, count, .. }) => (1, member, count),
        Ok(Verdict::Torn { place }) => (2, place, 0),
        Ok(Verdict::Unchecked { member, count }) => (3, member, count),
    };
    let fits = match *answer {
        Ok(Verdict::Bad { fits, .. }) => [fits.guard, fits.application, fits.reference],
        _ => [false; 3],
    };
    let [guard_fits, application_fits, reference_fits] = fits.map(u32::from);
    library::Verdict {
        refusal: refusal(answer),
        kind,
        first: first as u32,
        count: count as u32,
        guard_fits,
        application_fits,
        reference_fits,
    }
}

/// Every verdict of all methods by its name, a bad one for each set of faults. Method 2 has one more, by the name of 512: torn by its guards alone.
const VERDICTS: &str = "clean G-- -A- --R GA- G-R -AR GAR unchecked torn";

/// The wrong fields by their letters, for the tally.
fn faults_name(fits: Fits) -> &'static str {
    match (fits.guard, fits.application, fits.reference) {
        (true, true, true) => "---",
        (true, true, false) => "--R",
        (true, false, true) => "-A-",
        (true, false, false) => "-AR",
        (false, true, true) => "G--",
        (false, true, false) => "G-R",
        (false, false, true) => "GA-",
        (false, false, false) => "GAR",
    }
}

/// The name of a verdict by a method, for the tally.
fn verdict_name(method: u8, answer: &Answer<Verdict>) -> &'static str {
    match answer {
        Ok(Verdict::Clean) => "clean",
        Ok(Verdict::Bad { fits, .. }) => faults_name(*fits),
        Ok(Verdict::Torn { place: 512 }) if method == 2 => "512",
        Ok(Verdict::Torn { .. }) => "torn",
        Ok(Verdict::Unchecked { .. }) => "unchecked",
        Err(number) => tally::refused(*number),
    }
}

/// The name of an answer that is done in one way only.
fn done_name<T>(answer: &Answer<T>) -> &'static str {
    match answer {
        Ok(_) => "done",
        Err(number) => tally::refused(*number),
    }
}
