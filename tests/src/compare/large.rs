//! The report program on images much larger than its buffers, made while they are fed: nothing is lost at a buffer's edge, and memory stays flat.

use super::Outcome;
use super::cases::{Case, METHODS, ROWS};
use super::images::same_report;
use crate::program::{self, Input};
use crate::random::Random;
use model::layout::Array;
use model::report::{self, Report};
use std::env;
use std::fs::{self, File};
use std::io::{self, BufRead, BufReader, BufWriter, Write};
use std::process::{self, ChildStdout};
use std::sync::mpsc::{self, Receiver, Sender};

/// The shortest length of an image that goes through a pipe, and of one that is read from a file.
const PIPED: usize = 128 << 20;
const FILED: usize = 8 << 20;
/// The program's input buffer is this long.
const BUFFER: usize = 64 << 10;
/// The most memory that the program may hold, and the most that it may hold more at the end than after the first MiB; in KiB.
const MOST: u64 = 4_096;
const GROWTH: u64 = 256;

/// An image, a stripe at a time.
struct Stripes {
    array: Array,
    next: u64,
    random: Random,
}

impl Stripes {
    /// Stripes of three members, so that there are many, in rows of any length; together at least so many bytes.
    fn of(length: usize, method: u8, random: &mut Random) -> Self {
        let mut array = Array {
            members: 3,
            stripes: 1,
            volume: random.next() as u8,
            method,
            row: random.pick(&ROWS),
        };
        let stripes = length.div_ceil(array.stripe_length()) as u64;
        array.stripes = stripes.next_multiple_of(array.row.into());
        Stripes {
            array,
            next: 0,
            random: Random::new(random.next()),
        }
    }
}

impl Iterator for Stripes {
    type Item = Vec<u8>;

    /// A stripe, mostly clean. It is damaged or marked now and then, and where a buffer's edge would lie in it: before the edge, behind it, or on both sides.
    fn next(&mut self) -> Option<Vec<u8>> {
        if self.next == self.array.stripes {
            return None;
        }
        let random = &mut self.random;
        let mut case = Case::sealed(self.array, self.next, random);
        if random.one_in(50) {
            case.damage(random);
        }
        let length = case.bytes.len();
        let begin = report::header(&self.array).len() + self.next as usize * length;
        let edge = begin.next_multiple_of(BUFFER);
        let sides = random.pick(&[&[0, 1][..], &[0], &[1], &[]]);
        for side in sides {
            let place = edge + side - 1;
            if (begin..begin + length).contains(&place) {
                let block = case.format().block();
                let (member, place) = ((place - begin) / block, (place - begin) % block);
                case.spoil(member, place, random);
                match random.below(4) {
                    0 | 1 => case.tag_again(member),
                    2 => case.mark(member, random),
                    _ => {}
                }
            }
        }
        self.next += 1;
        Some(case.bytes)
    }
}

/// Memory that the program has held at the most, in KiB.
struct Peaks {
    early: u64,
    late: u64,
}

/// Writes the image in random large pieces, and tells each line that is due before its stripe is written.
fn feed(
    stripes: Stripes,
    due: Sender<String>,
    input: &mut Input,
    random: &mut Random,
) -> Outcome<Peaks> {
    let tell = |line| {
        due.send(line)
            .map_err(|_| String::from("no line is awaited"))
    };
    let mut report = Report::open(stripes.array);
    let mut waiting = report::header(&stripes.array);
    tell(report.first_line())?;
    let (mut length, mut written, mut early) = (1, 0, None);
    for stripe in stripes {
        tell(report.stripe_line(&stripe))?;
        waiting.extend(stripe);
        if waiting.len() >= length {
            input.write(&waiting[..length])?;
            waiting.drain(..length);
            written += length;
            length = 1 + random.below(3 * BUFFER);
            if early.is_none() && written >= 1 << 20 {
                early = Some(input.peak_memory()?);
            }
        }
    }
    input.write(&waiting)?;
    tell(report.total_line())?;
    Ok(Peaks {
        early: early.expect("more than a MiB"),
        late: input.peak_memory()?,
    })
}

/// Compares line by line, and gives the last.
fn judge(output: ChildStdout, due: Receiver<String>) -> Outcome<String> {
    let mut output = BufReader::new(output);
    let (mut lines, mut last) = (0, String::new());
    loop {
        let mut found = String::new();
        let read = output.read_line(&mut found);
        read.map_err(|error| format!("the program's output: {error}"))?;
        let due = due.recv().unwrap_or_default();
        if due != found {
            return Err(format!("line {lines} is {found:?}, and {due:?} is due"));
        }
        if found.is_empty() {
            return Ok(last);
        }
        lines += 1;
        last = found;
    }
}

fn piped(method: u8, random: &mut Random) -> Outcome<String> {
    let stripes = Stripes::of(PIPED, method, random);
    let array = stripes.array;
    let length = report::header(&array).len() + array.stripes as usize * array.stripe_length();
    let (sender, receiver) = mpsc::channel();
    let (Peaks { early, late }, total) = program::piped(
        |input| feed(stripes, sender, input, random),
        |output| judge(output, receiver),
    )?;
    if late > MOST || late > early + GROWTH {
        return Err(format!(
            "the program held {early} KiB after the first MiB and {late} KiB at the end"
        ));
    }
    Ok(format!(
        "row length {}, {length} bytes through a pipe alike ({}), memory at most {early} KiB after the first MiB and {late} KiB at the end",
        array.row,
        total.trim_end()
    ))
}

/// A new file without a name, that was written by `fill`.
fn unnamed_file(fill: impl FnOnce(&mut dyn Write) -> io::Result<()>) -> io::Result<File> {
    let path = env::temp_dir().join(format!("irumbolai-image-{}", process::id()));
    let mut writer = BufWriter::new(File::create_new(&path)?);
    let filled = fill(&mut writer).and_then(|()| writer.flush());
    let file = File::open(&path);
    fs::remove_file(&path)?;
    filled.and(file)
}

/// From a file every read fills the program's input buffer, so that its edges are those at which the damage lies.
fn filed(method: u8, random: &mut Random) -> Outcome<String> {
    let stripes = Stripes::of(FILED, method, random);
    let mut report = Report::open(stripes.array);
    let mut due = report.first_line();
    let file = unnamed_file(|file| {
        file.write_all(&report::header(&stripes.array))?;
        for stripe in stripes {
            file.write_all(&stripe)?;
            due += &report.stripe_line(&stripe);
        }
        Ok(())
    })
    .map_err(|error| format!("a file for an image: {error}"))?;
    let total = report.total_line();
    due += &total;
    same_report(&due, &program::over_file(file)?)?;
    Ok(format!("from a file too ({})", total.trim_end()))
}

pub fn compare(random: &mut Random) -> Outcome<String> {
    let each = METHODS.map(|method| -> Outcome<String> {
        let (piped, filed) = (piped(method, random)?, filed(method, random)?);
        Ok(format!("method {method}: {piped}; {filed}"))
    });
    Ok(each.into_iter().collect::<Outcome<Vec<_>>>()?.join("; "))
}
