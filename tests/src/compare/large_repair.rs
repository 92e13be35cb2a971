//! The repair program on images much larger than its buffers: nothing is lost at a buffer's edge, and it holds as little memory for a large one as for a
//! small one.

use super::Outcome;
use super::cases::Case;
use super::repairs::{METHODS, same_image};
use crate::program::{self, Input};
use crate::random::Random;
use model::layout::Array;
use model::repair::{self, Mended};
use model::report;
use std::io::{BufRead, BufReader, Read};

/// The shortest lengths of the images.
const SMALL: usize = 16 << 20;
const LARGE: usize = 256 << 20;
/// The stripes that come again and again have together about so many bytes.
const TURN: usize = 1 << 20;
/// The longest piece that is written at once.
const PIECE: usize = 192 << 10;
/// The most memory that the program may hold, and by how much it may differ between the two images, as the system counts only roughly; in KiB.
const MOST: u64 = 4_096;
const SPREAD: u64 = 512;

/// Stripes of a whole number of the parity's rounds. Behind them the same come again, but for their reference tags: those count on, and nothing else
/// depends on where a stripe lies.
struct Turn {
    array: Array,
    stripes: u64,
    old: Vec<u8>,
    new: Vec<u8>,
    /// The stripes that are listed, and what their lines say behind the number.
    lines: Vec<(u64, String)>,
}

impl Turn {
    fn of(members: usize, method: u8, row: u8, random: &mut Random) -> Self {
        let mut array = Array {
            members,
            stripes: u64::from(row),
            volume: random.next() as u8,
            method,
            row,
        };
        let round = members as u64 * u64::from(row);
        let stripes = round * (TURN / array.stripe_length()).div_ceil(round as usize) as u64;
        array.stripes = stripes;
        let mut turn = Turn {
            array,
            stripes,
            old: Vec::new(),
            new: Vec::new(),
            lines: Vec::new(),
        };
        for stripe in 0..stripes {
            let mut case = Case::sealed(array, stripe, random);
            if random.one_in(8) {
                case.damage(random);
            }
            turn.add(stripe, case.bytes);
        }
        turn
    }

    fn add(&mut self, stripe: u64, bytes: Vec<u8>) {
        match repair::mend(&self.array, stripe, &bytes) {
            Mended::Rebuilt(new) => self.new.extend(new),
            Mended::Clean => self.new.extend(&bytes),
            Mended::Listed(line) => {
                let (_, said) = line.split_once(' ').expect("a number and what is said");
                self.lines.push((stripe, String::from(said)));
                self.new.extend(&bytes);
            }
        }
        self.old.extend(bytes);
    }

    /// The array with so many turns.
    fn array(&self, turns: u64) -> Array {
        Array {
            stripes: turns * self.stripes,
            ..self.array
        }
    }

    /// Stripes of the first turn as they come in a later one.
    fn later(&self, turn: u64, stripes: &[u8]) -> Vec<u8> {
        let format = self.array.format();
        let further = (turn * self.stripes * self.array.data_members() as u64) as u32;
        let mut stripes = stripes.to_vec();
        for block in stripes.chunks_mut(format.block()) {
            let reference = &mut block[format.reference()];
            let number = u32::from_be_bytes(reference.try_into().expect("four bytes"));
            reference.copy_from_slice(&number.wrapping_add(further).to_be_bytes());
        }
        stripes
    }

    fn later_lines(&self, turn: u64) -> impl Iterator<Item = String> {
        let lines = self.lines.iter();
        lines.map(move |(stripe, said)| format!("{} {said}", turn * self.stripes + stripe))
    }

    /// The model has the same for a later turn.
    fn holds(&self, turns: u64) -> Outcome<()> {
        let array = self.array(turns);
        let (first, last) = ((turns - 1) * self.stripes, turns - 1);
        let (mut image, mut list) = (Vec::new(), Vec::new());
        let old = self.later(last, &self.old);
        for (stripe, bytes) in (first..).zip(old.chunks(array.stripe_length())) {
            match repair::mend(&array, stripe, bytes) {
                Mended::Rebuilt(new) => image.extend(new),
                Mended::Clean => image.extend(bytes),
                Mended::Listed(line) => {
                    list.push(line);
                    image.extend(bytes);
                }
            }
        }
        same_image(&self.later(last, &self.new), &image)?;
        match self.later_lines(last).eq(list) {
            true => Ok(()),
            false => Err(String::from("the last turn's lines are others")),
        }
    }
}

/// Writes so many turns in random pieces, and gives the most memory that the program held.
fn feed(turn: &Turn, turns: u64, input: &mut Input, random: &mut Random) -> Outcome<u64> {
    let mut waiting = report::header(&turn.array(turns));
    for number in 0..turns {
        waiting.extend(turn.later(number, &turn.old));
        let mut rest = &waiting[..];
        while rest.len() >= PIECE {
            let (piece, later) = rest.split_at(1 + random.below(PIECE));
            input.write(piece)?;
            rest = later;
        }
        waiting = rest.to_vec();
    }
    input.write(&waiting)?;
    input.peak_memory()
}

fn judge_image(turn: &Turn, turns: u64, mut output: impl Read) -> Outcome<()> {
    let header = report::header(&turn.array(turns));
    let pieces = (0..turns).map(|number| turn.later(number, &turn.new));
    for (number, due) in [header].into_iter().chain(pieces).enumerate() {
        let mut found = vec![0; due.len()];
        let read = output.read_exact(&mut found);
        read.map_err(|error| format!("the image, piece {number}: {error}"))?;
        same_image(&due, &found).map_err(|difference| format!("piece {number}: {difference}"))?;
    }
    match output.read(&mut [0]) {
        Ok(0) => Ok(()),
        more => Err(format!("behind the image: {more:?}")),
    }
}

/// Compares the list line by line, and gives how many there are.
fn judge_list(turn: &Turn, turns: u64, error: impl Read) -> Outcome<u64> {
    let mut due = (0..turns).flat_map(|number| turn.later_lines(number));
    let mut error = BufReader::new(error);
    let mut lines = 0;
    loop {
        let mut found = String::new();
        let read = error.read_line(&mut found);
        read.map_err(|error| format!("the list: {error}"))?;
        let due = due.next().unwrap_or_default();
        if due != found {
            return Err(format!("line {lines} is {found:?}, and {due:?} is due"));
        }
        if found.is_empty() {
            return Ok(lines);
        }
        lines += 1;
    }
}

/// The length of an image of at least so many bytes, its lines, and the most memory that the program held, in KiB.
fn repaired(turn: &Turn, length: usize, random: &mut Random) -> Outcome<(usize, u64, u64)> {
    let turns = length.div_ceil(turn.old.len()) as u64;
    turn.holds(turns)?;
    let (peak, (), lines) = program::repaired(
        |input| feed(turn, turns, input, random),
        |output| judge_image(turn, turns, output),
        |error| judge_list(turn, turns, error),
    )?;
    if lines == 0 {
        return Err(String::from("no stripe was listed"));
    }
    let header = report::header(&turn.array(turns)).len();
    Ok((header + turns as usize * turn.old.len(), lines, peak))
}

fn both(method: u8, members: usize, random: &mut Random) -> Outcome<String> {
    let row = random.pick(&[1, 2, 4, 8]);
    let turn = Turn::of(members, method, row, random);
    let (_, _, small) = repaired(&turn, SMALL, random)?;
    let (length, lines, large) = repaired(&turn, LARGE, random)?;
    if large > MOST || large.abs_diff(small) > SPREAD {
        return Err(format!(
            "the program held {small} KiB for {SMALL} bytes and {large} KiB for {LARGE}"
        ));
    }
    Ok(format!(
        "method {method}, {members} members, row length {row}: {length} bytes through pipes alike, {lines} lines, memory at most {large} KiB, and {small} KiB for a sixteenth of it"
    ))
}

pub fn compare(random: &mut Random) -> Outcome<String> {
    let [first, second] = METHODS;
    let each = [both(first, 3, random)?, both(second, 16, random)?];
    Ok(each.join("; "))
}
