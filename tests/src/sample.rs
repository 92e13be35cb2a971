//! Writes a small image to standard output: five members and a stripe for each kind of verdict, by the method that is named, 1, 2 or 3. With a row length
//! its header is of the version that can say one, and more stripes follow, clean, until the rows are whole.

use model::layout::Array;
use model::report;
use model::stripe::{self, UNCHECKED};
use std::env;
use std::io::{self, Write};

/// The array of a method and a row length. Methods 2 and 3 have something of their own that can go wrong, and a stripe for it.
fn array_of(method: u8, row: u8) -> Array {
    let kinds: u64 = if method == 1 { 6 } else { 7 };
    Array {
        members: 5,
        stripes: kinds.next_multiple_of(row.into()),
        volume: 7,
        method,
        row,
    }
}

/// The method and, where one is named, the row length, if they are such.
fn numbers(words: &[String]) -> Option<(u8, Option<u8>)> {
    let (method, row) = match words {
        [method] => (method, None),
        [method, row] => (method, Some(row.parse().ok()?)),
        _ => return None,
    };
    let method = method.parse().ok()?;
    let method_fits = array_of(method, 1).fits().is_ok();
    let row_fits = row.is_none_or(u8::is_power_of_two);
    (method_fits && row_fits).then_some((method, row))
}

/// An array and the header of its image.
fn array_and_header(method: u8, row: Option<u8>) -> (Array, Vec<u8>) {
    match row {
        Some(row) => {
            let array = array_of(method, row);
            (array, report::header_of(3, &array))
        }
        None => {
            let array = array_of(method, 1);
            (array, report::header(&array))
        }
    }
}

/// A sealed stripe, each of whose data blocks counts up from another byte.
fn sealed(array: &Array, number: u64) -> Vec<u8> {
    let length = array.format().data;
    let places = 0..array.data_members() * length;
    let data: Vec<u8> = places
        .map(|place| (place + place / length + 16 * number as usize) as u8)
        .collect();
    let room = vec![0; array.stripe_length()];
    stripe::seal(array, number, &data, &room).expect("numbers that fit")
}

fn damage(array: &Array, number: u64, bytes: &mut [u8]) {
    let format = array.format();
    match number {
        // A bit of member 3 has changed.
        1 => bytes[format.span(3)][100] ^= 1,
        // Members 0 and 1 hold each other's blocks.
        2 => {
            let (first, others) = bytes.split_at_mut(format.block());
            first.swap_with_slice(&mut others[..format.block()]);
        }
        // Members 1 and 4 are marked as not to be checked.
        3 => {
            for member in [1, 4] {
                bytes[format.span(member)][format.mark()].copy_from_slice(&UNCHECKED);
            }
        }
        // Member 2 was written, data and tag, and the parity was not.
        4 => {
            let block = &mut bytes[format.span(2)];
            block[format.data - 3] ^= 1;
            let guard = stripe::guard_of(array, &block[..format.data]);
            let tagged = stripe::tagged(array, number, 2, &block[..format.data], guard);
            block.copy_from_slice(&tagged);
        }
        // By method 2 a bit of the parity's guard has changed, which nobody checks by itself.
        5 if array.method == 2 => {
            bytes[format.span(array.parity_member(number))][format.data] ^= 1;
        }
        // By method 3 a byte of member 4 that has to be zero is not.
        5 if array.method == 3 => bytes[format.span(4)][format.spare()][1] = 1,
        _ => {}
    }
}

fn main() -> io::Result<()> {
    let words: Vec<String> = env::args().skip(1).collect();
    let (method, row) = numbers(&words).ok_or_else(|| {
        io::Error::other(
            "wanted: the method, 1, 2 or 3, and then perhaps a row length, 1, 2, 4 up to 128",
        )
    })?;
    let (array, mut image) = array_and_header(method, row);
    for number in 0..array.stripes {
        let mut bytes = sealed(&array, number);
        damage(&array, number, &mut bytes);
        image.extend(bytes);
    }
    io::stdout().write_all(&image)
}
