//! Buffers lent to the library, each between two margins that no call may touch.

use std::fmt::UpperHex;
use std::hint::black_box;

const MARGIN: usize = 64;

pub struct Lent<T> {
    first: Vec<T>,
    all: Vec<T>,
}

impl<T: Copy + PartialEq + From<u8> + UpperHex> Lent<T> {
    pub fn new(contents: &[T]) -> Self {
        let first = contents.to_vec();
        let all = [&margin(0x5A), &first[..], &margin(0xC3)].concat();
        Lent { first, all }
    }

    pub fn length(&self) -> usize {
        self.first.len()
    }

    pub fn pointer(&self) -> *const T {
        self.all.as_ptr().wrapping_add(MARGIN)
    }

    pub fn pointer_mut(&mut self) -> *mut T {
        self.all.as_mut_ptr().wrapping_add(MARGIN)
    }

    pub fn contents(&self) -> &[T] {
        &self.all[MARGIN..MARGIN + self.length()]
    }

    /// The buffer holds what is due, and its margins are whole.
    pub fn holds(&self, name: &str, due: &[T]) -> Result<(), String> {
        if self.contents() == due
            && self.all[..MARGIN] == margin(0x5A)
            && self.all[MARGIN + self.length()..] == margin(0xC3)
        {
            return Ok(());
        }
        let whole = [&margin(0x5A), due, &margin(0xC3)].concat();
        let place = (0..whole.len()).find(|place| self.all[*place] != whole[*place]);
        let place = place.expect("the buffers differ");
        Err(format!(
            "{name}, {} long: at place {} it holds {:02X}, and {:02X} is due",
            self.length(),
            place as isize - MARGIN as isize,
            self.all[place],
            whole[place]
        ))
    }

    /// The buffer is as it was made.
    pub fn kept(&self, name: &str) -> Result<(), String> {
        self.holds(name, &self.first)
    }
}

fn margin<T: From<u8>>(first: u8) -> [T; MARGIN] {
    std::array::from_fn(|place| T::from(first ^ place as u8))
}

/// A value between two margins.
#[repr(C)]
struct Slot<T> {
    before: [u8; MARGIN],
    value: Option<T>,
    after: [u8; MARGIN],
}

/// What a call gives by value, put between two margins that are whole afterwards.
pub fn between_margins<T>(call: impl FnOnce() -> T) -> Result<T, String> {
    let mut slot = Slot {
        before: margin(0x5A),
        value: None,
        after: margin(0xC3),
    };
    black_box(&mut slot).value = Some(call());
    let slot = black_box(slot);
    if slot.before != margin(0x5A) || slot.after != margin(0xC3) {
        return Err(String::from("a result was written past its place"));
    }
    Ok(slot.value.expect("the call was made"))
}
