//! The patrol: the stripes of an array scrubbed one after the other in idle turns.

use super::Answer;
use super::layout::Array;
use super::stripe::{self, Verdict};

/// The state of a patrol, laid out as the C header has it.
#[repr(C)]
#[derive(Clone, Copy, Debug, PartialEq)]
pub struct Patrol {
    pub members: usize,
    pub stripes: u64,
    pub volume: u8,
    pub method: u8,
    pub row: u8,
    pub next: u64,
}

/// A stripe that was looked at, and its verdict.
#[derive(Clone, Copy, Debug, PartialEq)]
pub struct Seen {
    pub stripe: u64,
    pub verdict: Verdict,
}

impl Patrol {
    pub const ZEROS: Patrol = Patrol {
        members: 0,
        stripes: 0,
        volume: 0,
        method: 0,
        row: 0,
        next: 0,
    };

    pub fn at(array: &Array, next: u64) -> Self {
        Patrol {
            members: array.members,
            stripes: array.stripes,
            volume: array.volume,
            method: array.method,
            row: array.row,
            next,
        }
    }

    pub fn array(&self) -> Array {
        Array {
            members: self.members,
            stripes: self.stripes,
            volume: self.volume,
            method: self.method,
            row: self.row,
        }
    }

    /// Row 4: rows 1 to 3, 12 and 13 hold of what is in the state.
    fn fits(&self) -> Answer<()> {
        self.array().stripe_fits(self.next).map_err(|_| 4)
    }
}

pub fn begin(array: &Array) -> Answer<Patrol> {
    array.fits()?;
    Ok(Patrol::at(array, 0))
}

/// A turn: what it saw, nothing if it was busy, and the state to go on with.
pub fn turn(state: &Patrol, idle: bool, bytes: &[u8]) -> (Answer<Option<Seen>>, Patrol) {
    if let Err(number) = state.fits() {
        return (Err(number), *state);
    }
    if !idle {
        return (Ok(None), *state);
    }
    let stripe = state.next;
    match stripe::scrub(&state.array(), stripe, bytes) {
        Err(number) => (Err(number), *state),
        Ok(verdict) => {
            let next = (u128::from(stripe) + 1) % u128::from(state.stripes);
            let next = next as u64;
            (
                Ok(Some(Seen { stripe, verdict })),
                Patrol { next, ..*state },
            )
        }
    }
}

/// A stripe out of turn. The tests go by rising number: the stripe handed in, then the state, then the bytes.
pub fn request(state: &Patrol, stripe: u64, bytes: &[u8]) -> Answer<Option<Seen>> {
    if stripe >= state.stripes {
        return Err(3);
    }
    state.fits()?;
    let verdict = stripe::scrub(&state.array(), stripe, bytes)?;
    Ok(Some(Seen { stripe, verdict }))
}
