//! Guards of joined runs by polynomials: products without carries, divided by the generator, and powers of x by
//! repeated squaring, from the exponent's highest digit down.

/// x^16 and the terms of 8BB7h.
const GENERATOR: u32 = 0x1_8BB7;

/// The power of x that is 1 again.
pub const ROUND: u64 = 65_535;

/// The product of two polynomials, and what its division by the generator leaves.
pub fn product(a: u16, b: u16) -> u16 {
    let mut rest = 0;
    for place in (0..16).filter(|place| b >> place & 1 == 1) {
        rest ^= u32::from(a) << place;
    }
    for place in (0..16).rev() {
        if rest >> (place + 16) & 1 == 1 {
            rest ^= GENERATOR << place;
        }
    }
    rest as u16
}

/// What x to that power leaves.
pub fn power(exponent: u64) -> u16 {
    let mut power = 1;
    for place in (0..u64::BITS).rev() {
        power = product(power, power);
        if exponent >> place & 1 == 1 {
            power = product(power, 2);
        }
    }
    power
}

pub fn add_zeros(guard: u16, n: u32) -> u16 {
    product(guard, power(8 * u64::from(n)))
}

/// Forward, until the powers come round.
pub fn remove_zeros(guard: u16, n: u32) -> u16 {
    product(guard, power(ROUND - 8 * u64::from(n) % ROUND))
}

pub fn join(a: u16, b: u16, length_of_b: u32) -> u16 {
    add_zeros(a, length_of_b) ^ b
}
