//! The rules, written down a second time: a library of its own, so that programs can use it without the proved one.

pub mod checksum;
pub mod crc32c;
pub mod format;
pub mod guard;
pub mod intent;
pub mod join;
pub mod layout;
pub mod patrol;
pub mod repair;
pub mod report;
pub mod scan;
pub mod stripe;

/// What a call gives, or the number of its refusal.
pub type Answer<T> = Result<T, u32>;
