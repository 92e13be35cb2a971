//! The calls of include/irumbolai.h, over lent buffers.

use crate::lent::Lent;
use model::layout::Array;
use model::patrol::Patrol;
use model::scan::Scan;

#[repr(C)]
#[derive(Clone, Copy, Debug, PartialEq)]
pub struct Place {
    pub refusal: u32,
    pub member: u32,
    pub stripe: u64,
}

#[repr(C)]
#[derive(Clone, Copy, Debug, PartialEq)]
pub struct Owner {
    pub refusal: u32,
    pub parity: u32,
    pub block: u64,
}

#[repr(C)]
#[derive(Clone, Copy, Debug, Default, PartialEq)]
pub struct Field {
    pub found: u64,
    pub expected: u64,
    pub fits: u32,
}

/// Kind 0 is good, 1 bad, 2 unchecked.
#[repr(C)]
#[derive(Clone, Copy, Debug, PartialEq)]
pub struct Check {
    pub refusal: u32,
    pub kind: u32,
    pub guard: Field,
    pub application: Field,
    pub reference: Field,
}

/// Kind 0 is stored, 1 rebuilt, 2 unchecked.
#[repr(C)]
#[derive(Clone, Copy, Debug, PartialEq)]
pub struct Read {
    pub refusal: u32,
    pub kind: u32,
}

/// Kind 0 is clean, 1 bad and 3 unchecked (`first` is a member), 2 torn (`first` is a place). The last three speak of a bad member.
#[repr(C)]
#[derive(Clone, Copy, Debug, PartialEq)]
pub struct Verdict {
    pub refusal: u32,
    pub kind: u32,
    pub first: u32,
    pub count: u32,
    pub guard_fits: u32,
    pub application_fits: u32,
    pub reference_fits: u32,
}

impl Verdict {
    pub const ZEROS: Verdict = Verdict {
        refusal: 0,
        kind: 0,
        first: 0,
        count: 0,
        guard_fits: 0,
        application_fits: 0,
        reference_fits: 0,
    };
}

#[repr(C)]
#[derive(Clone, Copy, Debug, PartialEq)]
pub struct Begun {
    pub refusal: u32,
    pub state: Patrol,
}

#[repr(C)]
#[derive(Clone, Copy, Debug, PartialEq)]
pub struct Patrolled {
    pub verdict: Verdict,
    pub stripe: u64,
    pub state: Patrol,
}

#[repr(C)]
#[derive(Clone, Copy, Debug, PartialEq)]
pub struct Quick {
    pub refusal: u32,
    pub differs: u32,
    pub combination: u32,
}

#[repr(C)]
#[derive(Clone, Copy, Debug, PartialEq)]
pub struct Recovery {
    pub refusal: u32,
    pub kind: u32,
    pub member: u32,
}

#[repr(C)]
#[derive(Clone, Copy, Debug, PartialEq)]
pub struct Taken {
    pub refusal: u32,
    pub state: Scan,
}

#[repr(C)]
#[derive(Clone, Copy, Debug, PartialEq)]
pub struct Guards {
    pub guard: [u16; 16],
}

#[repr(C)]
#[derive(Clone, Copy, Debug, PartialEq)]
pub struct Sum {
    pub refusal: u32,
    pub guard: u32,
}

mod c {
    use super::{
        Begun, Check, Guards, Owner, Patrol, Patrolled, Place, Quick, Read, Recovery, Scan, Sum,
        Taken, Verdict,
    };

    #[rustfmt::skip]
    unsafe extern "C" {
        pub fn irumbolai_guard(bytes: *const u8, length: usize) -> u16;
        pub fn irumbolai_guards(bytes: *const u8, length: usize, stride: usize) -> Guards;
        pub fn irumbolai_checksum(bytes: *const u8, length: usize) -> Sum;
        pub fn irumbolai_crc32c(bytes: *const u8, length: usize) -> u32;
        pub fn irumbolai_join(a: u16, b: u16, length_of_b: u32) -> u16;
        pub fn irumbolai_add_zeros(guard: u16, n: u32) -> u16;
        pub fn irumbolai_remove_zeros(guard: u16, n: u32) -> u16;
        pub fn irumbolai_combine(a: u16, b: u16) -> u16;
        pub fn irumbolai_place(members: usize, stripes: u64, volume: u8, method: u8, row: u8, block: u64) -> Place;
        pub fn irumbolai_owner(members: usize, stripes: u64, volume: u8, method: u8, row: u8, stripe: u64, member: usize) -> Owner;
        pub fn irumbolai_check(members: usize, stripes: u64, volume: u8, method: u8, row: u8, stripe: u64, member: usize, block: *const u8, length: usize) -> Check;
        pub fn irumbolai_seal(members: usize, stripes: u64, volume: u8, method: u8, row: u8, stripe: u64, data: *const u8, data_length: usize, bytes: *mut u8, length: usize) -> u32;
        pub fn irumbolai_read(members: usize, stripes: u64, volume: u8, method: u8, row: u8, block: u64, bytes: *const u8, length: usize, out: *mut u8, out_length: usize) -> Read;
        pub fn irumbolai_rebuild(members: usize, stripes: u64, volume: u8, method: u8, row: u8, stripe: u64, member: usize, bytes: *mut u8, length: usize) -> u32;
        pub fn irumbolai_update(members: usize, stripes: u64, volume: u8, method: u8, row: u8, block: u64, data: *const u8, data_length: usize, bytes: *mut u8, length: usize) -> u32;
        pub fn irumbolai_update_recorded(members: usize, stripes: u64, volume: u8, method: u8, row: u8, block: u64, data: *const u8, data_length: usize, bytes: *mut u8, length: usize, record: *mut u8, record_length: usize, stores: usize) -> u32;
        pub fn irumbolai_recover(members: usize, stripes: u64, volume: u8, method: u8, row: u8, stripe: u64, bytes: *mut u8, length: usize, record: *mut u8, record_length: usize) -> Recovery;
        pub fn irumbolai_scrub(members: usize, stripes: u64, volume: u8, method: u8, row: u8, stripe: u64, bytes: *const u8, length: usize) -> Verdict;
        pub fn irumbolai_quick_scrub(guards: *const u16, count: usize) -> Quick;
        pub fn irumbolai_quick_scrub_wide(guards: *const u32, count: usize) -> Quick;
        pub fn irumbolai_start(members: usize, stripes: u64, volume: u8, method: u8, row: u8, stripe: u64, work: *mut u8, work_length: usize) -> Taken;
        pub fn irumbolai_piece(state: Scan, member: usize, bytes: *const u8, length: usize, work: *mut u8, work_length: usize) -> Taken;
        pub fn irumbolai_finish(state: Scan, work: *const u8, work_length: usize) -> Verdict;
        pub fn irumbolai_patrol_begin(members: usize, stripes: u64, volume: u8, method: u8, row: u8) -> Begun;
        pub fn irumbolai_patrol_turn(state: Patrol, idle: u32, bytes: *const u8, length: usize) -> Patrolled;
        pub fn irumbolai_patrol_request(state: Patrol, stripe: u64, bytes: *const u8, length: usize) -> Patrolled;
    }
}

// SAFETY, for every call: each pointer comes with the length of its own buffer, which is lent for the call alone,
// and is not const only where the header lets the call write.

/// A call on an array, whose numbers go first, one by one. No call is handed them elsewhere.
macro_rules! on_array {
    ($call:ident, $array:ident $(, $rest:expr)*) => {
        unsafe { c::$call($array.members, $array.stripes, $array.volume, $array.method, $array.row $(, $rest)*) }
    };
}

pub fn guard(bytes: &Lent<u8>) -> u16 {
    unsafe { c::irumbolai_guard(bytes.pointer(), bytes.length()) }
}

pub fn guards(bytes: &Lent<u8>, stride: usize) -> [u16; 16] {
    unsafe { c::irumbolai_guards(bytes.pointer(), bytes.length(), stride) }.guard
}

/// The guard of bytes where they lie.
pub fn guard_at(bytes: &[u8]) -> u16 {
    unsafe { c::irumbolai_guard(bytes.as_ptr(), bytes.len()) }
}

pub fn checksum(bytes: &Lent<u8>) -> Sum {
    unsafe { c::irumbolai_checksum(bytes.pointer(), bytes.length()) }
}

/// The checksum of bytes where they lie.
pub fn checksum_at(bytes: &[u8]) -> Sum {
    unsafe { c::irumbolai_checksum(bytes.as_ptr(), bytes.len()) }
}

pub fn crc32c(bytes: &Lent<u8>) -> u32 {
    unsafe { c::irumbolai_crc32c(bytes.pointer(), bytes.length()) }
}

/// The CRC-32C of bytes where they lie.
pub fn crc32c_at(bytes: &[u8]) -> u32 {
    unsafe { c::irumbolai_crc32c(bytes.as_ptr(), bytes.len()) }
}

pub fn join(a: u16, b: u16, length_of_b: u32) -> u16 {
    unsafe { c::irumbolai_join(a, b, length_of_b) }
}

pub fn add_zeros(guard: u16, n: u32) -> u16 {
    unsafe { c::irumbolai_add_zeros(guard, n) }
}

pub fn remove_zeros(guard: u16, n: u32) -> u16 {
    unsafe { c::irumbolai_remove_zeros(guard, n) }
}

pub fn combine(a: u16, b: u16) -> u16 {
    unsafe { c::irumbolai_combine(a, b) }
}

pub fn place(array: &Array, block: u64) -> Place {
    on_array!(irumbolai_place, array, block)
}

pub fn owner(array: &Array, stripe: u64, member: usize) -> Owner {
    on_array!(irumbolai_owner, array, stripe, member)
}

pub fn check(array: &Array, stripe: u64, member: usize, block: &Lent<u8>) -> Check {
    let (from, length) = (block.pointer(), block.length());
    on_array!(irumbolai_check, array, stripe, member, from, length)
}

pub fn seal(array: &Array, stripe: u64, data: &Lent<u8>, bytes: &mut Lent<u8>) -> u32 {
    let (from, length) = (data.pointer(), data.length());
    let (to, to_length) = (bytes.pointer_mut(), bytes.length());
    on_array!(irumbolai_seal, array, stripe, from, length, to, to_length)
}

pub fn read(array: &Array, block: u64, bytes: &Lent<u8>, out: &mut Lent<u8>) -> Read {
    let (from, length) = (bytes.pointer(), bytes.length());
    let (to, to_length) = (out.pointer_mut(), out.length());
    on_array!(irumbolai_read, array, block, from, length, to, to_length)
}

pub fn update(array: &Array, block: u64, data: &Lent<u8>, bytes: &mut Lent<u8>) -> u32 {
    let (from, length) = (data.pointer(), data.length());
    let (to, to_length) = (bytes.pointer_mut(), bytes.length());
    on_array!(irumbolai_update, array, block, from, length, to, to_length)
}

pub fn update_recorded(
    array: &Array,
    block: u64,
    data: &Lent<u8>,
    bytes: &mut Lent<u8>,
    record: &mut Lent<u8>,
    stores: usize,
) -> u32 {
    let (from, length) = (data.pointer(), data.length());
    let (to, to_length) = (bytes.pointer_mut(), bytes.length());
    let (log, log_length) = (record.pointer_mut(), record.length());
    on_array!(
        irumbolai_update_recorded,
        array,
        block,
        from,
        length,
        to,
        to_length,
        log,
        log_length,
        stores
    )
}

pub fn recover(
    array: &Array,
    stripe: u64,
    bytes: &mut Lent<u8>,
    record: &mut Lent<u8>,
) -> Recovery {
    let (to, to_length) = (bytes.pointer_mut(), bytes.length());
    let (log, log_length) = (record.pointer_mut(), record.length());
    on_array!(
        irumbolai_recover,
        array,
        stripe,
        to,
        to_length,
        log,
        log_length
    )
}

pub fn rebuild(array: &Array, stripe: u64, member: usize, bytes: &mut Lent<u8>) -> u32 {
    let (to, to_length) = (bytes.pointer_mut(), bytes.length());
    on_array!(irumbolai_rebuild, array, stripe, member, to, to_length)
}

pub fn scrub(array: &Array, stripe: u64, bytes: &Lent<u8>) -> Verdict {
    let (from, length) = (bytes.pointer(), bytes.length());
    on_array!(irumbolai_scrub, array, stripe, from, length)
}

pub fn quick_scrub(guards: &Lent<u16>) -> Quick {
    unsafe { c::irumbolai_quick_scrub(guards.pointer(), guards.length()) }
}

pub fn quick_scrub_wide(guards: &Lent<u32>) -> Quick {
    unsafe { c::irumbolai_quick_scrub_wide(guards.pointer(), guards.length()) }
}

pub fn start(array: &Array, stripe: u64, work: &mut Lent<u8>) -> Taken {
    let (to, to_length) = (work.pointer_mut(), work.length());
    on_array!(irumbolai_start, array, stripe, to, to_length)
}

pub fn piece(state: Scan, member: usize, bytes: &Lent<u8>, work: &mut Lent<u8>) -> Taken {
    let (from, from_length) = (bytes.pointer(), bytes.length());
    let (to, to_length) = (work.pointer_mut(), work.length());
    unsafe { c::irumbolai_piece(state, member, from, from_length, to, to_length) }
}

pub fn finish(state: Scan, work: &Lent<u8>) -> Verdict {
    unsafe { c::irumbolai_finish(state, work.pointer(), work.length()) }
}

pub fn patrol_begin(array: &Array) -> Begun {
    on_array!(irumbolai_patrol_begin, array)
}

pub fn patrol_turn(state: Patrol, idle: u32, bytes: &Lent<u8>) -> Patrolled {
    unsafe { c::irumbolai_patrol_turn(state, idle, bytes.pointer(), bytes.length()) }
}

pub fn patrol_request(state: Patrol, stripe: u64, bytes: &Lent<u8>) -> Patrolled {
    unsafe { c::irumbolai_patrol_request(state, stripe, bytes.pointer(), bytes.length()) }
}
