//! The calls of the C library, as gz_range.h has them. `src/header.c` compares the numbers with the header's.

use std::os::raw::{c_char, c_void};
use std::sync::atomic::AtomicU64;

/// A handle. It begins as all 0, which is closed, and only the library's calls write it.
#[repr(C)]
pub struct Handle {
    at: *mut c_void,
    opened: u64,
}

impl Handle {
    pub const CLOSED: Handle = Handle { at: std::ptr::null_mut(), opened: 0 };
}

/// What callers met: `tries`, `refused` by the number of the answer, `waits` and `sleeps` of the header's struct.
#[repr(C)]
#[derive(Debug, Default)]
pub struct Counts {
    pub tries: AtomicU64,
    pub refused: [AtomicU64; 5],
    pub waits: AtomicU64,
    pub sleeps: AtomicU64,
}

/// A range with the seat that holds it.
#[repr(C)]
#[derive(Clone, Copy, Default)]
pub struct Busy {
    pub lo: u64,
    pub hi: u64,
    pub owner: u32,
    pub writer: bool,
}

pub const DONE: u32 = 0;
pub const BUSY: u32 = 1;
pub const AGAIN: u32 = 2;
pub const LONG: u32 = 3;
pub const NO_NODE: u32 = 4;
pub const NOT_TRIED: u32 = 5;
pub const BAD_RANGE: u32 = 6;
pub const HAS_ONE: u32 = 7;
pub const NO_MEMORY: u32 = 11;
pub const BAD_SEATS: u32 = 12;
pub const BAD_WORDS: u32 = 13;
pub const NONE_LEFT: u32 = 14;
pub const NO_WORD: u32 = 15;
pub const OTHER: u32 = 16;
pub const BAD_CUT: u32 = 17;

extern "C" {
    pub fn gz_range_open(seats: u32, words: *const u64, count: usize, handle: *mut Handle) -> u32;
    pub fn gz_range_open_cut(
        seats: u32,
        regions: u32,
        bits: u32,
        words: *const u64,
        count: usize,
        handle: *mut Handle,
    ) -> u32;
    pub fn gz_range_share(from: *mut Handle, handle: *mut Handle) -> u32;
    pub fn gz_range_try_counted(
        handle: *mut Handle,
        lo: u64,
        hi: u64,
        writer: bool,
        tries: u32,
        busy: *mut Busy,
        made: *mut u32,
    ) -> u32;
    pub fn gz_range_held(handle: *mut Handle, held: *mut Busy) -> u32;
    pub fn gz_range_scan_into(
        handle: *mut Handle,
        next: Handle,
        ranges: *mut Busy,
        count: usize,
        found: *mut usize,
    ) -> u32;
    pub fn gz_range_load(handle: *mut Handle, i: u32, value: *mut u64) -> u32;
    pub fn gz_range_store(handle: *mut Handle, i: u32, value: u64) -> u32;
    pub fn gz_range_add(handle: *mut Handle, i: u32, by: u64, before: *mut u64) -> u32;
    pub fn gz_range_exchange(handle: *mut Handle, i: u32, expected: *mut u64, value: u64) -> u32;

    // Of src/header.c.
    pub fn gz_rust_acquire(
        handle: *mut Handle,
        lo: u64,
        hi: u64,
        writer: bool,
        spinning: bool,
        counts: *const Counts,
    ) -> u32;
    pub fn gz_rust_acquire_for(
        handle: *mut Handle,
        lo: u64,
        hi: u64,
        writer: bool,
        nanoseconds: u64,
        counts: *const Counts,
        busy: *mut Busy,
    ) -> u32;
    pub fn gz_rust_release(handle: *mut Handle) -> u32;
    pub fn gz_rust_close(handle: *mut Handle) -> u32;
    pub fn gz_rust_text(answer: u32) -> *const c_char;
}
