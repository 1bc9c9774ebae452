//! The calls of the C library, as gz_space.h has them. `src/header.c` compares the numbers with the header's.

use std::os::raw::c_void;

/// A handle. It begins as all 0, which is closed, and only the library's calls write it.
#[repr(C)]
pub struct Handle {
    at: *mut c_void,
    opened: u64,
}

impl Handle {
    pub const CLOSED: Handle = Handle { at: std::ptr::null_mut(), opened: 0 };
}

/// A call other than a fault.
#[repr(C)]
#[derive(Default)]
pub struct Call {
    pub kind: u32,
    pub prot: u32,
    pub flags: u32,
    pub zero: u32,
    pub addr: u64,
    pub len: u64,
    pub new_len: u64,
    pub place: u64,
}

/// What the space said.
#[repr(C)]
#[derive(Default)]
pub struct Reply {
    pub kind: u32,
    pub error: u32,
    pub cause: u32,
    pub prot: u32,
    pub shared: u32,
    pub sealed: u32,
    pub at: u64,
}

/// The area at a page, all 0 where the page isn't mapped.
#[repr(C)]
#[derive(Clone, Default)]
pub struct Mapping {
    pub lo: u64,
    pub hi: u64,
    pub prot: u32,
    pub shared: u32,
    pub sealed: u32,
    pub mapped: u32,
}

/// How many areas there are, and how many pages they have.
#[repr(C)]
#[derive(Default)]
pub struct Counts {
    pub areas: u64,
    pub pages: u64,
}

/// Pages that are held, with the caller that holds them.
#[repr(C)]
#[derive(Default)]
pub struct Range {
    pub lo: u64,
    pub hi: u64,
    pub caller: u32,
    pub writer: u32,
}

pub const DONE: u32 = 0;
pub const HOLDS: u32 = 3;
pub const NO_MEMORY: u32 = 7;
pub const BAD_CALLERS: u32 = 8;
pub const BAD_CUT: u32 = 9;
pub const NONE_LEFT: u32 = 10;
pub const BAD_CALL: u32 = 11;
pub const SPENT: u32 = 12;

pub const MAP: u32 = 0;
pub const UNMAP: u32 = 1;
pub const PROTECT: u32 = 2;
pub const REMAP: u32 = 3;
pub const SEAL: u32 = 4;
pub const BRK: u32 = 5;

pub const ADDRESS: u32 = 1;
pub const ZERO: u32 = 2;
pub const GRANTED: u32 = 3;
pub const MAPERR: u32 = 5;
pub const ACCERR: u32 = 6;

extern "C" {
    pub fn gz_space_open(callers: u32, regions: u32, bits: u32, handle: *mut Handle) -> u32;
    pub fn gz_space_share(from: *mut Handle, handle: *mut Handle) -> u32;
    pub fn gz_space_done(handle: *mut Handle) -> u32;
    pub fn gz_space_held(handle: *const Handle, held: *mut Range) -> u32;

    // Of src/header.c.
    pub fn gz_rust_space_make(handle: *mut Handle, call: *const Call, keep: bool, reply: *mut Reply) -> u32;
    pub fn gz_rust_space_fault(
        handle: *mut Handle,
        addr: u64,
        access: u32,
        alone: bool,
        keep: bool,
        reply: *mut Reply,
    ) -> u32;
    pub fn gz_rust_space_area(handle: *mut Handle, addr: u64, area: *mut Mapping) -> u32;
    pub fn gz_rust_space_areas(
        handle: *mut Handle,
        lo: u64,
        hi: u64,
        keep: bool,
        areas: *mut Mapping,
        room: usize,
        counts: *mut Counts,
    ) -> u32;
    pub fn gz_rust_space_close(handle: *mut Handle) -> u32;
}
