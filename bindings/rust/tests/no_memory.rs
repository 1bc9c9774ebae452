//! Without memory for a seat's place the answer is that, and nothing has changed.

use gz_range::{Refused, Table};
use std::alloc::{GlobalAlloc, Layout, System};
use std::sync::atomic::{AtomicBool, Ordering};

static GIVES_NOTHING: AtomicBool = AtomicBool::new(false);

/// The system's allocator, which gives no place for a handle while that is asked for.
struct Failing;

// SAFETY: each call is the system's, or gives nothing.
unsafe impl GlobalAlloc for Failing {
    unsafe fn alloc(&self, layout: Layout) -> *mut u8 {
        if GIVES_NOTHING.load(Ordering::SeqCst) && layout == Layout::new::<[u64; 2]>() {
            return std::ptr::null_mut();
        }
        unsafe { System.alloc(layout) }
    }

    unsafe fn dealloc(&self, place: *mut u8, layout: Layout) {
        unsafe { System.dealloc(place, layout) }
    }
}

#[global_allocator]
static ALLOCATOR: Failing = Failing;

fn without_memory<T>(call: impl FnOnce() -> T) -> T {
    GIVES_NOTHING.store(true, Ordering::SeqCst);
    let answer = call();
    GIVES_NOTHING.store(false, Ordering::SeqCst);
    answer
}

#[test]
fn a_seat_needs_memory_and_a_range_none() {
    assert_eq!(without_memory(|| Table::open(2).err()), Some(Refused::NoMemory));
    let mut table = Table::open(2).unwrap();
    assert_eq!(without_memory(|| table.take_seat().err()), Some(Refused::NoMemory));
    let (mut first, mut last) = (table.take_seat().unwrap(), table.take_seat().unwrap());
    assert!(without_memory(|| first.try_write(10..20).is_ok()));
    assert!(without_memory(|| last.try_write(10..20).is_ok()));
}
