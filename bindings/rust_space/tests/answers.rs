//! What the calls answer, on one thread and on several, with what is wrong.

use gz_space::{
    Access, Area, Counts, Cut, Field, Kind, MapFlags, Moving, Prot, Refused, Short, Space, LIMIT, MOST_CALLERS, PAGE,
};
use std::mem::forget;
use std::sync::atomic::{AtomicU64, Ordering};
use std::sync::mpsc;
use std::thread;

const AT: u64 = 16 * PAGE;

fn flags() -> MapFlags {
    MapFlags::PRIVATE | MapFlags::FIXED
}

fn both() -> Prot {
    Prot::READ | Prot::WRITE
}

#[test]
fn an_opening_tells_what_is_wrong() {
    assert_eq!(Space::open(0).unwrap_err(), Refused::BadCallers);
    assert_eq!(Space::open(MOST_CALLERS + 1).unwrap_err(), Refused::BadCallers);
    for (regions, bits) in [(0, 16), (17, 16), (7, 63)] {
        assert_eq!(Space::open_cut(2, Cut { regions, bits }).unwrap_err(), Refused::BadCut);
    }
    assert!(Space::open_cut(2, Cut { regions: 7, bits: 16 }).is_ok());
}

#[test]
fn each_caller_is_handed_out_once() {
    let space = Space::open(MOST_CALLERS).unwrap();
    let callers: Vec<_> = (0..MOST_CALLERS).map(|_| space.take_caller().unwrap()).collect();
    let mut numbers: Vec<u32> = callers.iter().map(|caller| caller.number()).collect();
    numbers.sort();
    assert_eq!(numbers, (0..MOST_CALLERS).collect::<Vec<_>>());
    assert_eq!(space.take_caller().unwrap_err(), Refused::NoneLeft);
    drop(callers);
    assert_eq!(space.take_caller().unwrap_err(), Refused::NoneLeft);
}

#[test]
fn callers_outlive_their_space_and_an_end_gives_back() {
    let space = Space::open(3).unwrap();
    let (mut one, mut two) = (space.take_caller().unwrap(), space.take_caller().unwrap());
    drop(space);
    forget(one.map_held(AT, PAGE, both(), flags()).unwrap());
    drop(one);
    assert!(two.fault(AT, Access::Write).is_ok());
}

#[test]
fn replies_are_those_of_the_manual_pages() {
    let space = Space::open(1).unwrap();
    let mut caller = space.take_caller().unwrap();
    assert_eq!(caller.map(AT, 4 * PAGE, both(), flags()), Ok(AT));
    assert_eq!(caller.map(AT, 0, both(), flags()), Err(Refused::Einval(Field::Len)));
    assert_eq!(caller.map(AT + 1, 1, both(), flags()), Err(Refused::Einval(Field::Addr)));
    assert_eq!(caller.map(AT, 1, both(), MapFlags::FIXED), Err(Refused::Einval(Field::Flags)));
    assert_eq!(
        caller.map(AT - PAGE, 2 * PAGE, both(), MapFlags::SHARED | MapFlags::FIXED_NOREPLACE),
        Err(Refused::Eexist(16))
    );
    assert_eq!(caller.map(0, LIMIT * PAGE, both(), MapFlags::SHARED), Err(Refused::Enomem(Short::NoGap(LIMIT))));
    assert_eq!(caller.map(PAGE, LIMIT * PAGE, both(), flags()), Err(Refused::Enomem(Short::PastEnd(LIMIT + 1))));
    assert_eq!(caller.unmap(PAGE, LIMIT * PAGE), Err(Refused::Einval(Field::End)));
    assert_eq!(caller.protect(AT, 5 * PAGE, Prot::READ), Err(Refused::Enomem(Short::Missing(20))));
    assert_eq!(caller.protect(AT + PAGE, PAGE, Prot::READ), Ok(()));
    assert_eq!(caller.remap(AT, 2 * PAGE, PAGE, Moving::Stay), Err(Refused::Efault(17)));
    assert_eq!(caller.remap(AT, PAGE, 3 * PAGE, Moving::Stay), Err(Refused::Enomem(Short::NoGap(3))));
    assert_eq!(caller.remap(AT, PAGE, 3 * PAGE, Moving::To(64 * PAGE)), Ok(64 * PAGE));
    assert_eq!(caller.remap(64 * PAGE, 3 * PAGE, 4 * PAGE, Moving::May), Ok(64 * PAGE));
    assert_eq!(caller.brk(64 * PAGE, 66 * PAGE), Ok(66 * PAGE));
    assert_eq!(caller.brk(1, PAGE), Err(Refused::Einval(Field::Addr)));
    assert_eq!(caller.seal(64 * PAGE, PAGE), Ok(()));
    assert_eq!(caller.unmap(0, 100 * PAGE), Err(Refused::Eperm(64)));
}

#[test]
fn a_fault_tells_the_page_and_its_kind() {
    let space = Space::open(1).unwrap();
    let mut caller = space.take_caller().unwrap();
    caller.map(AT, PAGE, Prot::READ, MapFlags::SHARED | MapFlags::FIXED).unwrap();
    let kind = Kind { prot: Prot::READ, shared: true, sealed: false };
    assert_eq!(caller.fault(AT + 4095, Access::Read), Ok(kind));
    assert_eq!(caller.fault(AT, Access::Exec), Err(Refused::AccErr(16, kind)));
    assert_eq!(caller.fault(AT + PAGE, Access::Read), Err(Refused::MapErr(17)));
    assert_eq!(caller.fault(u64::MAX, Access::Read), Err(Refused::MapErr(u64::MAX / PAGE)));
    assert!(kind.prot.contains(Prot::READ) && !kind.prot.contains(both()));
}

#[test]
fn an_area_has_its_exact_ends() {
    let space = Space::open(2).unwrap();
    let (mut one, mut two) = (space.take_caller().unwrap(), space.take_caller().unwrap());
    one.map(AT, 4 * PAGE, both(), flags()).unwrap();
    one.map(AT + 4 * PAGE, 2 * PAGE, both(), flags()).unwrap();
    one.protect(AT + PAGE, PAGE, Prot::READ).unwrap();
    let area = |pages, prot| Ok(Some(Area { pages, kind: Kind { prot, shared: false, sealed: false } }));
    assert_eq!(two.area(AT + PAGE - 1), area(16..17, both()));
    assert_eq!(two.area(AT + PAGE), area(17..18, Prot::READ));
    assert_eq!(two.area(AT + 3 * PAGE), area(18..22, both()));
    for addr in [0, AT - 1, AT + 6 * PAGE, (LIMIT - 1) * PAGE, LIMIT * PAGE, u64::MAX] {
        assert_eq!(two.area(addr), Ok(None));
    }
    assert_eq!(two.holding(), None);
    let held = one.fault_held(AT, Access::Write, false).unwrap(); // a reader, beside which an area is read
    assert_eq!(two.area(AT), area(16..17, both()));
    drop(held);
    forget(two.fault_held(AT, Access::Read, false).unwrap());
    assert_eq!(two.area(AT), Err(Refused::Holds));
}

#[test]
fn areas_are_those_of_one_moment() {
    let space = Space::open(2).unwrap();
    let (mut one, mut two) = (space.take_caller().unwrap(), space.take_caller().unwrap());
    let all = 0..LIMIT;
    assert_eq!((two.areas(all.clone()), two.count(all.clone())), (Ok(vec![]), Ok(Counts { areas: 0, pages: 0 })));
    for page in 0..40 {
        one.map(AT + 2 * page * PAGE, PAGE, both(), flags()).unwrap();
    }
    one.map(AT + PAGE, PAGE, both(), flags()).unwrap();
    one.protect(AT + 4 * PAGE, PAGE, Prot::READ).unwrap();
    let area = |pages, prot| Area { pages, kind: Kind { prot, shared: false, sealed: false } };
    let found = two.areas(all.clone()).unwrap();
    assert_eq!((found.len(), &found[0], &found[38]), (39, &area(16..19, both()), &area(94..95, both())));
    assert_eq!(two.areas(17..21), Ok(vec![area(17..19, both()), area(20..21, Prot::READ)]));
    assert_eq!(two.count(0..u64::MAX), Ok(Counts { areas: 39, pages: 41 }));
    assert_eq!((two.areas(17..17), two.areas(LIMIT..u64::MAX), two.holding()), (Ok(vec![]), Ok(vec![]), None));
    let held = two.areas_held(all.clone()).unwrap();
    assert_eq!((held.value().len(), held.pages()), (39, Some(all.clone())));
    one.fault(AT, Access::Read).unwrap(); // a reader, beside which the areas stay held
    drop(held);
    forget(two.fault_held(AT, Access::Read, false).unwrap());
    assert_eq!(two.areas(all), Err(Refused::Holds));
}

#[test]
fn held_calls_hold_and_refused_ones_do_not() {
    let space = Space::open(1).unwrap();
    let mut caller = space.take_caller().unwrap();
    let held = caller.map_held(AT, PAGE, both(), flags()).unwrap();
    assert_eq!((*held.value(), held.pages()), (AT, Some(0..LIMIT)));
    drop(held);
    assert_eq!(caller.fault_held(AT, Access::Write, true).unwrap().pages(), Some(16..17));
    assert!(caller.protect_held(AT, 0, both()).unwrap().pages().is_none());
    assert!(caller.fault_held(AT, Access::Exec, true).is_err());
    assert!(caller.protect_held(AT, 2 * PAGE, both()).is_err());
    assert_eq!(caller.holding(), None);
}

#[test]
fn a_forgotten_guard_is_told_and_released() {
    let space = Space::open(1).unwrap();
    let mut caller = space.take_caller().unwrap();
    forget(caller.map_held(AT, PAGE, both(), flags()).unwrap());
    assert_eq!(caller.fault(AT, Access::Read), Err(Refused::Holds));
    assert_eq!(caller.unmap_held(AT, PAGE).err(), Some(Refused::Holds));
    assert_eq!(caller.holding(), Some(0..LIMIT));
    assert!(caller.release() && !caller.release());
    assert!(caller.fault(AT, Access::Read).is_ok());
}

#[test]
fn a_panic_gives_the_pages_back() {
    let space = Space::open(2).unwrap();
    let (mut one, mut two) = (space.take_caller().unwrap(), space.take_caller().unwrap());
    let panicked = thread::spawn(move || {
        let _held = one.map_held(AT, PAGE, both(), flags()).unwrap();
        panic!("under held pages");
    });
    assert!(panicked.join().is_err());
    assert!(two.fault(AT, Access::Read).is_ok());
}

#[test]
fn held_pages_exclude_what_needs_them() {
    let space = Space::open(5).unwrap();
    let real = AtomicU64::new(0); // what stands for the page table: how many pages are mapped
    space.take_caller().unwrap().map(AT, PAGE, both(), flags()).unwrap();
    thread::scope(|scope| {
        for _ in 0..4 {
            let (space, real) = (&space, &real);
            scope.spawn(move || {
                let mut caller = space.take_caller().unwrap();
                for _ in 0..2000 {
                    let held = caller.map_held(0, PAGE, both(), MapFlags::PRIVATE).unwrap();
                    let (place, seen) = (*held.value(), real.load(Ordering::Relaxed));
                    thread::yield_now();
                    real.store(seen + 1, Ordering::Relaxed);
                    drop(held);
                    let alone = caller.fault_held(AT, Access::Write, true).unwrap();
                    drop(alone);
                    let held = caller.unmap_held(place, PAGE).unwrap();
                    real.store(real.load(Ordering::Relaxed) - 1, Ordering::Relaxed);
                    drop(held);
                }
            });
        }
    });
    assert_eq!(real.into_inner(), 0);
}

#[test]
fn a_caller_goes_to_another_thread() {
    let space = Space::open(1).unwrap();
    let (send, receive) = mpsc::channel();
    let mut caller = space.take_caller().unwrap();
    caller.map(AT, PAGE, both(), flags()).unwrap();
    let other = thread::spawn(move || {
        let mut caller: gz_space::Caller = receive.recv().unwrap();
        caller.fault(AT, Access::Write).is_ok()
    });
    send.send(caller).unwrap();
    assert!(other.join().unwrap());
}
