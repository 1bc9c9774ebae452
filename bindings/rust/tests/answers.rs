//! What the calls answer, on one thread and on several, with what is wrong.

use gz_range::{
    Counts, Cut, Guarded, GuardedSlice, Holding, RangeLock, ReadRange, Refused, Scanned, Seat, Table, WriteGuard,
    WriteRange, HIGHEST, MOST_SEATS, MOST_WORDS,
};
use std::mem::forget;
use std::sync::{mpsc, Arc};
use std::thread;
use std::time::{Duration, Instant};

fn two_seats() -> (Seat, Seat) {
    let mut seats = Table::open(2).unwrap().into_seats().unwrap();
    (seats.remove(0), seats.remove(0))
}

#[test]
fn an_opening_tells_what_is_wrong() {
    assert_eq!(Table::open(0).unwrap_err(), Refused::BadSeats);
    assert_eq!(Table::open(17).unwrap_err(), Refused::BadSeats);
    assert_eq!(Table::open_with(2, &vec![0; MOST_WORDS + 1]).unwrap_err(), Refused::BadWords);
    for (regions, bits) in [(0, 16), (17, 16), (7, 63)] {
        assert_eq!(Table::open_cut(2, Cut { regions, bits }, &[]).unwrap_err(), Refused::BadCut);
    }
    assert!(Table::open_cut(2, Cut { regions: 7, bits: 16 }, &[]).is_ok());
}

#[test]
fn each_seat_is_handed_out_once() {
    let seats = Table::open(MOST_SEATS).unwrap().into_seats().unwrap();
    let mut numbers: Vec<u32> = seats.iter().map(Seat::number).collect();
    numbers.sort();
    assert_eq!(numbers, (0..MOST_SEATS).collect::<Vec<_>>());

    let mut table = Table::open(1).unwrap();
    let only = table.take_seat().unwrap();
    assert_eq!(table.take_seat().unwrap_err(), Refused::NoneLeft);
    assert_eq!(only.share().unwrap_err(), Refused::NoneLeft);
}

#[test]
fn a_seat_that_ended_is_handed_out_again() {
    let mut table = Table::open(3).unwrap();
    for _ in 0..40 {
        let (mut one, two) = (table.take_seat().unwrap(), table.take_seat().unwrap());
        let held = one.try_write(0..10).unwrap();
        forget(held);
        assert_ne!(one.number(), two.number());
    }
    let seats = table.into_seats().unwrap();
    assert_eq!(seats.len(), 3);
    drop(seats);
}

#[test]
fn a_pool_has_more_threads_than_seats() {
    let mut table = Table::open(4).unwrap();
    let row = Guarded::new(&table, vec![0u64; 20]);
    let first = table.take_seat().unwrap();
    drop(table);
    for _ in 0..10 {
        thread::scope(|scope| {
            for _ in 0..3 {
                let (mut seat, row) = (first.share().unwrap(), &row);
                scope.spawn(move || {
                    let mut held = seat.write(5..15).unwrap();
                    row.write(&mut held).unwrap().iter_mut().for_each(|value| *value += 1);
                });
            }
        });
    }
    assert_eq!(row.into_inner().iter().sum::<u64>(), 10 * 3 * 10);
}

#[test]
fn seats_outlive_their_table() {
    let mut table = Table::open(3).unwrap();
    let (mut first, mut second) = (table.take_seat().unwrap(), table.take_seat().unwrap());
    drop(table);
    let held = first.try_write(0..10).unwrap();
    assert!(second.try_write(9..10).is_err());
    drop(held);
    assert!(second.try_write(9..10).is_ok());
}

#[test]
#[allow(clippy::reversed_empty_ranges)]
fn a_range_has_a_number_in_it() {
    let (mut seat, _) = two_seats();
    for bad in [5..5, 6..5, 0..0, u64::MAX..0, 0..HIGHEST + 1, 0..u64::MAX] {
        assert_eq!(seat.try_write(bad.clone()).unwrap_err(), Refused::BadRange);
        assert_eq!(seat.try_read(bad.clone()).unwrap_err(), Refused::BadRange);
        assert_eq!(seat.write(bad.clone()).unwrap_err(), Refused::BadRange);
        assert_eq!(seat.read(bad).unwrap_err(), Refused::BadRange);
    }
    assert_eq!(seat.try_write_times(0..1, 0).unwrap_err(), Refused::NotTried);
    assert!(seat.try_write(HIGHEST - 1..HIGHEST).is_ok());
}

#[test]
fn a_refusal_says_what_is_in_the_way() {
    let (mut first, mut second) = two_seats();
    let held = first.try_write(10..20).unwrap();
    assert_eq!(held.range(), 10..20);
    assert_eq!(held.seat().holding(), Some(Holding { range: 10..20, seat: 0, writer: true }));
    let why = second.try_read(19..21).unwrap_err();
    assert_eq!(why, Refused::Busy(Holding { range: 10..20, seat: 0, writer: true }));
    assert!(why.may_retry());
    assert_eq!(why.to_string(), "seat 0 holds or asks for 10 to 20 as a writer");
    assert!(second.try_read(20..21).is_ok());
    drop(held);
    let read = first.try_read(10..20).unwrap();
    assert!(second.try_read(10..20).is_ok());
    assert!(second.try_write(10..20).is_err());
    drop(read);
    assert_eq!(first.holding(), None);
    assert!(!Refused::BadRange.may_retry());
    assert_eq!(Refused::BadRange.to_string(), "the ends bound no range");
}

#[test]
#[allow(clippy::reversed_empty_ranges)]
fn a_try_tells_how_many_it_made() {
    let (mut first, mut second) = two_seats();
    let (held, made) = first.try_write_counted(10..20, 7);
    assert_eq!((held.is_ok(), made), (true, 1));
    for tries in [1, 2, 5] {
        let (refused, made) = second.try_read_counted(19..21, tries);
        assert_eq!(refused.unwrap_err(), Refused::Busy(Holding { range: 10..20, seat: 0, writer: true }));
        assert_eq!(made, tries);
    }
    drop(held);
    let (read, made) = second.try_read_counted(19..21, 3);
    assert_eq!((read.is_ok(), made), (true, 1));
    drop(read);
    let (refused, made) = second.try_write_counted(5..4, 3);
    assert_eq!((refused.unwrap_err(), made), (Refused::BadRange, 0));
    let (refused, made) = second.try_write_counted(4..5, 0);
    assert_eq!((refused.unwrap_err(), made), (Refused::NotTried, 0));
}

#[test]
fn a_try_gives_up_at_its_moment() {
    let (mut first, mut second) = two_seats();
    let begun = Instant::now();
    assert!(second.try_write_until(0..1, begun).is_ok());
    assert!(second.try_read_for(0..1, Duration::MAX).is_ok());
    let held = first.write(10..20).unwrap();
    let busy = Refused::Busy(Holding { range: 10..20, seat: 0, writer: true });
    assert_eq!(second.try_read_until(15..16, begun).unwrap_err(), busy);
    assert_eq!(second.try_write_for(15..16, Duration::ZERO).unwrap_err(), busy);
    let (begun, time) = (Instant::now(), Duration::from_millis(20));
    assert_eq!(second.try_write_for(15..16, time).unwrap_err(), busy);
    assert!(begun.elapsed() >= time);
    assert_eq!(second.try_write_for(5..5, Duration::MAX).unwrap_err(), Refused::BadRange);
    drop(held);
    thread::scope(|scope| {
        let held = first.write(10..20).unwrap();
        let waiting = scope.spawn(move || second.try_read_for(15..16, Duration::MAX).is_ok());
        thread::sleep(Duration::from_millis(5));
        drop(held);
        assert!(waiting.join().unwrap());
    });
}

#[test]
fn a_lock_is_shared_by_reference() {
    fn is_sync<T: Send + Sync>() {}
    is_sync::<RangeLock>();
    let lock = RangeLock::open_cut(2, Cut { regions: 3, bits: 2 }).unwrap();
    let one = lock.write(0..4).unwrap();
    assert_eq!(one.range(), 0..4);
    assert!(matches!(lock.try_read(3..5).unwrap_err(), Refused::Busy(Holding { writer: true, .. })));
    assert_eq!(lock.try_write(4..4).unwrap_err(), Refused::BadRange);
    let two = lock.try_read(4..5).unwrap();
    assert_eq!(lock.try_write(8..9).unwrap_err(), Refused::NoneLeft);
    assert_eq!(lock.try_write_for(8..9, Duration::from_millis(5)).unwrap_err(), Refused::NoneLeft);
    drop(two);
    assert!(lock.try_read_for(8..9, Duration::ZERO).is_ok());
    assert!(matches!(lock.try_write_for(3..4, Duration::from_millis(5)), Err(Refused::Busy(_))));
    let kept: WriteGuard = lock.write(8..9).unwrap();
    thread::scope(|scope| {
        let waits_for_a_seat = scope.spawn(|| lock.read(20..30).is_ok());
        thread::sleep(Duration::from_millis(5));
        drop(kept);
        assert!(waits_for_a_seat.join().unwrap());
        let panics = scope.spawn(|| {
            let _held = lock.write(40..50).unwrap();
            panic!("as is meant");
        });
        assert!(panics.join().is_err());
    });
    assert!(lock.try_write(40..50).is_ok());
    assert_eq!(RangeLock::open(0).unwrap_err(), Refused::BadSeats);
}

/// More threads than seats, over values that are lent.
#[test]
fn threads_count_under_a_shared_lock() {
    const TURNS: u64 = 2000;
    let (lock, other) = (RangeLock::open(3).unwrap(), RangeLock::open(1).unwrap());
    let mut cells = [0u64; 12];
    let row = GuardedSlice::new(&lock, &mut cells);
    assert!(row.write(&mut other.write(0..4).unwrap()).is_none());
    assert_eq!((row.len(), row.is_empty()), (12, false));
    thread::scope(|scope| {
        for i in 0..6 {
            let (lock, row) = (&lock, &row);
            scope.spawn(move || {
                for turn in 0..TURNS {
                    let first = (turn + i) % 11;
                    let mut held = lock.write(first..first + 2).unwrap();
                    row.write(&mut held).unwrap().iter_mut().for_each(|cell| *cell += 1);
                    assert_eq!(row.read(&held).unwrap().len(), 2);
                    drop(held);
                    let held = lock.read(0..12).unwrap();
                    assert_eq!(row.read(&held).unwrap().iter().sum::<u64>() % 2, 0, "a half change was seen");
                }
            });
        }
    });
    assert_eq!(cells.iter().sum::<u64>(), 6 * TURNS * 2);
}

#[test]
fn a_forgotten_guard_leaves_its_range_held() {
    let (mut first, mut second) = two_seats();
    forget(first.try_write(0..10).unwrap());
    assert_eq!(first.try_write(20..30).unwrap_err(), Refused::HasOne);
    assert!(second.try_read(0..1).is_err());
    assert!(first.release());
    assert!(!first.release());
    assert!(second.try_read(0..1).is_ok());
    forget(first.try_write(0..10).unwrap());
    drop(first);
    assert!(second.try_read(0..1).is_ok());
}

#[test]
fn a_panic_gives_the_range_back() {
    let (mut first, mut second) = two_seats();
    let ended = thread::spawn(move || {
        let _held = first.write(0..10).unwrap();
        panic!("as is meant");
    })
    .join();
    assert!(ended.is_err());
    assert!(second.try_write(0..10).is_ok());
}

#[test]
fn a_panic_poisons_what_was_changed() {
    let lock = RangeLock::open(2).unwrap();
    let (row, other) = (Guarded::new(&lock, vec![0; 4]), Guarded::new(&lock, vec![0; 4]));
    let mut lent = [0; 4];
    let slice = GuardedSlice::new(&lock, &mut lent);
    thread::scope(|scope| {
        let ended = scope.spawn(|| {
            let mut held = lock.write(0..2).unwrap();
            other.read(&held).unwrap();
            slice.write(&mut held).unwrap()[0] = 1;
            row.write_unpoisoned(&mut held).unwrap().unwrap()[0] = 1;
            panic!("as is meant");
        });
        assert!(ended.join().is_err());
    });
    assert!(row.is_poisoned() && slice.is_poisoned() && !other.is_poisoned());
    let mut held = lock.try_write(0..4).unwrap();
    let values = row.write_unpoisoned(&mut held).unwrap_err().into_inner().unwrap();
    assert_eq!(values, [1, 0, 0, 0]);
    values[0] = 0;
    assert!(row.read_unpoisoned(&held).is_err());
    row.clear_poison();
    assert_eq!(row.read_unpoisoned(&held).unwrap(), Some(&[0; 4][..]));
    drop(held);

    // By a seat's guard too; but not where the thread panicked before it took the range.
    struct Cleans<'a>(&'a Guarded<u32>, Seat);
    impl Drop for Cleans<'_> {
        fn drop(&mut self) {
            self.0.write(&mut self.1.write(0..1).unwrap()).unwrap()[0] = 7;
        }
    }
    let table = Table::open(2).unwrap();
    let (row, other) = (Guarded::new(&table, vec![0u32]), Guarded::new(&table, vec![0u32]));
    let mut seats = table.into_seats().unwrap();
    let (mut seat, cleaner) = (seats.remove(0), seats.remove(0));
    thread::scope(|scope| {
        let ended = scope.spawn(|| {
            let _cleans = Cleans(&other, cleaner);
            let mut held = seat.write(0..1).unwrap();
            row.write(&mut held).unwrap();
            row.write(&mut held).unwrap();
            other.write(&mut held).unwrap();
            other.clear_poison();
            drop(held);
            let mut held = seat.write(0..1).unwrap();
            row.write(&mut held).unwrap();
            panic!("as is meant");
        });
        assert!(ended.join().is_err());
    });
    assert!(row.is_poisoned() && !other.is_poisoned());
    assert_eq!(other.into_inner(), [7]);
}

#[test]
fn a_scan_shows_who_has_what() {
    let mut table = Table::open(3).unwrap();
    let (mut one, mut two, mut looks) =
        (table.take_seat().unwrap(), table.take_seat().unwrap(), table.take_seat().unwrap());
    assert_eq!(looks.scan(), Ok(Scanned { ranges: vec![], whole: true }));
    let (first, second) = (one.write(10..20).unwrap(), two.read(30..40).unwrap());
    let (first_is, second_is) = (first.seat().holding().unwrap(), second.seat().holding().unwrap());
    assert_eq!(looks.scan(), Ok(Scanned { ranges: vec![first_is, second_is.clone()], whole: true }));
    drop(first);
    assert_eq!(looks.scan(), Ok(Scanned { ranges: vec![second_is], whole: true }));
    drop(second);
    forget(looks.write(50..60).unwrap());
    assert_eq!(looks.scan(), Err(Refused::HasOne));
    assert_eq!(one.scan().unwrap().ranges, [looks.holding().unwrap()]);

    let lock = RangeLock::open(2).unwrap();
    let held = lock.write(1..2).unwrap();
    assert_eq!(lock.scan().unwrap().ranges.len(), 1);
    let other = lock.read(3..4).unwrap();
    assert_eq!(lock.scan(), Err(Refused::NoneLeft));
    drop((held, other));
}

#[test]
fn waiting_calls_count_what_they_meet() {
    let (mut first, mut second) = two_seats();
    let counts = Arc::new(Counts::default());
    first.count_in(&counts);
    second.count_in(&counts);
    let held = first.write(10..20).unwrap();
    assert_eq!((counts.tries(), counts.waits(), counts.sleeps()), (1, 0, 0));
    let why = second.try_write_for(15..16, Duration::from_millis(5)).unwrap_err();
    assert_eq!(counts.refused(&why), counts.tries() - 1);
    let between = counts.waits() + counts.sleeps(); // none before the try that follows a caller's count
    assert!(between == counts.tries() - 2 || between == counts.tries() - 3);
    assert!(counts.sleeps() > 0);
    assert_eq!(counts.refused(&Refused::Again) + counts.refused(&Refused::BadRange), 0);
    let tries = counts.tries();
    assert!(second.try_write(15..16).is_err());
    assert!(second.write(5..5).is_err() && second.try_read_for(5..5, Duration::ZERO).is_err());
    assert_eq!(counts.tries(), tries);
    drop(held);
}

#[test]
fn client_words_step() {
    let mut seats = Table::open_with(2, &[7, 8]).unwrap().into_seats().unwrap();
    assert_eq!(seats[0].load(0), Ok(7));
    assert_eq!(seats[1].add(0, 3), Ok(7));
    assert_eq!(seats[0].exchange(0, 9, 1), Ok(Err(10)));
    assert_eq!(seats[0].exchange(0, 10, 1), Ok(Ok(10)));
    assert_eq!(seats[1].store(1, 5), Ok(()));
    assert_eq!(seats[0].load(1), Ok(5));
    assert_eq!(seats[0].load(2), Err(Refused::NoWord));
    assert_eq!(seats[0].exchange(2, 0, 0), Err(Refused::NoWord));
    let held = seats[0].write(0..1).unwrap();
    assert_eq!(held.seat().add(0, 1), Ok(1));
}

#[test]
fn guarded_values_are_those_of_the_range() {
    let (mut table, mut other) = (Table::open(2).unwrap(), Table::open(1).unwrap());
    let row = Guarded::new(&table, vec![String::new(); 4]);
    assert_eq!((row.len(), row.is_empty()), (4, false));
    let (mut seat, mut foreign) = (table.take_seat().unwrap(), other.take_seat().unwrap());
    assert!(row.write(&mut foreign.write(0..4).unwrap()).is_none());
    assert!(row.read(&foreign.read(0..4).unwrap()).is_none());
    assert!(row.write(&mut seat.write(3..5).unwrap()).is_none());
    assert!(row.read(&seat.read(HIGHEST - 1..HIGHEST).unwrap()).is_none());
    row.write(&mut seat.write(1..3).unwrap()).unwrap()[1].push('x');
    assert_eq!(row.read(&seat.read(2..3).unwrap()).unwrap(), ["x"]);
    assert_eq!(row.into_inner(), ["", "", "x", ""]);
}

/// Threads count under ranges, each by its seat, which then goes to main by a channel.
#[test]
fn threads_count() {
    const TURNS: u64 = 20000;
    let table = Table::open_cut(4, Cut { regions: 3, bits: 2 }, &[0]).unwrap();
    let cells = Guarded::new(&table, vec![0u64; 12]);
    let (back, seats) = mpsc::channel();
    thread::scope(|scope| {
        for mut seat in table.into_seats().unwrap() {
            let (cells, back) = (&cells, back.clone());
            scope.spawn(move || {
                for turn in 0..TURNS {
                    if turn % 4 == 3 {
                        let held = seat.read(0..12).unwrap();
                        let all: u64 = cells.read(&held).unwrap().iter().sum();
                        assert_eq!(all % 2, 0, "a half change was seen");
                    } else {
                        let first = turn % 11;
                        let mut held = seat.write(first..first + 2).unwrap();
                        cells.write(&mut held).unwrap().iter_mut().for_each(|cell| *cell += 1);
                    }
                    seat.add(0, 1).unwrap();
                }
                back.send(seat).unwrap();
            });
        }
    });
    drop(back);
    let seats: Vec<Seat> = seats.iter().collect();
    assert_eq!(seats.len(), 4);
    assert_eq!(seats[0].load(0), Ok(4 * TURNS));
    assert_eq!(cells.into_inner().iter().sum::<u64>(), 4 * TURNS / 4 * 3 * 2);
}

#[test]
fn what_goes_to_other_threads() {
    fn is_send<T: Send>() {}
    fn is_sync<T: Sync>() {}
    is_send::<Table>();
    is_send::<Seat>();
    is_send::<WriteRange<'static>>();
    is_send::<ReadRange<'static>>();
    is_sync::<Guarded<u64>>();
    is_sync::<Refused>();
}

#[test]
fn a_waiting_seat_sleeps_unless_it_spins() {
    for spinning in [false, true] {
        let (mut first, mut second) = two_seats();
        let counts = Arc::new(Counts::default());
        second.count_in(&counts);
        second.set_spinning(spinning);
        let held = first.write(10..20).unwrap();
        let waiting = thread::spawn(move || second.read(15..16).map(drop));
        thread::sleep(Duration::from_millis(50));
        drop(held);
        assert_eq!(waiting.join().unwrap(), Ok(()));
        assert_eq!(counts.sleeps() == 0, spinning);
        assert!(spinning || counts.tries() < 200);
    }
}
