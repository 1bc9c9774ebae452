//! A lock that threads share by reference, for programs whose threads come and go or have no place for a seat.

use crate::guarded::{Held, Lock, Poisons, Sealed, Writes};
use crate::{Counts, Cut, Refused, Scanned, Seat, Table};
use std::ops::Range;
use std::sync::{Arc, Condvar, Mutex, MutexGuard, PoisonError};
use std::time::{Duration, Instant};

/// A range lock that is taken by `&self`, as std's locks are, over a shelf of seats: a call takes one for as long as its
/// range is held. So at most as many ranges are held or waited for at once as there are seats. A thread that has a
/// [`Seat`] of its own saves the shelf, a mutex.
///
/// ```
/// use gz_range::{Guarded, RangeLock};
/// use std::thread;
///
/// let lock = RangeLock::open(4)?;
/// let row = Guarded::new(&lock, vec![0u64; 100]);
/// thread::scope(|scope| {
///     for i in 0..20 {
///         let (lock, row) = (&lock, &row);
///         scope.spawn(move || {
///             let mut held = lock.write(i..i + 10).expect("a range");
///             row.write(&mut held).expect("the row's").iter_mut().for_each(|value| *value += 1);
///         });
///     }
/// });
/// assert_eq!(row.into_inner().iter().sum::<u64>(), 20 * 10);
/// # Ok::<(), gz_range::Refused>(())
/// ```
#[derive(Debug)]
pub struct RangeLock {
    shelf: Mutex<Vec<Seat>>,
    /// Tells that a seat came back.
    back: Condvar,
    table: u64,
}

impl RangeLock {
    /// Opens a lock of so many seats, from 1 to [`MOST_SEATS`](crate::MOST_SEATS).
    pub fn open(seats: u32) -> Result<RangeLock, Refused> {
        RangeLock::over(Table::open(seats)?)
    }

    /// Opens a lock with a list for each region of a cut, and one for the ranges in several of them.
    pub fn open_cut(seats: u32, cut: Cut) -> Result<RangeLock, Refused> {
        RangeLock::over(Table::open_cut(seats, cut, &[])?)
    }

    fn over(table: Table) -> Result<RangeLock, Refused> {
        let number = table.table();
        Ok(RangeLock { shelf: Mutex::new(table.into_seats()?), back: Condvar::new(), table: number })
    }

    /// Holds the range as a writer, however long that takes; where no seat is free it sleeps until one is. Nothing is
    /// claimed of when it returns. It is refused for a range without numbers alone.
    pub fn write(&self, range: Range<u64>) -> Result<WriteGuard<'_>, Refused> {
        self.hold(self.seat(), |seat| seat.hold(&range, true)).map(|seat| WriteGuard { seat, range })
    }

    /// The same as a reader.
    pub fn read(&self, range: Range<u64>) -> Result<ReadGuard<'_>, Refused> {
        self.hold(self.seat(), |seat| seat.hold(&range, false)).map(|seat| ReadGuard { seat, range })
    }

    /// Tries to hold the range as a writer, at most [`TRIES`](crate::TRIES) times. [`Refused::NoneLeft`] where no seat
    /// is free.
    pub fn try_write(&self, range: Range<u64>) -> Result<WriteGuard<'_>, Refused> {
        let seat = self.shelf().pop().ok_or(Refused::NoneLeft)?;
        self.hold(seat, |seat| seat.try_hold(&range, true, crate::TRIES).0).map(|seat| WriteGuard { seat, range })
    }

    /// The same as a reader.
    pub fn try_read(&self, range: Range<u64>) -> Result<ReadGuard<'_>, Refused> {
        let seat = self.shelf().pop().ok_or(Refused::NoneLeft)?;
        self.hold(seat, |seat| seat.try_hold(&range, false, crate::TRIES).0).map(|seat| ReadGuard { seat, range })
    }

    /// Holds the range as a writer, or is refused as the last try was when so long has passed; [`Refused::NoneLeft`]
    /// where no seat came free meanwhile.
    pub fn try_write_for(&self, range: Range<u64>, time: Duration) -> Result<WriteGuard<'_>, Refused> {
        let moment = Instant::now().checked_add(time);
        self.hold(self.seat_for(time)?, |seat| seat.hold_until(&range, true, moment))
            .map(|seat| WriteGuard { seat, range })
    }

    /// The same as a reader.
    pub fn try_read_for(&self, range: Range<u64>, time: Duration) -> Result<ReadGuard<'_>, Refused> {
        let moment = Instant::now().checked_add(time);
        self.hold(self.seat_for(time)?, |seat| seat.hold_until(&range, false, moment))
            .map(|seat| ReadGuard { seat, range })
    }

    /// Shows who has or wants what: [`Seat::scan`], by a seat that is free. [`Refused::NoneLeft`] where none is.
    pub fn scan(&self) -> Result<Scanned, Refused> {
        let mut taken = self.taken(self.shelf().pop().ok_or(Refused::NoneLeft)?);
        taken.seat.as_mut().ok_or(Refused::NoneLeft)?.scan()
    }

    /// From now on the seats that are free count there what they meet in calls that wait: [`Seat::count_in`].
    pub fn count_in(&self, counts: &Arc<Counts>) {
        self.shelf().iter_mut().for_each(|seat| seat.count_in(counts));
    }

    /// The seats that are free. What panics while it has the shelf leaves it whole.
    fn shelf(&self) -> MutexGuard<'_, Vec<Seat>> {
        self.shelf.lock().unwrap_or_else(PoisonError::into_inner)
    }

    fn seat(&self) -> Seat {
        let shelf = self.back.wait_while(self.shelf(), |shelf| shelf.is_empty());
        shelf.unwrap_or_else(PoisonError::into_inner).pop().expect("the wait ends when there is one")
    }

    fn seat_for(&self, time: Duration) -> Result<Seat, Refused> {
        let waited = self.back.wait_timeout_while(self.shelf(), time, |shelf| shelf.is_empty());
        waited.unwrap_or_else(PoisonError::into_inner).0.pop().ok_or(Refused::NoneLeft)
    }

    /// Has a seat hold a range; it goes back where it is refused.
    fn hold(&self, seat: Seat, hold: impl FnOnce(&mut Seat) -> Result<(), Refused>) -> Result<Taken<'_>, Refused> {
        let mut taken = self.taken(seat);
        taken.seat.as_mut().map_or(Ok(()), hold)?;
        Ok(taken)
    }

    fn taken(&self, seat: Seat) -> Taken<'_> {
        Taken { lock: self, seat: Some(seat), poison: Poisons::new() }
    }
}

impl Lock for RangeLock {}

impl Sealed for RangeLock {
    fn table(&self) -> u64 {
        self.table
    }
}

/// A seat that is out. When this goes, what it holds is given back, and it stands on the shelf again.
#[derive(Debug)]
struct Taken<'a> {
    lock: &'a RangeLock,
    seat: Option<Seat>,
    poison: Poisons,
}

impl Drop for Taken<'_> {
    fn drop(&mut self) {
        self.poison.tell();
        if let Some(mut seat) = self.seat.take() {
            seat.release();
            self.lock.shelf().push(seat);
            self.lock.back.notify_one();
        }
    }
}

macro_rules! guard {
    ($(#[$comment:meta])* $name:ident) => {
        $(#[$comment])*
        #[must_use = "the range is given back at once where its guard isn't kept"]
        #[derive(Debug)]
        pub struct $name<'a> {
            seat: Taken<'a>,
            range: Range<u64>,
        }

        impl $name<'_> {
            /// The range that is held.
            pub fn range(&self) -> Range<u64> {
                self.range.clone()
            }
        }

        impl Held for $name<'_> {
            fn numbers(&self) -> Range<u64> {
                self.range.clone()
            }
        }

        impl Sealed for $name<'_> {
            fn table(&self) -> u64 {
                self.seat.lock.table
            }
        }
    };
}

guard! {
    /// A range of a [`RangeLock`] that is held as a writer, until this goes.
    WriteGuard
}
guard! {
    /// A range of a [`RangeLock`] that is held as a reader, until this goes.
    ReadGuard
}

impl Writes for WriteGuard<'_> {
    fn poisons(&mut self) -> &mut Poisons {
        &mut self.seat.poison
    }
}
