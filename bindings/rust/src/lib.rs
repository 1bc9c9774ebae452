#![doc = include_str!("../README.md")]
#![deny(missing_docs, unsafe_op_in_unsafe_fn)]

mod guarded;
mod raw;
mod shared;

pub use guarded::{Guarded, GuardedSlice, Held, Lock, Writes};
pub use shared::{RangeLock, ReadGuard, WriteGuard};

use raw::{Busy, Handle};
use std::alloc::{alloc, dealloc, Layout};
use std::error::Error;
use std::ffi::CStr;
use std::fmt;
use std::marker::PhantomData;
use std::ops::Range;
use std::ptr::{self, NonNull};
use std::sync::atomic::{AtomicU64, Ordering::Relaxed};
use std::sync::Arc;
use std::time::{Duration, Instant};

/// The most seats that a table has.
pub const MOST_SEATS: u32 = 16;
/// The most client words that a table has.
pub const MOST_WORDS: usize = 1 << 20;
/// The highest end of a range.
pub const HIGHEST: u64 = 1 << 62;
/// How many tries [`Seat::try_read`] and [`Seat::try_write`] make. A single try may be refused though nobody holds a
/// range in conflict, because another thread is at work in the lock's list; of this many few are refused so.
pub const TRIES: u32 = 4;

/// A range that a seat holds or asks for: the numbers of `range`, as a writer or as a reader.
#[derive(Clone, Debug, PartialEq, Eq)]
pub struct Holding {
    /// From which number on, and below which.
    pub range: Range<u64>,
    /// The number of the seat in its table, counted from 0.
    pub seat: u32,
    /// Whether it is a writer's.
    pub writer: bool,
}

impl Holding {
    fn of(busy: Busy) -> Holding {
        Holding { range: busy.lo..busy.hi, seat: busy.owner, writer: busy.writer }
    }
}

/// Why a call was refused. Nothing has changed then.
#[non_exhaustive]
#[derive(Clone, Debug, PartialEq, Eq)]
pub enum Refused {
    /// Another seat held, or asked for, a range in conflict at a step of the last try.
    Busy(Holding),
    /// Another seat changed the list where the last try was about to.
    Again,
    /// The last try looked at 16 nodes for each seat and one more.
    Long,
    /// The seat's nodes are all in the list still, or others may still look at them.
    NoNode,
    /// The number of tries was 0.
    NotTried,
    /// The range is empty or reversed, or ends above [`HIGHEST`].
    BadRange,
    /// The seat holds a range already: a guard of it was forgotten.
    HasOne,
    /// There was no memory.
    NoMemory,
    /// The number of seats is 0 or above [`MOST_SEATS`].
    BadSeats,
    /// There are more than [`MOST_WORDS`] client words.
    BadWords,
    /// There are no regions, or more than 16, or a block has more than 2^62 numbers.
    BadCut,
    /// No seat of the table is free.
    NoneLeft,
    /// The table has no client word of that number.
    NoWord,
}

impl Refused {
    fn of(answer: u32, busy: Busy) -> Refused {
        match answer {
            raw::BUSY => Refused::Busy(Holding::of(busy)),
            raw::AGAIN => Refused::Again,
            raw::LONG => Refused::Long,
            raw::NO_NODE => Refused::NoNode,
            raw::NOT_TRIED => Refused::NotTried,
            raw::BAD_RANGE => Refused::BadRange,
            raw::HAS_ONE => Refused::HasOne,
            raw::NO_MEMORY => Refused::NoMemory,
            raw::BAD_SEATS => Refused::BadSeats,
            raw::BAD_WORDS => Refused::BadWords,
            raw::BAD_CUT => Refused::BadCut,
            raw::NONE_LEFT => Refused::NoneLeft,
            raw::NO_WORD => Refused::NoWord,
            // A seat's handle is open, and a place for a new one is closed.
            _ => unreachable!("the answer {answer} of the range lock"),
        }
    }

    fn number(&self) -> u32 {
        match self {
            Refused::Busy(_) => raw::BUSY,
            Refused::Again => raw::AGAIN,
            Refused::Long => raw::LONG,
            Refused::NoNode => raw::NO_NODE,
            Refused::NotTried => raw::NOT_TRIED,
            Refused::BadRange => raw::BAD_RANGE,
            Refused::HasOne => raw::HAS_ONE,
            Refused::NoMemory => raw::NO_MEMORY,
            Refused::BadSeats => raw::BAD_SEATS,
            Refused::BadWords => raw::BAD_WORDS,
            Refused::BadCut => raw::BAD_CUT,
            Refused::NoneLeft => raw::NONE_LEFT,
            Refused::NoWord => raw::NO_WORD,
        }
    }

    /// Whether a later try may do better.
    pub fn may_retry(&self) -> bool {
        matches!(self, Refused::Busy(_) | Refused::Again | Refused::Long | Refused::NoNode)
    }
}

impl fmt::Display for Refused {
    fn fmt(&self, f: &mut fmt::Formatter<'_>) -> fmt::Result {
        if let Refused::Busy(Holding { range, seat, writer }) = self {
            let mode = if *writer { "writer" } else { "reader" };
            return write!(f, "seat {seat} holds or asks for {} to {} as a {mode}", range.start, range.end);
        }
        // SAFETY: the library's texts are constants that end with a 0.
        let text = unsafe { CStr::from_ptr(raw::gz_rust_text(self.number())) };
        f.write_str(&text.to_string_lossy())
    }
}

impl Error for Refused {}

/// What a scan of a table's lists went past.
#[derive(Clone, Debug, PartialEq, Eq)]
pub struct Scanned {
    /// The ranges, held or only asked for. Each stood in a list at a moment of the call.
    pub ranges: Vec<Holding>,
    /// Whether the scan came to the end of all lists; else another thread changed the list where it was, or there were
    /// more than 64 ranges, and a later call may show more.
    pub whole: bool,
}

/// What the seats met in their calls that wait, [`Seat::write`] and its like, that have this by [`Seat::count_in`].
#[derive(Debug, Default)]
pub struct Counts(raw::Counts);

impl Counts {
    /// How many tries were made.
    pub fn tries(&self) -> u64 {
        self.0.tries.load(Relaxed)
    }

    /// How many tries were refused so; 0 for a refusal that comes before a try.
    pub fn refused(&self, why: &Refused) -> u64 {
        self.0.refused.get(why.number() as usize).map_or(0, |count| count.load(Relaxed))
    }

    /// How many waits were made between two tries.
    pub fn waits(&self) -> u64 {
        self.0.waits.load(Relaxed)
    }

    /// How many sleeps.
    pub fn sleeps(&self) -> u64 {
        self.0.sleeps.load(Relaxed)
    }
}

/// What an answer of the library means for a call that gives back nothing.
fn checked(answer: u32) -> Result<(), Refused> {
    match answer {
        raw::DONE => Ok(()),
        _ => Err(Refused::of(answer, Busy::default())),
    }
}

/// How the numbers of a table are cut into regions, each of which has a list of its own: to the regions blocks of
/// 2^`bits` numbers are dealt out in turn. It serves many threads at ranges of different regions; only measuring tells
/// whether it serves a load.
#[derive(Clone, Copy, Debug, PartialEq, Eq)]
pub struct Cut {
    /// From 1 to 16.
    pub regions: u32,
    /// At most 62.
    pub bits: u32,
}

/// One lock, as it hands out its seats. It may go before them: the lock is there as long as one of its seats is.
///
/// A table that is gone can't hand out a seat:
///
/// ```compile_fail,E0382
/// let mut table = gz_range::Table::open(2).unwrap();
/// drop(table);
/// table.take_seat();
/// ```
#[derive(Debug)]
pub struct Table {
    /// The seat that all others are shared from. It is handed out last.
    last: Option<Seat>,
    id: u64,
}

impl Lock for Table {}

impl guarded::Sealed for Table {
    fn table(&self) -> u64 {
        self.id
    }
}

impl Table {
    /// Opens a table of so many seats, from 1 to [`MOST_SEATS`], without client words.
    pub fn open(seats: u32) -> Result<Table, Refused> {
        Table::open_with(seats, &[])
    }

    /// Opens a table whose client words begin as copies of these, at most [`MOST_WORDS`].
    pub fn open_with(seats: u32, words: &[u64]) -> Result<Table, Refused> {
        Table::open_by(|handle| {
            // SAFETY: the words' place isn't null, also where there are none, and the handle's is a closed handle.
            unsafe { raw::gz_range_open(seats, words.as_ptr(), words.len(), handle) }
        })
    }

    /// Opens a table with a list for each region of a cut, and one for the ranges in several of them.
    pub fn open_cut(seats: u32, cut: Cut, words: &[u64]) -> Result<Table, Refused> {
        Table::open_by(|handle| {
            // SAFETY: as above.
            unsafe { raw::gz_range_open_cut(seats, cut.regions, cut.bits, words.as_ptr(), words.len(), handle) }
        })
    }

    fn open_by(open: impl FnOnce(*mut Handle) -> u32) -> Result<Table, Refused> {
        static OPENED: AtomicU64 = AtomicU64::new(0);
        let id = OPENED.fetch_add(1, Relaxed);
        let last = Seat::open_by(id, open)?;
        Ok(Table { last: Some(last), id })
    }

    /// Hands out a seat that is free; the table's own one comes last, and behind it [`Refused::NoneLeft`]. Where that one
    /// is out, [`Seat::share`] of any seat gives those that ended since.
    pub fn take_seat(&mut self) -> Result<Seat, Refused> {
        match self.last.as_ref().ok_or(Refused::NoneLeft)?.share() {
            Err(Refused::NoneLeft) => self.last.take().ok_or(Refused::NoneLeft),
            answer => answer,
        }
    }

    /// Hands out all seats that are free.
    pub fn into_seats(mut self) -> Result<Vec<Seat>, Refused> {
        let mut seats = Vec::new();
        loop {
            match self.take_seat() {
                Ok(seat) => seats.push(seat),
                Err(Refused::NoneLeft) => return Ok(seats),
                Err(why) => return Err(why),
            }
        }
    }
}

/// The right of one thread at a time to hold one range at a time of a table. Its end gives back what it holds, and the
/// seat.
///
/// It goes to another thread, but two threads can't share it:
///
/// ```compile_fail,E0277
/// fn shared<T: Sync>(_: T) {}
/// shared(gz_range::Table::open(1).unwrap().take_seat().unwrap());
/// ```
///
/// While one range of it is held there is no second one:
///
/// ```compile_fail,E0499
/// let mut seat = gz_range::Table::open(1).unwrap().take_seat().unwrap();
/// let first = seat.write(0..10).unwrap();
/// let second = seat.write(20..30).unwrap();
/// drop(first);
/// ```
///
/// A seat that was moved away can't be used:
///
/// ```compile_fail,E0382
/// let mut seat = gz_range::Table::open(1).unwrap().take_seat().unwrap();
/// let taken = seat;
/// seat.try_write(0..10);
/// ```
pub struct Seat {
    /// A handle at a place of its own, since a handle isn't copied. It is open, and nobody else names it.
    place: NonNull<Handle>,
    /// Which table it is of.
    table: u64,
    /// Where it counts what it meets.
    counts: Option<Arc<Counts>>,
    spinning: bool,
    /// A handle is in one call at a time, so no two threads may have it.
    _one_thread: PhantomData<*mut Handle>,
}

// SAFETY: a handle may go from one thread to another, proved as `is_send_and_sync` of the library; each of the ways by
// which Rust hands a value over puts what was done before in front of what is done after.
unsafe impl Send for Seat {}

impl fmt::Debug for Seat {
    fn fmt(&self, f: &mut fmt::Formatter<'_>) -> fmt::Result {
        f.debug_struct("Seat").field("number", &self.number()).field("holding", &self.holding()).finish()
    }
}

impl Seat {
    fn open_by(table: u64, open: impl FnOnce(*mut Handle) -> u32) -> Result<Seat, Refused> {
        // SAFETY: a handle has a size that isn't 0; what is written is as large as the place.
        let place = unsafe {
            let place = NonNull::new(alloc(Layout::new::<Handle>()).cast::<Handle>()).ok_or(Refused::NoMemory)?;
            place.as_ptr().write(Handle::CLOSED);
            place
        };
        let answer = open(place.as_ptr());
        if answer == raw::DONE {
            return Ok(Seat { place, table, counts: None, spinning: false, _one_thread: PhantomData });
        }
        // SAFETY: the handle is closed still, and of this layout.
        unsafe { dealloc(place.as_ptr().cast(), Layout::new::<Handle>()) };
        checked(answer).map(|()| unreachable!("it was refused"))
    }

    fn handle(&self) -> *mut Handle {
        self.place.as_ptr()
    }

    /// One more seat of the same table: where this one is the table's last, one that is left; or else one that ended
    /// since it was handed out.
    pub fn share(&self) -> Result<Seat, Refused> {
        // SAFETY: both handles are live, and this seat is in no other call.
        Seat::open_by(self.table, |handle| unsafe { raw::gz_range_share(self.handle(), handle) })
    }

    /// Tries to hold the range as a writer, at most [`TRIES`] times.
    pub fn try_write(&mut self, range: Range<u64>) -> Result<WriteRange<'_>, Refused> {
        self.try_write_times(range, TRIES)
    }

    /// Tries to hold the range as a reader, at most [`TRIES`] times.
    pub fn try_read(&mut self, range: Range<u64>) -> Result<ReadRange<'_>, Refused> {
        self.try_read_times(range, TRIES)
    }

    /// Tries to hold the range as a writer, at most so many times. One try waits for nobody.
    pub fn try_write_times(&mut self, range: Range<u64>, tries: u32) -> Result<WriteRange<'_>, Refused> {
        self.try_write_counted(range, tries).0
    }

    /// Tries to hold the range as a reader, at most so many times. One try waits for nobody.
    pub fn try_read_times(&mut self, range: Range<u64>, tries: u32) -> Result<ReadRange<'_>, Refused> {
        self.try_read_counted(range, tries).0
    }

    /// The same as [`Seat::try_write_times`], with how many tries it made: from 1 to `tries` where the last one was
    /// granted, `tries` where all were refused, and 0 where the answer came before the first.
    pub fn try_write_counted(&mut self, range: Range<u64>, tries: u32) -> (Result<WriteRange<'_>, Refused>, u32) {
        let (answer, made) = self.try_hold(&range, true, tries);
        (answer.map(|()| WriteRange::of(self, range)), made)
    }

    /// The same as [`Seat::try_read_times`], with how many tries it made.
    pub fn try_read_counted(&mut self, range: Range<u64>, tries: u32) -> (Result<ReadRange<'_>, Refused>, u32) {
        let (answer, made) = self.try_hold(&range, false, tries);
        (answer.map(|()| ReadRange::of(self, range)), made)
    }

    /// Holds the range as a writer, or is refused as the last try was when so long has passed. It tries at least once.
    /// It waits as [`Seat::write`] does.
    pub fn try_write_for(&mut self, range: Range<u64>, time: Duration) -> Result<WriteRange<'_>, Refused> {
        self.hold_until(&range, true, Instant::now().checked_add(time))?;
        Ok(WriteRange::of(self, range))
    }

    /// The same as a reader.
    pub fn try_read_for(&mut self, range: Range<u64>, time: Duration) -> Result<ReadRange<'_>, Refused> {
        self.hold_until(&range, false, Instant::now().checked_add(time))?;
        Ok(ReadRange::of(self, range))
    }

    /// The same as [`Seat::try_write_for`], until a moment.
    pub fn try_write_until(&mut self, range: Range<u64>, moment: Instant) -> Result<WriteRange<'_>, Refused> {
        self.hold_until(&range, true, Some(moment))?;
        Ok(WriteRange::of(self, range))
    }

    /// The same as a reader.
    pub fn try_read_until(&mut self, range: Range<u64>, moment: Instant) -> Result<ReadRange<'_>, Refused> {
        self.hold_until(&range, false, Some(moment))?;
        Ok(ReadRange::of(self, range))
    }

    /// Holds the range as a writer, however long that takes. After its first tries it sleeps until the range that is in
    /// its way is given back. Nothing is claimed of when it returns.
    pub fn write(&mut self, range: Range<u64>) -> Result<WriteRange<'_>, Refused> {
        self.hold(&range, true)?;
        Ok(WriteRange::of(self, range))
    }

    /// Holds the range as a reader, however long that takes. Nothing is claimed of when it returns.
    pub fn read(&mut self, range: Range<u64>) -> Result<ReadRange<'_>, Refused> {
        self.hold(&range, false)?;
        Ok(ReadRange::of(self, range))
    }

    fn try_hold(&mut self, range: &Range<u64>, writer: bool, tries: u32) -> (Result<(), Refused>, u32) {
        let (mut busy, mut made) = (Busy::default(), 0);
        let (lo, hi) = (range.start, range.end);
        // SAFETY: the handle is live and this seat's alone, and `busy` and `made` are places of their own.
        let answer = unsafe { raw::gz_range_try_counted(self.handle(), lo, hi, writer, tries, &mut busy, &mut made) };
        match answer {
            raw::DONE => (Ok(()), made),
            _ => (Err(Refused::of(answer, busy)), made),
        }
    }

    fn hold(&mut self, range: &Range<u64>, writer: bool) -> Result<(), Refused> {
        let (lo, hi, spinning) = (range.start, range.end, self.spinning);
        // SAFETY: the handle is live and this seat's alone, and the counts are there as long as it is.
        checked(unsafe { raw::gz_rust_acquire(self.handle(), lo, hi, writer, spinning, self.counts_at()) })
    }

    /// As `gz_range_acquire_until` of the header, with what was in the way of the last try. None is a moment that never
    /// comes.
    fn hold_until(&mut self, range: &Range<u64>, writer: bool, moment: Option<Instant>) -> Result<(), Refused> {
        const LONGEST: Duration = Duration::from_secs(1_000_000_000);
        let left = moment.map_or(LONGEST, |moment| moment.saturating_duration_since(Instant::now()).min(LONGEST));
        let (lo, hi, time) = (range.start, range.end, left.as_nanos() as u64);
        let mut busy = Busy::default();
        // SAFETY: as above, and `busy` is a place of its own.
        let answer =
            unsafe { raw::gz_rust_acquire_for(self.handle(), lo, hi, writer, time, self.counts_at(), &mut busy) };
        match answer {
            raw::DONE => Ok(()),
            _ => Err(Refused::of(answer, busy)),
        }
    }

    fn counts_at(&self) -> *const raw::Counts {
        self.counts.as_ref().map_or(ptr::null(), |counts| ptr::addr_of!(counts.0))
    }

    /// Shows who has or wants what in the table: the ranges that a scan of its lists goes past. It waits for nobody. Other
    /// threads go on meanwhile, so a range that came or went may be missing, and one may be shown twice.
    /// [`Refused::HasOne`] where a forgotten guard left a range held.
    pub fn scan(&mut self) -> Result<Scanned, Refused> {
        let (mut places, mut found) = ([Busy::default(); 64], 0);
        // SAFETY: the handle is live and this seat's alone, the other is closed, and the places are there.
        let answer = unsafe {
            raw::gz_range_scan_into(self.handle(), Handle::CLOSED, places.as_mut_ptr(), places.len(), &mut found)
        };
        if answer == raw::HAS_ONE {
            return Err(Refused::HasOne);
        }
        let ranges = places[..found].iter().map(|busy| Holding::of(*busy)).collect();
        Ok(Scanned { ranges, whole: answer == raw::DONE })
    }

    /// From now on counts there what the seat's calls that wait meet: [`Seat::write`], [`Seat::read`], and those until a
    /// moment.
    pub fn count_in(&mut self, counts: &Arc<Counts>) {
        self.counts = Some(Arc::clone(counts));
    }

    /// From now on [`Seat::write`] and [`Seat::read`] don't sleep, or do again. Without sleep they use their processor as
    /// long as they wait, which serves ranges that are held very shortly.
    pub fn set_spinning(&mut self, spinning: bool) {
        self.spinning = spinning;
    }

    /// What the seat holds. Beside a guard that is the guard's range; after a guard was forgotten it is held still.
    pub fn holding(&self) -> Option<Holding> {
        let mut held = Busy::default();
        // SAFETY: the handle is live, and this thread alone has the seat.
        let answer = unsafe { raw::gz_range_held(self.handle(), &mut held) };
        (answer == raw::DONE).then(|| Holding::of(held))
    }

    /// The number of the seat in its table, counted from 0.
    pub fn number(&self) -> u32 {
        let mut held = Busy::default();
        // SAFETY: as above.
        unsafe { raw::gz_range_held(self.handle(), &mut held) };
        held.owner
    }

    /// Gives back what a forgotten guard left held. Says whether there was anything.
    pub fn release(&mut self) -> bool {
        // SAFETY: the handle is live and this seat's alone.
        unsafe { raw::gz_rust_release(self.handle()) == raw::DONE }
    }

    /// Loads client word `i`, counted from 0. This and the next three are each one sequentially consistent step, for
    /// which no range need be held.
    pub fn load(&self, i: u32) -> Result<u64, Refused> {
        let mut value = 0;
        // SAFETY: the handle is live, this thread alone has the seat, and `value` is a place of its own.
        checked(unsafe { raw::gz_range_load(self.handle(), i, &mut value) })?;
        Ok(value)
    }

    /// Stores a value in client word `i`.
    pub fn store(&self, i: u32, value: u64) -> Result<(), Refused> {
        // SAFETY: as above.
        checked(unsafe { raw::gz_range_store(self.handle(), i, value) })
    }

    /// Adds to client word `i`, modulo 2^64, and tells its value before.
    pub fn add(&self, i: u32, by: u64) -> Result<u64, Refused> {
        let mut before = 0;
        // SAFETY: as above.
        checked(unsafe { raw::gz_range_add(self.handle(), i, by, &mut before) })?;
        Ok(before)
    }

    /// Puts `value` into client word `i` where that is `expected`. As `compare_exchange` of std's atomics it tells what
    /// was found: `Ok` where it was the expected one, and `Err` where it wasn't and the word stays.
    pub fn exchange(&self, i: u32, expected: u64, value: u64) -> Result<Result<u64, u64>, Refused> {
        let mut found = expected;
        // SAFETY: as above.
        match unsafe { raw::gz_range_exchange(self.handle(), i, &mut found, value) } {
            raw::OTHER => Ok(Err(found)),
            answer => checked(answer).map(|()| Ok(found)),
        }
    }
}

impl Drop for Seat {
    fn drop(&mut self) {
        // SAFETY: the handle is live and this seat's alone, of this layout, and named by nobody behind this.
        unsafe {
            raw::gz_rust_close(self.handle());
            dealloc(self.place.as_ptr().cast(), Layout::new::<Handle>());
        }
    }
}

macro_rules! guard {
    ($(#[$comment:meta])* $name:ident) => {
        $(#[$comment])*
        #[must_use = "the range is given back at once where its guard isn't kept"]
        #[derive(Debug)]
        pub struct $name<'a> {
            seat: &'a mut Seat,
            range: Range<u64>,
            poison: guarded::Poisons,
        }

        impl<'a> $name<'a> {
            fn of(seat: &'a mut Seat, range: Range<u64>) -> $name<'a> {
                $name { seat, range, poison: guarded::Poisons::new() }
            }

            /// The range that is held.
            pub fn range(&self) -> Range<u64> {
                self.range.clone()
            }

            /// The seat that holds it, for steps on client words.
            pub fn seat(&self) -> &Seat {
                self.seat
            }
        }

        impl Drop for $name<'_> {
            fn drop(&mut self) {
                self.poison.tell();
                self.seat.release();
            }
        }

        impl guarded::Held for $name<'_> {
            fn numbers(&self) -> Range<u64> {
                self.range.clone()
            }
        }

        impl guarded::Sealed for $name<'_> {
            fn table(&self) -> u64 {
                self.seat.table
            }
        }
    };
}

impl guarded::Writes for WriteRange<'_> {
    fn poisons(&mut self) -> &mut guarded::Poisons {
        &mut self.poison
    }
}

guard! {
    /// A range that a seat holds as a writer, until this goes. Nobody else holds any of its numbers meanwhile.
    WriteRange
}
guard! {
    /// A range that a seat holds as a reader, until this goes. Nobody holds any of its numbers as a writer meanwhile.
    ReadRange
}
