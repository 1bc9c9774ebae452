//! Values that are reached by the range that is held, so that a program needs no unsafe code of its own.

use std::cell::UnsafeCell;
use std::marker::PhantomData;
use std::ops::Range;
use std::slice;
use std::sync::atomic::{AtomicBool, Ordering::Relaxed};
use std::sync::{Arc, LockResult, PoisonError};
use std::thread;

/// What knows which table it is of. Nobody else's type has it, so that no type can lie about what it holds.
pub trait Sealed {
    /// The number of the table, which no other table of the process has.
    #[doc(hidden)]
    fn table(&self) -> u64;
}

/// A lock under which values can be put: a [`Table`](crate::Table) or a [`RangeLock`](crate::RangeLock).
pub trait Lock: Sealed {}

/// A range that is held, as a reader or as a writer.
pub trait Held: Sealed {
    /// From which number on, and below which.
    fn numbers(&self) -> Range<u64>;
}

/// A range that is held as a writer.
pub trait Writes: Held {
    /// The rows that were changed under it.
    #[doc(hidden)]
    fn poisons(&mut self) -> &mut Poisons;
}

/// The rows that were changed under a range, which a panic poisons before the range is given back.
#[doc(hidden)]
#[derive(Debug)]
pub struct Poisons {
    first: Option<Arc<AtomicBool>>,
    others: Vec<Arc<AtomicBool>>,
    /// Whether the thread panicked already when the range was taken.
    panicking: bool,
}

impl Poisons {
    pub(crate) fn new() -> Poisons {
        Poisons { first: None, others: Vec::new(), panicking: thread::panicking() }
    }

    fn add(&mut self, row: &Arc<AtomicBool>) {
        if self.first.iter().chain(&self.others).any(|known| Arc::ptr_eq(known, row)) {
            return;
        }
        match self.first {
            None => self.first = Some(Arc::clone(row)),
            Some(_) => self.others.push(Arc::clone(row)),
        }
    }

    /// Called before the range is given back.
    pub(crate) fn tell(&self) {
        if !self.panicking && thread::panicking() {
            self.first.iter().chain(&self.others).for_each(|row| row.store(true, Relaxed));
        }
    }
}

/// A row of values under a lock: value i is reached by who holds number i.
///
/// ```
/// use gz_range::{Guarded, Table};
///
/// let mut table = Table::open(2)?;
/// let row = Guarded::new(&table, vec![1, 2, 3, 4]);
/// let mut seat = table.take_seat()?;
/// let mut held = seat.write(1..3)?;
/// row.write(&mut held).expect("these numbers are the row's").copy_from_slice(&[20, 30]);
/// assert_eq!(row.read(&held), Some(&[20, 30][..]));
/// drop(held);
/// assert_eq!(row.into_inner(), [1, 20, 30, 4]);
/// # Ok::<(), gz_range::Refused>(())
/// ```
///
/// What is reached doesn't outlive its range:
///
/// ```compile_fail,E0505
/// let mut table = gz_range::Table::open(1).unwrap();
/// let row = gz_range::Guarded::new(&table, vec![1, 2, 3, 4]);
/// let mut seat = table.take_seat().unwrap();
/// let mut held = seat.write(1..3).unwrap();
/// let values = row.write(&mut held).unwrap();
/// drop(held);
/// values[0] = 7;
/// ```
///
/// A reader changes nothing:
///
/// ```compile_fail,E0277
/// let mut table = gz_range::Table::open(1).unwrap();
/// let row = gz_range::Guarded::new(&table, vec![1, 2, 3, 4]);
/// let mut seat = table.take_seat().unwrap();
/// let mut held = seat.read(1..3).unwrap();
/// row.write(&mut held);
/// ```
#[derive(Debug)]
pub struct Guarded<T> {
    table: u64,
    values: Box<[UnsafeCell<T>]>,
    poison: Arc<AtomicBool>,
}

/// The same over values that are lent, or that stand in a mapping.
///
/// ```
/// use gz_range::{GuardedSlice, RangeLock};
///
/// let lock = RangeLock::open(2)?;
/// let mut values = [1, 2, 3, 4];
/// let row = GuardedSlice::new(&lock, &mut values);
/// row.write(&mut lock.write(1..3)?).expect("these numbers are the row's").copy_from_slice(&[20, 30]);
/// assert_eq!(values, [1, 20, 30, 4]);
/// # Ok::<(), gz_range::Refused>(())
/// ```
///
/// Nobody else reaches the values meanwhile:
///
/// ```compile_fail,E0503
/// let lock = gz_range::RangeLock::open(2).unwrap();
/// let mut values = [1, 2, 3, 4];
/// let row = gz_range::GuardedSlice::new(&lock, &mut values);
/// values[0] = 7;
/// row.len();
/// ```
#[derive(Debug)]
pub struct GuardedSlice<'v, T> {
    table: u64,
    values: &'v [UnsafeCell<T>],
    poison: Arc<AtomicBool>,
    _lent: PhantomData<&'v mut [T]>,
}

// SAFETY: a value is reached as `&mut` by one thread at a time, and then by others, so it has to be Send; and as `&` by
// several at once, so it has to be Sync. That the two don't meet is the lock's promise: no two seats of one table hold
// ranges that overlap where one is a writer's, and a release happens before the grant of a range in conflict.
unsafe impl<T: Send + Sync> Sync for Guarded<T> {}
// SAFETY: as above.
unsafe impl<T: Send + Sync> Sync for GuardedSlice<'_, T> {}
// SAFETY: who has the row may reach the values, which are lent as `&mut`.
unsafe impl<T: Send + Sync> Send for GuardedSlice<'_, T> {}

impl<T> Guarded<T> {
    /// Puts values under a lock.
    pub fn new(lock: &impl Lock, values: Vec<T>) -> Guarded<T> {
        let values = values.into_iter().map(UnsafeCell::new).collect();
        Guarded { table: lock.table(), values, poison: Arc::default() }
    }

    /// The values, when nobody shares the row any more.
    pub fn into_inner(self) -> Vec<T> {
        self.values.into_vec().into_iter().map(UnsafeCell::into_inner).collect()
    }
}

impl<'v, T> GuardedSlice<'v, T> {
    /// Puts values that are lent under a lock.
    pub fn new(lock: &impl Lock, values: &'v mut [T]) -> GuardedSlice<'v, T> {
        let (first, count) = (values.as_mut_ptr(), values.len());
        // SAFETY: the values are lent to this alone, as long as it lives.
        unsafe { GuardedSlice::from_raw_parts(lock, first, count) }
    }

    /// Puts the `count` values from `first` on under a lock: those of a mapping, say.
    ///
    /// # Safety
    ///
    /// As with [`slice::from_raw_parts_mut`], as long as `'v` lasts: the values are there, aligned and initialised, and
    /// nobody reaches them but by this row, or by another one of the same lock from the same value on.
    pub unsafe fn from_raw_parts(lock: &impl Lock, first: *mut T, count: usize) -> GuardedSlice<'v, T> {
        // SAFETY: an UnsafeCell has the layout of its value, and what the caller owes is that of this call.
        let values = unsafe { slice::from_raw_parts(first.cast::<UnsafeCell<T>>(), count) };
        GuardedSlice { table: lock.table(), values, poison: Arc::default(), _lent: PhantomData }
    }
}

macro_rules! row {
    ($($name:ty),*) => {$(
        impl<T> $name {
            /// How many values there are.
            pub fn len(&self) -> usize {
                self.values.len()
            }

            /// Whether there is no value.
            pub fn is_empty(&self) -> bool {
                self.values.is_empty()
            }

            /// The values that are held, to read. None where the range is of another lock, or ends behind the last
            /// value.
            pub fn read<'a>(&'a self, held: &'a impl Held) -> Option<&'a [T]> {
                let held = place_of(&self.values, self.table, held)?;
                // SAFETY: these are values of the row, of which nobody has a `&mut` as long as the range is held; by a
                // writer's own guard neither, since that is borrowed as `&`.
                Some(unsafe { slice::from_raw_parts(UnsafeCell::raw_get(held.as_ptr()), held.len()) })
            }

            /// The values that are held, to change. None as with `read`.
            #[allow(clippy::mut_from_ref)]
            pub fn write<'a>(&'a self, held: &'a mut impl Writes) -> Option<&'a mut [T]> {
                held.poisons().add(&self.poison);
                let held = place_of(&self.values, self.table, held)?;
                // SAFETY: these are values of the row, which nobody else reaches as long as the range is held; and by
                // this guard there is one reference at a time, since it is borrowed as `&mut`.
                Some(unsafe { slice::from_raw_parts_mut(UnsafeCell::raw_get(held.as_ptr()), held.len()) })
            }

            /// Whether a thread panicked while it held a range under which it had asked for values of the row to
            /// change, as with std's locks. The row is poisoned as a whole. `read` and `write` don't ask.
            pub fn is_poisoned(&self) -> bool {
                self.poison.load(Relaxed)
            }

            /// Says that the values are in order again.
            pub fn clear_poison(&self) {
                self.poison.store(false, Relaxed);
            }

            /// What `read` gives; within a [`PoisonError`] where the row is poisoned.
            pub fn read_unpoisoned<'a>(&'a self, held: &'a impl Held) -> LockResult<Option<&'a [T]>> {
                self.unless_poisoned(self.read(held))
            }

            /// What `write` gives; within a [`PoisonError`] where the row is poisoned.
            #[allow(clippy::mut_from_ref)]
            pub fn write_unpoisoned<'a>(&'a self, held: &'a mut impl Writes) -> LockResult<Option<&'a mut [T]>> {
                self.unless_poisoned(self.write(held))
            }

            fn unless_poisoned<V>(&self, values: V) -> LockResult<V> {
                if self.is_poisoned() { Err(PoisonError::new(values)) } else { Ok(values) }
            }
        }
    )*};
}

row!(Guarded<T>, GuardedSlice<'_, T>);

fn place_of<'a, T>(values: &'a [UnsafeCell<T>], table: u64, held: &impl Held) -> Option<&'a [UnsafeCell<T>]> {
    let numbers = held.numbers();
    let (first, end) = (usize::try_from(numbers.start).ok()?, usize::try_from(numbers.end).ok()?);
    values.get(first..end).filter(|_| held.table() == table)
}
