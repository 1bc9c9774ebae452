#![doc = include_str!("../README.md")]
#![deny(missing_docs, unsafe_op_in_unsafe_fn)]

mod raw;
mod refused;

pub use refused::{Area, Counts, Field, Kind, Refused, Short};

use raw::{Call, Handle, Mapping, Reply};
use std::alloc::{alloc, dealloc, Layout};
use std::fmt;
use std::marker::PhantomData;
use std::ops::{BitOr, Range};
use std::ptr::NonNull;
use std::sync::{Mutex, PoisonError};

/// The most callers that a space has.
pub const MOST_CALLERS: u32 = 16;
/// How many bytes a page has.
pub const PAGE: u64 = 4096;
/// The first page that is never mapped, counted from 0.
pub const LIMIT: u64 = (1 << 44) - 1;

/// What may be done with a page: any of READ, WRITE and EXEC, or nothing.
#[derive(Clone, Copy, Debug, Default, PartialEq, Eq)]
pub struct Prot(u32);

impl Prot {
    /// Nothing may be done.
    pub const NONE: Prot = Prot(0);
    /// The page may be read.
    pub const READ: Prot = Prot(1);
    /// The page may be written.
    pub const WRITE: Prot = Prot(2);
    /// The page's bytes may be run.
    pub const EXEC: Prot = Prot(4);

    /// Whether it has all that the other one has.
    pub fn contains(self, other: Prot) -> bool {
        self.0 & other.0 == other.0
    }
}

impl BitOr for Prot {
    type Output = Prot;

    fn bitor(self, other: Prot) -> Prot {
        Prot(self.0 | other.0)
    }
}

/// How pages are mapped: one of SHARED and PRIVATE, and whether the address binds.
#[derive(Clone, Copy, Debug, PartialEq, Eq)]
pub struct MapFlags(u32);

impl MapFlags {
    /// Writes are seen by others that map the same.
    pub const SHARED: MapFlags = MapFlags(1);
    /// Writes are the space's own.
    pub const PRIVATE: MapFlags = MapFlags(2);
    /// The address binds, and replaces what was mapped there.
    pub const FIXED: MapFlags = MapFlags(4);
    /// The address binds, and nothing may be mapped there.
    pub const FIXED_NOREPLACE: MapFlags = MapFlags(8);
}

impl BitOr for MapFlags {
    type Output = MapFlags;

    fn bitor(self, other: MapFlags) -> MapFlags {
        MapFlags(self.0 | other.0)
    }
}

/// What a thread does to a byte of a page.
#[derive(Clone, Copy, Debug, PartialEq, Eq)]
pub enum Access {
    /// It reads it.
    Read = 1,
    /// It writes it.
    Write = 2,
    /// It runs it.
    Exec = 4,
}

/// Where a remap may put its pages.
#[derive(Clone, Copy, Debug, PartialEq, Eq)]
pub enum Moving {
    /// They stay where they are.
    Stay,
    /// They may go elsewhere if there is no room behind them, as with MREMAP_MAYMOVE.
    May,
    /// They go to this address if that is free, or else as with `May`.
    To(u64),
}

/// How the pages are cut into regions: to these, blocks of 2^`bits` pages are dealt out in turn. Faults in different
/// regions change no word in common.
#[derive(Clone, Copy, Debug, PartialEq, Eq)]
pub struct Cut {
    /// From 1 to 16.
    pub regions: u32,
    /// At most 62.
    pub bits: u32,
}

/// An address space, as it hands out its callers. Threads may share it. It may go before its callers: the space is
/// there as long as one of them is.
///
/// ```
/// fn shared<T: Sync + Send>(_: &T) {}
/// shared(&gz_space::Space::open(1).unwrap());
/// ```
#[derive(Debug)]
pub struct Space {
    /// The caller that all others are shared from. It is handed out last.
    last: Mutex<Option<Caller>>,
}

impl Space {
    /// Opens a space of so many callers, from 1 to [`MOST_CALLERS`], in which nothing is mapped.
    pub fn open(callers: u32) -> Result<Space, Refused> {
        Space::open_cut(callers, Cut { regions: 1, bits: 16 })
    }

    /// The same over a cut into regions.
    pub fn open_cut(callers: u32, cut: Cut) -> Result<Space, Refused> {
        // SAFETY: the handle's place is a closed handle.
        let last = Caller::open_by(|handle| unsafe { raw::gz_space_open(callers, cut.regions, cut.bits, handle) })?;
        Ok(Space { last: Mutex::new(Some(last)) })
    }

    /// Hands out a caller that wasn't taken; the space's own one comes last, and behind it [`Refused::NoneLeft`]. A
    /// caller that ended isn't handed out again.
    pub fn take_caller(&self) -> Result<Caller, Refused> {
        let mut last = self.last.lock().unwrap_or_else(PoisonError::into_inner);
        match last.as_ref().ok_or(Refused::NoneLeft)?.share() {
            Err(Refused::NoneLeft) => last.take().ok_or(Refused::NoneLeft),
            answer => answer,
        }
    }
}

/// The right of one thread at a time to make one call after the other. Its end gives back what it holds. Addresses and
/// lengths are in bytes; a length is rounded up to pages.
///
/// It goes to another thread, but two threads can't share it:
///
/// ```compile_fail,E0277
/// fn shared<T: Sync>(_: T) {}
/// shared(gz_space::Space::open(1).unwrap().take_caller().unwrap());
/// ```
///
/// While it holds pages it makes no other call:
///
/// ```compile_fail,E0499
/// use gz_space::{Access, Space};
/// let mut caller = Space::open(1).unwrap().take_caller().unwrap();
/// let held = caller.unmap_held(0, 4096).unwrap();
/// let other = caller.fault(0, Access::Read);
/// drop(held);
/// ```
pub struct Caller {
    /// A handle at a place of its own, since a handle isn't copied. It is open, and nobody else names it.
    place: NonNull<Handle>,
    /// A handle is in one call at a time, so no two threads may have it.
    _one_thread: PhantomData<*mut Handle>,
}

// SAFETY: a handle may go from one thread to another; each of the ways by which Rust hands a value over puts what was
// done before in front of what is done after.
unsafe impl Send for Caller {}

impl fmt::Debug for Caller {
    fn fmt(&self, f: &mut fmt::Formatter<'_>) -> fmt::Result {
        f.debug_struct("Caller").field("number", &self.number()).field("holding", &self.holding()).finish()
    }
}

macro_rules! calls {
    ($($(#[$comment:meta])* $name:ident, $held:ident, $gives:ty, ($($arg:ident: $type:ty),*),
        $call:expr, $value:expr;)*) => {
        $(
            $(#[$comment])*
            pub fn $name(&mut self, $($arg: $type),*) -> Result<$gives, Refused> {
                self.make(&$call, false).map($value)
            }

            #[doc = concat!("As [`Caller::", stringify!($name), "`], and goes on holding all pages until the guard")]
            /// goes. A call that is refused holds nothing.
            pub fn $held(&mut self, $($arg: $type),*) -> Result<Held<'_, $gives>, Refused> {
                let value = self.make(&$call, true).map($value)?;
                Ok(Held { caller: self, value })
            }
        )*
    };
}

fn address(reply: Reply) -> u64 {
    reply.at
}

fn nothing(_: Reply) {}

fn remap_call(addr: u64, len: u64, new_len: u64, moving: Moving) -> Call {
    let (flags, place) = match moving {
        Moving::Stay => (0, 0),
        Moving::May => (1, 0),
        Moving::To(place) => (1, place),
    };
    Call { kind: raw::REMAP, flags, addr, len, new_len, place, ..Call::default() }
}

impl Caller {
    calls! {
        /// Maps `len` bytes, and says where. Without a binding flag `addr` is a hint.
        map, map_held, u64, (addr: u64, len: u64, prot: Prot, flags: MapFlags),
            Call { kind: raw::MAP, prot: prot.0, flags: flags.0, addr, len, ..Call::default() }, address;
        /// Unmaps `len` bytes. Pages that aren't mapped are no error.
        unmap, unmap_held, (), (addr: u64, len: u64),
            Call { kind: raw::UNMAP, addr, len, ..Call::default() }, nothing;
        /// Changes what may be done with `len` bytes: all of them, or none.
        protect, protect_held, (), (addr: u64, len: u64, prot: Prot),
            Call { kind: raw::PROTECT, prot: prot.0, addr, len, ..Call::default() }, nothing;
        /// Makes `len` bytes into `new_len`, and says where they are then.
        remap, remap_held, u64, (addr: u64, len: u64, new_len: u64, moving: Moving),
            remap_call(addr, len, new_len, moving), address;
        /// Seals `len` bytes: nothing unmaps, replaces, protects or moves them from then on.
        seal, seal_held, (), (addr: u64, len: u64),
            Call { kind: raw::SEAL, addr, len, ..Call::default() }, nothing;
        /// Moves the end of the heap that begins at `base`, and says where it ends then.
        brk, brk_held, u64, (base: u64, end: u64),
            Call { kind: raw::BRK, addr: end, place: base, ..Call::default() }, address;
    }

    /// One access to the byte at `addr`: the kind of its page, which lets it through.
    pub fn fault(&mut self, addr: u64, access: Access) -> Result<Kind, Refused> {
        self.fault_by(addr, access, false, false)
    }

    /// The same, and goes on holding the page until the guard goes: no call that isn't a fault comes between. With
    /// `alone` no other fault of the page does either. A fault that is refused holds nothing.
    pub fn fault_held(&mut self, addr: u64, access: Access, alone: bool) -> Result<Held<'_, Kind>, Refused> {
        let value = self.fault_by(addr, access, alone, true)?;
        Ok(Held { caller: self, value })
    }

    /// The area of the byte at `addr`, with its exact ends, as it is at one moment of the call, or None where its page
    /// isn't mapped, as from [`LIMIT`] on. Faults that aren't alone run beside it. Nothing is held afterwards.
    pub fn area(&mut self, addr: u64) -> Result<Option<Area>, Refused> {
        let mut found = Mapping::default();
        // SAFETY: the handle is live and this caller's alone, and `found` is a place of its own.
        match unsafe { raw::gz_rust_space_area(self.handle(), addr, &mut found) } {
            raw::DONE => Ok(Area::of(&found)),
            raw::BAD_CALL => Ok(None), // the page is LIMIT or above it
            answer => Err(Refused::of_answer(answer)),
        }
    }

    /// The areas of these pages, by their numbers, each clipped to them, as they are at one moment of the call; `0` to
    /// [`LIMIT`] are all pages. Faults that aren't alone run beside it. Nothing is held afterwards. None are told of a
    /// range that is empty, and pages from [`LIMIT`] on aren't mapped.
    pub fn areas(&mut self, pages: Range<u64>) -> Result<Vec<Area>, Refused> {
        self.areas_by(pages, false)
    }

    /// The same, and goes on holding these pages until the guard goes: so their areas stay what they are.
    ///
    /// An empty range holds nothing.
    pub fn areas_held(&mut self, pages: Range<u64>) -> Result<Held<'_, Vec<Area>>, Refused> {
        let value = self.areas_by(pages, true)?;
        Ok(Held { caller: self, value })
    }

    /// How many areas these pages have, and how many of them are mapped, at one moment of the call.
    pub fn count(&mut self, pages: Range<u64>) -> Result<Counts, Refused> {
        let counts = self.look_for(&pages, false, &mut [])?;
        Ok(Counts { areas: counts.areas, pages: counts.pages })
    }

    /// Looks with as much room as the areas took at the look before, until there is enough; what a look with too little
    /// room went on holding is given back.
    fn areas_by(&mut self, pages: Range<u64>, keep: bool) -> Result<Vec<Area>, Refused> {
        let mut found = vec![Mapping::default(); 16];
        loop {
            let counts = self.look_for(&pages, keep, &mut found)?;
            let wanted = usize::try_from(counts.areas).map_err(|_| Refused::NoMemory)?;
            if wanted <= found.len() {
                return Ok(found[..wanted].iter().filter_map(Area::of).collect());
            }
            if keep {
                self.release();
            }
            found.resize(wanted, Mapping::default());
        }
    }

    fn look_for(&mut self, pages: &Range<u64>, keep: bool, found: &mut [Mapping]) -> Result<raw::Counts, Refused> {
        let mut counts = raw::Counts::default();
        // SAFETY: the handle is live and this caller's alone, and the places are this call's own. An empty slice's
        // pointer isn't null, and nothing is written there.
        let answer = unsafe {
            let (lo, hi) = (pages.start, pages.end.min(LIMIT));
            raw::gz_rust_space_areas(self.handle(), lo, hi, keep, found.as_mut_ptr(), found.len(), &mut counts)
        };
        match answer {
            raw::DONE | raw::BAD_CALL => Ok(counts), // an empty range is a bad call, with counts of 0
            answer => Err(Refused::of_answer(answer)),
        }
    }

    fn make(&mut self, call: &Call, keep: bool) -> Result<Reply, Refused> {
        let mut reply = Reply::default();
        // SAFETY: the handle is live and this caller's alone, and `reply` is a place of its own.
        let answer = unsafe { raw::gz_rust_space_make(self.handle(), call, keep, &mut reply) };
        self.checked(answer, reply)
    }

    fn fault_by(&mut self, addr: u64, access: Access, alone: bool, keep: bool) -> Result<Kind, Refused> {
        let mut reply = Reply::default();
        // SAFETY: as above.
        let answer = unsafe { raw::gz_rust_space_fault(self.handle(), addr, access as u32, alone, keep, &mut reply) };
        self.checked(answer, reply).map(|reply| Kind::of(&reply))
    }

    /// Tells a refusal, which gives back at once what its call held.
    fn checked(&mut self, answer: u32, reply: Reply) -> Result<Reply, Refused> {
        if answer != raw::DONE {
            return Err(Refused::of_answer(answer));
        }
        match reply.kind {
            raw::ADDRESS | raw::ZERO | raw::GRANTED => Ok(reply),
            _ => {
                self.release();
                Err(Refused::of_reply(&reply))
            }
        }
    }

    /// The pages that the caller holds, by their numbers. Beside a guard they are the guard's; after a guard was
    /// forgotten they are held still.
    pub fn holding(&self) -> Option<Range<u64>> {
        let mut held = raw::Range::default();
        // SAFETY: the handle is live, and this thread alone has the caller.
        let answer = unsafe { raw::gz_space_held(self.handle(), &mut held) };
        (answer == raw::DONE).then_some(held.lo..held.hi)
    }

    /// The number of the caller in its space, counted from 0.
    pub fn number(&self) -> u32 {
        let mut held = raw::Range::default();
        // SAFETY: as above.
        unsafe { raw::gz_space_held(self.handle(), &mut held) };
        held.caller
    }

    /// Gives back what a forgotten guard left held. Says whether there was anything.
    pub fn release(&mut self) -> bool {
        // SAFETY: the handle is live and this caller's alone.
        unsafe { raw::gz_space_done(self.handle()) == raw::DONE }
    }

    /// One more caller of the same space, where this one has any left.
    fn share(&self) -> Result<Caller, Refused> {
        // SAFETY: both handles are live, and this caller is in no other call.
        Caller::open_by(|handle| unsafe { raw::gz_space_share(self.handle(), handle) })
    }

    fn open_by(open: impl FnOnce(*mut Handle) -> u32) -> Result<Caller, Refused> {
        // SAFETY: a handle has a size that isn't 0; what is written is as large as the place.
        let place = unsafe {
            let place = NonNull::new(alloc(Layout::new::<Handle>()).cast::<Handle>()).ok_or(Refused::NoMemory)?;
            place.as_ptr().write(Handle::CLOSED);
            place
        };
        let answer = open(place.as_ptr());
        if answer == raw::DONE {
            return Ok(Caller { place, _one_thread: PhantomData });
        }
        // SAFETY: the handle is closed still, and of this layout.
        unsafe { dealloc(place.as_ptr().cast(), Layout::new::<Handle>()) };
        Err(Refused::of_answer(answer))
    }

    fn handle(&self) -> *mut Handle {
        self.place.as_ptr()
    }
}

impl Drop for Caller {
    fn drop(&mut self) {
        // SAFETY: the handle is live and this caller's alone, of this layout, and named by nobody behind this.
        unsafe {
            raw::gz_rust_space_close(self.handle());
            dealloc(self.place.as_ptr().cast(), Layout::new::<Handle>());
        }
    }
}

/// What a call gave, with the pages that its caller goes on holding until this goes. While it is there, what the thread
/// does may wait for no other caller of the space.
#[must_use = "the pages are given back at once where their guard isn't kept"]
#[derive(Debug)]
pub struct Held<'a, T> {
    caller: &'a mut Caller,
    value: T,
}

impl<T> Held<'_, T> {
    /// What the call gave: an address, nothing, or the kind of a fault's page.
    pub fn value(&self) -> &T {
        &self.value
    }

    /// The pages that are held, by their numbers. None after a call that its arguments decide, such as a protect of no
    /// bytes.
    pub fn pages(&self) -> Option<Range<u64>> {
        self.caller.holding()
    }
}

impl<T> Drop for Held<'_, T> {
    fn drop(&mut self) {
        self.caller.release();
    }
}
