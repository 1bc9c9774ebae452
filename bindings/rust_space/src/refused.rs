//! Why a call is refused, what a page's kind is, and what an area is.

use crate::raw::{self, Mapping, Reply};
use std::error::Error;
use std::fmt;
use std::ops::Range;

/// How a page is mapped.
#[derive(Clone, Copy, Debug, PartialEq, Eq)]
pub struct Kind {
    /// What may be done with it.
    pub prot: crate::Prot,
    /// Whether it was mapped as shared.
    pub shared: bool,
    /// Whether it is sealed: it refuses to be unmapped, replaced, protected or moved.
    pub sealed: bool,
}

impl Kind {
    pub(crate) fn of(reply: &Reply) -> Kind {
        Kind { prot: crate::Prot(reply.prot), shared: reply.shared == 1, sealed: reply.sealed == 1 }
    }
}

/// An area: the longest run of pages round one that are mapped alike.
#[derive(Clone, Debug, PartialEq, Eq)]
pub struct Area {
    /// Its pages, by their numbers.
    pub pages: Range<u64>,
    /// How each of them is mapped.
    pub kind: Kind,
}

impl Area {
    pub(crate) fn of(found: &Mapping) -> Option<Area> {
        let kind = Kind { prot: crate::Prot(found.prot), shared: found.shared == 1, sealed: found.sealed == 1 };
        (found.mapped == 1).then_some(Area { pages: found.lo..found.hi, kind })
    }
}

/// How many areas there are, and how many pages they have together.
#[derive(Clone, Copy, Debug, PartialEq, Eq)]
pub struct Counts {
    /// How many areas.
    pub areas: u64,
    /// How many pages.
    pub pages: u64,
}

/// Which argument is wrong.
#[derive(Clone, Copy, Debug, PartialEq, Eq)]
pub enum Field {
    /// The address isn't a page's, or the base of a brk may not be one of a heap.
    Addr,
    /// The length is 0.
    Len,
    /// A map has not exactly one of SHARED and PRIVATE.
    Flags,
    /// The end is above [`LIMIT`](crate::LIMIT).
    End,
}

/// What an ENOMEM is short of.
#[derive(Clone, Copy, Debug, PartialEq, Eq)]
pub enum Short {
    /// The lowest page that isn't mapped.
    Missing(u64),
    /// The end, a page above [`LIMIT`](crate::LIMIT).
    PastEnd(u64),
    /// For so many pages no place is free.
    NoGap(u64),
    /// The result would have so many rows, more than 131,061.
    Rows(u64),
}

/// Why a call was refused. Nothing has changed then, and nothing is held. Pages are numbers of pages, counted from 0.
#[non_exhaustive]
#[derive(Clone, Copy, Debug, PartialEq, Eq)]
pub enum Refused {
    /// EINVAL: an argument is wrong.
    Einval(Field),
    /// ENOMEM: pages are missing, or there is no room.
    Enomem(Short),
    /// EEXIST: the lowest page that is mapped already.
    Eexist(u64),
    /// EPERM: the lowest page that is sealed.
    Eperm(u64),
    /// EFAULT: the lowest page that isn't mapped, or not as the first one is.
    Efault(u64),
    /// SEGV_MAPERR: the page of a fault isn't mapped.
    MapErr(u64),
    /// SEGV_ACCERR: the page of a fault, with its kind, which doesn't let the access through.
    AccErr(u64, Kind),
    /// The caller holds pages: a guard of it was forgotten.
    Holds,
    /// The caller has made 2^56 calls.
    Spent,
    /// There was no memory for the space or the caller.
    NoMemory,
    /// The number of callers is 0 or above [`MOST_CALLERS`](crate::MOST_CALLERS).
    BadCallers,
    /// There are no regions, or more than 16, or a block has more than 2^62 pages.
    BadCut,
    /// All callers of the space were handed out.
    NoneLeft,
}

impl Refused {
    /// Of an answer other than DONE.
    pub(crate) fn of_answer(answer: u32) -> Refused {
        match answer {
            raw::HOLDS => Refused::Holds,
            raw::NO_MEMORY => Refused::NoMemory,
            raw::BAD_CALLERS => Refused::BadCallers,
            raw::BAD_CUT => Refused::BadCut,
            raw::NONE_LEFT => Refused::NoneLeft,
            raw::SPENT => Refused::Spent,
            // A caller's handle is open, a place for a new one is closed, and the sets have no bit without a name.
            _ => unreachable!("the answer {answer} of the address space"),
        }
    }

    /// Of a reply that refuses.
    pub(crate) fn of_reply(reply: &Reply) -> Refused {
        match (reply.kind, reply.cause) {
            (raw::MAPERR, _) => Refused::MapErr(reply.at),
            (raw::ACCERR, _) => Refused::AccErr(reply.at, Kind::of(reply)),
            (_, 1) => Refused::Einval(Field::Addr),
            (_, 2) => Refused::Einval(Field::Len),
            (_, 3) => Refused::Einval(Field::Flags),
            (_, 4) => Refused::Einval(Field::End),
            (_, 5) => Refused::Enomem(Short::Missing(reply.at)),
            (_, 6) => Refused::Enomem(Short::PastEnd(reply.at)),
            (_, 7) => Refused::Enomem(Short::NoGap(reply.at)),
            (_, 8) => Refused::Enomem(Short::Rows(reply.at)),
            (_, 9) => Refused::Eexist(reply.at),
            (_, 10) => Refused::Eperm(reply.at),
            (_, 11) => Refused::Efault(reply.at),
            (kind, cause) => unreachable!("the reply {kind} of the address space, with the cause {cause}"),
        }
    }
}

impl fmt::Display for Refused {
    fn fmt(&self, f: &mut fmt::Formatter<'_>) -> fmt::Result {
        match self {
            Refused::Einval(Field::Addr) => f.write_str("EINVAL: the address isn't that of a page"),
            Refused::Einval(Field::Len) => f.write_str("EINVAL: the length is 0"),
            Refused::Einval(Field::Flags) => f.write_str("EINVAL: not exactly one of SHARED and PRIVATE"),
            Refused::Einval(Field::End) => f.write_str("EINVAL: the end is too high"),
            Refused::Enomem(Short::Missing(page)) => write!(f, "ENOMEM: page {page} isn't mapped"),
            Refused::Enomem(Short::PastEnd(page)) => write!(f, "ENOMEM: the end, page {page}, is too high"),
            Refused::Enomem(Short::NoGap(count)) => write!(f, "ENOMEM: no place for {count} pages is free"),
            Refused::Enomem(Short::Rows(count)) => write!(f, "ENOMEM: there would be {count} rows"),
            Refused::Eexist(page) => write!(f, "EEXIST: page {page} is mapped"),
            Refused::Eperm(page) => write!(f, "EPERM: page {page} is sealed"),
            Refused::Efault(page) => write!(f, "EFAULT: page {page} isn't mapped as the first one"),
            Refused::MapErr(page) => write!(f, "page {page} isn't mapped"),
            Refused::AccErr(page, _) => write!(f, "page {page} doesn't let the access through"),
            Refused::Holds => f.write_str("the caller holds pages of a call before"),
            Refused::Spent => f.write_str("the caller has made 2^56 calls"),
            Refused::NoMemory => f.write_str("out of memory"),
            Refused::BadCallers => f.write_str("the number of callers isn't from 1 to 16"),
            Refused::BadCut => f.write_str("the numbers make no cut into regions"),
            Refused::NoneLeft => f.write_str("no caller is left"),
        }
    }
}

impl Error for Refused {}
