//! A member that came back, or why none did.

use crate::refusal::text_of;
use crate::{sys, Events, Member, Settings};
use std::error::Error;
use std::fmt;
use std::ops::RangeBounds;

/// A member that came back from its journal: it is as it was after the last whole line.
#[derive(Debug)]
#[must_use = "the member made no call since it came back, and its events are to be shown"]
pub struct Resumed {
    member: Member,
    entries: usize,
    read: usize,
}

impl Resumed {
    pub(crate) fn of(member: Member, entries: usize, read: usize) -> Resumed {
        Resumed { member, entries, read }
    }

    /// Those of the journal, for the caller to compare with what it expects.
    pub fn settings(&self) -> Settings {
        self.member.settings()
    }

    /// How many entries the journal has.
    pub fn entries(&self) -> usize {
        self.entries
    }

    /// How many bytes its whole lines have. Cut the file after them before you write to it.
    pub fn read(&self) -> usize {
        self.read
    }

    /// The earlier casts and deliveries with these indexes, from 0: `events(..)` has all. A long list is read in pieces, as that
    /// of [`Member::events`].
    pub fn events(&mut self, indexes: impl RangeBounds<usize>) -> Events<'_> {
        self.member.events(indexes)
    }

    /// The member, for its next call.
    pub fn into_member(self) -> Member {
        self.member
    }
}

/// Why no member came back from a journal: the first of these that holds, or `NoMemory`. Lines are counted from 1, the head line.
#[derive(Clone, Copy, Debug, PartialEq, Eq, Hash)]
#[non_exhaustive]
pub enum ResumeFault {
    /// No line is whole. If the bytes are only a beginning of the line of `journal_head`, or there are none, nothing was written yet:
    /// open the member, and begin the journal. Any other bytes are no journal: don't change them.
    NoHead,
    /// This line is whole, and no writer writes it there: no crash of a writer made it so.
    BadLine { line: usize },
    /// The limit of the history is above 16,777,216.
    BadLimit,
    /// The journal has more entries than the limit of the history.
    TooLong,
    /// The entry of this line is none that a call of the member adds.
    NotLegal { line: usize },
    /// Memory was refused. Try again.
    NoMemory,
    /// A code that this crate does not know: `libjolunza.a` is a later one.
    Unknown { code: u32 },
}

impl ResumeFault {
    /// The fault of a code that is not `DONE`.
    pub(crate) fn of(code: u32, line: usize) -> ResumeFault {
        match code {
            sys::JOLUNZA_NO_HEAD => ResumeFault::NoHead,
            sys::JOLUNZA_BAD_LINE => ResumeFault::BadLine { line },
            sys::JOLUNZA_BAD_LIMIT => ResumeFault::BadLimit,
            sys::JOLUNZA_TOO_LONG => ResumeFault::TooLong,
            sys::JOLUNZA_NOT_LEGAL => ResumeFault::NotLegal { line },
            sys::JOLUNZA_NO_MEMORY => ResumeFault::NoMemory,
            code => ResumeFault::Unknown { code },
        }
    }
}

impl ResumeFault {
    /// The code in jolunza.h.
    pub fn code(self) -> u32 {
        match self {
            ResumeFault::NoHead => sys::JOLUNZA_NO_HEAD,
            ResumeFault::BadLine { .. } => sys::JOLUNZA_BAD_LINE,
            ResumeFault::BadLimit => sys::JOLUNZA_BAD_LIMIT,
            ResumeFault::TooLong => sys::JOLUNZA_TOO_LONG,
            ResumeFault::NotLegal { .. } => sys::JOLUNZA_NOT_LEGAL,
            ResumeFault::NoMemory => sys::JOLUNZA_NO_MEMORY,
            ResumeFault::Unknown { code } => code,
        }
    }
}

impl fmt::Display for ResumeFault {
    fn fmt(&self, f: &mut fmt::Formatter<'_>) -> fmt::Result {
        let text = text_of(self.code());
        match self {
            ResumeFault::BadLine { line } | ResumeFault::NotLegal { line } => write!(f, "line {line}: {text}"),
            ResumeFault::Unknown { code } => write!(f, "{text} {code}"),
            _ => f.write_str(text),
        }
    }
}

impl Error for ResumeFault {}

#[cfg(test)]
mod tests {
    use super::*;

    #[test]
    fn each_code_is_that_of_its_fault_and_another_is_named() {
        for code in (sys::JOLUNZA_NO_HEAD..=sys::JOLUNZA_NOT_LEGAL + 1).chain([sys::JOLUNZA_BAD_LIMIT]) {
            assert_eq!(ResumeFault::of(code, 3).code(), code);
        }
        let unknown = ResumeFault::of(sys::JOLUNZA_NOT_LEGAL + 1, 3);
        assert_eq!((unknown, unknown.to_string()), (ResumeFault::Unknown { code: 21 }, "unknown code 21".into()));
        assert_eq!(ResumeFault::of(sys::JOLUNZA_NOT_LEGAL, 3), ResumeFault::NotLegal { line: 3 });
        assert_eq!(ResumeFault::of(sys::JOLUNZA_BAD_LINE, 3).to_string(), "line 3: a line of the journal is damaged");
    }
}
