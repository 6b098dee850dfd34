//! Why a call was not done.

use crate::sys;
use std::error::Error;
use std::fmt;

/// Why a call was not done. The member, its events and its history are as they were.
#[derive(Clone, Copy, Debug, PartialEq, Eq, Hash)]
#[non_exhaustive]
pub enum Refusal {
    /// The handle holds no member. No `Member` answers this, since it is open as long as there is one.
    Closed,
    /// Memory was refused. Try again.
    NoMemory,
    /// `open`: the size is not 2 to 64, or the window not 1 to 256.
    BadGroup,
    /// `open`, `receive`, and each call and reading that takes a member's number: the group has no member of this number; `help`,
    /// `missing`: it is this member's own.
    BadMember,
    /// `open_with_history`: the limit of the history is above 16,777,216.
    BadLimit,
    /// `cast`: more than 1,024 bytes; `cast_burst`: all payloads together.
    PayloadTooLong,
    /// `cast`, `cast_burst`: wait for the others' statuses, keep the payloads, try again. A burst wants room for all its
    /// messages; one of more than the window never has it.
    WindowFull,
    /// `cast`, `cast_burst`, `receive`, `tick`: the history has reached its limit. Begin a new group number. Never without
    /// a history.
    HistoryFull,
    /// `receive`: drop the frame.
    OtherGroup,
    /// `receive`: it claims of this member what it never did. Drop the frame.
    Impossible,
    /// `receive`: beyond the window. Drop the frame, it comes again.
    TooFar,
    /// `receive`: no frame. Drop the bytes.
    Malformed,
    /// `receive_loaded`, `receive_parts`: not all of these bytes are loaded; `journal_line`: there is no such entry.
    NoneThere,
    /// `receive`: a part of the burst was received before, and a part was not. Drop the frame.
    Overlap,
    /// `cast_burst`: no payload.
    EmptyBurst,
    /// `cast_burst`: more than 32 payloads.
    BurstTooLong,
    /// A code that this crate does not know: `libjolunza.a` is a later one. Drop the frame, if there was one.
    Unknown(u32),
}

impl Refusal {
    const ALL: [Refusal; 16] = [
        Refusal::Closed,
        Refusal::NoMemory,
        Refusal::BadGroup,
        Refusal::BadMember,
        Refusal::BadLimit,
        Refusal::PayloadTooLong,
        Refusal::WindowFull,
        Refusal::HistoryFull,
        Refusal::OtherGroup,
        Refusal::Impossible,
        Refusal::TooFar,
        Refusal::Malformed,
        Refusal::NoneThere,
        Refusal::Overlap,
        Refusal::EmptyBurst,
        Refusal::BurstTooLong,
    ];

    /// `receive`: drop the frame, count it, and receive the next one. `Malformed`, `OtherGroup`, `BadMember`, `Impossible`, `TooFar`,
    /// `Overlap`, and what a later library refuses.
    pub fn is_frame_fault(self) -> bool {
        use Refusal::{BadMember, Impossible, Malformed, OtherGroup, Overlap, TooFar, Unknown};
        matches!(self, Malformed | OtherGroup | BadMember | Impossible | TooFar | Overlap | Unknown(_))
    }

    /// The same call may be done later: `WindowFull`, `NoMemory`.
    pub fn is_transient(self) -> bool {
        matches!(self, Refusal::WindowFull | Refusal::NoMemory)
    }

    /// The code in jolunza.h.
    pub fn code(self) -> u32 {
        match self {
            Refusal::Closed => sys::JOLUNZA_CLOSED,
            Refusal::NoMemory => sys::JOLUNZA_NO_MEMORY,
            Refusal::BadGroup => sys::JOLUNZA_BAD_GROUP,
            Refusal::BadMember => sys::JOLUNZA_BAD_MEMBER,
            Refusal::BadLimit => sys::JOLUNZA_BAD_LIMIT,
            Refusal::PayloadTooLong => sys::JOLUNZA_PAYLOAD_TOO_LONG,
            Refusal::WindowFull => sys::JOLUNZA_WINDOW_FULL,
            Refusal::HistoryFull => sys::JOLUNZA_HISTORY_FULL,
            Refusal::OtherGroup => sys::JOLUNZA_OTHER_GROUP,
            Refusal::Impossible => sys::JOLUNZA_IMPOSSIBLE,
            Refusal::TooFar => sys::JOLUNZA_TOO_FAR,
            Refusal::Malformed => sys::JOLUNZA_MALFORMED,
            Refusal::NoneThere => sys::JOLUNZA_NONE_THERE,
            Refusal::Overlap => sys::JOLUNZA_OVERLAP,
            Refusal::EmptyBurst => sys::JOLUNZA_EMPTY_BURST,
            Refusal::BurstTooLong => sys::JOLUNZA_BURST_TOO_LONG,
            Refusal::Unknown(code) => code,
        }
    }

    #[cold]
    fn of(code: u32) -> Refusal {
        let found = Refusal::ALL.into_iter().find(|refusal| refusal.code() == code);
        found.unwrap_or(Refusal::Unknown(code))
    }
}

/// The answer of a call.
#[inline]
pub(crate) fn answered(code: u32) -> Result<(), Refusal> {
    if code == sys::JOLUNZA_DONE {
        Ok(())
    } else {
        Err(Refusal::of(code))
    }
}

/// The meaning of a code of jolunza.h, in the words of its `jolunza_text`. bindings/check_header.py compares the two.
pub(crate) fn text_of(code: u32) -> &'static str {
    match code {
        sys::JOLUNZA_DONE => "done",
        sys::JOLUNZA_CLOSED => "the handle holds no member",
        sys::JOLUNZA_NO_MEMORY => "out of memory: try again",
        sys::JOLUNZA_BAD_GROUP => "a group has 2 to 64 members and a window of 1 to 256",
        sys::JOLUNZA_BAD_MEMBER => "the group has no such member, or the call wants another one than this member",
        sys::JOLUNZA_BAD_LIMIT => "a history has at most 16,777,216 entries",
        sys::JOLUNZA_PAYLOAD_TOO_LONG => "a cast or a burst carries at most 1,024 bytes of payloads",
        sys::JOLUNZA_WINDOW_FULL => "the window is full: try again after the next frame",
        sys::JOLUNZA_HISTORY_FULL => "the history is full: begin a new group number",
        sys::JOLUNZA_OTHER_GROUP => "the frame is of another group: drop it",
        sys::JOLUNZA_IMPOSSIBLE => "the frame says of this member what it never did: drop it",
        sys::JOLUNZA_TOO_FAR => "the frame is beyond the window: drop it, it comes again",
        sys::JOLUNZA_MALFORMED => "the bytes are no frame: drop them",
        sys::JOLUNZA_NONE_THERE => {
            "nothing is there: no such index, fewer bytes than the lengths say, or no message that waits"
        }
        sys::JOLUNZA_OVERLAP => "a part of the burst was received before: drop the frame",
        sys::JOLUNZA_EMPTY_BURST => "a burst has at least one payload",
        sys::JOLUNZA_BURST_TOO_LONG => "a burst has at most 32 payloads",
        sys::JOLUNZA_NO_HEAD => "the journal has no whole line",
        sys::JOLUNZA_BAD_LINE => "a line of the journal is damaged",
        sys::JOLUNZA_TOO_LONG => "the journal has more entries than the history may have",
        sys::JOLUNZA_NOT_LEGAL => "a line of the journal tells what no call of the member does",
        _ => "unknown code",
    }
}

impl fmt::Display for Refusal {
    fn fmt(&self, f: &mut fmt::Formatter<'_>) -> fmt::Result {
        match self {
            Refusal::Unknown(code) => write!(f, "{} {code}", text_of(*code)),
            _ => f.write_str(text_of(self.code())),
        }
    }
}

impl Error for Refusal {}

#[cfg(test)]
mod tests {
    use super::*;

    #[test]
    fn each_code_is_that_of_its_refusal_and_another_is_named() {
        let known = (sys::JOLUNZA_CLOSED..=sys::JOLUNZA_BURST_TOO_LONG).map(|code| answered(code).unwrap_err());
        assert!(known.eq(Refusal::ALL));
        for code in [sys::JOLUNZA_CLOSED, sys::JOLUNZA_BURST_TOO_LONG, sys::JOLUNZA_NOT_LEGAL + 1] {
            assert_eq!(answered(code).unwrap_err().code(), code);
        }
        assert_eq!(answered(sys::JOLUNZA_DONE), Ok(()));
        let unknown = Refusal::Unknown(21);
        assert_eq!((answered(21), unknown.to_string()), (Err(unknown), "unknown code 21".into()));
    }

    #[test]
    fn what_is_dropped_and_what_is_tried_again() {
        use Refusal::{BadMember, Impossible, Malformed, NoMemory, OtherGroup, Overlap, TooFar, Unknown, WindowFull};
        let all = || Refusal::ALL.into_iter().chain([Unknown(21)]);
        let dropped = [BadMember, OtherGroup, Impossible, TooFar, Malformed, Overlap, Unknown(21)];
        assert!(all().filter(|refusal| refusal.is_frame_fault()).eq(dropped));
        assert!(all().filter(|refusal| refusal.is_transient()).eq([NoMemory, WindowFull]));
    }
}
