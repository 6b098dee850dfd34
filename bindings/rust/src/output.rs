//! The effect of a call.

use crate::{Events, Frames, Member};
use std::fmt;

/// The effect of a call: the frames that are to be sent, and the events that it made. It borrows the member, so use it before the next
/// call.
///
/// ```
/// # use jolunza::{Member, Settings};
/// # let mut member = Member::open(Settings { group: 7, size: 3, window: 4, me: 0 })?;
/// # let (mut sent, mut shown) = (Vec::new(), Vec::new());
/// let mut output = member.cast(b"when?")?;
/// for frame in output.frames() {
///     sent.push((frame.to, frame.bytes.to_vec())); // None: to all others
/// }
/// for event in output.events() {
///     shown.push(event.name.to_string());
/// }
/// assert_eq!((sent.len(), shown), (1, vec!["0.1".to_string()]));
/// # Ok::<(), jolunza::Refusal>(())
/// ```
#[must_use = "its frames are to be sent, and its events are to be shown"]
pub struct Output<'a> {
    member: &'a mut Member,
    done: Done,
}

/// A call that was done.
#[derive(Clone, Copy, Debug)]
pub(crate) struct Done {
    pub left: Left,
    pub is_repeat: bool,
    /// The index of the first event that it made, and how many it made.
    pub first: usize,
    pub events: usize,
    /// How many entries it added, which are the last ones.
    pub entries: usize,
}

/// The frames of a call: none, the one of a cast or a burst, or any number.
#[derive(Clone, Copy, Debug)]
pub(crate) enum Left {
    NoFrame,
    OneFrame,
    Frames,
}

impl<'a> Output<'a> {
    /// The call was the member's last one that was done.
    #[inline]
    pub(crate) fn of(member: &'a mut Member, done: Done) -> Output<'a> {
        Output { member, done }
    }

    pub(crate) fn done(&self) -> Done {
        self.done
    }

    /// The frames that are to be sent, in this order, each whole and unchanged. The same ones each time.
    #[inline]
    pub fn frames(&mut self) -> Frames<'_> {
        self.member.frames_of(self.done)
    }

    /// The messages that the call cast or delivered, in this order. The same events each time.
    #[inline]
    pub fn events(&mut self) -> Events<'_> {
        self.member.events_of(self.done)
    }

    /// The member already had this cast, after a received frame. Nothing has changed, and there is nothing to send.
    pub fn is_repeat(&self) -> bool {
        self.done.is_repeat
    }

    /// The call has changed the member, so there is an entry of it. After `receive_parts`: one part at least has.
    pub fn is_entered(&self) -> bool {
        self.done.entries > 0
    }
}

impl fmt::Debug for Output<'_> {
    fn fmt(&self, f: &mut fmt::Formatter<'_>) -> fmt::Result {
        let (repeat, entered) = (self.is_repeat(), self.is_entered());
        let events = self.done.events;
        f.debug_struct("Output")
            .field("is_repeat", &repeat)
            .field("is_entered", &entered)
            .field("events", &events)
            .finish_non_exhaustive()
    }
}
