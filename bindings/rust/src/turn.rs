//! Several calls that are written together.

use crate::events::EventList;
use crate::frames::FrameList;
use crate::{Events, Frames, Member, Output, Refusal};

/// A call of a member, for [`Journal::turn`](crate::Journal::turn): what the method of that name does.
#[derive(Clone, Copy, Debug, PartialEq, Eq)]
#[non_exhaustive]
pub enum Call<'a> {
    Cast(&'a [u8]),
    CastBurst(&'a [&'a [u8]]),
    Receive(&'a [u8]),
    Tick,
    Help(u32),
    HelpAmong(u32, &'a [u32]),
}

impl Call<'_> {
    pub(crate) fn of<'m>(&self, member: &'m mut Member) -> Result<Output<'m>, Refusal> {
        match *self {
            Call::Cast(payload) => member.cast(payload),
            Call::CastBurst(payloads) => member.cast_burst(payloads),
            Call::Receive(bytes) => member.receive(bytes),
            Call::Tick => member.tick(),
            Call::Help(other) => member.help(other),
            Call::HelpAmong(other, members) => member.help_among(other, members),
        }
    }
}

/// The effect of the calls of a [`Journal::turn`](crate::Journal::turn). The entries of all of them are on the disk.
#[derive(Debug)]
#[must_use = "its frames are to be sent, and its events are to be shown"]
pub struct Turn {
    frames: FrameList,
    events: EventList,
    refused: Vec<(usize, Refusal)>,
}

impl Turn {
    pub(crate) fn new(size: usize) -> Turn {
        Turn { frames: FrameList::default(), events: EventList::new(size), refused: Vec::new() }
    }

    pub(crate) fn add(&mut self, mut output: Output<'_>) {
        self.frames.add(output.frames());
        self.events.add(output.events());
    }

    pub(crate) fn refuse(&mut self, place: usize, refusal: Refusal) {
        self.refused.push((place, refusal));
    }

    /// The frames of all calls, in the order in which they are to be sent, each whole and as it is.
    pub fn frames(&self) -> Frames<'_> {
        self.frames.all()
    }

    /// The messages that the calls cast or delivered, in this order.
    pub fn events(&self) -> Events<'_> {
        self.events.all()
    }

    /// The calls that were refused, which have changed nothing: the place of each in the list, from 0, and why.
    pub fn refused(&self) -> &[(usize, Refusal)] {
        &self.refused
    }
}
