//! The record of what a member does: all of it, or the last call alone.

use super::frames::{Frame, Place};
use std::collections::TryReserveError;
use std::ops::Range;

#[derive(Clone, Copy, PartialEq, Eq)]
pub struct Name {
    pub sender: u32,
    pub number: u32,
}

#[allow(dead_code)]
pub enum Entry {
    Cast { frame: Frame },
    Arrive { frame: Frame, delivered: Range<u32> },
    Tick { status: Frame },
}

/// A cast or a delivery; its time stands among the times of its record, its payload in its frame.
#[allow(dead_code)]
pub struct Event {
    pub name: Name,
    pub frame: Frame,
    pub payload: Place,
}

pub trait Record {
    /// Room for no entry more.
    fn is_full(&self) -> bool;

    /// Room for one entry and that many deliveries.
    fn reserve(&mut self, deliveries: usize, size: usize) -> Result<(), TryReserveError>;

    /// A call begins, to which belongs all that is added from now on.
    fn begin(&mut self) -> Begun;

    /// Adds the time of the next event.
    fn add_time(&mut self, time: &[u32]);

    /// Adds a cast, whose time is added.
    fn add_cast(&mut self, event: Event);

    /// Adds a delivery, whose time is added.
    fn add_delivery(&mut self, event: Event);

    /// Enters the frame of the casts that were added.
    fn enter_cast(&mut self, frame: &Frame);

    /// Enters the arrival of a frame, by which all was delivered that was added since the call began.
    fn enter_arrival(&mut self, frame: &Frame, begun: &Begun);

    fn enter_tick(&mut self, status: &Frame);

    /// These events with their times, each of `size` fields.
    #[allow(dead_code)]
    fn with_times(&self, events: Range<usize>, size: usize) -> impl Iterator<Item = (&Event, &[u32])>;

    /// How many events there are.
    fn count(&self) -> usize;
}

/// How many events, and how many names of entries, stand before those of a call.
pub struct Begun {
    pub events: usize,
    names: u32,
}

/// All entries, up to a limit, and all events.
#[allow(dead_code)]
pub struct History {
    limit: usize,
    pub entries: Vec<Entry>,
    names: Vec<Name>,
    pub events: Vec<Event>,
    pub times: Vec<u32>,
}

impl History {
    #[allow(dead_code)]
    pub fn new(limit: usize) -> History {
        History { limit, entries: Vec::new(), names: Vec::new(), events: Vec::new(), times: Vec::new() }
    }

    /// The names in an entry.
    #[allow(dead_code)]
    pub fn names_in(&self, delivered: &Range<u32>) -> &[Name] {
        &self.names[delivered.start as usize..delivered.end as usize]
    }
}

impl Record for History {
    fn is_full(&self) -> bool {
        self.entries.len() >= self.limit
    }

    #[inline(always)]
    fn reserve(&mut self, deliveries: usize, size: usize) -> Result<(), TryReserveError> {
        self.entries.try_reserve(1)?;
        self.events.try_reserve(deliveries)?;
        self.names.try_reserve(deliveries)?;
        self.times.try_reserve(deliveries * size)
    }

    fn begin(&mut self) -> Begun {
        Begun { events: self.events.len(), names: self.names.len() as u32 }
    }

    fn add_time(&mut self, time: &[u32]) {
        self.times.extend_from_slice(time);
    }

    fn add_cast(&mut self, event: Event) {
        self.events.push(event);
    }

    #[inline(always)]
    fn add_delivery(&mut self, event: Event) {
        self.names.push(event.name);
        self.events.push(event);
    }

    fn enter_cast(&mut self, frame: &Frame) {
        self.entries.push(Entry::Cast { frame: frame.clone() });
    }

    #[inline(always)]
    fn enter_arrival(&mut self, frame: &Frame, begun: &Begun) {
        let delivered = begun.names..self.names.len() as u32;
        self.entries.push(Entry::Arrive { frame: frame.clone(), delivered });
    }

    fn enter_tick(&mut self, status: &Frame) {
        self.entries.push(Entry::Tick { status: status.clone() });
    }

    fn with_times(&self, events: Range<usize>, size: usize) -> impl Iterator<Item = (&Event, &[u32])> {
        let times = &self.times[events.start * size..events.end * size];
        self.events[events].iter().zip(times.chunks_exact(size))
    }

    fn count(&self) -> usize {
        self.events.len()
    }
}

/// The events of the last cast or arrival.
#[allow(dead_code)]
#[derive(Default)]
pub struct Latest {
    events: Vec<Event>,
    times: Vec<u32>,
}

impl Record for Latest {
    fn is_full(&self) -> bool {
        false
    }

    #[inline(always)]
    fn reserve(&mut self, deliveries: usize, size: usize) -> Result<(), TryReserveError> {
        self.events.try_reserve(deliveries)?;
        self.times.try_reserve(deliveries * size)
    }

    fn begin(&mut self) -> Begun {
        self.events.clear();
        self.times.clear();
        Begun { events: 0, names: 0 }
    }

    fn add_time(&mut self, time: &[u32]) {
        self.times.extend_from_slice(time);
    }

    fn add_cast(&mut self, event: Event) {
        self.events.push(event);
    }

    #[inline(always)]
    fn add_delivery(&mut self, event: Event) {
        self.events.push(event);
    }

    fn enter_cast(&mut self, _: &Frame) {}

    fn enter_arrival(&mut self, _: &Frame, _: &Begun) {}

    fn enter_tick(&mut self, _: &Frame) {}

    fn with_times(&self, events: Range<usize>, size: usize) -> impl Iterator<Item = (&Event, &[u32])> {
        let times = &self.times[events.start * size..events.end * size];
        self.events[events].iter().zip(times.chunks_exact(size))
    }

    fn count(&self) -> usize {
        self.events.len()
    }
}
