//! The casts and deliveries of a member, copied out of the library at once.

use crate::refusal::answered;
use crate::{sys, Name, LONGEST_PAYLOAD};
use std::slice;

/// A cast or a delivery of a member.
#[derive(Clone, Copy, Debug, PartialEq, Eq)]
pub struct Event<'a> {
    /// The member cast the message itself.
    pub is_own: bool,
    pub name: Name,
    pub payload: &'a [u8],
    /// The vector time of the message: a number for each member.
    pub time: &'a [u32],
}

/// Casts and deliveries of a member, in the order in which it made them: each list of them is a causal order.
#[derive(Clone, Debug)]
pub struct Events<'a> {
    heads: slice::Iter<'a, sys::jolunza_event_head>,
    payloads: &'a [u8],
    times: &'a [u32],
    size: usize,
}

impl<'a> Iterator for Events<'a> {
    type Item = Event<'a>;

    #[inline]
    fn next(&mut self) -> Option<Event<'a>> {
        let head = self.heads.next()?;
        let (payload, payloads) = self.payloads.split_at(head.length);
        let (time, times) = self.times.split_at(self.size);
        (self.payloads, self.times) = (payloads, times);
        let name = Name { sender: head.sender, number: head.number };
        Some(Event { is_own: head.is_own, name, payload, time })
    }

    fn size_hint(&self) -> (usize, Option<usize>) {
        self.heads.size_hint()
    }
}

impl ExactSizeIterator for Events<'_> {}

/// The events of several calls, in their order.
#[derive(Debug)]
pub(crate) struct EventList {
    heads: Vec<sys::jolunza_event_head>,
    payloads: Vec<u8>,
    times: Vec<u32>,
    size: usize,
}

impl EventList {
    /// A list for a group of this size.
    pub fn new(size: usize) -> EventList {
        EventList { heads: Vec::new(), payloads: Vec::new(), times: Vec::new(), size }
    }

    pub fn add(&mut self, events: Events<'_>) {
        let length = events.heads.clone().map(|head| head.length).sum();
        self.payloads.extend_from_slice(&events.payloads[..length]);
        self.times.extend_from_slice(&events.times[..events.heads.len() * self.size]);
        self.heads.extend(events.heads);
    }

    pub fn all(&self) -> Events<'_> {
        Events { heads: self.heads.iter(), payloads: &self.payloads, times: &self.times, size: self.size }
    }
}

/// The place for copied events. It grows to the need of the longest list so far, and stays.
pub(crate) struct EventBuffer {
    heads: Vec<sys::jolunza_event_head>,
    payloads: Vec<u8>,
    times: Vec<u32>,
    size: usize,
}

impl EventBuffer {
    pub fn new(size: usize) -> EventBuffer {
        let heads = vec![Default::default(); 4];
        EventBuffer { times: vec![0; heads.len() * size], heads, payloads: vec![0; 2 * LONGEST_PAYLOAD], size }
    }

    /// Copies the events from `first` on, at most this number. The handle is open, and no other call runs on it.
    #[inline]
    pub unsafe fn fill(&mut self, handle: *mut sys::jolunza_handle, first: usize, most: usize) -> Events<'_> {
        let mut events = if most == 0 { 0 } else { self.copy(handle, first, 0, most, 0) };
        if events != most {
            events = self.copy_rest(handle, first, events, most);
        }
        Events { heads: self.heads[..events].iter(), payloads: &self.payloads, times: &self.times, size: self.size }
    }

    /// Copies more until the wanted number is there, or no more events are.
    #[cold]
    unsafe fn copy_rest(
        &mut self,
        handle: *mut sys::jolunza_handle,
        first: usize,
        copied: usize,
        most: usize,
    ) -> usize {
        let mut events = copied;
        loop {
            let used = self.heads[..events].iter().map(|head| head.length).sum::<usize>();
            // one more would have fitted: there is none
            let has_room = events < self.heads.len() && self.payloads.len() - used >= LONGEST_PAYLOAD;
            if events == most || has_room {
                return events;
            }
            self.grow();
            events += self.copy(handle, first, events, most, used);
        }
    }

    /// Copies those that fit after the copied ones, and returns how many.
    #[inline]
    unsafe fn copy(
        &mut self,
        handle: *mut sys::jolunza_handle,
        first: usize,
        events: usize,
        most: usize,
        used: usize,
    ) -> usize {
        let heads_capacity = (self.heads.len() - events).min(most - events);
        let heads = self.heads[events..].as_mut_ptr();
        let (payloads, times) = (&mut self.payloads[used..], &mut self.times[events * self.size..]);
        let (capacity, times_capacity) = (payloads.len(), times.len());
        let mut count = 0;
        let code = sys::jolunza_events(
            handle,
            first + events,
            heads,
            heads_capacity,
            payloads.as_mut_ptr(),
            capacity,
            times.as_mut_ptr(),
            times_capacity,
            &mut count,
        );
        answered(code).expect("an open member shows its events");
        count
    }

    fn grow(&mut self) {
        self.heads.resize(2 * self.heads.len(), Default::default());
        self.payloads.resize(2 * self.payloads.len(), 0);
        self.times.resize(self.heads.len() * self.size, 0);
    }
}
