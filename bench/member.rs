//! A member of a causal broadcast group in plain Rust, with std alone and no proof, written for speed: what the proved member is measured
//! against, in one thread (`plain_member.rs`, `fair_member.rs`) and in many (`plain_group.rs`).
//!
//! With a `History` a member keeps what the proved one keeps: every entry with its frame and the names that were delivered then,
//! and every event with its name, time and payload. With `Latest` it keeps what the last call cast or delivered alone, as the proved core
//! does. Frames are shared by an atomic count, and an event's payload is a part of its frame. Names and times lie one after another in
//! vectors. Nothing is worked out again from the history.
//!
//! `Duties` says what else a member keeps: no more than it needs for its own window (`own_casts.rs`), or as much as the proved one
//! (`fair_member.rs`).

pub mod frames;
pub mod record;

use frames::{
    BURST, CAST, Counts, Fault, Frame, GROUP, HELP, LONGEST_PAYLOAD, MOST_FRAMES, MOST_MESSAGES, MOST_RANGES, Numbers, Place, REQUEST, Ranges,
    STATUS, Unit, cast_head, member, next_ahead, number, put, read_payloads, read_ranges, read_status,
};
use record::{Event, Name, Record};
use std::collections::{TryReserveError, VecDeque};
use std::ops::Range;

pub const LONGEST_HISTORY: usize = 16_777_216;

/// The part of a member that knows how much the others delivered, and keeps their frames.
pub trait Duties<const FIELDS: usize> {
    /// Help frames are answered; else they are unknown.
    const HELPS: bool;

    /// A cast that finds no memory is refused, and changes nothing; else want of memory ends the program.
    const RESERVES: bool;

    fn new(size: usize, window: u32, me: usize) -> Self;

    /// How many own casts every other member is known to have delivered.
    fn stable(&self) -> u32;

    /// Keeps an accepted frame of the sender.
    fn keep(&mut self, sender: usize, numbers: Numbers, frame: &Frame);

    /// A message of this time is delivered, the sender's next one.
    fn deliver(&mut self, sender: usize, time: &[u32; FIELDS]);

    /// Whether more is told of what the sender of a status delivered than is known.
    fn is_news(&self, sender: usize, values: &[u32; FIELDS]) -> bool;

    /// Keeps what a status tells.
    fn hear(&mut self, sender: usize, values: &[u32; FIELDS]);

    /// The frames of the sender that are handed on, where that many of its messages are delivered.
    fn handed_on(&self, sender: usize, delivered: u32) -> impl Iterator<Item = &Unit>;
}

/// A message that is expanded and not delivered.
struct Waiting {
    number: u32,
    frame: Frame,
    payload: Place,
    /// The place of its time among the rows, and whether all fields are small.
    row: usize,
    is_small: bool,
}

#[derive(Debug, PartialEq, Eq)]
pub enum CastRefusal {
    EmptyBurst,
    BurstTooLong,
    PayloadTooLong,
    WindowFull,
    HistoryFull,
}

#[allow(dead_code)]
#[derive(Debug, PartialEq, Eq)]
pub enum Refusal {
    Malformed(Fault),
    OtherGroup,
    BadMember,
    Impossible,
    Overlap,
    TooFar,
    HistoryFull,
    NoMemory,
}

impl From<Fault> for Refusal {
    fn from(fault: Fault) -> Refusal {
        Refusal::Malformed(fault)
    }
}

pub enum Arrival {
    /// The events that are the deliveries, and whether there is one more entry.
    Accepted(#[allow(dead_code)] Range<usize>, #[allow(dead_code)] bool),
    Repeat,
}

pub struct Outgoing {
    pub to: Option<usize>,
    pub frame: Frame,
}

/// `FIELDS` is the size or a little more: the fields above stay 0.
pub struct Member<const FIELDS: usize, R: Record, D: Duties<FIELDS>> {
    pub size: usize,
    window: u32,
    me: usize,
    pub record: R,
    duties: D,
    /// How many messages of each member are delivered, own casts included.
    now: [u32; FIELDS],
    /// The time of each sender's last expanded message; its own field is that message's number.
    expanded: Vec<Counts<FIELDS>>,
    /// The frames of each sender that wait for those before them: at each number in them, modulo the window.
    kept: Vec<Option<Frame>>,
    kept_counts: [u32; FIELDS],
    waiting: Vec<VecDeque<Waiting>>,
    /// How many messages are kept or wait.
    held: usize,
    rows: Vec<[u32; FIELDS]>,
    free_rows: Vec<usize>,
    /// The senders whose first waiting message needs more of a field, for each field, as bits.
    blocked: [u64; FIELDS],
    /// The senders whose first waiting message may be delivered.
    ready: u64,
    /// The greatest number of each member that was heard of; of itself that of its last cast.
    known: [u32; FIELDS],
    /// The frames of the own casts of which one is not stable.
    sent: VecDeque<Unit>,
    last_cast: [u32; FIELDS],
    last_told: Option<[u32; FIELDS]>,
    text: Vec<u8>,
    /// The places of the payloads in the frame at hand.
    payloads: [Place; MOST_MESSAGES],
}

impl<const FIELDS: usize, R: Record, D: Duties<FIELDS>> Member<FIELDS, R, D> {
    pub fn new(size: usize, window: u32, me: usize, record: R) -> Member<FIELDS, R, D> {
        Member {
            size,
            window,
            me,
            record,
            duties: D::new(size, window, me),
            now: [0; FIELDS],
            expanded: vec![Counts::ZERO; size],
            kept: (0..size * window as usize).map(|_| None).collect(),
            kept_counts: [0; FIELDS],
            waiting: (0..size).map(|_| Default::default()).collect(),
            held: 0,
            rows: Vec::new(),
            free_rows: Vec::new(),
            blocked: [0; FIELDS],
            ready: 0,
            known: [0; FIELDS],
            sent: Default::default(),
            last_cast: [0; FIELDS],
            last_told: None,
            text: Vec::new(),
            payloads: [Place::default(); MOST_MESSAGES],
        }
    }

    // ---- casts of its own

    /// How many own casts every other member is known to have delivered. Lets their frames go.
    fn trim(&mut self) -> u32 {
        let stable = self.duties.stable();
        while self.sent.front().is_some_and(|first| first.numbers.last <= stable) {
            self.sent.pop_front();
        }
        stable
    }

    /// Whether the window has room for that many casts more.
    pub fn has_room(&mut self, count: usize) -> bool {
        self.now[self.me] as usize + count <= (self.trim() + self.window) as usize
    }

    fn head(&mut self, kind: u8) {
        self.text.clear();
        self.text.push(kind);
        put(&mut self.text, GROUP);
        put(&mut self.text, self.me as u32);
    }

    pub fn cast(&mut self, payload: &[u8]) -> Result<Frame, CastRefusal> {
        self.judge_casts(1, payload.len())?;
        self.put_cast(CAST);
        self.put_payload(0, payload);
        Ok(self.send(1))
    }

    /// Casts these payloads in one frame.
    #[allow(dead_code)]
    pub fn cast_burst(&mut self, payloads: &[&[u8]]) -> Result<Frame, CastRefusal> {
        if payloads.is_empty() {
            return Err(CastRefusal::EmptyBurst);
        }
        if payloads.len() > MOST_MESSAGES {
            return Err(CastRefusal::BurstTooLong);
        }
        self.judge_casts(payloads.len(), payloads.iter().map(|payload| payload.len()).sum())?;
        self.put_cast(BURST);
        put(&mut self.text, payloads.len() as u32);
        for (place, payload) in payloads.iter().enumerate() {
            self.put_payload(place, payload);
        }
        Ok(self.send(payloads.len()))
    }

    /// Whether that many messages may be cast, whose payloads have `length` bytes together.
    fn judge_casts(&mut self, count: usize, length: usize) -> Result<(), CastRefusal> {
        if length > LONGEST_PAYLOAD {
            return Err(CastRefusal::PayloadTooLong);
        }
        if !self.has_room(count) {
            return Err(CastRefusal::WindowFull);
        }
        if self.record.is_full() {
            return Err(CastRefusal::HistoryFull);
        }
        Ok(())
    }

    /// Begins the frame of the next casts, up to what they change.
    fn put_cast(&mut self, kind: u8) {
        self.head(kind);
        put(&mut self.text, self.now[self.me] + 1);
        let count_place = self.text.len();
        self.text.push(0);
        let mut least = 0;
        for field in 0..self.size {
            let amount = self.now[field] - self.last_cast[field];
            if field != self.me && amount > 0 {
                self.text[count_place] += 1;
                put(&mut self.text, (field - least) as u32);
                put(&mut self.text, amount);
                least = field + 1;
            }
        }
    }

    fn put_payload(&mut self, place: usize, payload: &[u8]) {
        put(&mut self.text, payload.len() as u32);
        self.payloads[place] = Place { start: self.text.len() as u16, length: payload.len() as u16 };
        self.text.extend_from_slice(payload);
    }

    /// The frame that was put together, of that many casts, which are made now.
    fn send(&mut self, count: usize) -> Frame {
        let frame = Frame::from(&self.text[..]);
        let first = self.now[self.me] + 1;
        self.record.begin();
        for payload in &self.payloads[..count] {
            self.now[self.me] += 1;
            let name = Name { sender: self.me as u32, number: self.now[self.me] };
            self.record.add_time(&self.now[..self.size]);
            self.record.add_cast(Event { name, frame: frame.clone(), payload: *payload });
        }
        let last = self.now[self.me];
        self.record.enter_cast(&frame);
        self.last_cast = self.now;
        self.known[self.me] = last;
        self.sent.push_back(Unit { numbers: Numbers { first, last }, frame: frame.clone() });
        frame
    }

    // ---- arrivals

    pub fn arrive(&mut self, frame: &Frame, out: &mut Vec<Outgoing>) -> Result<Arrival, Refusal> {
        match frame.split_first() {
            None => Err(Fault::Short.into()),
            Some((&(CAST | BURST), rest)) => self.take_cast(frame, rest),
            Some((&STATUS, rest)) => self.take_status(frame, rest),
            Some((&REQUEST, rest)) => self.take_request(rest, out),
            Some((&HELP, rest)) if D::HELPS => self.take_help(rest, out),
            Some(_) => Err(Fault::UnknownKind.into()),
        }
    }

    fn take_cast(&mut self, frame: &Frame, mut bytes: &[u8]) -> Result<Arrival, Refusal> {
        let head = cast_head(&mut bytes)?;
        let sender = head.sender;
        let before = self.expanded.get(sender).unwrap_or(&Counts::ZERO);
        let mut time = Counts { fields: before.fields, bound: before.bound };
        let fields = time.expand(before, &mut bytes, sender)?;
        let count = read_payloads(frame, bytes, head.first, &mut self.payloads)?;
        if head.group != GROUP {
            return Err(Refusal::OtherGroup);
        }
        if sender >= self.size || fields > self.size {
            return Err(Refusal::BadMember);
        }
        let numbers = Numbers { first: head.first, last: head.first + (count as u32 - 1) };
        if !self.is_new(sender, numbers)? {
            return Ok(Arrival::Repeat);
        }
        self.make_room(sender, count)?;
        self.known[sender] = self.known[sender].max(numbers.last);
        self.duties.keep(sender, numbers, frame);
        let begun = self.record.begin();
        if numbers.first == time.fields[sender] + 1 {
            time.count_own(sender, numbers);
            let expanded = &mut self.expanded[sender];
            expanded.fields = time.fields;
            expanded.bound = time.bound;
            self.take_next(sender, frame, count);
        } else {
            self.keep(sender, numbers, frame);
        }
        self.record.enter_arrival(frame, &begun);
        Ok(Arrival::Accepted(begun.events..self.record.count(), true))
    }

    /// False where all these messages of the sender were received before.
    #[inline(always)]
    fn is_new(&self, sender: usize, numbers: Numbers) -> Result<bool, Refusal> {
        if sender == self.me {
            return if numbers.last > self.now[sender] { Err(Refusal::Impossible) } else { Ok(false) };
        }
        let taken = self.expanded[sender].fields[sender];
        if numbers.first <= taken || self.kept_counts[sender] > 0 {
            let there = self.count_there(sender, numbers);
            if there == numbers.count() {
                return Ok(false);
            }
            if there > 0 {
                return Err(Refusal::Overlap);
            }
        }
        if self.is_far(sender, numbers.last) { Err(Refusal::TooFar) } else { Ok(true) }
    }

    fn is_far(&self, sender: usize, number: u32) -> bool {
        u64::from(number) > u64::from(self.now[sender]) + u64::from(self.window)
    }

    fn place(&self, sender: usize, number: u32) -> usize {
        sender * self.window as usize + (number % self.window) as usize
    }

    /// How many of the messages are expanded or kept.
    fn count_there(&self, sender: usize, numbers: Numbers) -> u32 {
        if numbers.first == numbers.last {
            return u32::from(self.is_there(sender, numbers.first));
        }
        (numbers.first..=numbers.last).map(|number| u32::from(self.is_there(sender, number))).sum()
    }

    fn is_there(&self, sender: usize, number: u32) -> bool {
        let is_kept = || !self.is_far(sender, number) && self.kept[self.place(sender, number)].is_some();
        number <= self.expanded[sender].fields[sender] || is_kept()
    }

    /// Room for that many messages of the sender, and for all that they may let go.
    #[inline(always)]
    fn make_room(&mut self, sender: usize, count: usize) -> Result<(), Refusal> {
        if self.record.is_full() {
            return Err(Refusal::HistoryFull);
        }
        if D::RESERVES && self.reserve(sender, count).is_err() {
            return Err(Refusal::NoMemory);
        }
        Ok(())
    }

    #[inline(always)]
    fn reserve(&mut self, sender: usize, count: usize) -> Result<(), TryReserveError> {
        self.record.reserve(self.held + count, self.size)?;
        let expanded = count + self.kept_counts[sender] as usize;
        self.waiting[sender].try_reserve(expanded)?;
        self.rows.try_reserve(expanded)?;
        self.free_rows.try_reserve(self.held + count)
    }

    fn keep(&mut self, sender: usize, numbers: Numbers, frame: &Frame) {
        let count = numbers.count();
        self.kept_counts[sender] += count;
        self.held += count as usize;
        for offset in 0..count {
            let place = self.place(sender, numbers.first + offset);
            self.kept[place] = Some(frame.clone());
        }
    }

    /// Takes the sender's next messages, of which the first one has its expanded time, and all that is kept behind them; then delivers.
    #[inline(always)]
    fn take_next(&mut self, sender: usize, frame: &Frame, count: usize) {
        self.hold_all(sender, frame, count);
        if self.kept_counts[sender] > 0 {
            self.expand_kept(sender);
        }
        while self.ready != 0 {
            self.deliver_next();
        }
    }

    #[inline(always)]
    fn hold_all(&mut self, sender: usize, frame: &Frame, count: usize) {
        self.hold(sender, frame, self.payloads[0]);
        for place in 1..count {
            self.expanded[sender].fields[sender] += 1;
            self.hold(sender, frame, self.payloads[place]);
        }
    }

    /// The sender's last expanded message is delivered at once where nothing else waits and it is ready; else it waits.
    fn hold(&mut self, sender: usize, frame: &Frame, payload: Place) {
        let time = &self.expanded[sender];
        let number = time.fields[sender];
        if !self.waiting[sender].is_empty() {
            self.wait(sender, number, frame, payload);
            return;
        }
        let own = std::mem::replace(&mut self.now[sender], number);
        let first = next_ahead(&time.fields, time.is_small(), &self.now, 0);
        self.now[sender] = own;
        if let Some(field) = first {
            self.blocked[field] |= 1 << sender;
            self.wait(sender, number, frame, payload);
        } else if self.ready == 0 && self.kept_counts[sender] == 0 {
            self.duties.deliver(sender, &time.fields);
            self.record.add_time(&time.fields[..self.size]);
            self.enter(Name { sender: sender as u32, number }, frame.clone(), payload);
        } else {
            self.ready |= 1 << sender;
            self.wait(sender, number, frame, payload);
        }
    }

    fn wait(&mut self, sender: usize, number: u32, frame: &Frame, payload: Place) {
        let time = &self.expanded[sender];
        for (known, field) in self.known.iter_mut().zip(&time.fields) {
            *known = (*known).max(*field);
        }
        let row = match self.free_rows.pop() {
            Some(row) => {
                self.rows[row] = time.fields;
                row
            }
            None => {
                self.rows.push(time.fields);
                self.rows.len() - 1
            }
        };
        let is_small = time.is_small();
        self.waiting[sender].push_back(Waiting { number, frame: frame.clone(), payload, row, is_small });
        self.held += 1;
    }

    /// Expands the sender's kept frames as long as the next one is there.
    fn expand_kept(&mut self, sender: usize) {
        while let Some(frame) = self.take_kept_next(sender) {
            let mut bytes = &frame[1..];
            let before = &self.expanded[sender];
            let mut time = *before;
            let Ok(head) = cast_head(&mut bytes) else { return };
            let Ok(_) = time.expand(before, &mut bytes, sender) else { return };
            let Ok(count) = read_payloads(&frame, bytes, head.first, &mut self.payloads) else { return };
            let numbers = Numbers { first: head.first, last: head.first + (count as u32 - 1) };
            time.count_own(sender, numbers);
            self.expanded[sender] = time;
            self.kept_counts[sender] -= count as u32;
            self.held -= count;
            if count > 1 {
                self.forget(sender, numbers);
            }
            self.hold_all(sender, &frame, count);
        }
    }

    fn take_kept_next(&mut self, sender: usize) -> Option<Frame> {
        let next = self.expanded[sender].fields[sender].checked_add(1)?;
        let place = self.place(sender, next);
        self.kept[place].take()
    }

    fn forget(&mut self, sender: usize, numbers: Numbers) {
        for offset in 0..numbers.count() {
            let place = self.place(sender, numbers.first + offset);
            self.kept[place] = None;
        }
    }

    /// Delivers the ready message of the smallest sender.
    fn deliver_next(&mut self) {
        let sender = self.ready.trailing_zeros() as usize;
        self.ready &= self.ready - 1;
        let Some(Waiting { number, frame, payload, row, .. }) = self.waiting[sender].pop_front() else {
            return;
        };
        self.held -= 1;
        let time = &self.rows[row];
        self.duties.deliver(sender, time);
        self.record.add_time(&time[..self.size]);
        self.free_rows.push(row);
        self.enter(Name { sender: sender as u32, number }, frame, payload);
        self.judge(sender, 0);
    }

    /// Enters a delivery whose time is entered, and looks again at the messages that it was in the way of.
    fn enter(&mut self, name: Name, frame: Frame, payload: Place) {
        let sender = name.sender as usize;
        self.now[sender] = name.number;
        self.record.add_delivery(Event { name, frame, payload });
        let mut blocked = std::mem::take(&mut self.blocked[sender]);
        while blocked != 0 {
            self.judge(blocked.trailing_zeros() as usize, sender);
            blocked &= blocked - 1;
        }
    }

    /// Whether the sender's first waiting message is ready, or what is in its way. Nothing is in the fields before `from`.
    fn judge(&mut self, sender: usize, from: usize) {
        if let Some(first) = self.waiting[sender].front() {
            let time = &self.rows[first.row];
            let own = std::mem::replace(&mut self.now[sender], time[sender]);
            let ahead = next_ahead(time, first.is_small, &self.now, from);
            self.now[sender] = own;
            match ahead {
                Some(field) => self.blocked[field] |= 1 << sender,
                None => self.ready |= 1 << sender,
            }
        }
    }

    fn take_status(&mut self, frame: &Frame, bytes: &[u8]) -> Result<Arrival, Refusal> {
        let status = read_status::<FIELDS>(bytes)?;
        let (sender, values) = (status.sender, &status.values);
        if status.group != GROUP {
            return Err(Refusal::OtherGroup);
        }
        if sender >= self.size || status.fields > self.size {
            return Err(Refusal::BadMember);
        }
        let is_impossible = if sender == self.me { is_above(values, &self.now) } else { values[self.me] > self.now[self.me] };
        if is_impossible {
            return Err(Refusal::Impossible);
        }
        let begun = self.record.begin();
        let none = begun.events..begun.events;
        if sender == self.me || !(is_above(values, &self.known) || self.duties.is_news(sender, values)) {
            return Ok(Arrival::Accepted(none, false));
        }
        if self.record.is_full() {
            return Err(Refusal::HistoryFull);
        }
        for (known, value) in self.known.iter_mut().zip(values) {
            *known = (*known).max(*value);
        }
        self.duties.hear(sender, values);
        self.record.enter_arrival(frame, &begun);
        Ok(Arrival::Accepted(none, true))
    }

    fn take_request(&mut self, mut bytes: &[u8], out: &mut Vec<Outgoing>) -> Result<Arrival, Refusal> {
        let group = number(&mut bytes)?;
        let (requester, asked) = (member(&mut bytes)?, member(&mut bytes)?);
        let ranges = read_ranges(bytes)?;
        if group != GROUP {
            return Err(Refusal::OtherGroup);
        }
        if requester >= self.size || asked >= self.size {
            return Err(Refusal::BadMember);
        }
        if requester == asked {
            return Err(Refusal::Impossible);
        }
        if asked == self.me {
            self.trim();
            answer(asked_of(&self.sent, &ranges), &ranges, requester, out);
        }
        let begun = self.record.begin();
        Ok(Arrival::Accepted(begun.events..begun.events, false))
    }

    fn take_help(&mut self, mut bytes: &[u8], out: &mut Vec<Outgoing>) -> Result<Arrival, Refusal> {
        let group = number(&mut bytes)?;
        let (requester, helper, asked) = (member(&mut bytes)?, member(&mut bytes)?, member(&mut bytes)?);
        let ranges = read_ranges(bytes)?;
        if group != GROUP {
            return Err(Refusal::OtherGroup);
        }
        if requester >= self.size || helper >= self.size || asked >= self.size {
            return Err(Refusal::BadMember);
        }
        if requester == helper || requester == asked || helper == asked {
            return Err(Refusal::Impossible);
        }
        if helper == self.me {
            answer(self.duties.handed_on(asked, self.now[asked]), &ranges, requester, out);
        }
        let begun = self.record.begin();
        Ok(Arrival::Accepted(begun.events..begun.events, false))
    }

    // ---- ticks

    /// The status to all others, and a request to each of which casts are missing.
    pub fn tick(&mut self, out: &mut Vec<Outgoing>) -> Result<bool, Refusal> {
        let is_new = self.last_told.as_ref() != Some(&self.now);
        if is_new && self.record.is_full() {
            return Err(Refusal::HistoryFull);
        }
        self.head(STATUS);
        let values = &self.now[..self.size];
        self.text.push(values.iter().filter(|value| **value > 0).count() as u8);
        let mut least = 0;
        for (field, value) in values.iter().enumerate() {
            if *value > 0 {
                put(&mut self.text, (field - least) as u32);
                put(&mut self.text, *value);
                least = field + 1;
            }
        }
        let status = Frame::from(&self.text[..]);
        if is_new {
            self.last_told = Some(self.now);
            self.record.enter_tick(&status);
        }
        out.push(Outgoing { to: None, frame: status });
        self.request_all(out);
        Ok(is_new)
    }

    fn request_all(&mut self, out: &mut Vec<Outgoing>) {
        for asked in 0..self.size {
            if asked != self.me && self.known[asked] > self.expanded[asked].fields[asked] {
                self.request(asked, out);
            }
        }
    }

    /// A request for the first ranges of what is missing, where something is.
    fn request(&mut self, asked: usize, out: &mut Vec<Outgoing>) {
        let mut ranges = self.missing(asked);
        ranges.truncate(MOST_RANGES);
        if ranges.is_empty() {
            return;
        }
        self.head(REQUEST);
        put(&mut self.text, asked as u32);
        put(&mut self.text, ranges.len() as u32);
        let mut least = 1;
        for Numbers { first, last } in ranges {
            put(&mut self.text, first - least);
            put(&mut self.text, last - first);
            least = last.saturating_add(2);
        }
        out.push(Outgoing { to: Some(asked), frame: Frame::from(&self.text[..]) });
    }

    /// The numbers of the sender that were heard of, are not too far and neither expanded nor kept.
    fn missing(&self, sender: usize) -> Vec<Numbers> {
        let first = u64::from(self.expanded[sender].fields[sender]) + 1;
        let far = u64::from(self.now[sender]) + u64::from(self.window);
        let mut ranges: Vec<Numbers> = Vec::new();
        for number in first..=far.min(u64::from(self.known[sender])) {
            let number = number as u32;
            if self.kept[self.place(sender, number)].is_some() {
                continue;
            }
            match ranges.last_mut() {
                Some(range) if range.last + 1 == number => range.last = number,
                _ => ranges.push(Numbers { first: number, last: number }),
            }
        }
        ranges
    }
}

pub fn is_above<const FIELDS: usize>(values: &[u32; FIELDS], counts: &[u32; FIELDS]) -> bool {
    values.iter().zip(counts).fold(false, |above, (value, count)| above | (value > count))
}

/// Those of these frames, whose numbers rise, between the first number that is asked for and the last one.
fn asked_of<'a>(units: &'a VecDeque<Unit>, ranges: &Ranges) -> impl Iterator<Item = &'a Unit> {
    let asked = ranges.span();
    let start = units.partition_point(|unit| unit.numbers.last < asked.first);
    units.range(start..).take_while(move |unit| unit.numbers.first <= asked.last)
}

/// Sends the first of these frames that are asked for.
fn answer<'a>(units: impl Iterator<Item = &'a Unit>, ranges: &Ranges, to: usize, out: &mut Vec<Outgoing>) {
    let asked = units.filter(|unit| unit.is_in(ranges.as_slice())).take(MOST_FRAMES);
    out.extend(asked.map(|unit| Outgoing { to: Some(to), frame: unit.frame.clone() }));
}
