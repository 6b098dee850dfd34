//! One member.

use crate::entries::{Entry, EntryBuffer};
use crate::events::{EventBuffer, Events};
use crate::frames::{FrameBuffer, Frames};
use crate::output::{Done, Left, Output};
use crate::refusal::{answered, Refusal};
use crate::resuming::{ResumeFault, Resumed};
use crate::sys;
use std::cell::UnsafeCell;
use std::fmt;
use std::ops::{Bound, Range, RangeBounds, RangeInclusive};
use std::ptr;

/// Which member is opened. Group number, size and window are the same at each member of a group.
#[derive(Clone, Copy, Debug, PartialEq, Eq, Hash)]
pub struct Settings {
    pub group: u32,
    /// How many members there are: 2 to 64.
    pub size: u32,
    /// How many own casts a member may have that are not known to be delivered by all: 1 to 256.
    pub window: u32,
    /// The member's own number, from 0.
    pub me: u32,
}

/// The name of a message: its sender, and the how many-th cast of it, from 1. It is printed as `0.1`.
#[derive(Clone, Copy, Debug, PartialEq, Eq, PartialOrd, Ord, Hash)]
pub struct Name {
    pub sender: u32,
    pub number: u32,
}

impl fmt::Display for Name {
    fn fmt(&self, f: &mut fmt::Formatter<'_>) -> fmt::Result {
        write!(f, "{}.{}", self.sender, self.number)
    }
}

/// How many events and entries there are to be read: of the history. Without one: of the last call that was done but `help`; events of a
/// member that came back: of its journal, until then.
#[derive(Clone, Copy, Debug, PartialEq, Eq)]
pub struct Counts {
    pub events: usize,
    pub entries: usize,
}

/// The first message of a member that waits, and what it waits for.
#[derive(Clone, Debug, PartialEq, Eq, Hash)]
pub struct Delayed {
    pub name: Name,
    /// `None` where all of its past is delivered here: it is delivered with the next cast that is received.
    pub awaits: Option<Awaited>,
}

/// Messages of one member that are not delivered here.
#[derive(Clone, Debug, PartialEq, Eq, Hash)]
pub struct Awaited {
    pub sender: u32,
    /// Their numbers. The first one is the sender's next that is to be delivered.
    pub numbers: RangeInclusive<u32>,
}

/// One member of a group.
///
/// Its calls are `cast`, `cast_burst`, `receive`, `receive_loaded`, `receive_parts`, `tick`, `help` and `help_among`. Each returns an [`Output`]: send its
/// frames and show its events before the next call. All other calls only read.
///
/// Each member number of a group is opened once in the world. The others ignore a member that begins anew under an old
/// number: to come back, keep a [`Journal`](crate::Journal).
pub struct Member {
    /// Open from `open` to `drop`, which all `unsafe` here rests on, as on this: pointers come from references and
    /// slices that do not overlap, and a `Member` is called by one thread at a time. Readings take the handle by a
    /// pointer that may write, too.
    handle: UnsafeCell<sys::jolunza_handle>,
    settings: Settings,
    keeps_history: bool,
    /// How many events its history has; 0 without one.
    events_made: usize,
    frames: FrameBuffer,
    events: EventBuffer,
    entry: EntryBuffer,
}

const CLOSED: sys::jolunza_handle = sys::jolunza_handle { at: ptr::null_mut(), is_open: false };

// An open handle may go to another thread, as is proved of the library. Two calls at once it may not take, and the cell
// keeps a `Member` from being `Sync`.
unsafe impl Send for Member {}

impl Member {
    /// A member that has done nothing, and keeps no history: its memory stays bounded. The first that holds: `BadGroup`, `BadMember`; or
    /// `NoMemory`.
    pub fn open(settings: Settings) -> Result<Member, Refusal> {
        Member::open_with_history(settings, 0)
    }

    /// A member that has done nothing, and keeps all that it does, for an audit: at most `history_max` entries, up to 16,777,216. Then its
    /// calls are refused with `HistoryFull`. With 0 it keeps none. The first that holds: `BadGroup`, `BadMember`, `BadLimit`; or
    /// `NoMemory`.
    pub fn open_with_history(settings: Settings, history_max: usize) -> Result<Member, Refusal> {
        let Settings { group, size, window, me } = settings;
        let mut handle = CLOSED;
        answered(unsafe { sys::jolunza_open(&mut handle, group, size, window, me, history_max) })?;
        Ok(Member::over(handle, settings, history_max > 0))
    }

    /// The member whose journal these bytes are, as it was after the last whole line: its time, its events, and each frame that it will
    /// send. Nothing is to be sent. It keeps no history.
    ///
    /// ```
    /// # use jolunza::{Member, Settings};
    /// # let mut anna = Member::open(Settings { group: 7, size: 3, window: 4, me: 0 })?;
    /// let mut journal = anna.journal_head()?;
    /// let frames: Vec<Vec<u8>> = anna.cast(b"when?")?.frames().map(|frame| frame.bytes.to_vec()).collect();
    /// journal += &anna.journal_line(0)?;
    /// let mut back = Member::resume(journal.as_bytes())?;
    /// assert_eq!((back.entries(), back.read()), (1, journal.len()));
    /// assert_eq!(back.events(..).next().unwrap().payload, b"when?");
    /// let anna = back.into_member();
    /// # assert_eq!(anna.time(), [1, 0, 0]);
    /// # Ok::<(), Box<dyn std::error::Error>>(())
    /// ```
    pub fn resume(journal: &[u8]) -> Result<Resumed, ResumeFault> {
        Member::resume_with_history(journal, 0)
    }

    /// As `resume`, with a history of at most `history_max` entries, which begins with those of the journal.
    pub fn resume_with_history(journal: &[u8], history_max: usize) -> Result<Resumed, ResumeFault> {
        let (mut handle, mut read) = (CLOSED, sys::jolunza_journal::default());
        let (at, length) = (journal.as_ptr(), journal.len());
        let code = unsafe { sys::jolunza_resume(&mut handle, at, length, history_max, &mut read) };
        if code != sys::JOLUNZA_DONE {
            return Err(ResumeFault::of(code, read.line));
        }
        let sys::jolunza_journal { group, size, window, me, entries, read, .. } = read;
        let mut member = Member::over(handle, Settings { group, size, window, me }, history_max > 0);
        member.events_made = member.kept_counts().events;
        Ok(Resumed::of(member, entries, read))
    }

    /// A member whose handle was just opened.
    fn over(handle: sys::jolunza_handle, settings: Settings, keeps_history: bool) -> Member {
        Member {
            handle: UnsafeCell::new(handle),
            settings,
            keeps_history,
            events_made: 0,
            frames: FrameBuffer::new(),
            events: EventBuffer::new(settings.size as usize),
            entry: EntryBuffer::new(),
        }
    }

    pub fn settings(&self) -> Settings {
        self.settings
    }

    /// Casts a message: the one event is the message, and the one frame is for all others.
    #[inline]
    pub fn cast(&mut self, payload: &[u8]) -> Result<Output<'_>, Refusal> {
        answered(unsafe { sys::jolunza_cast(self.handle.get(), payload.as_ptr(), payload.len()) })?;
        Ok(self.output(Left::OneFrame, 1, 1))
    }

    /// Casts the messages of a burst, 1 to 32, in one frame, which is for all others; the events are the messages, each with a number and
    /// a time of its own. There is one entry of all.
    ///
    /// ```
    /// # use jolunza::{Member, Refusal, Settings};
    /// # let open = |me| Member::open(Settings { group: 7, size: 3, window: 4, me });
    /// # let (mut anna, mut bert) = (open(0)?, open(1)?);
    /// let mut output = anna.cast_burst(&[b"when?", b"where?"])?;
    /// let mut received = bert.receive(output.frames().next().unwrap().bytes)?;
    /// let shown: Vec<_> = received.events().map(|event| (event.name.number, event.payload)).collect();
    /// assert_eq!(shown, [(1, &b"when?"[..]), (2, &b"where?"[..])]);
    /// # Ok::<(), Refusal>(())
    /// ```
    pub fn cast_burst(&mut self, payloads: &[&[u8]]) -> Result<Output<'_>, Refusal> {
        let bytes = payloads.concat();
        let lengths: Vec<usize> = payloads.iter().map(|payload| payload.len()).collect();
        let (at, count) = (lengths.as_ptr(), lengths.len());
        answered(unsafe { sys::jolunza_cast_burst(self.handle.get(), bytes.as_ptr(), bytes.len(), at, count) })?;
        Ok(self.output(Left::OneFrame, payloads.len(), 1))
    }

    /// Takes received bytes: one frame, whole. The events are what it delivered; the frames answer a request for casts of this member,
    /// or a help frame, which asks this member for casts of another.
    ///
    /// Bytes come from anywhere, so a refusal is no reason to end: where [`is_frame_fault`](Refusal::is_frame_fault), drop the frame, count
    /// it, and receive the next one.
    #[inline]
    pub fn receive(&mut self, bytes: &[u8]) -> Result<Output<'_>, Refusal> {
        let mut received = sys::jolunza_received::default();
        let code = unsafe { sys::jolunza_receive(self.handle.get(), bytes.as_ptr(), bytes.len(), &mut received) };
        answered(code)?;
        Ok(self.taken(received))
    }

    /// For many frames at once: copies bytes in, in place of those that were loaded before, and receives none of them.
    /// They stay over every other call. The received frames that the member keeps share this memory, which is freed
    /// once no part of it is kept and other bytes are loaded (`&[]` will do).
    pub fn load(&mut self, bytes: &[u8]) -> Result<(), Refusal> {
        answered(unsafe { sys::jolunza_load(self.handle.get(), bytes.as_ptr(), bytes.len()) })
    }

    /// Takes a part of the loaded bytes, one frame, whole, as `receive` takes bytes, and copies none. `NoneThere` where
    /// not all of it is loaded. Parts are taken in any order.
    ///
    /// ```
    /// # use jolunza::{Member, Refusal, Settings};
    /// # let open = |me| Member::open(Settings { group: 7, size: 3, window: 4, me });
    /// # let (mut anna, mut bert) = (open(0)?, open(1)?);
    /// let (mut inbox, mut ends) = (Vec::new(), vec![0]);
    /// for text in ["when?", "where?"] {
    ///     inbox.extend_from_slice(anna.cast(text.as_bytes())?.frames().next().unwrap().bytes);
    ///     ends.push(inbox.len());
    /// }
    /// bert.load(&inbox)?;
    /// for part in ends.windows(2) {
    ///     assert_eq!(bert.receive_loaded(part[0]..part[1])?.events().len(), 1);
    /// }
    /// # Ok::<(), Refusal>(())
    /// ```
    #[inline]
    pub fn receive_loaded(&mut self, part: Range<usize>) -> Result<Output<'_>, Refusal> {
        let mut received = sys::jolunza_received::default();
        let code = unsafe { sys::jolunza_receive_loaded(self.handle.get(), part.start, part.len(), &mut received) };
        answered(code)?;
        Ok(self.taken(received))
    }

    /// Takes parts of the loaded bytes in one call, one after another as `receive_loaded` takes one: the first part from
    /// `first` on, each other from the end of the one before it on, with these `lengths`. Returns how many were taken, and
    /// their output. At least one is taken; else the refusal is that of the first part, and nothing has changed.
    ///
    /// A part with frames to be sent is the last that is taken, so the frames are its own. Fewer than all are also taken
    /// if the next part is refused: call again from that part on, and the refusal is the reason. The events are those of
    /// all parts of the call.
    ///
    /// ```
    /// # use jolunza::{Member, Refusal, Settings};
    /// # let open = |me| Member::open(Settings { group: 7, size: 3, window: 4, me });
    /// # let (mut anna, mut bert) = (open(0)?, open(1)?);
    /// let (mut inbox, mut lengths) = (Vec::new(), Vec::new());
    /// for text in ["when?", "where?"] {
    ///     let mut output = anna.cast(text.as_bytes())?;
    ///     let bytes = output.frames().next().unwrap().bytes;
    ///     inbox.extend_from_slice(bytes);
    ///     lengths.push(bytes.len());
    /// }
    /// bert.load(&inbox)?;
    /// let (taken, mut output) = bert.receive_parts(0, &lengths)?;
    /// assert_eq!((taken, output.events().len()), (2, 2));
    /// # Ok::<(), Refusal>(())
    /// ```
    pub fn receive_parts(&mut self, first: usize, lengths: &[usize]) -> Result<(usize, Output<'_>), Refusal> {
        let (at, count) = (lengths.as_ptr(), lengths.len());
        let (before, mut taken) = (self.kept_counts(), 0);
        answered(unsafe { sys::jolunza_receive_parts(self.handle.get(), first, at, count, &mut taken) })?;
        let Counts { events, entries } = self.counts();
        Ok((taken, self.output(Left::Frames, events - before.events, entries - before.entries)))
    }

    /// Bytes were received, and did this.
    #[inline]
    fn taken(&mut self, received: sys::jolunza_received) -> Output<'_> {
        let sys::jolunza_received { is_repeat, is_entered, delivered } = received;
        // frames answer a request or a help frame, which are never entered
        let left = if is_repeat || is_entered { Left::NoFrame } else { Left::Frames };
        let done = Done { is_repeat, ..self.done(left, delivered, usize::from(is_entered)) };
        Output::of(self, done)
    }

    /// The frames are the member's status, for all others, and a request to each member of whom something is missing. There is no event,
    /// and an entry where the status has news.
    #[inline]
    pub fn tick(&mut self) -> Result<Output<'_>, Refusal> {
        let before = self.kept_counts().entries;
        answered(unsafe { sys::jolunza_tick(self.handle.get()) })?;
        let entries = self.counts().entries - before;
        Ok(self.output(Left::Frames, 0, entries))
    }

    /// Asks a third member for the missing casts of another member, for where that one is silent: the one frame is for the
    /// first member, other than both, that is known to have delivered the first of them. There is no frame where none is
    /// missing, or nobody is known to have it. There is no event, and the member stays as it is. `BadMember` of this one and of
    /// a number that no member has.
    ///
    /// ```
    /// # use jolunza::{Member, Refusal, Settings};
    /// # let open = |me| Member::open(Settings { group: 7, size: 3, window: 4, me });
    /// # let (mut anna, mut bert, mut cleo) = (open(0)?, open(1)?, open(2)?);
    /// // Anna's cast does not come to Cleo, and then Anna is silent
    /// bert.receive(anna.cast(b"when?")?.frames().next().unwrap().bytes)?.events().for_each(drop);
    /// let mut status = cleo.receive(bert.tick()?.frames().next().unwrap().bytes)?;
    /// # assert_eq!(status.frames().len(), 0);
    /// let mut output = cleo.help(0)?;
    /// let help = output.frames().next().unwrap();
    /// assert_eq!(help.to, Some(1));
    /// let mut answer = bert.receive(help.bytes)?;
    /// let mut received = cleo.receive(answer.frames().next().unwrap().bytes)?;
    /// assert_eq!(received.events().next().unwrap().payload, b"when?");
    /// # Ok::<(), Refusal>(())
    /// ```
    #[inline]
    pub fn help(&mut self, member: u32) -> Result<Output<'_>, Refusal> {
        answered(unsafe { sys::jolunza_help(self.handle.get(), member) })?;
        Ok(self.output(Left::Frames, 0, 0))
    }

    /// Asks as [`help`](Member::help) does, but only one of these members: the first that is known to have delivered the first missing
    /// cast. Pass the members that you still hear from, so that no silent one is asked. This member's number and that of the member
    /// whose casts are missing are passed over among them. `BadMember` also of a number among them that no member has.
    #[inline]
    pub fn help_among(&mut self, member: u32, members: &[u32]) -> Result<Output<'_>, Refusal> {
        let (at, count) = (members.as_ptr(), members.len());
        answered(unsafe { sys::jolunza_help_among(self.handle.get(), member, at, count) })?;
        Ok(self.output(Left::Frames, 0, 0))
    }

    /// A call was done, which left these frames, and made this many events and entries.
    #[inline]
    fn output(&mut self, left: Left, events: usize, entries: usize) -> Output<'_> {
        let done = self.done(left, events, entries);
        Output::of(self, done)
    }

    #[inline]
    fn done(&mut self, left: Left, events: usize, entries: usize) -> Done {
        let first = self.events_made;
        if self.keeps_history {
            self.events_made += events;
        }
        Done { left, is_repeat: false, first, events, entries }
    }

    /// The frames of the last call that was done, which is this one.
    #[inline]
    pub(crate) fn frames_of(&mut self, done: Done) -> Frames<'_> {
        match done.left {
            Left::NoFrame => Frames::default(),
            Left::OneFrame => unsafe { self.frames.fill_one(self.handle.get()) },
            Left::Frames => unsafe { self.frames.fill(self.handle.get()) },
        }
    }

    /// The events of the last call that was done, which is this one.
    #[inline]
    pub(crate) fn events_of(&mut self, done: Done) -> Events<'_> {
        unsafe { self.events.fill(self.handle.get(), done.first, done.events) }
    }

    /// The events of the history of these indexes, from 0, as far as there are: `events(..)` has all. They are copied at once, so a
    /// long history is read in pieces: `events(0..1000)`. Without a history there are those that [`Counts`] counts.
    pub fn events(&mut self, indexes: impl RangeBounds<usize>) -> Events<'_> {
        let first = first_of(&indexes);
        let most = end_of(&indexes).saturating_sub(first);
        unsafe { self.events.fill(self.handle.get(), first, most) }
    }

    /// An entry of the history, from 0. Without a history there are those that [`Counts`] counts: `entry(0)` is what the last call
    /// would have added to one, and `None` where that call has changed nothing.
    pub fn entry(&mut self, index: usize) -> Option<Entry<'_>> {
        unsafe { self.entry.fill(self.handle.get(), index) }
    }

    /// The first line of the member's journal, with its line feed; or `NoMemory`.
    pub fn journal_head(&self) -> Result<String, Refusal> {
        self.line(|at, capacity, length| unsafe { sys::jolunza_journal_head(self.handle.get(), at, capacity, length) })
    }

    /// The line of an entry in the member's journal, with its line feed; entries have the indexes of [`entry`](Member::entry).
    /// `NoneThere` where there is no such entry; or `NoMemory`.
    pub fn journal_line(&self, index: usize) -> Result<String, Refusal> {
        self.line(|at, capacity, length| unsafe {
            sys::jolunza_journal_line(self.handle.get(), index, at, capacity, length)
        })
    }

    /// A line that a call copies as far as it fits, with its length.
    fn line(&self, copy: impl Fn(*mut u8, usize, &mut usize) -> u32) -> Result<String, Refusal> {
        let (mut text, mut length) = (vec![0; LONG_LINE], 0);
        answered(copy(text.as_mut_ptr(), text.len(), &mut length))?;
        if length > text.len() {
            text.resize(length, 0);
            answered(copy(text.as_mut_ptr(), text.len(), &mut length))?;
        }
        text.truncate(length);
        Ok(String::from_utf8(text).expect("a line has ASCII alone"))
    }

    pub fn counts(&self) -> Counts {
        let mut counts = sys::jolunza_counts::default();
        let code = unsafe { sys::jolunza_count(self.handle.get(), &mut counts) };
        answered(code).expect("an open member has its counts");
        let sys::jolunza_counts { events, entries, .. } = counts;
        Counts { events, entries }
    }

    /// The counts that the next call keeps: without a history none.
    fn kept_counts(&self) -> Counts {
        if self.keeps_history {
            self.counts()
        } else {
            Counts { events: 0, entries: 0 }
        }
    }

    /// How many messages of each member are delivered, own casts included.
    pub fn time(&self) -> Vec<u32> {
        let mut time = vec![0; self.settings.size as usize];
        let code = unsafe { sys::jolunza_time(self.handle.get(), time.as_mut_ptr(), time.len()) };
        answered(code).expect("an open member has its time");
        time
    }

    /// How many own casts every other member is known to have delivered.
    pub fn stable(&self) -> u32 {
        let mut count = 0;
        let code = unsafe { sys::jolunza_stable(self.handle.get(), &mut count) };
        answered(code).expect("an open member has its stable number");
        count
    }

    /// How many casts of a member every member other than it is known to have delivered; of this one as `stable`. `BadMember` of
    /// a number that no member has.
    pub fn stable_of(&self, member: u32) -> Result<u32, Refusal> {
        let mut count = 0;
        answered(unsafe { sys::jolunza_stable_of(self.handle.get(), member, &mut count) })?;
        Ok(count)
    }

    /// How many of this member's casts a member is known to have delivered; this one has delivered all. `BadMember` of a number that
    /// no member has.
    pub fn acknowledged_by(&self, member: u32) -> Result<u32, Refusal> {
        let mut count = 0;
        answered(unsafe { sys::jolunza_acknowledged_by(self.handle.get(), member, &mut count) })?;
        Ok(count)
    }

    /// Whether another member keeps the window full: of the last casts of this one, that many as the window is wide, it is not known to
    /// have delivered any. `BadMember` of a number that no member has.
    pub fn keeps_window_full(&self, member: u32) -> Result<bool, Refusal> {
        let mut full = false;
        answered(unsafe { sys::jolunza_keeps_window_full(self.handle.get(), member, &mut full) })?;
        Ok(full)
    }

    /// How many messages wait: they were received and are not delivered, since something before them is missing.
    pub fn waiting(&self) -> u32 {
        let mut count = 0;
        let code = unsafe { sys::jolunza_waiting(self.handle.get(), &mut count) };
        answered(code).expect("an open member has what waits");
        count
    }

    /// The first message of a member that waits, and what it waits for; `None` where none of it waits. `BadMember` of a number that no
    /// member has.
    pub fn waits_for(&self, member: u32) -> Result<Option<Delayed>, Refusal> {
        let mut delayed = sys::jolunza_delayed::default();
        match answered(unsafe { sys::jolunza_waits_for(self.handle.get(), member, &mut delayed) }) {
            Err(Refusal::NoneThere) => return Ok(None),
            answer => answer?,
        }
        let sys::jolunza_delayed { is_ready, number, sender, first, last } = delayed;
        let awaits = (!is_ready).then_some(Awaited { sender, numbers: first..=last });
        Ok(Some(Delayed { name: Name { sender: member, number }, awaits }))
    }

    /// The casts of another member that are missing, as rising ranges. `BadMember` of this one and of a number that no member has.
    pub fn missing(&self, member: u32) -> Result<Vec<RangeInclusive<u32>>, Refusal> {
        let mut ranges = [sys::jolunza_range::default(); MOST_RANGES];
        let mut count = 0;
        let (at, capacity) = (ranges.as_mut_ptr(), ranges.len());
        answered(unsafe { sys::jolunza_missing(self.handle.get(), member, at, capacity, &mut count) })?;
        Ok(ranges[..count].iter().map(|range| range.first..=range.last).collect())
    }
}

/// The line of an entry with the longest frame, and with some names, fits.
const LONG_LINE: usize = 3_072;

/// At most a window of numbers is missing, and a number lies between two ranges.
const MOST_RANGES: usize = 128;

impl Drop for Member {
    fn drop(&mut self) {
        unsafe { sys::jolunza_close(self.handle.get()) }
    }
}

impl fmt::Debug for Member {
    fn fmt(&self, f: &mut fmt::Formatter<'_>) -> fmt::Result {
        let (settings, counts) = (self.settings, self.counts());
        f.debug_struct("Member").field("settings", &settings).field("counts", &counts).finish()
    }
}

fn first_of(indexes: &impl RangeBounds<usize>) -> usize {
    match indexes.start_bound() {
        Bound::Included(first) => *first,
        Bound::Excluded(before) => before.saturating_add(1),
        Bound::Unbounded => 0,
    }
}

/// The index after the last one.
fn end_of(indexes: &impl RangeBounds<usize>) -> usize {
    match indexes.end_bound() {
        Bound::Included(last) => last.saturating_add(1),
        Bound::Excluded(end) => *end,
        Bound::Unbounded => usize::MAX,
    }
}
