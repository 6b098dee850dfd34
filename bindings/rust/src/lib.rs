//! Causal broadcast that is proved: one member of a group of 2 to 64, a machine without clock, thread or socket.
//!
//! The member is libjolunza.a, written in Rattle and proved; this crate is a safe wrapper of it, and is not proved. A turn of a member,
//! over whatever network you have:
//!
//! ```
//! use jolunza::{Event, Frame, Member, Output, Refusal, Settings};
//!
//! fn open(me: u32) -> Result<Member, Refusal> {
//!     Member::open(Settings { group: 7, size: 3, window: 16, me })
//! }
//!
//! /// Takes what was received, and then says what the member has and asks for what it misses. Answers how many frames were dropped.
//! fn turn(member: &mut Member, received: &[Vec<u8>]) -> Result<usize, Refusal> {
//!     let mut dropped = 0;
//!     for datagram in received {
//!         match member.receive(datagram) {
//!             Ok(output) => pass_on(output),
//!             Err(refusal) if refusal.is_frame_fault() => dropped += 1,
//!             Err(refusal) => return Err(refusal),
//!         }
//!     }
//!     pass_on(member.tick()?);
//!     Ok(dropped)
//! }
//!
//! /// Sends the frames of a call, each as it is, and shows its events.
//! fn pass_on(mut output: Output<'_>) {
//!     for frame in output.frames() {
//!         send(frame.to, frame.bytes); // `None`: to all others
//!     }
//!     for event in output.events() {
//!         show(event.name, event.payload); // in causal order
//!     }
//! }
//! # fn send(_to: Option<u32>, _bytes: &[u8]) {}
//! # fn show(_name: jolunza::Name, _payload: &[u8]) {}
//! # let mut member = open(1)?;
//! # pass_on(member.cast(b"hello")?);
//! # assert_eq!(turn(&mut member, &[b"?".to_vec()])?, 1);
//! # Ok::<(), Refusal>(())
//! ```
//!
//! Each call that may change the member answers an [`Output`], which is to be dealt with before the next call. Tick now and then. More
//! rarely ask for help with each other member: a third one then sends what that one casts and does not send again. A [`Refusal`] has
//! changed nothing.
//!
//! Here an answer overtakes its question, and waits for it:
//!
//! ```
//! # use jolunza::{Member, Refusal, Settings};
//! # let open = |me| Member::open(Settings { group: 7, size: 3, window: 4, me });
//! let (mut anna, mut bert, mut cleo) = (open(0)?, open(1)?, open(2)?);
//! let question = anna.cast(b"when?")?.frames().next().unwrap().bytes.to_vec();
//! assert_eq!(bert.receive(&question)?.events().len(), 1);
//! let answer = bert.cast(b"noon")?.frames().next().unwrap().bytes.to_vec();
//!
//! assert_eq!(cleo.receive(&answer)?.events().len(), 0); // it waits
//! let mut output = cleo.receive(&question)?;
//! let shown: Vec<_> = output.events().map(|event| (event.name.to_string(), event.payload)).collect();
//! assert_eq!(shown, [("0.1".into(), &b"when?"[..]), ("1.1".into(), b"noon")]);
//! # Ok::<(), Refusal>(())
//! ```
//!
//! A [`Journal`] is a member with a file that records its calls and brings it back after its process was killed.
//!
//! You can move a member to another thread, and only one thread at a time uses it:
//!
//! ```
//! fn goes<T: Send>() {}
//! goes::<jolunza::Member>();
//! goes::<jolunza::Journal>();
//! ```
//! ```compile_fail,E0277
//! fn is_shared<T: Sync>() {}
//! is_shared::<jolunza::Member>();
//! ```
//!
//! The output of a call is used before the next call, and is never ignored:
//!
//! ```compile_fail,E0499
//! # use jolunza::{Member, Settings};
//! # let mut member = Member::open(Settings { group: 7, size: 3, window: 4, me: 0 }).unwrap();
//! let mut output = member.cast(b"when?").unwrap();
//! member.tick().unwrap().frames().for_each(drop);
//! output.frames().for_each(drop);
//! ```
//! ```compile_fail
//! #![deny(unused_must_use)]
//! # use jolunza::{Member, Settings};
//! # let mut member = Member::open(Settings { group: 7, size: 3, window: 4, me: 0 }).unwrap();
//! member.cast(b"when?").unwrap();
//! ```

#![warn(missing_debug_implementations)]

mod entries;
mod events;
mod frames;
mod journal;
mod member;
mod output;
mod refusal;
mod resuming;
pub mod sys;
mod turn;

pub use entries::Entry;
pub use events::{Event, Events};
pub use frames::{sender, Frame, Frames, Sender};
pub use journal::{Journal, JournalFault};
pub use member::{Awaited, Counts, Delayed, Member, Name, Settings};
pub use output::Output;
pub use refusal::Refusal;
pub use resuming::{ResumeFault, Resumed};
pub use turn::{Call, Turn};

/// The most bytes of a payload, and of all payloads of a burst.
pub const LONGEST_PAYLOAD: usize = sys::JOLUNZA_LONGEST_PAYLOAD;

/// The most bytes of a frame, so that it fits one datagram.
pub const LONGEST_FRAME: usize = sys::JOLUNZA_LONGEST_FRAME;

/// The most bytes of a journal's line, with its line feed.
pub const LONGEST_LINE: usize = sys::JOLUNZA_LONGEST_LINE;

/// The most members of a group.
pub const MOST_MEMBERS: usize = sys::JOLUNZA_MOST_MEMBERS;

/// The most payloads of a burst.
pub const MOST_MESSAGES: usize = sys::JOLUNZA_MOST_MESSAGES;

/// The greatest limit of a history, in entries.
pub const LONGEST_HISTORY: usize = 16_777_216;
