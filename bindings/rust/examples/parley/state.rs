//! What a parley is, but for the world around it.

use crate::notes::{Answer, Kept};
use jolunza::{Awaited, Delayed, Member, Refusal, LONGEST_PAYLOAD, MOST_MESSAGES};
use std::collections::VecDeque;

#[derive(Debug)]
pub struct State {
    pub kept: Kept,
    /// How many payloads were said in this group. The member casts them in this order.
    said: u32,
    /// Those that wait to be cast.
    pub waiting: VecDeque<Vec<u8>>,
    pub room: String,
    /// The group numbers that the member had, with the one that it has.
    pub groups: Vec<u32>,
}

/// A call of the member.
#[derive(Clone, Debug, PartialEq, Eq)]
pub enum Call {
    /// Of the first payload that waits.
    Cast,
    /// Of the first so many that wait, in one frame.
    Burst(usize),
    Arrive(Vec<u8>),
    Tick,
}

impl State {
    pub fn new(kept: Kept) -> State {
        State {
            groups: vec![kept.member().settings().group],
            kept,
            said: 0,
            waiting: VecDeque::new(),
            room: "main".into(),
        }
    }

    /// A member of another group, in the same room.
    pub fn begin(&mut self, kept: Kept) {
        let groups = [self.groups.clone(), vec![kept.member().settings().group]].concat();
        *self = State { room: self.room.clone(), groups, ..State::new(kept) };
    }

    pub fn member(&self) -> &Member {
        self.kept.member()
    }

    /// The payload waits, unless it is one of those that the member has cast already.
    pub fn say(&mut self, payload: Vec<u8>) {
        self.said += 1;
        if self.said > self.own_casts() {
            self.waiting.push_back(payload);
        }
    }

    /// Whether all that the member has cast was said.
    pub fn has_said_all(&self) -> bool {
        self.said >= self.own_casts()
    }

    /// Makes a call. Refused, it has changed nothing.
    pub fn call(&mut self, call: &Call) -> Answer<'_> {
        let count = match call {
            Call::Cast => 1,
            Call::Burst(count) => *count,
            Call::Arrive(_) | Call::Tick => 0,
        };
        let payloads: Vec<&[u8]> = self.waiting.iter().take(count).map(Vec::as_slice).collect();
        if payloads.len() < count {
            return Ok(Err(Refusal::NoneThere));
        }
        let done = match call {
            Call::Cast => self.kept.cast(payloads[0])?,
            Call::Burst(_) => self.kept.cast_burst(&payloads)?,
            Call::Arrive(bytes) => self.kept.receive(bytes)?,
            Call::Tick => self.kept.tick()?,
        };
        if done.is_ok() {
            self.waiting.drain(..count);
        }
        Ok(done)
    }

    pub fn own_casts(&self) -> u32 {
        self.member().time()[self.member().settings().me as usize]
    }

    /// The next cast of what waits: all that one frame can have, or the first.
    pub fn next_cast(&self) -> Call {
        let open = self.member().settings().window - (self.own_casts() - self.member().stable());
        let mut room = LONGEST_PAYLOAD;
        let fits = |payload: &&Vec<u8>| {
            let left = room.checked_sub(payload.len());
            room = left.unwrap_or(room);
            left.is_some()
        };
        match self.waiting.iter().take(MOST_MESSAGES.min(open as usize)).take_while(fits).count() {
            0 | 1 => Call::Cast,
            count => Call::Burst(count),
        }
    }

    /// What waits here and what for, and who keeps the window full: a line for each.
    pub fn why(&self) -> Vec<String> {
        let member = self.member();
        let members = 0..member.settings().size;
        let mut lines = vec![match member.waiting() {
            0 => "nothing waits here".into(),
            1 => "1 message waits here".into(),
            count => format!("{count} messages wait here"),
        }];
        let delayed = members.clone().filter_map(|sender| member.waits_for(sender).ok()?);
        lines.extend(delayed.map(|delayed| delay_of(&delayed)));
        let full: Vec<u32> = members.filter(|other| member.keeps_window_full(*other) == Ok(true)).collect();
        if full.is_empty() {
            lines.push("nobody keeps your window full".into());
        }
        lines.extend(full.iter().map(|other| {
            let has = member.acknowledged_by(*other).unwrap_or(0);
            format!("{other} keeps your window full: it is known to have {has} of your {} lines", self.own_casts())
        }));
        lines
    }

    /// Everybody is known to have what this member said.
    pub fn is_everywhere(&self) -> bool {
        self.waiting.is_empty() && self.member().stable() == self.own_casts()
    }

    pub fn misses_something(&self) -> bool {
        let others = 0..self.member().settings().size;
        others.filter_map(|other| self.member().missing(other).ok()).any(|ranges| !ranges.is_empty())
    }
}

fn delay_of(delayed: &Delayed) -> String {
    let name = delayed.name;
    match &delayed.awaits {
        None => format!("{name} comes with the next line"),
        Some(Awaited { sender, numbers }) if numbers.start() == numbers.end() => {
            format!("{name} waits for {sender}.{}", numbers.start())
        }
        Some(Awaited { sender, numbers }) => {
            format!("{name} waits for {sender}.{} to {sender}.{}", numbers.start(), numbers.end())
        }
    }
}

#[cfg(test)]
mod tests {
    use super::*;
    use jolunza::Settings;

    fn member(group: u32, size: u32, window: u32) -> Kept {
        let member = Member::open_with_history(Settings { group, size, window, me: 0 }, 100).unwrap();
        Kept::InMemory(member.into())
    }

    fn call(state: &mut State, call: Call) -> Result<(), Refusal> {
        state.call(&call).unwrap().map(drop)
    }

    fn say(state: &mut State, text: &str) {
        state.say(format!("\x01\x04main{text}").into());
    }

    #[test]
    fn what_is_said_waits_until_it_is_cast() {
        let mut state = State::new(member(7, 2, 1));
        assert_eq!(call(&mut state, Call::Cast), Err(Refusal::NoneThere));
        say(&mut state, "a");
        say(&mut state, "b");
        assert_eq!(call(&mut state, Call::Cast), Ok(()));
        assert_eq!(call(&mut state, Call::Cast), Err(Refusal::WindowFull));
        assert_eq!((state.waiting.len(), state.own_casts(), state.is_everywhere()), (1, 1, false));
        call(&mut state, Call::Arrive(b"\x12\x07\x01\x01\x00\x01".to_vec())).unwrap();
        call(&mut state, Call::Cast).unwrap();
        let payloads: Vec<_> = state.kept.events().map(|event| event.payload.to_vec()).collect();
        assert_eq!(payloads, [b"\x01\x04maina", b"\x01\x04mainb"]);
    }

    #[test]
    fn what_waits_is_cast_as_far_as_it_fits() {
        let mut state = State::new(member(7, 2, 5));
        assert_eq!(state.next_cast(), Call::Cast);
        assert_eq!(call(&mut state, Call::Burst(1)), Err(Refusal::NoneThere));
        for (text, next) in [("a", Call::Cast), ("b", Call::Burst(2)), (&"c".repeat(1_018), Call::Burst(2))] {
            say(&mut state, text);
            assert_eq!(state.next_cast(), next);
        }
        assert_eq!(call(&mut state, Call::Burst(4)), Err(Refusal::NoneThere));
        assert_eq!(call(&mut state, Call::Burst(3)), Err(Refusal::PayloadTooLong));
        assert_eq!(call(&mut state, Call::Burst(2)), Ok(()));
        assert_eq!((state.waiting.len(), state.own_casts(), state.next_cast()), (1, 2, Call::Cast));
        call(&mut state, Call::Cast).unwrap();
        for text in ["d", "e", "f"] {
            say(&mut state, text);
        }
        assert_eq!(state.next_cast(), Call::Burst(2));
        assert_eq!(call(&mut state, Call::Burst(3)), Err(Refusal::WindowFull));
        call(&mut state, Call::Burst(2)).unwrap();
        assert_eq!((state.next_cast(), state.own_casts()), (Call::Cast, 5));
        let numbers: Vec<_> = state.kept.events().map(|event| event.name.number).collect();
        assert_eq!(numbers, [1, 2, 3, 4, 5]);
    }

    #[test]
    fn what_waits_and_who_keeps_the_window_full_is_told() {
        let mut state = State::new(member(7, 3, 3));
        for text in ["a", "b", "c"] {
            assert_eq!(state.why(), ["nothing waits here", "nobody keeps your window full"]);
            say(&mut state, text);
            call(&mut state, Call::Cast).unwrap();
        }
        let full = |other| format!("{other} keeps your window full: it is known to have 0 of your 3 lines");
        assert_eq!(state.why(), ["nothing waits here".into(), full(1), full(2)]);
        let frames =
            [&b"\x12\x07\x01\x01\x00\x01"[..], b"\x11\x07\x01\x03\x00\x00", b"\x11\x07\x02\x01\x01\x01\x01\x00"];
        for frame in frames {
            call(&mut state, Call::Arrive(frame.to_vec())).unwrap();
        }
        let waits = ["2 messages wait here", "1.3 waits for 1.1 to 1.2", "2.1 waits for 1.1"];
        assert_eq!(state.why()[..3], waits);
        assert_eq!(state.why()[3..], [full(2)]);
        for frame in [b"\x11\x07\x01\x01\x00\x00", b"\x11\x07\x01\x02\x00\x00"] {
            call(&mut state, Call::Arrive(frame.to_vec())).unwrap();
        }
        assert_eq!(state.why(), ["nothing waits here".into(), full(2)]);
    }

    #[test]
    fn what_the_member_has_cast_does_not_wait_again() {
        let mut first = State::new(member(7, 2, 5));
        ["a", "b", "c"].iter().for_each(|text| say(&mut first, text));
        call(&mut first, Call::Burst(2)).unwrap();
        let mut back = State::new(first.kept);
        assert!(!back.has_said_all());
        for (text, waiting) in [("a", 0), ("b", 0), ("c", 1), ("d", 2)] {
            say(&mut back, text);
            assert_eq!(back.waiting.len(), waiting, "{text}");
        }
        assert!(back.has_said_all());
        assert_eq!(back.waiting, [b"\x01\x04mainc", b"\x01\x04maind"]);
    }

    #[test]
    fn a_new_group_has_a_new_member_in_the_same_room() {
        let mut state = State::new(member(7, 2, 1));
        state.room = "plan".into();
        say(&mut state, "a");
        say(&mut state, "b");
        call(&mut state, Call::Cast).unwrap();
        state.begin(member(8, 2, 1));
        say(&mut state, "c");
        assert_eq!((state.member().settings().group, state.groups.clone()), (8, vec![7, 8]));
        assert_eq!((state.own_casts(), state.waiting.len(), state.room.as_str()), (0, 1, "plan"));
        assert_eq!(call(&mut state, Call::Arrive(vec![0x13])), Err(Refusal::Malformed));
    }
}
