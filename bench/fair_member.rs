//! The group of `plain_member.rs` with the duties of the proved member beside causal delivery: it knows of each member how many casts of each
//! sender that one delivered, and so of which casts every member has delivered; it keeps the frames of others and hands them on to who asks by a
//! help frame; it enters each status that tells of deliveries; and a cast that finds no memory is refused before it changes anything.

mod member;
mod one_thread;

use member::Duties;
use member::frames::{Frame, Numbers, Unit};
use one_thread::Kind;
use std::collections::VecDeque;
use std::process::ExitCode;

/// How many casts of each sender each member is known to have delivered, and the frames of others.
struct OthersCasts<const FIELDS: usize> {
    me: usize,
    window: usize,
    /// A row for each member. Of its own casts a member has delivered the greatest number: it is never waited for.
    delivered: Vec<[u32; FIELDS]>,
    /// The accepted frames of each sender, by rising numbers, up to twice the window: those that wait, and as many that are delivered.
    relays: Vec<VecDeque<Unit>>,
}

impl<const FIELDS: usize> OthersCasts<FIELDS> {
    /// How many casts of the sender every other member is known to have delivered.
    fn stable_of(&self, sender: usize) -> u32 {
        self.delivered.iter().map(|row| row[sender]).min().unwrap_or(0)
    }

    fn raise(&mut self, member: usize, counts: &[u32; FIELDS]) {
        for (count, told) in self.delivered[member].iter_mut().zip(counts) {
            *count = (*count).max(*told);
        }
    }
}

impl<const FIELDS: usize> Duties<FIELDS> for OthersCasts<FIELDS> {
    const HELPS: bool = true;
    const RESERVES: bool = true;

    fn new(size: usize, window: u32, me: usize) -> OthersCasts<FIELDS> {
        let mut delivered = vec![[0; FIELDS]; size];
        for (member, row) in delivered.iter_mut().enumerate() {
            row[member] = u32::MAX;
        }
        let window = window as usize;
        let relays = (0..size).map(|_| VecDeque::with_capacity(2 * window)).collect();
        OthersCasts { me, window, delivered, relays }
    }

    fn stable(&self) -> u32 {
        self.stable_of(self.me)
    }

    #[inline(always)]
    fn keep(&mut self, sender: usize, numbers: Numbers, frame: &Frame) {
        let relays = &mut self.relays[sender];
        if relays.len() == 2 * self.window {
            relays.pop_front();
        }
        let unit = Unit { numbers, frame: frame.clone() };
        match relays.back() {
            Some(last) if last.numbers.first > numbers.first => {
                let place = relays.partition_point(|unit| unit.numbers.first < numbers.first);
                relays.insert(place, unit);
            }
            _ => relays.push_back(unit),
        }
    }

    #[inline(always)]
    fn deliver(&mut self, sender: usize, time: &[u32; FIELDS]) {
        self.delivered[self.me][sender] = time[sender];
        self.raise(sender, time);
    }

    #[inline(always)]
    fn is_news(&self, sender: usize, values: &[u32; FIELDS]) -> bool {
        member::is_above(values, &self.delivered[sender])
    }

    #[inline(always)]
    fn hear(&mut self, sender: usize, values: &[u32; FIELDS]) {
        self.raise(sender, values);
        let stable = self.stable_of(sender);
        let relays = &mut self.relays[sender];
        while relays.front().is_some_and(|first| first.numbers.last <= stable) {
            relays.pop_front();
        }
    }

    fn handed_on(&self, sender: usize, delivered: u32) -> impl Iterator<Item = &Unit> {
        let stable = self.stable_of(sender);
        let are_delivered = move |unit: &&Unit| stable < unit.numbers.last && unit.numbers.last <= delivered;
        let count = self.relays[sender].iter().filter(are_delivered).count();
        self.relays[sender].iter().filter(are_delivered).skip(count.saturating_sub(self.window))
    }
}

struct Fair;

impl Kind for Fair {
    type Duties<const FIELDS: usize> = OthersCasts<FIELDS>;
}

fn main() -> ExitCode {
    one_thread::main_of::<Fair>()
}

#[cfg(test)]
mod tests {
    use super::OthersCasts;
    use crate::member::record::Latest;
    use crate::member::{Member, Outgoing};

    type Fair = Member<4, Latest, OthersCasts<4>>;

    /// Member 2 asks member 1 for the casts 1 to 2 of member 0.
    const HELP: &[u8] = b"\x23\x07\x02\x01\x00\x01\x00\x01";
    const STATUS_OF_2: &[u8] = b"\x12\x07\x02\x01\x00\x02";
    const CASTS: [&[u8]; 2] = [b"\x11\x07\x00\x01\x00\x01a", b"\x11\x07\x00\x02\x00\x01b"];

    /// The frames that the member sends in answer, and to whom.
    fn answers(member: &mut Fair, bytes: &[u8]) -> Vec<(Option<usize>, Vec<u8>)> {
        let mut out = Vec::new();
        assert!(member.arrive(&bytes.into(), &mut out).is_ok());
        out.iter().map(|Outgoing { to, frame }| (*to, frame.to_vec())).collect()
    }

    fn helper_with(casts: &[&[u8]], window: u32) -> Fair {
        let mut member = Fair::new(3, window, 1, Latest::default());
        casts.iter().for_each(|cast| assert!(answers(&mut member, cast).is_empty()));
        member
    }

    #[test]
    fn a_helper_hands_on_what_it_delivered_until_all_have_it() {
        let mut helper = helper_with(&CASTS, 4);
        assert_eq!(answers(&mut helper, HELP), CASTS.map(|cast| (Some(2), cast.to_vec())));
        answers(&mut helper, STATUS_OF_2);
        assert_eq!(answers(&mut helper, HELP), []);
    }

    #[test]
    fn a_helper_hands_on_as_many_frames_as_the_window_is_wide() {
        assert_eq!(answers(&mut helper_with(&CASTS, 1), HELP), [(Some(2), CASTS[1].to_vec())]);
    }

    #[test]
    fn a_helper_hands_on_nothing_that_waits() {
        assert_eq!(answers(&mut helper_with(&CASTS[1..], 4), HELP), []);
    }
}
