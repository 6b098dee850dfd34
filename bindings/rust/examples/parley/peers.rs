//! What is known of each other member: when it was heard, and whether it still sends what is missing here.

use jolunza::Member;
use std::collections::BTreeMap;
use std::ops::RangeInclusive;
use std::time::{Duration, Instant};

/// A member that is heard and was asked this often for the same cast keeps it no more, or all answers were lost.
pub const ASKED_IN_VAIN: u32 = 100;

#[derive(Debug, Default)]
struct Peer {
    heard: Option<Instant>,
    /// The first cast that is missing, and how often it was asked for while its sender was heard.
    asked: Option<(u32, u32)>,
}

impl Peer {
    fn is_asked_in_vain(&self) -> bool {
        self.asked.is_some_and(|(_, count)| count >= ASKED_IN_VAIN)
    }
}

#[derive(Debug)]
pub struct Peers(BTreeMap<u32, Peer>);

impl Peers {
    pub fn new(members: impl Iterator<Item = u32>) -> Peers {
        Peers(members.map(|member| (member, Peer::default())).collect())
    }

    pub fn hear(&mut self, member: u32, now: Instant) {
        if let Some(peer) = self.0.get_mut(&member) {
            peer.heard = Some(now);
        }
    }

    /// Counts the requests of a tick. Answers who was now asked in vain for what is missing here.
    pub fn ask(&mut self, member: &Member, now: Instant) -> Option<u32> {
        let mut found = None;
        for (number, peer) in &mut self.0 {
            let first = first_missing(member, *number);
            let is_heard = peer.heard.is_some_and(|heard| now - heard < Duration::from_secs(5));
            peer.asked = match (first, peer.asked) {
                (Some(first), Some((before, count))) if first == before => Some((first, count + u32::from(is_heard))),
                (first, _) => first.map(|first| (first, 0)),
            };
            if is_heard && peer.asked.is_some_and(|(_, count)| count == ASKED_IN_VAIN) {
                found = Some(*number);
            }
        }
        found
    }

    /// Whether something was asked for in vain that is still missing.
    pub fn lack_something(&self) -> bool {
        self.0.values().any(Peer::is_asked_in_vain)
    }

    /// A peer that has sent what it was asked for in vain. It is found once.
    pub fn came_after_all(&mut self, member: &Member) -> Option<u32> {
        let came = |number, peer: &Peer| {
            peer.is_asked_in_vain() && peer.asked.map(|(first, _)| first) != first_missing(member, number)
        };
        let (number, peer) = self.0.iter_mut().find(|(number, peer)| came(**number, peer))?;
        peer.asked = None;
        Some(*number)
    }

    /// The member is a new one, of another group: nothing is missing.
    pub fn begin(&mut self) {
        self.0.values_mut().for_each(|peer| peer.asked = None);
    }

    /// A line for each.
    pub fn lines(&self, member: &Member, now: Instant) -> Vec<String> {
        let time = member.time();
        let line = |(number, peer): (&u32, &Peer)| {
            let delivered = time.get(*number as usize).copied().unwrap_or(0);
            format!("{number}: {delivered} delivered{}, {}", missing(member, *number), silence(peer.heard, now))
        };
        self.0.iter().map(line).collect()
    }
}

fn first_missing(member: &Member, number: u32) -> Option<u32> {
    Some(*member.missing(number).ok()?.first()?.start())
}

fn missing(member: &Member, number: u32) -> String {
    let ranges = member.missing(number).unwrap_or_default();
    let text = |range: &RangeInclusive<u32>| match range.clone().into_inner() {
        (first, last) if first == last => first.to_string(),
        (first, last) => format!("{first} to {last}"),
    };
    let texts: Vec<String> = ranges.iter().map(text).collect();
    if texts.is_empty() {
        String::new()
    } else {
        format!(", {} missing", texts.join(" and "))
    }
}

fn silence(heard: Option<Instant>, now: Instant) -> String {
    match heard {
        Some(heard) => format!("silent for {} s", (now - heard).as_secs()),
        None => "not heard yet".into(),
    }
}

#[cfg(test)]
mod tests {
    use super::*;
    use jolunza::Settings;

    fn member() -> Member {
        Member::open(Settings { group: 7, size: 3, window: 4, me: 2 }).unwrap()
    }

    fn take(member: &mut Member, frame: &[u8]) {
        assert!(member.receive(frame).unwrap().is_entered());
    }

    #[test]
    fn a_member_that_is_heard_is_asked_in_vain_until_what_is_missing_comes() {
        let (mut member, now) = (member(), Instant::now());
        let mut peers = Peers::new([0, 1].into_iter());
        take(&mut member, b"\x11\x07\x00\x02\x00\x00");
        (0..=ASKED_IN_VAIN).for_each(|_| assert_eq!(peers.ask(&member, now), None, "it was not heard"));
        peers.hear(0, now);
        (1..ASKED_IN_VAIN).for_each(|_| assert_eq!(peers.ask(&member, now), None));
        assert_eq!(peers.ask(&member, now), Some(0));
        assert_eq!(peers.ask(&member, now), None, "it is found once");
        assert_eq!((peers.lack_something(), peers.came_after_all(&member)), (true, None));
        take(&mut member, b"\x11\x07\x00\x01\x00\x00");
        assert_eq!((peers.came_after_all(&member), peers.came_after_all(&member)), (Some(0), None));
        assert!(!peers.lack_something());
    }

    #[test]
    fn who_answers_is_asked_anew() {
        let (mut member, now) = (member(), Instant::now());
        let mut peers = Peers::new([0, 1].into_iter());
        peers.hear(0, now);
        take(&mut member, b"\x11\x07\x00\x03\x00\x00");
        (0..ASKED_IN_VAIN).for_each(|_| assert_eq!(peers.ask(&member, now), None));
        take(&mut member, b"\x11\x07\x00\x01\x00\x00");
        (0..ASKED_IN_VAIN).for_each(|_| assert_eq!(peers.ask(&member, now), None));
    }

    #[test]
    fn each_other_member_has_a_line() {
        let (mut member, now) = (member(), Instant::now());
        let mut peers = Peers::new([0, 1].into_iter());
        take(&mut member, b"\x11\x07\x00\x01\x00\x00");
        take(&mut member, b"\x11\x07\x00\x03\x00\x00");
        peers.hear(0, now);
        let lines = peers.lines(&member, now + Duration::from_secs(3));
        assert_eq!(lines, ["0: 1 delivered, 2 missing, silent for 3 s", "1: 0 delivered, not heard yet"]);
    }
}
