//! The run of `crates/bench_member` through the wrapper for Rust: a whole group in one thread, each member in its turn takes all that
//! the others sent, and casts. Prints the same: how many messages were delivered, and a digest of their names and times. Words: SIZE
//! WINDOW PAYLOAD CASTS. Nothing is lost. What was sent to a member is one buffer, which it loads at once, and whose
//! parts it takes in one call.

use jolunza::{Event, Member, Refusal, Settings, LONGEST_HISTORY};
use std::env;
use std::mem;

struct Tally {
    deliveries: u64,
    digest: u64,
}

impl Tally {
    fn mix(&mut self, low: u32, high: u32) {
        let word = u64::from(low) | u64::from(high) << 32;
        self.digest = (self.digest ^ word).wrapping_mul(0x100_0000_01b3);
    }

    fn add(&mut self, me: u32, event: &Event) {
        self.deliveries += 1;
        self.mix(me, event.name.sender);
        self.mix(event.name.number, 0);
        let pairs = event.time.chunks_exact(2);
        let last = pairs.remainder();
        for pair in pairs {
            self.mix(pair[0], pair[1]);
        }
        if let [field] = last {
            self.mix(*field, 0);
        }
    }
}

/// What was sent to a member and not yet taken: the frames, one after another, and how long each is.
#[derive(Clone, Default)]
struct Inbox {
    bytes: Vec<u8>,
    lengths: Vec<usize>,
}

impl Inbox {
    fn put(&mut self, frame: &[u8]) {
        self.bytes.extend_from_slice(frame);
        self.lengths.push(frame.len());
    }

    fn clear(&mut self) {
        self.bytes.clear();
        self.lengths.clear();
    }
}

/// One inbox for each member.
struct Network {
    inboxes: Vec<Inbox>,
}

impl Network {
    fn send(&mut self, me: usize, frame: jolunza::Frame) {
        match frame.to {
            Some(to) => self.inboxes[to as usize].put(frame.bytes),
            None => self.send_to_others(me, frame.bytes),
        }
    }

    fn send_to_others(&mut self, me: usize, frame: &[u8]) {
        for (to, inbox) in self.inboxes.iter_mut().enumerate() {
            if to != me {
                inbox.put(frame);
            }
        }
    }
}

struct Run {
    members: Vec<Member>,
    network: Network,
    tally: Tally,
    window: u32,
    payload: Vec<u8>,
    casts: u64,
    made: u64,
}

impl Run {
    fn take_all(&mut self, me: usize, inbox: &mut Inbox) -> Result<(), Refusal> {
        mem::swap(inbox, &mut self.network.inboxes[me]);
        self.members[me].load(&inbox.bytes)?;
        let (mut first, mut lengths) = (0, &inbox.lengths[..]);
        while !lengths.is_empty() {
            let (count, mut output) = self.members[me].receive_parts(first, lengths)?;
            let (taken, rest) = lengths.split_at(count);
            first += taken.iter().sum::<usize>();
            lengths = rest;
            output.frames().for_each(|frame| self.network.send(me, frame));
            output.events().for_each(|event| self.tally.add(me as u32, &event));
        }
        inbox.clear();
        Ok(())
    }

    /// The member casts as often as a fourth of the window, as long as it may. Its own casts are not looked at.
    fn cast_some(&mut self, me: usize) {
        for _ in 0..(self.window / 4).max(1) {
            if self.made == self.casts {
                return;
            }
            let Ok(mut output) = self.members[me].cast(&self.payload) else { return };
            self.made += 1;
            output.frames().for_each(|frame| self.network.send(me, frame));
        }
    }

    fn tick_all(&mut self) -> Result<(), Refusal> {
        for (me, member) in self.members.iter_mut().enumerate() {
            member.tick()?.frames().for_each(|frame| self.network.send(me, frame));
        }
        Ok(())
    }

    fn go(&mut self) -> Result<(), Refusal> {
        let mut inbox = Inbox::default();
        while self.tally.deliveries < self.casts * (self.members.len() as u64 - 1) {
            for me in 0..self.members.len() {
                self.take_all(me, &mut inbox)?;
                self.cast_some(me);
            }
            self.tick_all()?;
        }
        Ok(())
    }
}

fn main() -> Result<(), Refusal> {
    let words: Vec<u32> = env::args().skip(1).filter_map(|word| word.parse().ok()).collect();
    let &[size, window, payload, casts] = &words[..] else {
        panic!("bindings SIZE WINDOW PAYLOAD CASTS");
    };
    let open = |me| Member::open_with_history(Settings { group: 7, size, window, me }, LONGEST_HISTORY);
    let mut run = Run {
        members: (0..size).map(open).collect::<Result<_, _>>()?,
        network: Network { inboxes: vec![Inbox::default(); size as usize] },
        tally: Tally { deliveries: 0, digest: 0xcbf2_9ce4_8422_2325 },
        window,
        payload: vec![b'a'; payload as usize],
        casts: casts.into(),
        made: 0,
    };
    run.go()?;
    println!("deliveries {} digest {:016x}", run.tally.deliveries, run.tally.digest);
    Ok(())
}
