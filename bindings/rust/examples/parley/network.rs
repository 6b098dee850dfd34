//! Frames over UDP, a datagram for each; some lost and late on purpose, where that was asked for.

use crate::options::Chance;
use crate::session::Link;
use jolunza::{Frame, LONGEST_FRAME};
use std::cmp::Reverse;
use std::collections::{BTreeMap, BinaryHeap};
use std::io;
use std::net::{SocketAddr, UdpSocket};
use std::process;
use std::thread;
use std::time::{Duration, Instant};

/// A generator of numbers by chance (splitmix64).
#[derive(Debug)]
pub struct Dice(pub u64);

impl Dice {
    /// From 0 up to, and not including, the end.
    pub fn below(&mut self, end: u64) -> u64 {
        self.0 = self.0.wrapping_add(0x9e37_79b9_7f4a_7c15);
        let mut mixed = self.0;
        mixed = (mixed ^ mixed >> 30).wrapping_mul(0xbf58_476d_1ce4_e5b9);
        mixed = (mixed ^ mixed >> 27).wrapping_mul(0x94d0_49bb_1331_11eb);
        (mixed ^ mixed >> 31) % end
    }
}

/// A frame that is held back: when it is due, a number that keeps equal ones apart, to whom, the bytes.
type Held = (Instant, u64, u32, Vec<u8>);

#[derive(Debug)]
pub struct Network {
    socket: UdpSocket,
    peers: BTreeMap<u32, SocketAddr>,
    chance: Chance,
    dice: Dice,
    held: BinaryHeap<Reverse<Held>>,
    count: u64,
}

impl Network {
    pub fn open(listen: SocketAddr, peers: BTreeMap<u32, SocketAddr>, me: u32, chance: Chance) -> io::Result<Network> {
        let seed = chance.seed.unwrap_or_else(process::id);
        let dice = Dice(u64::from(seed) << 6 | u64::from(me));
        Ok(Network { socket: UdpSocket::bind(listen)?, peers, chance, dice, held: BinaryHeap::new(), count: 0 })
    }

    fn send_to(&mut self, member: u32, bytes: &[u8]) {
        let is_lost = self.dice.below(100) < self.chance.drop.into();
        let delay = self.dice.below(self.chance.delay.as_millis() as u64 + 1);
        if is_lost {
            return;
        }
        if delay == 0 {
            let _ = self.socket.send_to(bytes, self.peers[&member]);
        } else {
            self.count += 1;
            let due = Instant::now() + Duration::from_millis(delay);
            self.held.push(Reverse((due, self.count, member, bytes.to_vec())));
        }
    }

    /// Takes datagrams in a thread of its own until they are not wanted. One that is too long is cut: it is no frame.
    pub fn listen(&self, mut take: impl FnMut(SocketAddr, Vec<u8>) -> bool + Send + 'static) -> io::Result<()> {
        let socket = self.socket.try_clone()?;
        thread::spawn(move || {
            let mut buffer = [0; LONGEST_FRAME + 1];
            loop {
                match socket.recv_from(&mut buffer) {
                    Ok((length, from)) if !take(from, buffer[..length].to_vec()) => return,
                    Ok(_) => {}
                    Err(_) => thread::sleep(Duration::from_millis(10)),
                }
            }
        });
        Ok(())
    }
}

impl Link for Network {
    fn peers(&self) -> Vec<u32> {
        self.peers.keys().copied().collect()
    }

    fn peer_at(&self, address: SocketAddr) -> Option<u32> {
        self.peers.iter().find(|(_, at)| **at == address).map(|(member, _)| *member)
    }

    /// A frame that the system doesn't take is lost: another member will ask for it.
    fn send(&mut self, frame: Frame<'_>) {
        match frame.to {
            Some(member) => self.send_to(member, frame.bytes),
            None => self.peers().into_iter().for_each(|member| self.send_to(member, frame.bytes)),
        }
    }

    fn send_due(&mut self, now: Instant) {
        while self.next_due().is_some_and(|due| due <= now) {
            if let Some(Reverse((_, _, member, bytes))) = self.held.pop() {
                let _ = self.socket.send_to(&bytes, self.peers[&member]);
            }
        }
    }

    fn next_due(&self) -> Option<Instant> {
        self.held.peek().map(|Reverse((due, ..))| *due)
    }
}
