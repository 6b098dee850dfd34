//! The words of the command line.

use crate::words::decimal;
use jolunza::{Settings, MOST_MEMBERS};
use std::collections::BTreeMap;
use std::ffi::OsString;
use std::net::{SocketAddr, ToSocketAddrs};
use std::path::PathBuf;
use std::time::Duration;

/// The window of every group, since all members have to have the same.
const WINDOW: u32 = 32;

pub const USAGE: &str = "\
parley --me 1 --group 7 --listen 127.0.0.1:7001 --peer 0=127.0.0.1:7000 --peer 2=127.0.0.1:7002
       [--journal FILE] [--drop 30] [--delay 200] [--seed 5]
  --me NUMBER          who you are; the members are numbered from 0
  --group NUMBER       the same at each; a number that nobody used before
  --listen ADDRESS     where your frames arrive, by UDP
  --peer NUMBER=ADDRESS  where those of another member go, once for each other
  --journal FILE       comes back by this file and FILE.GROUP when it was killed
  --drop PERCENT       loses so many of the frames that it sends, to try it out
  --delay MILLISECONDS holds each frame back, at most for so long
  --seed NUMBER        of what --drop and --delay do by chance";

/// What the words say.
#[derive(Debug, PartialEq, Eq)]
pub struct Options {
    pub settings: Settings,
    pub listen: SocketAddr,
    pub peers: BTreeMap<u32, SocketAddr>,
    pub journal: Option<PathBuf>,
    pub chance: Chance,
}

/// What the network is made to do with each frame.
#[derive(Clone, Copy, Debug, Default, PartialEq, Eq)]
pub struct Chance {
    pub drop: u32,
    pub delay: Duration,
    pub seed: Option<u32>,
}

#[derive(Default)]
struct Words {
    me: Option<u32>,
    group: Option<u32>,
    listen: Option<SocketAddr>,
    peers: BTreeMap<u32, SocketAddr>,
    journal: Option<PathBuf>,
    chance: Chance,
}

/// Reads the words, or says what is wrong with them.
pub fn options_in(words: impl Iterator<Item = OsString>) -> Result<Options, String> {
    let mut found = Words::default();
    let mut words = words.map(|word| word.into_string().map_err(|word| format!("BadOption: {word:?} is not UTF-8")));
    while let Some(option) = words.next() {
        let option = option?;
        let value = words.next().ok_or(format!("BadOption: {option} has no value"))??;
        found.take(&option, &value).ok_or(format!("BadOption: {option} {value}"))?;
    }
    found.checked()
}

impl Words {
    fn take(&mut self, option: &str, value: &str) -> Option<()> {
        match option {
            "--me" => self.me = Some(decimal(value)?),
            "--group" => self.group = Some(decimal(value)?),
            "--listen" => self.listen = Some(address_in(value)?),
            "--peer" => self.take_peer(value)?,
            "--journal" => self.journal = Some(value.into()),
            "--drop" => self.chance.drop = decimal(value).filter(|percent| *percent <= 100)?,
            "--delay" => self.chance.delay = Duration::from_millis(decimal(value)?.into()),
            "--seed" => self.chance.seed = Some(decimal(value)?),
            _ => return None,
        }
        Some(())
    }

    fn take_peer(&mut self, value: &str) -> Option<()> {
        let (member, address) = value.split_once('=')?;
        let is_first = self.peers.insert(decimal(member)?, address_in(address)?).is_none();
        is_first.then_some(())
    }

    fn checked(self) -> Result<Options, String> {
        let me = self.me.ok_or("Missing: --me NUMBER")?;
        let group = self.group.ok_or("Missing: --group NUMBER")?;
        let listen = self.listen.ok_or("Missing: --listen ADDRESS")?;
        let mut numbers: Vec<u32> = self.peers.keys().copied().chain([me]).collect();
        numbers.sort_unstable();
        if numbers.len() < 2 || numbers.len() > MOST_MEMBERS || !numbers.iter().copied().eq(0..numbers.len() as u32) {
            return Err(format!("BadMembers: {numbers:?}; they are 0 to 1 or more, you and each --peer once"));
        }
        look_at_addresses(listen, &self.peers)?;
        let settings = Settings { group, size: numbers.len() as u32, window: WINDOW, me };
        Ok(Options { settings, listen, peers: self.peers, journal: self.journal, chance: self.chance })
    }
}

/// Each member has an address of its own, and all of one kind: a socket sends to no address of the other kind.
fn look_at_addresses(listen: SocketAddr, peers: &BTreeMap<u32, SocketAddr>) -> Result<(), String> {
    for (number, address) in peers {
        if address.is_ipv4() != listen.is_ipv4() {
            let kind = |address: &SocketAddr| if address.is_ipv4() { "IPv4" } else { "IPv6" };
            let (own, other) = (kind(&listen), kind(address));
            return Err(format!(
                "BadAddress: you listen at {listen}, {own}, and peer {number} is at {address}, {other}"
            ));
        }
        if is_own(*address, listen) {
            return Err(format!("BadAddress: peer {number} is at {address}, where you listen"));
        }
        if let Some((other, _)) = peers.iter().find(|(other, at)| *other < number && *at == address) {
            return Err(format!("BadAddress: peers {other} and {number} are both at {address}"));
        }
    }
    Ok(())
}

/// Whether what is sent to this address comes to the listener itself. One that listens everywhere listens at each loopback address.
fn is_own(address: SocketAddr, listen: SocketAddr) -> bool {
    let is_everywhere = listen.ip().is_unspecified() && (address.ip().is_loopback() || address.ip().is_unspecified());
    address.port() == listen.port() && (address.ip() == listen.ip() || is_everywhere)
}

fn address_in(word: &str) -> Option<SocketAddr> {
    word.to_socket_addrs().ok()?.next()
}

#[cfg(test)]
mod tests {
    use super::*;

    fn read(words: &str) -> Result<Options, String> {
        options_in(words.split(' ').map(OsString::from))
    }

    #[test]
    fn the_words_of_a_member_are_read() {
        let line = "--me 1 --group 7 --listen 127.0.0.1:7001 --peer 0=127.0.0.1:7000 --peer 2=127.0.0.1:7002";
        let options = read(&format!("{line} --journal kept --drop 30 --delay 200 --seed 5")).unwrap();
        assert_eq!((options.settings.size, options.settings.me, options.settings.group), (3, 1, 7));
        assert_eq!(options.peers[&2], "127.0.0.1:7002".parse().unwrap());
        assert_eq!(options.journal, Some("kept".into()));
        assert_eq!(options.chance, Chance { drop: 30, delay: Duration::from_millis(200), seed: Some(5) });
        assert_eq!(read(line).unwrap().chance, Chance::default());
    }

    #[test]
    fn each_member_has_an_address_of_its_own_and_all_are_of_one_kind() {
        let with = |listen: &str, peers: [&str; 2]| {
            let [zero, two] = peers;
            read(&format!("--me 1 --group 7 --listen {listen} --peer 0={zero} --peer 2={two}")).map(drop)
        };
        let fault = |text: &str| Err(format!("BadAddress: {text}"));
        let (zero, one, two) = ("127.0.0.1:7000", "127.0.0.1:7001", "127.0.0.1:7002");
        assert_eq!(with(one, [zero, zero]), fault("peers 0 and 2 are both at 127.0.0.1:7000"));
        assert_eq!(with(one, [zero, one]), fault("peer 2 is at 127.0.0.1:7001, where you listen"));
        assert_eq!(with("0.0.0.0:7001", [zero, one]), fault("peer 2 is at 127.0.0.1:7001, where you listen"));
        assert_eq!(with("[::]:7001", ["[::1]:7001", "[::1]:7"]), fault("peer 0 is at [::1]:7001, where you listen"));
        let mixed = "you listen at 127.0.0.1:7001, IPv4, and peer 2 is at [::1]:7002, IPv6";
        assert_eq!(with(one, [zero, "[::1]:7002"]), fault(mixed));
        let mixed = "you listen at [::1]:7001, IPv6, and peer 0 is at 127.0.0.1:7000, IPv4";
        assert_eq!(with("[::1]:7001", [zero, two]), fault(mixed));
        assert_eq!(with("0.0.0.0:7001", ["10.0.0.1:7001", "10.0.0.2:7001"]), Ok(()), "other machines");
        assert_eq!(with("[::1]:7001", ["[::1]:7000", "[::1]:7002"]), Ok(()));
        assert_eq!(with(one, [zero, two]), Ok(()));
    }

    #[test]
    fn wrong_words_have_their_fault() {
        let good = "--me 1 --group 7 --listen 127.0.0.1:7001 --peer 0=127.0.0.1:7000";
        let rows = [
            ("--me", "BadOption: --me has no value"),
            ("--who 1", "BadOption: --who 1"),
            ("--drop 101", "BadOption: --drop 101"),
            ("--me -1", "BadOption: --me -1"),
            ("--me 1", "Missing: --group NUMBER"),
            (&format!("{good} --peer 0=127.0.0.1:7000"), "BadOption: --peer 0=127.0.0.1:7000"),
            (&format!("{good} --peer 1=127.0.0.1:7000"), "BadMembers: [0, 1, 1]"),
            (&format!("{good} --peer 3=127.0.0.1:7000"), "BadMembers: [0, 1, 3]"),
            ("--me 0 --group 7 --listen 127.0.0.1:7001", "BadMembers: [0]"),
        ];
        for (words, fault) in rows {
            let found = read(words).unwrap_err();
            assert!(found.starts_with(fault), "{words}: {found}");
        }
    }
}
