//! A group of three in one process: one asks, two answer, and every third frame is lost.

use jolunza::{Member, Name, Output, Refusal, Settings};
use std::mem;

const SIZE: u32 = 3;
const ROUNDS: u32 = 10;

/// The surroundings of a member: the datagrams that came for it, those to be sent, and its screen.
#[derive(Default)]
struct Host {
    inbox: Vec<Vec<u8>>,
    outbox: Vec<(Option<u32>, Vec<u8>)>,
    shown: Vec<String>,
    dropped: usize,
}

impl Host {
    /// The datagrams that came since the last turn.
    fn received(&mut self) -> Vec<Vec<u8>> {
        mem::take(&mut self.inbox)
    }

    /// Sends to a member, or to all others.
    fn send(&mut self, to: Option<u32>, frame: &[u8]) {
        self.outbox.push((to, frame.to_vec()));
    }

    fn show(&mut self, name: Name, payload: &[u8]) {
        self.shown.push(format!("{name} {}", String::from_utf8_lossy(payload)));
    }
}

// TURN: begin
fn open(me: u32) -> Result<Member, Refusal> {
    Member::open(Settings { group: 7, size: 3, window: 16, me })
}

/// A member's turn: it takes each received datagram, and then says what it has and asks for what it misses.
fn turn(member: &mut Member, host: &mut Host) -> Result<(), Refusal> {
    for datagram in host.received() {
        match member.receive(&datagram) {
            Ok(output) => send_and_show(output, host),
            // anybody can send a datagram: count it, drop it, take the next
            Err(refusal) if refusal.is_frame_fault() || refusal.is_transient() => host.dropped += 1,
            Err(refusal) => return Err(refusal),
        }
    }
    send_and_show(member.tick()?, host);
    Ok(())
}

fn send_and_show(mut output: Output<'_>, host: &mut Host) {
    output.frames().for_each(|frame| host.send(frame.to, frame.bytes));
    output.events().for_each(|event| host.show(event.name, event.payload)); // in causal order
}
// TURN: end

/// Takes what a member has to send to the others, and loses every third frame. The number counts them.
fn carry(me: u32, hosts: &mut [Host], count: &mut usize) {
    for (to, frame) in mem::take(&mut hosts[me as usize].outbox) {
        for other in (0..SIZE).filter(|other| to.map_or(*other != me, |to| to == *other)) {
            *count += 1;
            if !count.is_multiple_of(3) {
                hosts[other as usize].inbox.push(frame.clone());
            }
        }
    }
}

/// The hosts after ten rounds: member 0 has asked, and each other one answered when it was shown the question.
fn conversation() -> Result<Vec<Host>, Refusal> {
    let mut members = (0..SIZE).map(open).collect::<Result<Vec<_>, _>>()?;
    let mut hosts: Vec<_> = members.iter().map(|_| Host::default()).collect();
    let mut count = 0;
    send_and_show(members[0].cast(b"when?")?, &mut hosts[0]);
    hosts[0].inbox.push(b"what is no frame".to_vec());
    for _round in 0..ROUNDS {
        for (me, member) in (0..SIZE).zip(&mut members) {
            let host = &mut hosts[me as usize];
            turn(member, host)?;
            if me != 0 && member.time()[me as usize] == 0 && host.shown.contains(&"0.1 when?".into()) {
                send_and_show(member.cast(b"noon")?, host);
            }
            carry(me, &mut hosts, &mut count);
        }
    }
    Ok(hosts)
}

fn main() -> Result<(), Refusal> {
    for (me, host) in conversation()?.iter().enumerate() {
        host.shown.iter().for_each(|line| println!("{me} is shown {line}"));
        println!("datagrams dropped by {me}: {}", host.dropped);
    }
    Ok(())
}

#[test]
fn nobody_is_shown_an_answer_before_the_question() {
    let hosts = conversation().unwrap();
    for host in &hosts {
        assert_eq!((host.shown.len(), host.shown[0].as_str()), (3, "0.1 when?"));
    }
    assert_eq!(hosts.iter().map(|host| host.dropped).collect::<Vec<_>>(), [1, 0, 0]);
}
