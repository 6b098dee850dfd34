//! Clients of a redis server, in plain Rust with std alone, that do by its pub/sub what a group of members does: each publishes messages, and has
//! those of all others. Words: PORT SIZE PAYLOAD MESSAGES BURST, MESSAGES of each client.
//!
//! A client has two connections, with a thread each. One publishes BURST messages in one write, and reads the server's replies before the next
//! ones; the other is subscribed to the channels of the others, and counts the messages that come.

use std::env;
use std::io::{Read, Write};
use std::net::TcpStream;
use std::process::ExitCode;
use std::sync::Barrier;
use std::thread;

/// The most bytes that are read at once.
const PIECE: usize = 1 << 16;

#[derive(Clone, Copy)]
struct Plan {
    port: u16,
    size: usize,
    payload: usize,
    messages: usize,
    burst: usize,
}

fn connect(plan: Plan) -> TcpStream {
    let stream = TcpStream::connect(("127.0.0.1", plan.port)).expect("a server");
    stream.set_nodelay(true).expect("a socket");
    stream
}

/// The channel to which this client publishes.
fn channel(client: usize) -> String {
    format!("m{client:02}")
}

/// A request, or what the server sends: a list of words.
fn list(words: &[&str]) -> Vec<u8> {
    let mut text = format!("*{}\r\n", words.len());
    for word in words {
        text += &format!("${}\r\n{word}\r\n", word.len());
    }
    text.into_bytes()
}

fn publish(plan: Plan, me: usize) {
    let mut stream = connect(plan);
    let payload = "a".repeat(plan.payload);
    let request = list(&["PUBLISH", &channel(me), &payload]);
    // Each reply says to how many the message went.
    let reply = format!(":{}\r\n", plan.size - 1);
    let mut replies = vec![0; plan.burst * reply.len()];
    let mut left = plan.messages;
    while left > 0 {
        let count = plan.burst.min(left);
        stream.write_all(&request.repeat(count)).expect("a write");
        let replies = &mut replies[..count * reply.len()];
        stream.read_exact(replies).expect("replies");
        assert_eq!(replies, reply.repeat(count).as_bytes());
        left -= count;
    }
}

/// Subscribes to the channels of the others, and has waited for the server's replies.
fn subscribe(plan: Plan, me: usize) -> TcpStream {
    let mut stream = connect(plan);
    for (number, other) in (0..plan.size).filter(|other| *other != me).enumerate() {
        stream.write_all(&list(&["SUBSCRIBE", &channel(other)])).expect("a write");
        let mut reply = list(&["subscribe", &channel(other)]);
        reply[1] = b'3';
        reply.extend(format!(":{}\r\n", number + 1).into_bytes());
        let mut came = vec![0; reply.len()];
        stream.read_exact(&mut came).expect("a reply");
        assert_eq!(came, reply);
    }
    stream
}

/// The number that stands at the front behind this byte, up to the end of the line.
fn number(rest: &mut &[u8], kind: u8) -> Option<usize> {
    let mut number = 0;
    for (place, byte) in rest.iter().enumerate().skip(1) {
        match byte {
            b'0'..=b'9' => number = 10 * number + usize::from(byte - b'0'),
            b'\r' => {
                assert_eq!(rest[0], kind, "not what is due");
                *rest = rest.get(place + 2..)?;
                return Some(number);
            }
            _ => panic!("not a number"),
        }
    }
    None
}

/// The word at the front, behind its length.
fn word<'a>(rest: &mut &'a [u8]) -> Option<&'a [u8]> {
    let length = number(rest, b'$')?;
    let word = rest.get(..length)?;
    *rest = rest.get(length + 2..)?;
    Some(word)
}

/// The payload of the message at the front, where it has come whole, and what stands behind it.
fn message(came: &[u8]) -> Option<(&[u8], &[u8])> {
    let mut rest = came;
    let count = number(&mut rest, b'*')?;
    let (kind, _channel, payload) = (word(&mut rest)?, word(&mut rest)?, word(&mut rest)?);
    assert!(count == 3 && kind == b"message");
    Some((payload, rest))
}

/// Takes all messages of the others, and answers how many came.
fn receive(plan: Plan, mut stream: TcpStream) -> usize {
    let (mut room, mut filled, mut delivered) = (vec![0; 2 * PIECE], 0, 0);
    while delivered < plan.messages * (plan.size - 1) {
        let count = stream.read(&mut room[filled..][..PIECE]).expect("a read");
        assert!(count > 0, "the server has closed the connection");
        filled += count;
        let mut rest = &room[..filled];
        while let Some((payload, behind)) = message(rest) {
            assert_eq!(payload.len(), plan.payload);
            delivered += 1;
            rest = behind;
        }
        let left = rest.len();
        room.copy_within(filled - left..filled, 0);
        filled = left;
    }
    delivered
}

fn main() -> ExitCode {
    let words: Vec<usize> = env::args().skip(1).filter_map(|word| word.parse().ok()).collect();
    let [port, size, payload, messages, burst] = words[..] else {
        eprintln!("redis_clients PORT SIZE PAYLOAD MESSAGES BURST");
        return ExitCode::from(2);
    };
    if !(2..=9).contains(&size) || burst == 0 {
        eprintln!("redis_clients: 2 to 9 clients, and bursts of one or more");
        return ExitCode::from(2);
    }
    let plan = Plan { port: port as u16, size, payload, messages, burst };
    let all_subscribed = Barrier::new(size);
    let delivered: usize = thread::scope(|scope| {
        let clients: Vec<_> = (0..size)
            .map(|me| {
                let all_subscribed = &all_subscribed;
                scope.spawn(move || {
                    let stream = subscribe(plan, me);
                    all_subscribed.wait();
                    let publisher = thread::spawn(move || publish(plan, me));
                    let delivered = receive(plan, stream);
                    publisher.join().expect("a publisher");
                    delivered
                })
            })
            .collect();
        clients.into_iter().map(|client| client.join().expect("a client")).sum()
    });
    println!("deliveries {delivered}");
    ExitCode::SUCCESS
}
