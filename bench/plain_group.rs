//! A group of causal broadcast members in threads, in plain Rust with std alone and no proof: what the proved group (`crates/bench`, group) is
//! measured against. Words: SIZE WINDOW PAYLOAD CASTS LINK BURST, CASTS of each member, LINK `channel`, `udp` or `tcp`.
//!
//! With a BURST of 2 to 32, over channels or UDP, so many messages are cast at once where the window has room for all of them, and their frames
//! go in one packet: one piece of memory over channels, one datagram over UDP. It has no frames of several messages: each has its own
//! differences and its own entry.
//!
//! A seventh word, whatever it is, has it do what the proved group does for its callers beside the protocol: each worker keeps a receipt of every
//! entry that it made, and at the end the receipts of all are compared with the history; a talker is shown a copy of every event of its
//! member, outside the lock; an arrival hands its deliveries out.
//!
//! Each member stands behind a lock, with four threads: one takes what comes, one ticks and sleeps for a millisecond, one casts as long as it
//! may, and one sends what the others answer. The group ends when each member has seen every message.

use std::env;
use std::io::{ErrorKind, Read, Write};
use std::net::{SocketAddr, TcpListener, TcpStream, UdpSocket};
use std::ops::Range;
use std::process::ExitCode;
use std::sync::Mutex;
use std::sync::atomic::{AtomicBool, AtomicUsize, Ordering};
use std::sync::mpsc::{Receiver, RecvTimeoutError, Sender, channel};
use std::thread;
use std::time::Duration;

mod member;
mod own_casts;

use member::frames::{Frame, Place};
use member::record::{Entry, History, Name};
use member::{Arrival, CastRefusal, LONGEST_HISTORY, Outgoing};
use own_casts::OwnCasts;

type Member<const FIELDS: usize> = member::Member<FIELDS, History, OwnCasts<FIELDS>>;

const TICK: Duration = Duration::from_millis(1);

/// The most bytes of a frame, and how many are read at once from a stream.
const LONGEST_FRAME: usize = 1417;
const PIECE: usize = 4096;

/// The first byte of a packet, in which each frame stands behind its length of two bytes, and the most bytes that it may have.
const PACKET: u8 = 0x21;
const LONGEST_PACKET: usize = 1 + MOST_MESSAGES * (2 + LONGEST_FRAME);
const MOST_MESSAGES: usize = 32;

trait Inlet: Send {
    /// A frame, where one comes within a millisecond.
    fn receive(&mut self) -> Option<Frame>;
}

trait Outlet: Send {
    fn send(&mut self, out: &Outgoing);
}

struct ChannelInlet(Receiver<Frame>);

impl Inlet for ChannelInlet {
    fn receive(&mut self) -> Option<Frame> {
        match self.0.recv_timeout(TICK) {
            Ok(frame) => Some(frame),
            Err(RecvTimeoutError::Timeout) => None,
            Err(RecvTimeoutError::Disconnected) => {
                thread::sleep(TICK);
                None
            }
        }
    }
}

struct ChannelOutlet {
    me: usize,
    to: Vec<Sender<Frame>>,
}

impl Outlet for ChannelOutlet {
    fn send(&mut self, out: &Outgoing) {
        for (member, to) in self.to.iter().enumerate() {
            if member != self.me && out.to.is_none_or(|only| only == member) {
                let _ = to.send(out.frame.clone());
            }
        }
    }
}

struct UdpInlet(UdpSocket);

impl Inlet for UdpInlet {
    fn receive(&mut self) -> Option<Frame> {
        let mut room = [0; LONGEST_FRAME + 1];
        match self.0.recv(&mut room) {
            Ok(count) => Some(Frame::from(&room[..count])),
            Err(_) => {
                thread::sleep(TICK);
                None
            }
        }
    }
}

/// One that receives packets too, into room that is there once.
struct PacketInlet(UdpSocket, Box<[u8]>);

impl Inlet for PacketInlet {
    fn receive(&mut self) -> Option<Frame> {
        match self.0.recv(&mut self.1) {
            Ok(count) => Some(Frame::from(&self.1[..count])),
            Err(_) => {
                thread::sleep(TICK);
                None
            }
        }
    }
}

struct UdpOutlet {
    me: usize,
    socket: UdpSocket,
    to: Vec<SocketAddr>,
}

impl Outlet for UdpOutlet {
    fn send(&mut self, out: &Outgoing) {
        for (member, to) in self.to.iter().enumerate() {
            if member != self.me && out.to.is_none_or(|only| only == member) {
                let _ = self.socket.send_to(&out.frame, to);
            }
        }
    }
}

/// A connection on which frames come from one member, each behind its length. It is closed for good where it ends or fails.
struct Coming {
    stream: Option<TcpStream>,
    /// What came and was not given: a piece and a half frame more find room behind it.
    bytes: Box<[u8; 2 * PIECE]>,
    rest: Range<usize>,
}

impl Coming {
    fn new(stream: TcpStream) -> Coming {
        Coming { stream: Some(stream), bytes: Box::new([0; 2 * PIECE]), rest: 0..0 }
    }

    /// The next frame, for which at most one piece is read.
    fn take(&mut self) -> Option<Frame> {
        self.stream.as_ref()?;
        self.next().or_else(|| self.read().and_then(|()| self.next()))
    }

    /// The next frame of what came.
    fn next(&mut self) -> Option<Frame> {
        let bytes = &self.bytes[self.rest.clone()];
        let (length, behind) = match *bytes {
            [low, ref behind @ ..] if low < 0x80 => (usize::from(low), behind),
            [low, high, ref behind @ ..] => (usize::from(low & 0x7f) | usize::from(high) << 7, behind),
            _ => return None,
        };
        if length == 0 || length > LONGEST_FRAME {
            self.stream = None;
            return None;
        }
        let frame = Frame::from(behind.get(..length)?);
        self.rest.start = self.rest.end - (behind.len() - length);
        Some(frame)
    }

    /// Reads a piece, where one has come.
    fn read(&mut self) -> Option<()> {
        if self.rest.end > PIECE {
            self.bytes.copy_within(self.rest.clone(), 0);
            self.rest = 0..self.rest.len();
        }
        match self.stream.as_mut()?.read(&mut self.bytes[self.rest.end..][..PIECE]) {
            Ok(count @ 1..) => {
                self.rest.end += count;
                return Some(());
            }
            Err(error) if matches!(error.kind(), ErrorKind::WouldBlock | ErrorKind::Interrupted) => {}
            _ => self.stream = None,
        }
        None
    }
}

struct TcpInlet {
    from: Vec<Coming>,
    /// The connection that is looked at first: that behind the one that last gave a frame.
    first: usize,
}

impl Inlet for TcpInlet {
    fn receive(&mut self) -> Option<Frame> {
        let count = self.from.len();
        for number in (self.first..count).chain(0..self.first) {
            if let Some(frame) = self.from[number].take() {
                self.first = (number + 1) % count;
                return Some(frame);
            }
        }
        thread::sleep(TICK);
        None
    }
}

/// A connection on which frames go to one member.
struct Going {
    stream: TcpStream,
    /// What was not taken yet of the frame that was taken last.
    rest: Vec<u8>,
}

impl Going {
    /// Offers the frame where nothing is left of the one before it. It is taken where a byte of it is.
    fn send(&mut self, frame: &Frame) {
        self.write();
        if !self.rest.is_empty() {
            return;
        }
        let length = frame.len();
        if length < 0x80 {
            self.rest.push(length as u8);
        } else {
            self.rest.extend([length as u8 | 0x80, (length >> 7) as u8]);
        }
        self.rest.extend_from_slice(frame);
        let whole = self.rest.len();
        self.write();
        if self.rest.len() == whole {
            self.rest.clear();
        }
    }

    fn write(&mut self) {
        if !self.rest.is_empty() {
            let count = self.stream.write(&self.rest).unwrap_or(0);
            self.rest.drain(..count);
        }
    }
}

struct TcpOutlet {
    /// The connections to the others, in the order of their numbers, with none at the member's own.
    to: Vec<Option<Going>>,
}

impl Outlet for TcpOutlet {
    fn send(&mut self, out: &Outgoing) {
        for (member, to) in self.to.iter_mut().enumerate() {
            if let (Some(to), true) = (to, out.to.is_none_or(|only| only == member)) {
                to.send(&out.frame);
            }
        }
    }
}

type Link = (Box<dyn Inlet>, Box<dyn Outlet>);

fn channels(size: usize) -> Vec<Link> {
    let (to, from): (Vec<_>, Vec<_>) = (0..size).map(|_| channel()).unzip();
    let link = |(me, from)| {
        let outlet = ChannelOutlet { me, to: to.clone() };
        (Box::new(ChannelInlet(from)) as Box<dyn Inlet>, Box::new(outlet) as Box<dyn Outlet>)
    };
    from.into_iter().enumerate().map(link).collect()
}

fn sockets(size: usize, burst: usize) -> std::io::Result<Vec<Link>> {
    let socket = || {
        let socket = UdpSocket::bind("127.0.0.1:0")?;
        socket.set_nonblocking(true)?;
        std::io::Result::Ok(socket)
    };
    let from: Vec<UdpSocket> = (0..size).map(|_| socket()).collect::<Result<_, _>>()?;
    let to: Vec<SocketAddr> = from.iter().map(UdpSocket::local_addr).collect::<Result<_, _>>()?;
    let mut links = Vec::new();
    for (me, from) in from.into_iter().enumerate() {
        let outlet = UdpOutlet { me, socket: socket()?, to: to.clone() };
        let inlet: Box<dyn Inlet> = match burst {
            1 => Box::new(UdpInlet(from)),
            _ => Box::new(PacketInlet(from, vec![0; LONGEST_PACKET].into())),
        };
        links.push((inlet, Box::new(outlet) as Box<dyn Outlet>));
    }
    Ok(links)
}

/// One connection each way for each two members.
fn connections(size: usize) -> std::io::Result<Vec<Link>> {
    let mut to: Vec<Vec<Option<Going>>> = (0..size).map(|_| Vec::new()).collect();
    let mut from: Vec<Vec<Coming>> = (0..size).map(|_| Vec::new()).collect();
    for (me, from) in from.iter_mut().enumerate() {
        let listener = TcpListener::bind("127.0.0.1:0")?;
        for (other, to) in to.iter_mut().enumerate() {
            if other == me {
                to.push(None);
                continue;
            }
            let going = TcpStream::connect(listener.local_addr()?)?;
            let (coming, peer) = listener.accept()?;
            assert_eq!(peer, going.local_addr()?, "a stranger has connected");
            going.set_nodelay(true)?;
            going.set_nonblocking(true)?;
            coming.set_nonblocking(true)?;
            to.push(Some(Going { stream: going, rest: Vec::with_capacity(LONGEST_FRAME + 2) }));
            from.push(Coming::new(coming));
        }
    }
    let link = |(from, to)| (Box::new(TcpInlet { from, first: 0 }) as Box<dyn Inlet>, Box::new(TcpOutlet { to }) as Box<dyn Outlet>);
    Ok(from.into_iter().zip(to).map(link).collect())
}

/// A message as it is handed out: an event, or a delivery.
#[allow(dead_code)]
struct Message<const FIELDS: usize> {
    name: Name,
    time: [u32; FIELDS],
    frame: Frame,
    payload: Place,
}

/// Copies of the events from this one on, behind those in the list.
fn copy_events<const FIELDS: usize>(member: &Member<FIELDS>, from: usize, to: &mut Vec<Message<FIELDS>>) {
    let times = member.record.times[from * member.size..].chunks_exact(member.size);
    for (event, fields) in member.record.events[from..].iter().zip(times) {
        let mut time = [0; FIELDS];
        time[..member.size].copy_from_slice(fields);
        to.push(Message { name: event.name, time, frame: event.frame.clone(), payload: event.payload });
    }
}

/// The names of one or two deliveries lie in place.
struct Names {
    first: [Name; 2],
    others: Vec<Name>,
    count: usize,
}

impl Names {
    fn of(names: &[Name]) -> Names {
        let mut first = [Name { sender: 0, number: 0 }; 2];
        for (place, name) in first.iter_mut().zip(names) {
            *place = *name;
        }
        Names { first, others: names.get(2..).unwrap_or_default().to_vec(), count: names.len() }
    }

    fn are(&self, names: &[Name]) -> bool {
        self.count == names.len() && names.iter().eq(self.first.iter().take(self.count).chain(&self.others))
    }
}

/// An entry that a worker made, and its place in the history.
struct Receipt {
    place: usize,
    frame: Frame,
    delivered: Names,
}

/// The receipts of a worker, where it has to keep them.
struct Seat {
    receipts: Option<Vec<Receipt>>,
}

impl Seat {
    fn new(group: &Group) -> Seat {
        Seat { receipts: group.has_duties.then(Vec::new) }
    }

    /// Keeps a receipt of the last entry.
    fn record<const FIELDS: usize>(&mut self, member: &Member<FIELDS>) {
        let Some(receipts) = &mut self.receipts else { return };
        let Some(entry) = member.record.entries.last() else { return };
        let (frame, names) = parts_of(member, entry);
        receipts.push(Receipt { place: member.record.entries.len(), frame: frame.clone(), delivered: Names::of(names) });
    }
}

fn parts_of<'a, const FIELDS: usize>(member: &'a Member<FIELDS>, entry: &'a Entry) -> (&'a Frame, &'a [Name]) {
    match entry {
        Entry::Cast { frame } | Entry::Tick { status: frame } => (frame, &[]),
        Entry::Arrive { frame, delivered } => (frame, member.record.names_in(delivered)),
    }
}

/// Each entry has just one receipt, which says the same.
fn close<const FIELDS: usize>(member: &Member<FIELDS>, seats: &[Seat]) {
    let mut seen = vec![false; member.record.entries.len()];
    for receipts in seats.iter().filter_map(|seat| seat.receipts.as_ref()) {
        for receipt in receipts {
            let (frame, names) = parts_of(member, &member.record.entries[receipt.place - 1]);
            assert!(*frame == receipt.frame && receipt.delivered.are(names), "a receipt that is no entry");
            assert!(!std::mem::replace(&mut seen[receipt.place - 1], true), "two receipts of one entry");
        }
        assert!(receipts.is_sorted_by_key(|receipt| receipt.place));
    }
    assert!(seen.iter().all(|seen| *seen) || seats.iter().all(|seat| seat.receipts.is_none()), "an entry without a receipt");
}

struct Group {
    casts: usize,
    all: usize,
    burst: usize,
    payload: Vec<u8>,
    talking: AtomicUsize,
    stop: AtomicBool,
    has_duties: bool,
}

/// The frame, or those in the packet.
fn unpack(frame: Frame, frames: &mut Vec<Frame>) {
    if frame[0] != PACKET {
        frames.push(frame);
        return;
    }
    let mut rest = &frame[1..];
    while let Some((length, behind)) = rest.split_first_chunk() {
        let (part, behind) = behind.split_at(usize::from(u16::from_le_bytes(*length)));
        frames.push(Frame::from(part));
        rest = behind;
    }
}

/// The frame, or a packet of all of them.
fn pack(frames: &mut Vec<Frame>, packet: &mut Vec<u8>) -> Frame {
    if frames.len() == 1 {
        return frames.remove(0);
    }
    packet.clear();
    packet.push(PACKET);
    for frame in frames.drain(..) {
        packet.extend((frame.len() as u16).to_le_bytes());
        packet.extend_from_slice(&frame);
    }
    Frame::from(&packet[..])
}

fn receive<const FIELDS: usize>(group: &Group, member: &Mutex<Member<FIELDS>>, mut inlet: Box<dyn Inlet>, out: Sender<Outgoing>) -> (u64, Seat) {
    let mut casts = 0;
    let mut seat = Seat::new(group);
    let (mut frames, mut answers) = (Vec::new(), Vec::new());
    while !group.stop.load(Ordering::SeqCst) {
        let Some(frame) = inlet.receive() else {
            continue;
        };
        unpack(frame, &mut frames);
        let mut deliveries = Vec::new();
        {
            let mut member = member.lock().unwrap();
            for frame in &frames {
                casts += u64::from(frame[0] == 0x11);
                let arrival = member.arrive(frame, &mut answers);
                if let (true, Ok(Arrival::Accepted(events, changed))) = (group.has_duties, arrival) {
                    copy_events(&member, events.start, &mut deliveries);
                    if changed {
                        seat.record(&member);
                    }
                }
            }
        }
        frames.clear();
        drop(deliveries);
        for answer in answers.drain(..) {
            let _ = out.send(answer);
        }
    }
    (casts, seat)
}

fn tick<const FIELDS: usize>(group: &Group, member: &Mutex<Member<FIELDS>>, out: Sender<Outgoing>) -> Seat {
    let mut seat = Seat::new(group);
    let mut frames = Vec::new();
    while !group.stop.load(Ordering::SeqCst) {
        {
            let mut member = member.lock().unwrap();
            if member.tick(&mut frames) == Ok(true) {
                seat.record(&member);
            }
        }
        for frame in frames.drain(..) {
            let _ = out.send(frame);
        }
        thread::sleep(TICK);
    }
    seat
}

/// Casts as many messages as go at once, where the window has room for all of them.
fn cast_all<const FIELDS: usize>(group: &Group, member: &mut Member<FIELDS>, count: usize, seat: &mut Seat, frames: &mut Vec<Frame>) -> Result<(), CastRefusal> {
    if count > 1 && !member.has_room(count) {
        return Err(CastRefusal::WindowFull);
    }
    for _ in 0..count {
        frames.push(member.cast(&group.payload)?);
        seat.record(member);
    }
    Ok(())
}

fn speak<const FIELDS: usize>(group: &Group, member: &Mutex<Member<FIELDS>>, out: Sender<Outgoing>) -> Seat {
    let mut seat = Seat::new(group);
    let (mut made, mut seen, mut is_refused) = (0, 0, false);
    let (mut news, mut frames, mut packet) = (Vec::new(), Vec::new(), Vec::new());
    while !group.stop.load(Ordering::SeqCst) {
        if group.has_duties && !is_refused {
            copy_events(&member.lock().unwrap(), seen, &mut news);
            seen += news.len();
            news.clear();
        }
        if made < group.casts {
            let count = group.burst.min(group.casts - made);
            let cast = cast_all(group, &mut member.lock().unwrap(), count, &mut seat, &mut frames);
            is_refused = cast.is_err();
            match cast {
                Ok(()) => {
                    let frame = pack(&mut frames, &mut packet);
                    let _ = out.send(Outgoing { to: None, frame });
                    made += count;
                    continue;
                }
                Err(CastRefusal::WindowFull) => {}
                Err(refusal) => panic!("{refusal:?}"),
            }
        } else {
            is_refused = false;
            if member.lock().unwrap().record.events.len() == group.all {
                break;
            }
        }
        thread::sleep(TICK);
    }
    if group.talking.fetch_sub(1, Ordering::SeqCst) == 1 {
        group.stop.store(true, Ordering::SeqCst);
    }
    seat
}

/// Runs the member, and answers how many cast frames came and how many messages of others were delivered.
fn run_member<const FIELDS: usize>(group: &Group, size: usize, window: u32, me: usize, link: Link) -> (u64, u64) {
    let member = Mutex::new(Member::<FIELDS>::new(size, window, me, History::new(LONGEST_HISTORY)));
    let (inlet, mut outlet) = link;
    let (out, frames) = channel();
    let (came, seats) = thread::scope(|scope| {
        scope.spawn(move || {
            for frame in frames {
                outlet.send(&frame);
            }
        });
        let receiver = scope.spawn({
            let (member, out) = (&member, out.clone());
            move || receive(group, member, inlet, out)
        });
        let timer = scope.spawn({
            let (member, out) = (&member, out.clone());
            move || tick(group, member, out)
        });
        let speaker = speak(group, &member, out);
        let (came, receiver) = receiver.join().unwrap();
        (came, [receiver, timer.join().unwrap(), speaker])
    });
    let member = member.into_inner().unwrap();
    close(&member, &seats);
    (came, (member.record.events.len() - group.casts) as u64)
}

fn run<const FIELDS: usize>([size, window, payload, casts, burst]: [usize; 5], links: Vec<Link>, has_duties: bool) -> (u64, u64) {
    let window = window as u32;
    let group = Group {
        casts,
        all: casts * size,
        burst,
        payload: vec![b'a'; payload],
        talking: AtomicUsize::new(size),
        stop: AtomicBool::new(false),
        has_duties,
    };
    thread::scope(|scope| {
        let group = &group;
        let members: Vec<_> =
            links.into_iter().enumerate().map(|(me, link)| scope.spawn(move || run_member::<FIELDS>(group, size, window, me, link))).collect();
        members.into_iter().map(|member| member.join().unwrap()).fold((0, 0), |all, one| (all.0 + one.0, all.1 + one.1))
    })
}

fn main() -> ExitCode {
    let words: Vec<String> = env::args().skip(1).collect();
    let numbers: Vec<usize> = words.iter().take(6).filter_map(|word| word.parse().ok()).collect();
    let (size, window, payload, casts, burst) = match numbers[..] {
        [size, window, payload, casts] => (size, window, payload, casts, 1),
        [size, window, payload, casts, burst] => (size, window, payload, casts, burst),
        _ => (0, 0, 0, 0, 0),
    };
    let link = words.get(4).map_or("channel", String::as_str);
    let is_plan = (2..=64).contains(&size) && (1..=256).contains(&window) && payload <= 1024;
    if !is_plan || !(1..=MOST_MESSAGES.min(window)).contains(&burst) || (burst > 1 && link == "tcp") {
        eprintln!("plain_group SIZE WINDOW PAYLOAD CASTS LINK BURST");
        return ExitCode::from(2);
    }
    let links = match link {
        "udp" => sockets(size, burst).expect("sockets"),
        "tcp" => connections(size).expect("connections"),
        _ => channels(size),
    };
    let (plan, has_duties) = ([size, window, payload, casts, burst], words.len() > 6);
    let (came, deliveries) = match size {
        ..=4 => run::<4>(plan, links, has_duties),
        ..=16 => run::<16>(plan, links, has_duties),
        _ => run::<64>(plan, links, has_duties),
    };
    println!("deliveries {deliveries} arrivals {came}");
    ExitCode::SUCCESS
}
