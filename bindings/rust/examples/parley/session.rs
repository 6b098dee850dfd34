//! A parley: what is typed and what arrives goes to the files, and only then to the others and to the screen.

use crate::lines::{Conference, Showing};
use crate::notes::{Keep, Kept, Note};
use crate::pace::Pace;
use crate::peers::{Peers, ASKED_IN_VAIN};
use crate::screen::Screen;
use crate::state::{Call, State};
use jolunza::{sender, Events, Frame, Refusal, Settings};
use std::collections::BTreeSet;
use std::io;
use std::net::SocketAddr;
use std::time::{Duration, Instant};

/// A parley that is left waits this long for the others.
const FAREWELL: Duration = Duration::from_secs(10);

/// Where frames come from and are sent.
pub trait Link {
    fn peers(&self) -> Vec<u32>;

    /// The peer whose frames come from this address.
    fn peer_at(&self, address: SocketAddr) -> Option<u32>;

    /// Sends a frame, now or later.
    fn send(&mut self, frame: Frame<'_>);

    /// Sends what was held back long enough.
    fn send_due(&mut self, now: Instant);

    fn next_due(&self) -> Option<Instant>;
}

pub struct Session {
    pub state: State,
    pub conference: Conference,
    pub screen: Screen,
    pub peers: Peers,
    network: Box<dyn Link>,
    notes: Box<dyn Keep>,
    pace: Pace,
    /// The others know more of this member than it does itself.
    is_used_up: bool,
    leaving: Option<Instant>,
    has_met_strangers: bool,
    /// Why what is said waits, as long as something does.
    waits_since: Option<Refusal>,
    told: BTreeSet<String>,
}

impl Session {
    /// With the member of the first group.
    pub fn open(
        settings: Settings,
        notes: Box<dyn Keep>,
        network: Box<dyn Link>,
        screen: Screen,
        now: Instant,
    ) -> io::Result<Session> {
        Ok(Session {
            state: State::new(notes.open_member(settings)?),
            conference: Conference::default(),
            screen,
            peers: Peers::new(network.peers().into_iter()),
            network,
            notes,
            pace: Pace::new(now),
            is_used_up: false,
            leaving: None,
            has_met_strangers: false,
            waits_since: None,
            told: BTreeSet::new(),
        })
    }

    /// Takes what was noted after the first group. Nothing is sent.
    pub fn replay(&mut self, notes: &[Note]) -> io::Result<()> {
        self.show_all()?;
        for note in notes {
            match note {
                Note::Room(name) => self.state.room.clone_from(name),
                Note::Say(payload) => self.state.say(payload.clone()),
                Note::Group(number) => {
                    self.look_at_said()?;
                    let opened = self.open_group(*number)?;
                    self.go_on(opened);
                    self.show_all()?;
                }
            }
        }
        self.look_at_said()
    }

    /// The member cast nothing but what was noted before.
    fn look_at_said(&self) -> io::Result<()> {
        let group = self.state.member().settings().group;
        let fault = || io::Error::other(format!("BadJournal: in group {group} more was cast than the notes have"));
        self.state.has_said_all().then_some(()).ok_or_else(fault)
    }

    fn open_group(&self, group: u32) -> io::Result<Kept> {
        self.notes.open_member(Settings { group, ..self.state.member().settings() })
    }

    fn go_on(&mut self, kept: Kept) {
        self.state.begin(kept);
        self.conference = Conference::default();
        self.peers.begin();
        self.is_used_up = false;
        self.waits_since = None;
    }

    /// Says these payloads in a new group. Where it can't begin, nothing has changed.
    pub fn begin_group(&mut self, number: u32, payloads: Vec<Vec<u8>>) -> io::Result<Result<(), String>> {
        let opened = match self.open_group(number) {
            Err(fault) => return Ok(Err(fault.to_string())),
            Ok(kept) if kept.member().counts().entries > 0 => {
                return Ok(Err(format!("UsedUp: group {number} has a journal")));
            }
            Ok(opened) => opened,
        };
        let says = payloads.iter().cloned().map(Note::Say);
        self.note(&[vec![Note::Group(number)], says.collect()].concat())?;
        self.go_on(opened);
        payloads.into_iter().for_each(|payload| self.state.say(payload));
        Ok(Ok(()))
    }

    pub fn say(&mut self, payload: Vec<u8>) -> io::Result<()> {
        self.note(&[Note::Say(payload.clone())])?;
        self.state.say(payload);
        Ok(())
    }

    pub fn enter(&mut self, room: &str) -> io::Result<()> {
        self.note(&[Note::Room(room.into())])?;
        self.state.room = room.into();
        Ok(())
    }

    fn note(&mut self, notes: &[Note]) -> io::Result<()> {
        self.notes.write(notes)?;
        self.pace.hurry(Instant::now());
        Ok(())
    }

    /// Makes a call, sends its frames, and shows what it delivered. Its entry is in the journal before.
    pub fn call(&mut self, call: &Call) -> io::Result<Result<(), Refusal>> {
        let mut output = match self.state.call(call)? {
            Ok(output) => output,
            Err(refusal) => return Ok(Err(refusal)),
        };
        if output.is_entered() {
            self.pace.hurry(Instant::now());
        }
        output.frames().for_each(|frame| self.network.send(frame));
        show(output.events(), &mut self.conference, &self.screen)?;
        Ok(Ok(()))
    }

    /// Shows all that the member's journal has.
    fn show_all(&mut self) -> io::Result<()> {
        show(self.state.kept.events(), &mut self.conference, &self.screen)
    }

    /// Casts what waits, as far as the window lets it.
    pub fn cast_waiting(&mut self) -> io::Result<()> {
        while !self.is_mute() && !self.state.waiting.is_empty() {
            if let Err(refusal) = self.call(&self.state.next_cast())? {
                if self.waits_since.replace(refusal) != Some(refusal) {
                    self.screen.say(format!("{refusal:?}: {refusal}. What you say waits"));
                }
                return Ok(());
            }
        }
        if self.state.waiting.is_empty() {
            self.waits_since = None;
        }
        Ok(())
    }

    /// Whether nothing is cast: others would take it for a repeat.
    pub fn is_mute(&self) -> bool {
        self.is_used_up || self.peers.lack_something()
    }

    /// Takes a datagram.
    pub fn take(&mut self, from: SocketAddr, bytes: Vec<u8>, now: Instant) -> io::Result<()> {
        let Some(peer) = self.network.peer_at(from) else {
            self.meet_stranger(from);
            return Ok(());
        };
        self.peers.hear(peer, now);
        let group = sender(&bytes).ok().map(|sender| sender.group);
        match self.call(&Call::Arrive(bytes))? {
            Ok(()) => {
                self.look_at_what_came();
                self.cast_waiting()?;
            }
            Err(Refusal::Impossible) => self.find_used_up(),
            Err(Refusal::TooFar | Refusal::NoMemory) => {}
            Err(Refusal::OtherGroup) => self.hear_of_group(peer, group),
            Err(refusal) => self.say_once(format!("a frame of member {peer}: {refusal:?}: {refusal}")),
        }
        Ok(())
    }

    fn look_at_what_came(&mut self) {
        while let Some(peer) = self.peers.came_after_all(self.state.member()) {
            self.screen.say(format!("member {peer} has sent what was missing here"));
            if !self.is_mute() {
                self.screen.say("what you say is cast again");
            }
        }
    }

    fn meet_stranger(&mut self, from: SocketAddr) {
        if !self.has_met_strangers {
            self.has_met_strangers = true;
            self.screen.say(format!("drops what comes from {from}, and all else that comes from no --peer"));
        }
    }

    fn find_used_up(&mut self) {
        let Settings { group, me, .. } = self.state.member().settings();
        let next = group.wrapping_add(1);
        self.is_used_up = true;
        self.say_once(format!(
            "UsedUp: group {group} is used up for member {me}, whom the others know from before. What you say waits: \
             /group {next} begins a new group, at each of you; or begin again with the journal"
        ));
    }

    fn find_in_vain(&self, peer: u32) {
        let next = self.state.member().settings().group.wrapping_add(1);
        self.screen.say(format!(
            "InVain: member {peer} was asked {ASKED_IN_VAIN} times for what is missing here, and may keep it no more. What \
             you say waits until it comes; or /group {next} begins a new group, at each of you"
        ));
    }

    fn hear_of_group(&mut self, peer: u32, number: Option<u32>) {
        if let Some(number) = number.filter(|number| !self.state.groups.contains(number)) {
            self.say_once(format!("member {peer} is in group {number}: /group {number} goes there"));
        }
    }

    /// Sends what was held back, and ticks when it is time.
    pub fn pass(&mut self, now: Instant) -> io::Result<()> {
        self.network.send_due(now);
        if self.pace.due() > now {
            return Ok(());
        }
        if let Err(refusal) = self.call(&Call::Tick)? {
            self.say_once(format!("{refusal:?}: {refusal}"));
        }
        self.pace.ticked(now, !self.state.is_everywhere() || self.state.misses_something());
        if let Some(peer) = self.peers.ask(self.state.member(), now) {
            self.find_in_vain(peer);
        }
        Ok(())
    }

    /// When `pass` has something to do.
    pub fn due(&self) -> Instant {
        self.network.next_due().map_or(self.pace.due(), |due| due.min(self.pace.due()))
    }

    pub fn leave(&mut self, now: Instant) {
        self.leaving.get_or_insert(now + FAREWELL);
        self.pace.end(now);
    }

    /// It was left, and everybody has what it said, or does not answer.
    pub fn is_over(&self, now: Instant) -> bool {
        let is_settled = self.is_mute() || self.state.is_everywhere() && self.pace.is_quiet();
        self.leaving.is_some_and(|end| is_settled || now >= end)
    }

    pub fn say_farewell(&self) {
        if !self.state.is_everywhere() {
            let count = self.state.own_casts() - self.state.member().stable() + self.state.waiting.len() as u32;
            let rest = if self.notes.outlasts() { "the journal has them" } else { "they may be lost" };
            self.screen.say(format!("{count} of your lines are not known to be with everybody; {rest}"));
        }
    }

    pub fn say_once(&mut self, text: String) {
        if self.told.insert(text.clone()) {
            self.screen.say(text);
        }
    }
}

fn show(events: Events<'_>, conference: &mut Conference, screen: &Screen) -> io::Result<()> {
    for event in events {
        match conference.show(event.name, event.payload) {
            Showing::Shown(shown) => screen.show(&shown)?,
            Showing::NotALine => screen.say(format!("{} is no line of a conference", event.name)),
            Showing::Orphan(question) => screen.say(format!("{} answers {question}, which is no line", event.name)),
        }
    }
    Ok(())
}

#[cfg(test)]
mod tests {
    use super::*;
    use jolunza::Journal;
    use std::cell::RefCell;
    use std::fs;
    use std::io::Write;
    use std::path::PathBuf;
    use std::process;
    use std::rc::Rc;

    const CAST: u8 = 0x11;
    const BURST: u8 = 0x21;

    /// What became of a session: its notes, what it sent, and what it said.
    #[derive(Default)]
    struct World {
        notes: Vec<Note>,
        sent: Vec<Vec<u8>>,
        said: Vec<u8>,
        has_no_disk: bool,
    }

    #[derive(Clone, Default)]
    struct Shared(Rc<RefCell<World>>);

    impl Shared {
        /// Casts and bursts that were sent.
        fn casts(&self) -> Vec<Vec<u8>> {
            let sent = self.0.borrow().sent.clone();
            sent.into_iter().filter(|frame| matches!(frame[0], CAST | BURST)).collect()
        }

        /// How often this was said.
        fn said(&self, text: &str) -> usize {
            String::from_utf8_lossy(&self.0.borrow().said).matches(text).count()
        }
    }

    impl Write for Shared {
        fn write(&mut self, bytes: &[u8]) -> io::Result<usize> {
            self.0.borrow_mut().said.write(bytes)
        }

        fn flush(&mut self) -> io::Result<()> {
            Ok(())
        }
    }

    /// A file that is removed at the end.
    #[derive(Clone)]
    struct Place(PathBuf);

    impl Drop for Place {
        fn drop(&mut self) {
            let _ = fs::remove_file(&self.0);
        }
    }

    /// A network that looks into the files: whatever is sent was written before.
    struct Net(Shared, PathBuf);

    impl Link for Net {
        fn peers(&self) -> Vec<u32> {
            vec![0, 1]
        }

        fn peer_at(&self, address: SocketAddr) -> Option<u32> {
            Some(u32::from(address.port()) - 7000)
        }

        fn send(&mut self, frame: Frame<'_>) {
            let journal = fs::read_to_string(&self.1).unwrap();
            let text: String = frame.bytes.iter().map(|byte| format!("{byte:02x}")).collect();
            let is_entered = frame.to.is_none();
            assert!(!is_entered || journal.contains(&format!(" {text}\n")), "{text} is sent and not in the journal");
            let mut world = self.0 .0.borrow_mut();
            let says = world.notes.iter().filter(|note| matches!(note, Note::Say(_))).count();
            assert!(says >= journal.matches("\ncast ").count(), "what was cast was not noted");
            world.sent.push(frame.bytes.to_vec());
        }

        fn send_due(&mut self, _now: Instant) {}

        fn next_due(&self) -> Option<Instant> {
            None
        }
    }

    struct Files(Shared, PathBuf);

    impl Keep for Files {
        fn write(&mut self, notes: &[Note]) -> io::Result<()> {
            let mut world = self.0 .0.borrow_mut();
            if world.has_no_disk {
                return Err(io::Error::other("no disk"));
            }
            world.notes.extend_from_slice(notes);
            Ok(())
        }

        fn open_member(&self, settings: Settings) -> io::Result<Kept> {
            let journal = Journal::open_with_history(&self.1, settings, 1_000).map_err(io::Error::other)?;
            Ok(Kept::InFile(journal.into()))
        }

        fn outlasts(&self) -> bool {
            true
        }
    }

    /// Member 2 of 3, with a window of two.
    fn session(name: &str, now: Instant) -> (Session, Shared, Place) {
        let place = Place(std::env::temp_dir().join(format!("parley-session-{}-{name}", process::id())));
        let world = Shared::default();
        let settings = Settings { group: 7, size: 3, window: 2, me: 2 };
        let (files, net) = (Files(world.clone(), place.0.clone()), Net(world.clone(), place.0.clone()));
        let screen = Screen::over(Box::new(world.clone()), Box::new(world.clone()));
        let session = Session::open(settings, Box::new(files), Box::new(net), screen, now).unwrap();
        (session, world, place)
    }

    fn from(peer: u16) -> SocketAddr {
        ([127, 0, 0, 1], 7000 + peer).into()
    }

    /// Two others say by their statuses that they have this many casts of member 2.
    fn acknowledge(session: &mut Session, count: u8, now: Instant) {
        session.take(from(0), vec![0x12, 7, 0, 1, 2, count], now).unwrap();
        session.take(from(1), vec![0x12, 7, 1, 1, 2, count], now).unwrap();
    }

    #[test]
    fn what_is_sent_is_in_the_files_before() {
        let now = Instant::now();
        let (mut session, world, _place) = session("before", now);
        session.pass(now).unwrap();
        session.obey(b"when?", now).unwrap();
        session.obey(b"where?", now).unwrap();
        session.take(from(0), b"\x11\x07\x00\x01\x00\x08\x01\x04mainhi"[..].into(), now).unwrap();
        session.pass(now + Duration::from_secs(1)).unwrap();
        assert_eq!((world.casts().len(), world.0.borrow().sent.len()), (2, 4));
        assert_eq!((world.said("[main] 2.2 where?"), world.said("[main] 0.1 hi")), (1, 1));
        world.0.borrow_mut().has_no_disk = true;
        acknowledge(&mut session, 2, now);
        assert_eq!(session.obey(b"why?", now).unwrap_err().to_string(), "no disk");
        assert_eq!((world.casts().len(), session.state.waiting.len()), (2, 0), "nothing is cast that was not noted");
    }

    #[test]
    fn what_waits_is_cast_as_soon_as_the_window_opens() {
        let now = Instant::now();
        let (mut session, world, _place) = session("window", now);
        for line in ["a", "b", "c", "d"] {
            session.obey(line.as_bytes(), now).unwrap();
        }
        assert_eq!((world.casts().len(), session.state.waiting.len()), (2, 2));
        acknowledge(&mut session, 2, now);
        assert_eq!((world.casts().len(), session.state.waiting.len()), (3, 0), "both in one frame");
        assert!(world.casts()[2].ends_with(b"\x01\x04maind"));
    }

    #[test]
    fn a_full_window_is_said_each_time() {
        let now = Instant::now();
        let (mut session, world, _place) = session("full", now);
        for (line, times) in [("a", 0), ("b", 0), ("c", 1), ("d", 1)] {
            session.obey(line.as_bytes(), now).unwrap();
            assert_eq!(world.said("parley: WindowFull: "), times, "{line}");
        }
        acknowledge(&mut session, 2, now);
        assert_eq!((session.state.waiting.len(), world.said("WindowFull")), (0, 1));
        session.obey(b"e", now).unwrap();
        assert_eq!(world.said("parley: WindowFull: "), 2);
    }

    #[test]
    fn a_new_group_says_again_what_was_said_in_vain() {
        let now = Instant::now();
        let (mut session, world, place) = session("group", now);
        for line in ["a", "b", "c"] {
            session.obey(line.as_bytes(), now).unwrap();
        }
        assert_eq!((world.casts().len(), world.said("WindowFull")), (2, 1));
        session.take(from(0), vec![0x12, 7, 0, 1, 2, 9], now).unwrap();
        assert_eq!((session.is_mute(), world.said("parley: UsedUp: group 7 is used up for member 2")), (true, 1));
        session.obey(b"d", now).unwrap();
        assert_eq!((world.casts().len(), session.state.waiting.len()), (2, 2));
        fs::remove_file(&place.0).unwrap();
        session.obey(b"/group 8", now).unwrap();
        assert_eq!((session.is_mute(), session.state.waiting.len(), world.said("WindowFull")), (false, 2, 2));
        let casts = world.casts();
        assert_eq!((casts.len(), casts[2][1], casts[2].ends_with(b"\x01\x04mainb")), (3, 8, true));
    }

    #[test]
    fn what_was_asked_for_in_vain_ends_the_silence_when_it_comes() {
        let mut now = Instant::now();
        let (mut session, world, _place) = session("vain", now);
        session.take(from(0), b"\x11\x07\x00\x02\x00\x09\x01\x04mainyes"[..].into(), now).unwrap();
        for _ in 0..=ASKED_IN_VAIN {
            assert!(!session.is_mute());
            now += Duration::from_secs(2);
            session.peers.hear(0, now);
            session.pass(now).unwrap();
        }
        assert!(session.is_mute());
        assert_eq!(world.said("parley: InVain: member 0 was asked 100 times"), 1);
        session.obey(b"hello?", now).unwrap();
        assert_eq!(world.casts().len(), 0);
        session.take(from(0), b"\x11\x07\x00\x01\x00\x09\x01\x04mainno?"[..].into(), now).unwrap();
        assert_eq!(
            world.said("parley: member 0 has sent what was missing here\nparley: what you say is cast again\n"),
            1
        );
        assert_eq!((world.casts().len(), session.is_mute()), (1, false));
        assert_eq!(world.said("UsedUp"), 0);
    }
}
