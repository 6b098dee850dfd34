//! The schedules of the repository, played over this crate: what is printed is what `confer play` prints.

#[path = "../examples/parley/lines.rs"]
#[allow(dead_code)]
mod lines;
mod text;

use jolunza::{Member, Name, Output, Refusal, Settings};
use lines::{Conference, Showing};
use std::fmt::Write;
use std::fs;
use std::path::Path;
use text::{bytes_of, hexadecimal, printed_time};

/// A member with its conference and all lines that were shown.
struct Player {
    member: Member,
    conference: Conference,
    screen: Vec<String>,
}

struct Play {
    players: Vec<Player>,
    frames: Vec<Vec<u8>>,
    out: String,
}

/// As `confer` prints it.
fn printed_payload(payload: &[u8]) -> String {
    let is_plain = payload.iter().all(|byte| (0x20..=0x7e).contains(byte) && !b"\"\\".contains(byte));
    match std::str::from_utf8(payload) {
        Ok(text) if is_plain => format!("\"{text}\""),
        _ => format!("x{}", hexadecimal(payload)),
    }
}

impl Play {
    fn new(line: &str) -> Play {
        let numbers: Vec<u32> = line.split(' ').filter_map(|word| word.parse().ok()).collect();
        let [group, size, window, history] = numbers[..] else { panic!("{line}") };
        let settings = |me| Settings { group, size, window, me };
        let player = |me| Player {
            member: Member::open_with_history(settings(me), history as usize).unwrap(),
            conference: Conference::default(),
            screen: Vec::new(),
        };
        Play { players: (0..size).map(player).collect(), frames: Vec::new(), out: String::new() }
    }

    fn step(&mut self, step: usize, line: &str) {
        let words: Vec<&str> = line.splitn(4, ' ').collect();
        let place: usize = words[1].parse().unwrap();
        write!(self.out, "{step} ").unwrap();
        let Some(player) = self.players.get_mut(place) else {
            writeln!(self.out, "refused NoSuchMember").unwrap();
            return;
        };
        let payload = match words[0] {
            "cast" => Ok(bytes_of(words[2])),
            "say" => player.conference.say(words[2], words[3]),
            "answer" => player.conference.answer(name_of(words[2]), words[3]),
            "burst" => return self.burst(place, line.split(' ').skip(2)),
            "arrive" => return self.arrive(place, words[2]),
            "tick" => return self.tick(place),
            "help" => return self.help(place, words[2]),
            "screen" => return self.screen(place),
            _ => panic!("{line}"),
        };
        match payload {
            Ok(payload) => self.cast(place, &payload),
            Err(fault) => writeln!(self.out, "refused {fault:?}").unwrap(),
        }
    }

    fn cast(&mut self, place: usize, payload: &[u8]) {
        self.call(
            place,
            |member| member.cast(payload),
            |output| {
                let event = output.events().next().unwrap();
                format!("cast {} {}", event.name, printed_time(event.time))
            },
        );
    }

    /// The time is that of the first message.
    fn burst<'w>(&mut self, place: usize, words: impl Iterator<Item = &'w str>) {
        let payloads: Vec<Vec<u8>> = words.map(bytes_of).collect();
        let payloads: Vec<&[u8]> = payloads.iter().map(Vec::as_slice).collect();
        self.call(
            place,
            |member| member.cast_burst(&payloads),
            |output| {
                let last = output.events().last().unwrap().name;
                let first = output.events().next().unwrap();
                format!("burst {} {last} {}", first.name, printed_time(first.time))
            },
        );
    }

    fn arrive(&mut self, place: usize, frame: &str) {
        let Some(bytes) = frame.parse().ok().and_then(|number: usize| self.frames.get(number)) else {
            return writeln!(self.out, "refused NoSuchFrame").unwrap();
        };
        let bytes = bytes.clone();
        self.call(
            place,
            |member| member.receive(&bytes),
            |output| match (output.is_repeat(), output.is_entered()) {
                (true, _) => "arrive repeat".into(),
                (false, true) => "arrive accepted changed".into(),
                (false, false) => "arrive accepted same".into(),
            },
        );
    }

    fn tick(&mut self, place: usize) {
        self.call(place, Member::tick, |output| {
            format!("tick {}", if output.is_entered() { "entered" } else { "same" })
        });
    }

    fn help(&mut self, place: usize, other: &str) {
        let other = other.parse().unwrap();
        self.call(
            place,
            |member| member.help(other),
            |output| {
                if output.frames().len() == 0 {
                    "help none".into()
                } else {
                    "help".into()
                }
            },
        );
    }

    fn screen(&mut self, place: usize) {
        writeln!(self.out, "screen {place}").unwrap();
        let screen = &self.players[place].screen;
        for line in &screen[screen.len().saturating_sub(20)..] {
            writeln!(self.out, " | {line}").unwrap();
        }
    }

    /// Makes a call, prints the text of what it did, the deliveries, and what is sent, and shows what is new.
    fn call(
        &mut self,
        place: usize,
        call: impl FnOnce(&mut Member) -> Result<Output<'_>, Refusal>,
        text: impl Fn(&mut Output<'_>) -> String,
    ) {
        let Player { member, conference, screen } = &mut self.players[place];
        let mut output = match call(member) {
            Err(refusal) => return writeln!(self.out, "refused {refusal:?}").unwrap(),
            Ok(output) => output,
        };
        writeln!(self.out, "{}", text(&mut output)).unwrap();
        for event in output.events() {
            if !event.is_own {
                let (time, payload) = (printed_time(event.time), printed_payload(event.payload));
                writeln!(self.out, " = {} {time} {payload}", event.name).unwrap();
            }
            if let Showing::Shown(shown) = conference.show(event.name, event.payload) {
                screen.push(shown.to_string());
            }
        }
        for frame in output.frames() {
            let to = frame.to.map_or("all".into(), |member| member.to_string());
            writeln!(self.out, " > {} {to} {}", self.frames.len(), hexadecimal(frame.bytes)).unwrap();
            self.frames.push(frame.bytes.to_vec());
        }
    }

    fn end(mut self) -> String {
        for (place, player) in self.players.iter().enumerate() {
            let (time, stable) = (printed_time(&player.member.time()), player.member.stable());
            let entries = player.member.counts().entries;
            writeln!(self.out, "member {place} time {time} stable {stable} entries {entries}").unwrap();
        }
        self.out
    }
}

fn name_of(word: &str) -> Name {
    let (sender, number) = word.split_once('.').unwrap();
    Name { sender: sender.parse().unwrap(), number: number.parse().unwrap() }
}

fn played(script: &str) -> String {
    let mut lines = script.lines();
    let mut play = Play::new(lines.next().unwrap());
    for (step, line) in (1..).zip(lines) {
        play.step(step, line);
    }
    play.end()
}

#[test]
fn each_schedule_prints_what_confer_prints() {
    let folder = Path::new(env!("CARGO_MANIFEST_DIR")).join("../../schedules");
    let files = fs::read_dir(folder).unwrap().map(|file| file.unwrap().path());
    let scripts: Vec<_> = files.filter(|path| path.extension().is_some_and(|end| end == "script")).collect();
    for path in &scripts {
        let (script, out) =
            (fs::read_to_string(path).unwrap(), fs::read_to_string(path.with_extension("out")).unwrap());
        assert_eq!(played(&script), out, "{}", path.display());
    }
    assert!(scripts.len() >= 16, "{} scripts", scripts.len());
}
