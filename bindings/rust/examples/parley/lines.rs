//! What a message of a conference says, as bytes and as it is printed. docs/PROGRAM.md has the rules.

use jolunza::{Name, LONGEST_PAYLOAD, MOST_MEMBERS};
use std::collections::HashMap;
use std::fmt;
use std::rc::Rc;
use std::str;

const SAY: u8 = 0x01;
const ANSWER: u8 = 0x02;
const LONGEST_ROOM: usize = 32;

/// What a payload says.
#[derive(Clone, Copy, Debug, PartialEq, Eq)]
pub enum Line<'a> {
    Say { room: &'a str, text: &'a str },
    Answer { question: Name, text: &'a str },
}

/// Why a line can't be composed. The first of this list that holds.
#[derive(Clone, Copy, Debug, PartialEq, Eq)]
pub enum Fault {
    BadRoom,
    UnknownQuestion,
    BadText,
    TooLong,
}

impl fmt::Display for Fault {
    fn fmt(&self, f: &mut fmt::Formatter<'_>) -> fmt::Result {
        f.write_str(match self {
            Fault::BadRoom => "BadRoom: a room's name has 1 to 32 characters out of a to z, 0 to 9 and -",
            Fault::UnknownQuestion => "UnknownQuestion: no line of this name was shown here",
            Fault::BadText => "BadText: a text is UTF-8 without control characters",
            Fault::TooLong => "TooLong: a line has at most 1,024 bytes, with what names its room or its question",
        })
    }
}

/// A line as it is shown.
#[derive(Clone, Debug, PartialEq, Eq)]
pub struct Shown<'a> {
    pub room: Rc<str>,
    pub name: Name,
    pub question: Option<Name>,
    pub text: &'a str,
}

impl fmt::Display for Shown<'_> {
    fn fmt(&self, f: &mut fmt::Formatter<'_>) -> fmt::Result {
        match self.question {
            Some(question) => write!(f, "[{}] {} re {question} {}", self.room, self.name, self.text),
            None => write!(f, "[{}] {} {}", self.room, self.name, self.text),
        }
    }
}

/// What became of a message.
#[derive(Clone, Debug, PartialEq, Eq)]
pub enum Showing<'a> {
    Shown(Shown<'a>),
    NotALine,
    /// An answer whose question was not shown.
    Orphan(Name),
}

/// The room of each line that was shown.
#[derive(Debug, Default)]
pub struct Conference {
    rooms: HashMap<Name, Rc<str>>,
}

impl Conference {
    /// Give it each message of the member, in the order of its events.
    pub fn show<'a>(&mut self, name: Name, payload: &'a [u8]) -> Showing<'a> {
        let (room, question, text) = match Line::read(payload) {
            None => return Showing::NotALine,
            Some(Line::Say { room, text }) => (Rc::from(room), None, text),
            Some(Line::Answer { question, text }) => match self.rooms.get(&question) {
                Some(room) => (room.clone(), Some(question), text),
                None => return Showing::Orphan(question),
            },
        };
        self.rooms.insert(name, room.clone());
        Showing::Shown(Shown { room, name, question, text })
    }

    /// The payload of what is said in a room.
    pub fn say(&self, room: &str, text: &str) -> Result<Vec<u8>, Fault> {
        if !is_room(room) {
            return Err(Fault::BadRoom);
        }
        let mut payload = vec![SAY, room.len() as u8];
        payload.extend(room.bytes());
        with_text(payload, text)
    }

    /// The payload of an answer.
    pub fn answer(&self, question: Name, text: &str) -> Result<Vec<u8>, Fault> {
        if !self.rooms.contains_key(&question) {
            return Err(Fault::UnknownQuestion);
        }
        let mut payload = vec![ANSWER];
        put_number(question.sender, &mut payload);
        put_number(question.number, &mut payload);
        with_text(payload, text)
    }
}

fn with_text(mut payload: Vec<u8>, text: &str) -> Result<Vec<u8>, Fault> {
    if !is_text(text) {
        return Err(Fault::BadText);
    }
    payload.extend(text.bytes());
    if payload.len() > LONGEST_PAYLOAD {
        return Err(Fault::TooLong);
    }
    Ok(payload)
}

pub fn is_room(name: &str) -> bool {
    let is_letter = |byte| matches!(byte, b'a'..=b'z' | b'0'..=b'9' | b'-');
    (1..=LONGEST_ROOM).contains(&name.len()) && name.bytes().all(is_letter)
}

fn is_text(text: &str) -> bool {
    text.bytes().all(|byte| byte >= 0x20 && byte != 0x7f)
}

impl Line<'_> {
    /// The line whose payload these bytes are, the whole of them.
    pub fn read(payload: &[u8]) -> Option<Line<'_>> {
        if payload.len() > LONGEST_PAYLOAD {
            return None;
        }
        match payload.split_first()? {
            (&SAY, fields) => say_in(fields),
            (&ANSWER, fields) => answer_in(fields),
            _ => None,
        }
    }
}

fn say_in(fields: &[u8]) -> Option<Line<'_>> {
    let (length, rest) = take_number(fields)?;
    let (room, text) = rest.split_at_checked(length as usize)?;
    let (room, text) = (str::from_utf8(room).ok()?, str::from_utf8(text).ok()?);
    (is_room(room) && is_text(text)).then_some(Line::Say { room, text })
}

fn answer_in(fields: &[u8]) -> Option<Line<'_>> {
    let (sender, rest) = take_number(fields)?;
    let (number, rest) = take_number(rest)?;
    let text = str::from_utf8(rest).ok()?;
    let is_name = (sender as usize) < MOST_MEMBERS && number > 0;
    (is_name && is_text(text)).then_some(Line::Answer { question: Name { sender, number }, text })
}

/// Seven bits a byte, the lowest first; the top bit says that another byte follows.
fn put_number(mut number: u32, out: &mut Vec<u8>) {
    while number >= 0x80 {
        out.push(number as u8 | 0x80);
        number >>= 7;
    }
    out.push(number as u8);
}

/// A number in its shortest spelling, and what comes after it.
fn take_number(bytes: &[u8]) -> Option<(u32, &[u8])> {
    let mut number = 0;
    for (place, byte) in bytes.iter().take(5).enumerate() {
        number |= u64::from(byte & 0x7f) << (7 * place);
        if byte & 0x80 == 0 {
            let is_shortest = place == 0 || *byte != 0;
            return is_shortest.then_some((u32::try_from(number).ok()?, &bytes[place + 1..]));
        }
    }
    None
}

#[cfg(test)]
mod tests {
    use super::*;

    const QUESTION: Name = Name { sender: 0, number: 1 };

    #[test]
    fn what_is_said_and_its_answer_have_the_payloads_of_the_page() {
        let mut conference = Conference::default();
        let when = conference.say("plan", "when?").unwrap();
        assert_eq!(when, b"\x01\x04planwhen?");
        assert_eq!(conference.answer(QUESTION, "noon"), Err(Fault::UnknownQuestion));
        let Showing::Shown(shown) = conference.show(QUESTION, &when) else { panic!("it is not shown") };
        assert_eq!(shown.to_string(), "[plan] 0.1 when?");
        let noon = conference.answer(QUESTION, "noon").unwrap();
        assert_eq!(noon, b"\x02\x00\x01noon");
        let name = Name { sender: 1, number: 1 };
        let Showing::Shown(shown) = conference.show(name, &noon) else { panic!("it is not shown") };
        assert_eq!(shown.to_string(), "[plan] 1.1 re 0.1 noon");
    }

    #[test]
    fn an_answer_without_its_question_is_an_orphan() {
        let name = Name { sender: 1, number: 1 };
        assert_eq!(Conference::default().show(name, b"\x02\x00\x01noon"), Showing::Orphan(QUESTION));
    }

    #[test]
    fn bytes_that_break_a_rule_are_no_line() {
        let rows: [&[u8]; 12] = [
            b"",
            b"\x03",
            b"\x01\x00x",
            b"\x01\x05plan",
            b"\x01\x04Planx",
            b"\x01\x04plan\x1f",
            b"\x01\x04plan\x7f",
            b"\x01\x04plan\xff",
            b"\x02\x40\x01x",
            b"\x02\x00\x00x",
            b"\x02\x80\x00\x01x",
            &[b'x'; LONGEST_PAYLOAD + 1],
        ];
        for row in rows {
            assert_eq!(Line::read(row), None, "{row:?}");
        }
    }

    #[test]
    fn a_line_is_refused_by_the_first_rule_that_it_breaks() {
        let conference = Conference::default();
        let long = "x".repeat(LONGEST_PAYLOAD);
        assert_eq!(conference.say("Plan", "\t"), Err(Fault::BadRoom));
        assert_eq!(conference.answer(QUESTION, "\t"), Err(Fault::UnknownQuestion));
        assert_eq!(conference.say("plan", &format!("\t{long}")), Err(Fault::BadText));
        assert_eq!(conference.say("plan", &long), Err(Fault::TooLong));
        assert_eq!(conference.say("plan", &long[6..]).map(|payload| payload.len()), Ok(LONGEST_PAYLOAD));
    }

    #[test]
    fn a_number_is_read_as_it_is_put() {
        for number in [0, 127, 128, 300, 16_383, 16_384, u32::MAX] {
            let mut bytes = Vec::new();
            put_number(number, &mut bytes);
            bytes.push(9);
            assert_eq!(take_number(&bytes), Some((number, &[9][..])));
        }
        assert_eq!(take_number(&[0xff, 0xff, 0xff, 0xff, 0x1f]), None);
        assert_eq!(take_number(&[0x80]), None);
    }
}
