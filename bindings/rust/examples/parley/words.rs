//! What is typed: a line to be said, or an order that begins with a slash.

use jolunza::{Name, MOST_MEMBERS};
use std::fmt;
use std::str;

/// What a line that was typed orders.
#[derive(Debug, PartialEq, Eq)]
pub enum Order<'a> {
    Nothing,
    Say(&'a str),
    Answer { question: Name, text: &'a str },
    Room(&'a str),
    Who,
    Why,
    Trace(&'a str),
    Group(u32),
    Help,
    Quit,
}

/// Why a line orders nothing.
#[derive(Debug, PartialEq, Eq)]
pub enum Fault<'a> {
    NotUtf8,
    UnknownOrder(&'a str),
    Missing(&'static str),
    TooMuch(&'a str),
    BadName(&'a str),
    BadNumber(&'a str),
}

impl fmt::Display for Fault<'_> {
    fn fmt(&self, f: &mut fmt::Formatter<'_>) -> fmt::Result {
        match self {
            Fault::NotUtf8 => f.write_str("NotUtf8: a line is UTF-8"),
            Fault::UnknownOrder(word) => {
                write!(f, "UnknownOrder: {word}; /help lists them, and // says a line that begins with /")
            }
            Fault::Missing(form) => write!(f, "Missing: say {form}"),
            Fault::TooMuch(rest) => write!(f, "TooMuch: nothing may follow, and {rest:?} does"),
            Fault::BadName(word) => write!(f, "BadName: {word:?} names no message; 0.3 is the third of member 0"),
            Fault::BadNumber(word) => write!(f, "BadNumber: {word:?} is not 0 to 4294967295"),
        }
    }
}

pub const HELP: &str = "\
TEXT            say it in the room
/room NAME      what you say from now on is said in this room
/re 0.3 TEXT    answer the third message of member 0
/who            what is delivered of each other member, and since when it is silent
/why            what waits here and what for, and who keeps your window full
/trace FILE     write this member's part of a trace
/group NUMBER   begin a new group; everybody has to
/quit           leave, once everybody is known to have what you said";

/// Reads a line without its line feed.
pub fn order_in(line: &[u8]) -> Result<Order<'_>, Fault<'_>> {
    let line = str::from_utf8(line).map_err(|_| Fault::NotUtf8)?;
    let Some(rest) = line.strip_prefix('/') else {
        return Ok(if line.is_empty() { Order::Nothing } else { Order::Say(line) });
    };
    if rest.starts_with('/') {
        return Ok(Order::Say(rest));
    }
    let (word, rest) = line.split_once(' ').unwrap_or((line, ""));
    match word {
        "/room" => Ok(Order::Room(needed(rest, "/room NAME")?)),
        "/re" => answer_in(rest),
        "/trace" => Ok(Order::Trace(needed(rest, "/trace FILE")?)),
        "/group" => Ok(Order::Group(number_in(needed(rest, "/group NUMBER")?)?)),
        "/who" => alone(rest, Order::Who),
        "/why" => alone(rest, Order::Why),
        "/help" => alone(rest, Order::Help),
        "/quit" => alone(rest, Order::Quit),
        _ => Err(Fault::UnknownOrder(word)),
    }
}

fn needed<'a>(rest: &'a str, form: &'static str) -> Result<&'a str, Fault<'a>> {
    match rest.trim() {
        "" => Err(Fault::Missing(form)),
        word => Ok(word),
    }
}

fn alone<'a>(rest: &'a str, order: Order<'a>) -> Result<Order<'a>, Fault<'a>> {
    match rest.trim() {
        "" => Ok(order),
        rest => Err(Fault::TooMuch(rest)),
    }
}

fn answer_in(rest: &str) -> Result<Order<'_>, Fault<'_>> {
    let (word, text) = rest.trim_start().split_once(' ').unwrap_or((rest.trim(), ""));
    if word.is_empty() || text.trim().is_empty() {
        return Err(Fault::Missing("/re NAME TEXT"));
    }
    let question = name_in(word).ok_or(Fault::BadName(word))?;
    Ok(Order::Answer { question, text })
}

fn name_in(word: &str) -> Option<Name> {
    let (sender, number) = word.split_once('.')?;
    let (sender, number) = (decimal(sender)?, decimal(number)?);
    ((sender as usize) < MOST_MEMBERS && number > 0).then_some(Name { sender, number })
}

fn number_in(word: &str) -> Result<u32, Fault<'_>> {
    decimal(word).ok_or(Fault::BadNumber(word))
}

/// Digits alone: no sign.
pub fn decimal(word: &str) -> Option<u32> {
    word.bytes().all(|byte| byte.is_ascii_digit()).then(|| word.parse().ok())?
}

#[cfg(test)]
mod tests {
    use super::*;

    #[test]
    fn each_order_is_read() {
        let question = Name { sender: 0, number: 3 };
        let rows: [(&str, Order<'_>); 12] = [
            ("", Order::Nothing),
            ("hi there", Order::Say("hi there")),
            ("//who", Order::Say("/who")),
            ("/room plan", Order::Room("plan")),
            ("/re 0.3 at noon", Order::Answer { question, text: "at noon" }),
            ("/re 0.3  two spaces", Order::Answer { question, text: " two spaces" }),
            ("/who", Order::Who),
            ("/why", Order::Why),
            ("/trace my file", Order::Trace("my file")),
            ("/group 8", Order::Group(8)),
            ("/help ", Order::Help),
            ("/quit", Order::Quit),
        ];
        for (line, order) in rows {
            assert_eq!(order_in(line.as_bytes()), Ok(order), "{line:?}");
        }
    }

    #[test]
    fn what_orders_nothing_has_its_fault() {
        let rows: [(&[u8], Fault<'_>); 12] = [
            (b"\xff", Fault::NotUtf8),
            (b"/", Fault::UnknownOrder("/")),
            (b"/Quit", Fault::UnknownOrder("/Quit")),
            (b"/room", Fault::Missing("/room NAME")),
            (b"/room  ", Fault::Missing("/room NAME")),
            (b"/trace", Fault::Missing("/trace FILE")),
            (b"/re 0.3", Fault::Missing("/re NAME TEXT")),
            (b"/re 64.1 x", Fault::BadName("64.1")),
            (b"/re 0.0 x", Fault::BadName("0.0")),
            (b"/re 0.+1 x", Fault::BadName("0.+1")),
            (b"/group 4294967296", Fault::BadNumber("4294967296")),
            (b"/quit now", Fault::TooMuch("now")),
        ];
        for (line, fault) in rows {
            assert_eq!(order_in(line), Err(fault), "{line:?}");
        }
    }
}
