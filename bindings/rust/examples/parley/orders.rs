//! What is done with a line that was typed.

use crate::lines::{self, is_room, Line};
use crate::session::Session;
use crate::trace::write_part;
use crate::words::{order_in, Order, HELP};
use std::io;
use std::time::Instant;

impl Session {
    /// Does what a typed line orders. What is wrong with it is said, and then nothing has changed.
    pub fn obey(&mut self, line: &[u8], now: Instant) -> io::Result<()> {
        match order_in(line) {
            Err(fault) => self.screen.say(fault),
            Ok(Order::Nothing) => {}
            Ok(Order::Say(text)) => self.utter(self.conference.say(&self.state.room, text))?,
            Ok(Order::Answer { question, text }) => self.utter(self.conference.answer(question, text))?,
            Ok(Order::Room(name)) => self.change_room(name)?,
            Ok(Order::Who) => self.list_others(now)?,
            Ok(Order::Why) => self.tell_why()?,
            Ok(Order::Trace(path)) => self.trace(path)?,
            Ok(Order::Group(number)) => self.change_group(number)?,
            Ok(Order::Help) => self.screen.put(HELP)?,
            Ok(Order::Quit) => self.leave(now),
        }
        Ok(())
    }

    fn utter(&mut self, composed: Result<Vec<u8>, lines::Fault>) -> io::Result<()> {
        match composed {
            Err(fault) => self.screen.say(fault),
            Ok(payload) => {
                self.screen.take_off()?;
                self.say(payload)?;
                self.cast_waiting()?;
            }
        }
        Ok(())
    }

    fn change_room(&mut self, name: &str) -> io::Result<()> {
        if is_room(name) {
            self.enter(name)?;
        } else {
            self.screen.say(lines::Fault::BadRoom);
        }
        Ok(())
    }

    fn list_others(&self, now: Instant) -> io::Result<()> {
        let lines = self.peers.lines(self.state.member(), now);
        lines.iter().try_for_each(|line| self.screen.put(line))
    }

    fn tell_why(&self) -> io::Result<()> {
        self.state.why().iter().try_for_each(|line| self.screen.put(line))
    }

    fn trace(&self, path: &str) -> io::Result<()> {
        match write_part(path, self.state.member()) {
            Ok(entries) => self.screen.put(format!("{entries} entries in {path}")),
            Err(fault) => {
                self.screen.say(format!("NoTrace: {path}: {fault}"));
                Ok(())
            }
        }
    }

    /// A new member, which says again what is not known to be with everybody: all that waits, and where the number was
    /// used up all that the others took for repeats.
    fn change_group(&mut self, number: u32) -> io::Result<()> {
        if self.state.groups.contains(&number) {
            self.screen.say(format!("UsedUp: you were in group {number} before"));
            return Ok(());
        }
        let payloads = self.said_in_vain();
        if let Err(fault) = self.begin_group(number, payloads)? {
            self.screen.say(fault);
            return Ok(());
        }
        self.cast_waiting()
    }

    fn said_in_vain(&mut self) -> Vec<Vec<u8>> {
        let (is_mute, stable) = (self.is_mute(), self.state.member().stable());
        let events = self.state.kept.events();
        let lost = events.filter(|event| is_mute && event.is_own && event.name.number > stable);
        let mut payloads: Vec<Vec<u8>> = lost.map(|event| event.payload.to_vec()).collect();
        payloads.extend(self.state.waiting.iter().cloned());
        payloads.retain(|payload| match Line::read(payload) {
            Some(Line::Answer { question, text }) => {
                self.screen.say(format!("not said, since a new group has no {question}: {text}"));
                false
            }
            _ => true,
        });
        payloads
    }
}
