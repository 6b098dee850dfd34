//! What is shown: lines on standard output, the rest on standard error. A terminal gets colours and a prompt.

use crate::lines::Shown;
use std::cell::{Cell, RefCell};
use std::fmt::Display;
use std::io::{self, IsTerminal, Write};

pub struct Screen {
    /// Standard output and standard error.
    out: RefCell<Box<dyn Write>>,
    err: RefCell<Box<dyn Write>>,
    has_colours: bool,
    has_prompt: bool,
    /// Something was written since the prompt.
    needs_prompt: Cell<bool>,
}

/// To the left edge of the terminal's line, which is then empty.
const CLEAR: &str = "\r\x1b[K";

impl Screen {
    pub fn new() -> Screen {
        let has_colours = io::stdout().is_terminal();
        let has_prompt = has_colours && io::stdin().is_terminal();
        Screen { has_colours, has_prompt, ..Screen::over(Box::new(io::stdout()), Box::new(io::stderr())) }
    }

    /// Buffers in place of standard output and standard error, which are no terminal.
    pub fn over(out: Box<dyn Write>, err: Box<dyn Write>) -> Screen {
        let (out, err) = (RefCell::new(out), RefCell::new(err));
        Screen { out, err, has_colours: false, has_prompt: false, needs_prompt: Cell::new(true) }
    }

    /// A line of the conference. The sender has a colour of its own, and no character steers the terminal.
    pub fn show(&self, shown: &Shown<'_>) -> io::Result<()> {
        if !self.has_colours {
            return self.put(shown);
        }
        let Shown { room, name, .. } = shown;
        let (colour, text) = (31 + name.sender % 6, shown.text.replace(char::is_control, "?"));
        let question = shown.question.map_or(String::new(), |question| format!(" re {question}"));
        self.put(format!("\x1b[2m[{room}]\x1b[0m \x1b[{colour}m{name}\x1b[0m{question} {text}"))
    }

    /// What was asked for.
    pub fn put(&self, text: impl Display) -> io::Result<()> {
        write_all(&self.out, &format!("{}{text}\n", self.clear()))
    }

    /// What is wrong, or worth to know. Where it can't be written, all goes on.
    pub fn say(&self, text: impl Display) {
        let _ = write_all(&self.err, &format!("{}parley: {text}\n", self.clear()));
    }

    /// A line was typed, and the cursor stands behind it.
    pub fn was_typed(&self) {
        self.needs_prompt.set(true);
    }

    /// Takes what was typed off the terminal, since it comes again as a line of the conference.
    pub fn take_off(&self) -> io::Result<()> {
        if self.has_prompt {
            write_all(&self.out, "\x1b[A\r\x1b[K")?;
        }
        Ok(())
    }

    pub fn prompt(&self, room: &str) -> io::Result<()> {
        if self.has_prompt && self.needs_prompt.take() {
            write_all(&self.out, &format!("{CLEAR}{room}> "))?;
        }
        Ok(())
    }

    fn clear(&self) -> &'static str {
        self.needs_prompt.set(true);
        if self.has_prompt {
            CLEAR
        } else {
            ""
        }
    }
}

fn write_all(out: &RefCell<Box<dyn Write>>, text: &str) -> io::Result<()> {
    let mut out = out.borrow_mut();
    out.write_all(text.as_bytes())?;
    out.flush()
}
