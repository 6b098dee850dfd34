//! People talk: a process for each, frames over UDP, every line on every screen in causal order.
//!
//! ```sh
//! cargo run --example parley -- --me 0 --group 7 --listen 127.0.0.1:7000 --peer 1=127.0.0.1:7001
//! ```

mod lines;
mod network;
mod notes;
mod options;
mod orders;
mod pace;
mod peers;
mod screen;
mod session;
mod state;
mod trace;
mod words;

use crate::network::Network;
use crate::notes::{Keep, Note, Notes, Nowhere};
use crate::options::{options_in, Options, USAGE};
use crate::screen::Screen;
use crate::session::Session;
use jolunza::Settings;
use std::env;
use std::io::{self, BufRead};
use std::net::SocketAddr;
use std::process::ExitCode;
use std::sync::mpsc::{self, Receiver, RecvTimeoutError, SyncSender};
use std::thread;
use std::time::Instant;

/// What a parley waits for.
enum News {
    Typed(Vec<u8>),
    EndOfInput,
    Frame(SocketAddr, Vec<u8>),
}

/// At most this much waits to be taken; what comes then waits in the system, which drops frames, and these are asked for.
const MOST_NEWS: usize = 1024;

fn main() -> ExitCode {
    if env::args_os().any(|word| word == "--help") {
        println!("{USAGE}");
        return ExitCode::SUCCESS;
    }
    let options = match options_in(env::args_os().skip(1)) {
        Ok(options) => options,
        Err(fault) => {
            eprintln!("parley: {fault}\n{USAGE}");
            return ExitCode::from(2);
        }
    };
    match parley(options) {
        Ok(()) => ExitCode::SUCCESS,
        Err(fault) => {
            eprintln!("parley: {fault}");
            ExitCode::from(3)
        }
    }
}

fn parley(options: Options) -> io::Result<()> {
    let (news, inbox) = mpsc::sync_channel(MOST_NEWS);
    let mut session = begin(options, &news)?;
    thread::spawn(move || read_lines(&news));
    while !session.is_over(Instant::now()) {
        session.pass(Instant::now())?;
        session.screen.prompt(&session.state.room)?;
        take_news(&mut session, &inbox)?;
    }
    session.say_farewell();
    Ok(())
}

/// The socket comes first. The lock of the notes keeps a second process from the files.
fn begin(options: Options, news: &SyncSender<News>) -> io::Result<Session> {
    let Options { settings, listen, peers, journal: path, chance } = options;
    let network = Network::open(listen, peers, settings.me, chance);
    let network = network.map_err(|fault| io::Error::other(format!("NoSocket: {listen}: {fault}")))?;
    let (notes, found): (Box<dyn Keep>, _) = match &path {
        Some(path) => Notes::open(path, &settings).map(|(notes, found)| (Box::new(notes) as _, found))?,
        None => (Box::new(Nowhere), vec![Note::Group(settings.group)]),
    };
    let Some((Note::Group(first), rest)) = found.split_first() else {
        return Err(io::Error::other("BadJournal: line 2"));
    };
    let settings = Settings { group: *first, ..settings };
    let frames = news.clone();
    network.listen(move |from, bytes| frames.send(News::Frame(from, bytes)).is_ok())?;
    let mut session = Session::open(settings, notes, Box::new(network), Screen::new(), Instant::now())?;
    session.replay(rest)?;
    greet(&session, path.is_some());
    Ok(session)
}

fn greet(session: &Session, has_journal: bool) {
    let Settings { group, size, me, .. } = session.state.member().settings();
    let rest = match session.state.member().counts().entries {
        _ if !has_journal => "; no --journal, so that it can't come back when this ends",
        0 => "",
        _ => ", back by its journal",
    };
    session.screen.say(format!("member {me} of {size} in group {group}{rest}"));
}

fn read_lines(news: &SyncSender<News>) {
    let mut input = io::stdin().lock();
    loop {
        let mut line = Vec::new();
        match input.read_until(b'\n', &mut line) {
            Ok(0) | Err(_) => break,
            Ok(_) => {}
        }
        while matches!(line.last(), Some(b'\n' | b'\r')) {
            line.pop();
        }
        if news.send(News::Typed(line)).is_err() {
            return;
        }
    }
    let _ = news.send(News::EndOfInput);
}

/// Waits until something happens or something is due.
fn take_news(session: &mut Session, inbox: &Receiver<News>) -> io::Result<()> {
    let wait = session.due().saturating_duration_since(Instant::now());
    let now = Instant::now();
    match inbox.recv_timeout(wait) {
        Ok(News::Typed(line)) => {
            session.screen.was_typed();
            session.obey(&line, now)
        }
        Ok(News::EndOfInput) => {
            session.leave(now);
            Ok(())
        }
        Ok(News::Frame(from, bytes)) => session.take(from, bytes, now),
        Err(RecvTimeoutError::Timeout) => Ok(()),
        Err(RecvTimeoutError::Disconnected) => Err(io::Error::other("the threads are gone")),
    }
}
