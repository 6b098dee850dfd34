//! A group of causal broadcast members in one thread: the run of `plain_member.rs` and `fair_member.rs`, and of `crates/bench_run`. Words: SIZE
//! WINDOW PAYLOAD CASTS LOST EXCHANGED, the last two one frame in how many, 0 for none, then BURST, how many messages are cast at once, 1
//! if not said, then `full` where the windows are filled first, and `core` for members without history.

use crate::member::frames::{Frame, LONGEST_PAYLOAD, MOST_MESSAGES};
use crate::member::record::{History, Latest, Name, Record};
use crate::member::{Arrival, Duties, LONGEST_HISTORY, Member, Outgoing};
use std::env;
use std::process::ExitCode;

/// The duties of a program's members, by how many fields their times have.
pub trait Kind {
    type Duties<const FIELDS: usize>: Duties<FIELDS>;
}

/// A xorshift generator: the same numbers in both programs.
struct Random(u64);

impl Random {
    fn is_one_in(&mut self, count: u32) -> bool {
        if count == 0 {
            return false;
        }
        self.0 ^= self.0 << 13;
        self.0 ^= self.0 >> 7;
        self.0 ^= self.0 << 17;
        self.0 % u64::from(count) == 0
    }
}

/// The frames on their way. One in `lost` is lost, and one in `exchanged` goes before the frame that was put before it.
struct Network {
    queues: Vec<Vec<Frame>>,
    lost: u32,
    exchanged: u32,
    random: Random,
}

impl Network {
    #[inline(always)]
    fn send(&mut self, to: usize, frame: Frame) {
        if self.random.is_one_in(self.lost) {
            return;
        }
        let queue = &mut self.queues[to];
        queue.push(frame);
        if self.random.is_one_in(self.exchanged) && queue.len() > 1 {
            let last = queue.len() - 1;
            queue.swap(last - 1, last);
        }
    }

    /// Loses the frame that was put last for the member.
    fn lose_last(&mut self, to: usize) {
        self.queues[to].pop();
    }

    fn send_all(&mut self, from: usize, out: &mut Vec<Outgoing>) {
        for out in out.drain(..) {
            self.send_from(from, out);
        }
    }

    fn send_from(&mut self, from: usize, out: Outgoing) {
        match out.to {
            Some(to) => self.send(to, out.frame),
            None => {
                for to in 0..self.queues.len() {
                    if to != from {
                        self.send(to, out.frame.clone());
                    }
                }
            }
        }
    }
}

/// The deliveries so far, and a digest of their names and times.
struct Tally {
    deliveries: u64,
    digest: u64,
}

impl Tally {
    fn mix(&mut self, word: u64) {
        self.digest = (self.digest ^ word).wrapping_mul(0x100_0000_01b3);
    }

    fn add(&mut self, member: usize, name: Name, time: &[u32]) {
        self.deliveries += 1;
        self.mix(member as u64 | u64::from(name.sender) << 32);
        self.mix(u64::from(name.number));
        let pairs = time.chunks_exact(2);
        let last = pairs.remainder();
        for pair in pairs {
            self.mix(u64::from(pair[0]) | u64::from(pair[1]) << 32);
        }
        for field in last {
            self.mix(u64::from(*field));
        }
    }
}

struct Words {
    size: u32,
    window: u32,
    payload: u32,
    casts: u32,
    lost: u32,
    exchanged: u32,
    /// How many messages are cast at once.
    burst: u32,
    /// The run begins with full windows.
    is_full: bool,
}

/// How often the windows are filled: once so that all waits unexpanded, and once so that it waits expanded.
const FILLINGS: u32 = 2;

/// The rounds after each filling in which nobody casts, until everything is asked for, delivered and known to be.
const QUIET: u32 = 5;

/// The deeds of a round.
#[derive(Clone, Copy, PartialEq)]
enum Stage {
    /// All cast one message before they take anything, and of these all miss each.
    MissAll,
    /// The same, but each member misses that of the member after it alone.
    MissOne,
    /// All take and cast, and nobody ticks: what is cast depends on what others miss, until no window has room.
    Fill,
    /// All take and tick, and nobody casts.
    Quiet,
    /// All take, cast and tick, and frames are lost by chance.
    Disturbed,
}

impl Words {
    /// The stage of a round. Where windows are not filled first, all rounds are alike.
    fn stage(&self, round: u32) -> Stage {
        // with one cast a round a window is full after as many rounds as it is wide; in one more the last casts are taken
        let filled = self.window + 1;
        let length = filled + QUIET;
        if !self.is_full || round / length >= FILLINGS {
            return Stage::Disturbed;
        }
        match (round / length, round % length) {
            (0, 0) => Stage::MissAll,
            (_, 0) => Stage::MissOne,
            (_, step) if step < filled => Stage::Fill,
            _ => Stage::Quiet,
        }
    }
}

struct Run<const FIELDS: usize, R: Record, D: Duties<FIELDS>> {
    members: Vec<Member<FIELDS, R, D>>,
    network: Network,
    tally: Tally,
    out: Vec<Outgoing>,
    inbox: Vec<Frame>,
    words: Words,
    payload: Vec<u8>,
    made: u32,
}

impl<const FIELDS: usize, R: Record, D: Duties<FIELDS>> Run<FIELDS, R, D> {
    /// The member takes all that is on its way to it.
    fn take_all(&mut self, me: usize) {
        std::mem::swap(&mut self.inbox, &mut self.network.queues[me]);
        for frame in self.inbox.drain(..) {
            let member = &mut self.members[me];
            if let Ok(Arrival::Accepted(deliveries, _)) = member.arrive(&frame, &mut self.out) {
                for (event, time) in member.record.with_times(deliveries, member.size) {
                    self.tally.add(me, event.name, time);
                }
            }
            if !self.out.is_empty() {
                self.network.send_all(me, &mut self.out);
            }
        }
    }

    fn tick_all(&mut self) {
        for me in 0..self.members.len() {
            if self.members[me].tick(&mut self.out).is_ok() {
                self.network.send_all(me, &mut self.out);
            }
        }
    }

    /// The member takes all and casts, by the stage.
    #[inline(always)]
    fn turn(&mut self, me: usize, stage: Stage) {
        let is_first = matches!(stage, Stage::MissAll | Stage::MissOne);
        if !is_first {
            self.take_all(me);
        }
        let count = self.casts_in(stage);
        self.cast_some(me, count);
        if is_first {
            self.miss(me, stage);
        }
    }

    /// The member's cast in this round is lost to all, or to the member before it.
    fn miss(&mut self, me: usize, stage: Stage) {
        let size = self.members.len();
        let before = (me + size - 1) % size;
        for to in 0..size {
            if to != me && (stage == Stage::MissAll || to == before) {
                self.network.lose_last(to);
            }
        }
    }

    /// How often a member may cast in its turn: a fourth of the window, or once where windows begin to fill.
    fn casts_in(&self, stage: Stage) -> u32 {
        match stage {
            Stage::MissAll | Stage::MissOne => 1,
            Stage::Fill | Stage::Disturbed => (self.words.window / 4).max(1),
            Stage::Quiet => 0,
        }
    }

    /// The member casts that many messages, as long as it may.
    fn cast_some(&mut self, me: usize, count: u32) {
        let mut left = count.min(self.words.casts - self.made);
        while left > 0 {
            let count = self.words.burst.min(left);
            let Some(frame) = self.cast(me, count as usize) else {
                return;
            };
            self.made += count;
            left -= count;
            self.network.send_from(me, Outgoing { to: None, frame });
        }
    }

    /// The frame of that many messages more, where the member may cast them.
    fn cast(&mut self, me: usize, count: usize) -> Option<Frame> {
        let member = &mut self.members[me];
        if self.words.burst == 1 {
            return member.cast(&self.payload).ok();
        }
        let payloads = [&self.payload[..]; MOST_MESSAGES];
        member.cast_burst(&payloads[..count]).ok()
    }

    /// In each round each member has its turn, and then all tick, until everything is delivered.
    fn go(&mut self) {
        let size = self.members.len();
        let mut round = 0;
        while self.tally.deliveries < u64::from(self.words.casts) * (size as u64 - 1) {
            let stage = self.begin(round);
            for me in 0..size {
                self.turn(me, stage);
            }
            if matches!(stage, Stage::Quiet | Stage::Disturbed) {
                self.tick_all();
            }
            round += 1;
        }
    }

    /// The stage of this round; with the last one chance begins.
    fn begin(&mut self, round: u32) -> Stage {
        let stage = self.words.stage(round);
        if stage == Stage::Disturbed {
            (self.network.lost, self.network.exchanged) = (self.words.lost, self.words.exchanged);
        }
        stage
    }
}

fn run<const FIELDS: usize, R: Record, D: Duties<FIELDS>>(words: Words, record: fn() -> R) -> Tally {
    let size = words.size as usize;
    let mut run = Run::<FIELDS, R, D> {
        members: (0..size).map(|me| Member::new(size, words.window, me, record())).collect(),
        network: Network { queues: vec![Vec::new(); size], lost: 0, exchanged: 0, random: Random(0x1991_0803_1978_0707) },
        tally: Tally { deliveries: 0, digest: 0xcbf2_9ce4_8422_2325 },
        out: Vec::new(),
        inbox: Vec::new(),
        payload: vec![b'a'; words.payload as usize],
        words,
        made: 0,
    };
    run.go();
    run.tally
}

fn run_of<K: Kind, R: Record>(words: Words, record: fn() -> R) -> Tally {
    match words.size {
        ..=4 => run::<4, R, K::Duties<4>>(words, record),
        ..=16 => run::<16, R, K::Duties<16>>(words, record),
        _ => run::<64, R, K::Duties<64>>(words, record),
    }
}

/// The numbers of the words, and whether the windows are filled first.
fn words_of(numbers: &[u32], is_full: bool) -> Option<Words> {
    let (&[size @ 2..=64, window @ 1..=256, payload, casts, lost, exchanged], burst) = numbers.split_first_chunk()? else {
        return None;
    };
    let burst = match *burst {
        [] => 1,
        [burst] => burst,
        _ => return None,
    };
    let may_be_cast = (1..=MOST_MESSAGES as u32).contains(&burst) && payload as usize * burst as usize <= LONGEST_PAYLOAD;
    may_be_cast.then_some(Words { size, window, payload, casts, lost, exchanged, burst, is_full })
}

/// Runs the plan of the program's words, and prints what was delivered.
pub fn main_of<K: Kind>() -> ExitCode {
    let mut words: Vec<String> = env::args().skip(1).collect();
    let is_core = words.pop_if(|word| word == "core").is_some();
    let is_full = words.pop_if(|word| word == "full").is_some();
    let numbers: Vec<u32> = words.iter().filter_map(|word| word.parse().ok()).collect();
    let Some(words) = words_of(&numbers, is_full) else {
        eprintln!("the words are SIZE WINDOW PAYLOAD CASTS LOST EXCHANGED [BURST] [full] [core]");
        return ExitCode::from(2);
    };
    let tally = if is_core { run_of::<K, _>(words, Latest::default) } else { run_of::<K, _>(words, || History::new(LONGEST_HISTORY)) };
    println!("deliveries {} digest {:016x}", tally.deliveries, tally.digest);
    ExitCode::SUCCESS
}
