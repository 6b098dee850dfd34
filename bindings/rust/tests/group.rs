//! Three members over a network that loses, repeats and reorders frames.

mod network;

use jolunza::{Member, Name, Output, Refusal, Settings};
use network::{Dice, Network};
use std::collections::{HashMap, HashSet};
use std::hash::{DefaultHasher, Hash, Hasher};

const SIZE: u32 = 3;
const MESSAGES: usize = 10_000;

/// A cast or a delivery, as a member's list has it.
#[derive(Clone, Copy, Debug, PartialEq, Eq, Hash)]
struct Seen {
    is_own: bool,
    name: Name,
}

fn opened(me: u32, history_max: usize) -> Member {
    Member::open_with_history(Settings { group: 7, size: SIZE, window: 16, me }, history_max).unwrap()
}

/// The bytes of the frames that a call answers.
fn sent(output: Result<Output<'_>, Refusal>) -> Vec<Vec<u8>> {
    output.unwrap().frames().map(|frame| frame.bytes.to_vec()).collect()
}

fn payloads(mut output: Output<'_>) -> Vec<Vec<u8>> {
    output.events().map(|event| event.payload.to_vec()).collect()
}

struct Group {
    members: Vec<Member>,
    logs: Vec<Vec<Seen>>,
    network: Network,
    left: usize,
}

impl Group {
    fn new(seed: u64, history_max: usize) -> Group {
        Group {
            members: (0..SIZE).map(|me| opened(me, history_max)).collect(),
            logs: vec![Vec::new(); SIZE as usize],
            network: Network::new(SIZE, seed),
            left: MESSAGES,
        }
    }

    /// Makes a call of a member, sends its frames, and notes its events; without frames and events where it is refused.
    fn call(&mut self, me: u32, call: impl FnOnce(&mut Member) -> Result<Output<'_>, Refusal>) -> Result<(), Refusal> {
        let log = &mut self.logs[me as usize];
        let mut output = call(&mut self.members[me as usize])?;
        output.frames().for_each(|frame| self.network.send(me, frame));
        for event in output.events() {
            let text = format!("{} of {}", event.name.number, event.name.sender);
            assert_eq!(event.payload, text.as_bytes());
            log.push(Seen { is_own: event.is_own, name: event.name });
        }
        Ok(())
    }

    /// Casts one message or, each third time, two at once.
    fn cast(&mut self, me: u32) {
        let number = self.members[me as usize].time()[me as usize] + 1;
        let texts = [number, number + 1].map(|number| format!("{number} of {me}"));
        let count = if number.is_multiple_of(3) { self.left.min(2) } else { 1 };
        let done = self.call(me, |member| match &texts {
            [first, second] if count == 2 => member.cast_burst(&[first.as_bytes(), second.as_bytes()]),
            [first, _] => member.cast(first.as_bytes()),
        });
        match done {
            Ok(()) => self.left -= count,
            Err(refusal) => assert_eq!(refusal, Refusal::WindowFull),
        }
    }

    fn tick(&mut self, me: u32) {
        self.call(me, Member::tick).unwrap();
    }

    /// Asks a third member for what is missing of another one.
    fn help(&mut self, me: u32, other: u32) {
        self.call(me, |member| member.help(other)).unwrap();
    }

    /// Brings one frame, whichever.
    fn bring(&mut self) {
        if let Some((to, bytes)) = self.network.take() {
            if let Err(refusal) = self.call(to, |member| member.receive(&bytes)) {
                assert_eq!(refusal, Refusal::TooFar);
            }
        }
    }

    /// Everybody ticks, and all that is sent then arrives.
    fn quiet_round(&mut self) {
        (0..SIZE).for_each(|me| self.tick(me));
        while !self.network.is_empty() {
            self.bring();
        }
    }

    fn is_settled(&self) -> bool {
        let casts: Vec<u32> = self.members.iter().enumerate().map(|(me, member)| member.time()[me]).collect();
        let has_all = |member: &Member| member.time() == casts;
        self.members.iter().all(has_all)
            && self.members.iter().zip(&casts).all(|(member, count)| member.stable() == *count)
    }
}

/// Whether each list has every message once, and after all messages that happened before it.
///
/// What happened before what is found by the casts and deliveries alone: an event happened before what stands below it
/// in its list, and a cast before each delivery of it. The vector times are not looked at.
fn is_causal(logs: &[Vec<Seen>]) -> bool {
    let names: HashSet<Name> = logs.iter().flatten().filter(|seen| seen.is_own).map(|seen| seen.name).collect();
    let places: HashMap<Name, usize> = names.iter().enumerate().map(|(place, name)| (*name, place)).collect();
    let mut pasts: Vec<Option<Bits>> = vec![None; places.len()];
    let mut lists: Vec<(usize, Bits)> = vec![(0, Bits::new(places.len())); logs.len()];
    let mut moved = 1;
    while moved > 0 {
        moved = 0;
        for (log, (next, seen)) in logs.iter().zip(&mut lists) {
            let Some(count) = go_on(&log[*next..], seen, &places, &mut pasts) else { return false };
            *next += count;
            moved += count;
        }
    }
    lists.iter().zip(logs).all(|((next, seen), log)| *next == log.len() && seen.count() == places.len())
}

/// Judges the first events of a list, up to a delivery whose cast was not judged yet; None where one stands above what
/// happened before it, or twice.
fn go_on(log: &[Seen], seen: &mut Bits, places: &HashMap<Name, usize>, pasts: &mut [Option<Bits>]) -> Option<usize> {
    for (index, event) in log.iter().enumerate() {
        let place = *places.get(&event.name)?;
        if event.is_own {
            pasts[place] = Some(seen.clone());
        }
        let Some(past) = &pasts[place] else { return Some(index) };
        if seen.has(place) || !seen.has_all(past) {
            return None;
        }
        seen.put(place);
    }
    Some(log.len())
}

/// A set of messages.
#[derive(Clone, Debug)]
struct Bits(Vec<u64>);

impl Bits {
    fn new(length: usize) -> Bits {
        Bits(vec![0; length.div_ceil(64)])
    }

    fn put(&mut self, place: usize) {
        self.0[place / 64] |= 1 << (place % 64);
    }

    fn has(&self, place: usize) -> bool {
        self.0[place / 64] >> (place % 64) & 1 == 1
    }

    fn has_all(&self, other: &Bits) -> bool {
        self.0.iter().zip(&other.0).all(|(mine, others)| others & !mine == 0)
    }

    fn count(&self) -> usize {
        self.0.iter().map(|word| word.count_ones() as usize).sum()
    }
}

/// All cast, tick, ask for help and are brought frames by chance, until all is cast; then in quiet rounds nothing is lost.
fn held(seed: u64, history_max: usize) -> (Group, usize) {
    let (mut group, mut dice) = (Group::new(seed, history_max), Dice(seed));
    while group.left > 0 {
        let me = dice.below(SIZE.into()) as u32;
        match dice.below(20) {
            0 | 1 => group.tick(me),
            2..=5 => group.cast(me),
            6 => group.help(me, (me + 1) % SIZE),
            _ => group.bring(),
        }
    }
    group.network.is_good = true;
    let mut rounds = 0;
    while !group.is_settled() {
        assert!(rounds < 6, "it does not settle");
        group.quiet_round();
        rounds += 1;
    }
    (group, rounds)
}

#[test]
fn ten_thousand_messages_are_delivered_in_causal_order() {
    let (group, rounds) = held(1, 1_000_000);
    let network = &group.network;
    assert!(rounds > 0 && network.lost > 1_000 && network.repeated > 1_000 && network.overtaken > 1_000, "{network:?}");
    for log in &group.logs {
        assert_eq!(log.len(), MESSAGES);
    }
    assert!(is_causal(&group.logs));
    let pair = group.logs[0].windows(2).position(|pair| pair[0].name.sender == pair[1].name.sender).unwrap();
    assert!(!is_causal(&exchanged(&group.logs, 0, pair, pair + 1)), "two casts of one member exchanged");
}

/// A number that two groups have in common where each member did the same, event by event, and knows the same.
fn digest(group: &Group) -> u64 {
    let mut hasher = DefaultHasher::new();
    for (member, log) in group.members.iter().zip(&group.logs) {
        log.hash(&mut hasher);
        (member.time(), member.stable()).hash(&mut hasher);
    }
    hasher.finish()
}

#[test]
fn without_a_history_the_same_is_delivered() {
    let (keeps, rounds) = held(2, 1_000_000);
    let (mut forgets, others) = held(2, 0);
    assert_eq!((digest(&forgets), others), (digest(&keeps), rounds));
    assert_eq!(forgets.logs.iter().map(Vec::len).collect::<Vec<_>>(), [MESSAGES; SIZE as usize]);
    for member in &mut forgets.members {
        assert!(member.counts().events <= 16 * SIZE as usize && member.counts().entries <= 1);
    }
    forgets.logs[0].swap(0, 1);
    assert_ne!(digest(&forgets), digest(&keeps), "two events exchanged");
}

/// A list with two events exchanged.
fn exchanged(logs: &[Vec<Seen>], member: usize, one: usize, other: usize) -> Vec<Vec<Seen>> {
    let mut logs = logs.to_vec();
    logs[member].swap(one, other);
    logs
}

#[test]
fn the_check_sees_what_is_not_causal() {
    let name = |sender, number| Name { sender, number };
    let own = |sender, number| Seen { is_own: true, name: name(sender, number) };
    let other = |sender, number| Seen { is_own: false, name: name(sender, number) };
    // 0.1 before 1.1 before 1.2; 2.1 after 0.1 and beside the others
    let logs = vec![
        vec![own(0, 1), other(1, 1), other(2, 1), other(1, 2)],
        vec![other(0, 1), own(1, 1), own(1, 2), other(2, 1)],
        vec![other(0, 1), own(2, 1), other(1, 1), other(1, 2)],
    ];
    assert!(is_causal(&logs));
    assert!(is_causal(&exchanged(&logs, 0, 1, 2)), "these two are concurrent");
    assert!(!is_causal(&exchanged(&logs, 0, 1, 3)), "1.2 before 1.1");
    assert!(!is_causal(&exchanged(&logs, 2, 0, 2)), "1.1 before 0.1");
    let mut lacking = logs.clone();
    lacking[0].pop();
    assert!(!is_causal(&lacking), "0 lacks 1.2");
    let mut twice = logs.clone();
    twice[0].push(other(1, 2));
    assert!(!is_causal(&twice), "0 has 1.2 twice");
    // none of them could have delivered what the other cast later
    let circle = vec![vec![other(1, 1), own(0, 1)], vec![other(0, 1), own(1, 1)]];
    assert!(!is_causal(&circle), "each before the other");
}

/// Two calls one after another: each answers what it did itself, with and without a history.
#[test]
fn each_call_answers_its_own_frames_and_events() {
    for history_max in [100, 0] {
        let (mut member, mut other) = (opened(0, history_max), opened(1, history_max));
        for text in ["a", "bc", "def"] {
            let mut output = member.cast(text.as_bytes()).unwrap();
            assert_eq!((output.is_repeat(), output.is_entered(), output.frames().len()), (false, true, 1));
            let [frame] = &output.frames().map(|frame| frame.bytes.to_vec()).collect::<Vec<_>>()[..] else { panic!() };
            for _ in 0..2 {
                assert_eq!(output.events().map(|event| event.payload).collect::<Vec<_>>(), [text.as_bytes()]);
            }
            let mut taken = other.receive(frame).unwrap();
            assert_eq!((taken.is_repeat(), taken.is_entered(), taken.frames().len()), (false, true, 0));
            assert_eq!(payloads(taken), [text.as_bytes()]);
            let mut again = other.receive(frame).unwrap();
            assert_eq!((again.is_repeat(), again.is_entered()), (true, false));
            assert_eq!((again.frames().len(), again.events().len()), (0, 0));
        }
        for is_news in [true, false] {
            let mut tick = other.tick().unwrap();
            assert_eq!((tick.is_repeat(), tick.is_entered(), tick.frames().len()), (false, is_news, 1));
            assert_eq!(tick.events().len(), 0);
        }
        let mut help = other.help(0).unwrap();
        assert_eq!((help.is_entered(), help.frames().len(), help.events().len()), (false, 0, 0));
        assert_eq!(other.receive(b"?").unwrap_err(), Refusal::Malformed);
        assert_eq!(payloads(other.cast(b"g").unwrap()), [b"g"]);
    }
}

#[test]
fn a_number_that_no_member_has_is_refused_by_each_reading() {
    let mut member = opened(1, 0);
    let answers = |member: &Member, number| {
        [
            member.stable_of(number).map(drop),
            member.acknowledged_by(number).map(drop),
            member.keeps_window_full(number).map(drop),
            member.waits_for(number).map(drop),
            member.missing(number).map(drop),
        ]
    };
    for number in [SIZE, 64, u32::MAX] {
        assert_eq!(answers(&member, number), [Err(Refusal::BadMember); 5], "{number}");
        assert_eq!(member.help(number).map(drop), Err(Refusal::BadMember));
    }
    assert_eq!(answers(&member, 0), [Ok(()); 5]);
    assert_eq!(answers(&member, 1)[..4], [Ok(()); 4]);
    assert_eq!(answers(&member, 1)[4], Err(Refusal::BadMember), "it misses nothing of its own");
}

/// Three frames are loaded at once, taken in another order, and one once more.
#[test]
fn parts_of_loaded_bytes_are_received() {
    for history_max in [100, 0] {
        let (mut caster, mut taker) = (opened(0, history_max), opened(1, history_max));
        let (mut inbox, mut ends) = (Vec::new(), vec![0]);
        for text in ["a", "bc", "def"] {
            inbox.extend(sent(caster.cast(text.as_bytes())).concat());
            ends.push(inbox.len());
        }
        let mut take = |part| taker.receive_loaded(part).map(payloads);
        assert_eq!(take(0..ends[1]), Err(Refusal::NoneThere));
        taker.load(&inbox).unwrap();
        inbox.fill(0);
        let mut take = |part| taker.receive_loaded(part).map(payloads);
        assert_eq!(take(ends[1]..ends[2]), Ok(vec![]));
        assert_eq!(payloads(taker.cast(b"hi").unwrap()), [b"hi"]);
        let mut take = |part| taker.receive_loaded(part).map(payloads);
        assert_eq!(take(ends[2]..ends[3]), Ok(vec![]));
        assert_eq!(take(ends[2]..ends[3] + 1), Err(Refusal::NoneThere));
        assert_eq!(take(usize::MAX..usize::MAX), Err(Refusal::NoneThere));
        assert_eq!(take(0..ends[1]), Ok(["a", "bc", "def"].map(|text| text.as_bytes().to_vec()).into()));
        taker.load(&[]).unwrap();
        let events = taker.counts().events;
        assert_eq!(taker.events(events - 3..).map(|event| event.payload.len()).collect::<Vec<_>>(), [1, 2, 3]);
        assert_eq!(taker.receive_loaded(0..ends[1]).map(payloads), Err(Refusal::NoneThere));
    }
}

/// The casts come to member 1 alone, and then their sender is silent: member 2 hears of them by a status of member 1, which hands them
/// on when it is asked.
#[test]
fn what_a_silent_member_has_cast_comes_from_a_third() {
    for history_max in [100, 0] {
        let (mut silent, mut helper, mut taker) =
            (opened(0, history_max), opened(1, history_max), opened(2, history_max));
        for text in ["a", "bc", "def"] {
            assert_eq!(payloads(helper.receive(&sent(silent.cast(text.as_bytes()))[0]).unwrap()), [text.as_bytes()]);
        }
        assert!(sent(taker.help(0)).is_empty(), "it has not heard of them");
        assert!(sent(taker.receive(&sent(helper.tick())[0])).is_empty());
        let before = taker.counts();
        let help = sent(taker.help(0));
        assert_eq!((help.len(), taker.counts()), (1, before));
        assert_eq!(taker.help(0).unwrap().frames().map(|frame| frame.to).collect::<Vec<_>>(), [Some(1)]);
        for number in [2, SIZE] {
            assert_eq!(taker.help(number).map(drop), Err(Refusal::BadMember));
            assert_eq!(taker.help_among(number, &[1]).map(drop), Err(Refusal::BadMember));
        }
        assert_eq!(taker.help_among(0, &[1, SIZE]).map(drop), Err(Refusal::BadMember));
        assert!(sent(taker.help_among(0, &[0, 2])).is_empty(), "none of them is a third member");
        assert_eq!(sent(taker.help_among(0, &[2, 0, 1])), help);
        let mut answer = helper.receive(&help[0]).unwrap();
        assert!(answer.frames().all(|frame| frame.to == Some(2)));
        let payloads: Vec<_> =
            answer.frames().flat_map(|frame| payloads(taker.receive(frame.bytes).unwrap())).collect();
        assert_eq!(payloads, ["a", "bc", "def"].map(|text| text.as_bytes().to_vec()));
        assert!(sent(taker.help(0)).is_empty(), "nothing is missing");
    }
}

/// A request comes between two casts: the call ends with it, so that its answer is there to be sent.
#[test]
fn parts_are_received_in_one_call() {
    for history_max in [100, 0] {
        let (mut caster, mut asker, mut taker) =
            (opened(0, history_max), opened(2, history_max), opened(1, history_max));
        assert_eq!(sent(taker.cast(b"hi")).len(), 1);
        assert!(sent(asker.receive(&sent(taker.tick())[0])).is_empty());
        let mut ticked = asker.tick().unwrap();
        let request = ticked.frames().find(|frame| frame.to == Some(1)).unwrap().bytes.to_vec();
        let mut frames: Vec<_> =
            ["a", "bc", "def"].iter().flat_map(|text| sent(caster.cast(text.as_bytes()))).collect();
        frames.insert(2, request);
        frames.push(vec![0]);
        let lengths: Vec<_> = frames.iter().map(Vec::len).collect();
        assert_eq!(taker.receive_parts(0, &lengths).map(drop), Err(Refusal::NoneThere));
        taker.load(&frames.concat()).unwrap();
        let (taken, mut output) = taker.receive_parts(0, &lengths).unwrap();
        assert_eq!((taken, output.is_repeat(), output.is_entered()), (3, false, true));
        assert_eq!(output.frames().map(|frame| frame.to).collect::<Vec<_>>(), [Some(2)]);
        assert_eq!(payloads(output), [b"a".to_vec(), b"bc".to_vec()]);
        let first = lengths[..3].iter().sum::<usize>();
        let (taken, mut output) = taker.receive_parts(first, &lengths[3..]).unwrap();
        assert_eq!((taken, output.frames().len()), (1, 0));
        assert_eq!(payloads(output), [b"def"]);
        let (taken, mut output) = taker.receive_parts(0, &lengths[..2]).unwrap();
        assert_eq!((taken, output.is_entered(), output.events().len()), (2, false, 0), "they are repeats");
        assert_eq!(taker.receive_parts(first + lengths[3], &lengths[4..]).map(drop), Err(Refusal::Malformed));
        assert_eq!(taker.receive_parts(0, &[]).map(drop), Err(Refusal::NoneThere));
    }
}
