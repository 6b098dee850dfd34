//! The stanzas of one member, and what they do not show.

mod text;

use jolunza::{
    sender, Counts, Entry, Event, Frame, Member, Name, Output, Refusal, Sender, Settings, LONGEST_FRAME,
    LONGEST_PAYLOAD, MOST_MESSAGES,
};
use text::{bytes_of, hexadecimal, printed_time};

const STANZAS: &str = include_str!("../../../conformance/members.txt");

/// As many equal bytes as this and more are a word of their own.
const MANY: usize = 16;

fn open(group: u32, size: u32, window: u32, me: u32, history_max: usize) -> Member {
    Member::open_with_history(Settings { group, size, window, me }, history_max).unwrap()
}

/// `2 of 3 group 7 window 4`, and behind it `history 1` where the history has a limit.
fn member_of(words: &str) -> Result<Member, Refusal> {
    let numbers: Vec<u32> = words.split(' ').filter_map(|word| word.parse().ok()).collect();
    let [me, size, group, window, ..] = numbers[..] else { panic!("{words}") };
    let history_max = numbers.get(4).map_or(1_000, |limit| *limit as usize);
    Member::open_with_history(Settings { group, size, window, me }, history_max)
}

/// Words of hexadecimal; `00*1024` is a byte that stands there that often.
fn bytes_in(words: &str) -> Vec<u8> {
    let part = |word: &str| {
        let (digits, count) = word.split_once('*').unwrap_or((word, "1"));
        bytes_of(digits).repeat(count.parse().unwrap())
    };
    words.split_whitespace().flat_map(part).collect()
}

fn payload_in(word: &str) -> Vec<u8> {
    match word.strip_prefix('x') {
        Some(digits) => bytes_in(digits),
        None => word.trim_matches('"').as_bytes().to_vec(),
    }
}

fn spelled(bytes: &[u8]) -> String {
    let (mut words, mut rest) = (String::new(), bytes);
    while let Some(first) = rest.first() {
        let count = rest.iter().take_while(|byte| *byte == first).count();
        let (run, behind) = rest.split_at(count);
        words += &if count < MANY { hexadecimal(run) } else { format!(" {first:02x}*{count} ") };
        rest = behind;
    }
    words.split_whitespace().collect::<Vec<_>>().join(" ")
}

fn payload(bytes: &[u8]) -> String {
    let are_many = bytes.len() >= MANY && bytes.iter().all(|byte| *byte == bytes[0]);
    let is_plain = bytes.iter().all(|byte| (b' '..=b'~').contains(byte) && *byte != b'"' && *byte != b'\\');
    match std::str::from_utf8(bytes) {
        Ok(text) if is_plain && !are_many => format!("\"{text}\""),
        _ => format!("x{}", spelled(bytes)),
    }
}

/// The lines that a call answers; none where the library has no such call.
fn answer(member: &mut Member, call: &str) -> Option<Vec<String>> {
    let (word, rest) = call.split_once(' ').unwrap_or((call, ""));
    let done = match word {
        "cast" => cast(member, &payload_in(rest)),
        "burst" => burst(member, &rest.split_whitespace().map(payload_in).collect::<Vec<_>>()),
        "take" => take(member, &bytes_in(rest)),
        "tick" => tick(member),
        "help" if rest.contains("among") => return None,
        "help" => help(member, rest.parse().unwrap()),
        _ => Ok(read(member, word, rest)),
    };
    Some(done.unwrap_or_else(|refusal| vec![format!("{refusal:?}")]))
}

fn read(member: &mut Member, word: &str, rest: &str) -> Vec<String> {
    let of = rest.parse().unwrap_or(0);
    let line = match word {
        "time" => printed_time(&member.time()),
        "stable" if rest.is_empty() => member.stable().to_string(),
        "stable" => told(member.stable_of(of)),
        "acknowledged" => told(member.acknowledged_by(of)),
        "delivered" => member.time().get(of as usize).map_or("none".into(), u32::to_string),
        "full" => if member.keeps_window_full(of) == Ok(true) { "yes" } else { "no" }.into(),
        "waiting" => member.waiting().to_string(),
        "waits" => waits_for(member, of),
        "missing" => missing(member, of),
        "events" => return or_none(member.events(..).map(|event| message(&event)).collect()),
        "entries" => return or_none(entries(member)),
        _ => panic!("{word}"),
    };
    vec![line]
}

fn or_none(lines: Vec<String>) -> Vec<String> {
    if lines.is_empty() { vec!["none".into()] } else { lines }
}

fn cast(member: &mut Member, payload: &[u8]) -> Result<Vec<String>, Refusal> {
    let mut output = member.cast(payload)?;
    let mut events = output.events();
    let (event, rest) = (events.next().unwrap(), events.len());
    assert_eq!((event.is_own, event.payload, rest), (true, payload, 0));
    let name = format!("cast {} {}", event.name, printed_time(event.time));
    Ok(vec![name, format!("to all {}", spelled(&the_frame(&mut output)))])
}

fn burst(member: &mut Member, payloads: &[Vec<u8>]) -> Result<Vec<String>, Refusal> {
    let before = member.counts();
    let mut output = member.cast_burst(&payloads.iter().map(Vec::as_slice).collect::<Vec<_>>())?;
    assert!(output.events().all(|event| event.is_own));
    assert!(output.events().map(|event| event.payload).eq(payloads.iter().map(Vec::as_slice)));
    let first = output.events().next().map(|event| format!("cast {} {}", event.name, printed_time(event.time)));
    let frame = the_frame(&mut output);
    let counts = Counts { events: before.events + payloads.len(), entries: before.entries + 1 };
    assert_eq!(member.counts(), counts);
    Ok(vec![format!("burst of {}", payloads.len()), first.unwrap(), format!("to all {}", spelled(&frame))])
}

/// The one frame of a cast or a burst, for all others.
fn the_frame(output: &mut Output<'_>) -> Vec<u8> {
    let frames: Vec<Frame> = output.frames().collect();
    let [Frame { to: None, bytes }] = frames[..] else { panic!("{frames:?}") };
    bytes.to_vec()
}

fn changed(is_entered: bool) -> String {
    if is_entered { "changed" } else { "unchanged" }.into()
}

fn message(event: &Event<'_>) -> String {
    let mark = if event.is_own { "cast" } else { "=" };
    format!("{mark} {} {} {}", event.name, printed_time(event.time), payload(event.payload))
}

fn take(member: &mut Member, bytes: &[u8]) -> Result<Vec<String>, Refusal> {
    let before = member.counts();
    let mut output = member.receive(bytes)?;
    let (is_repeat, is_entered, delivered) = (output.is_repeat(), output.is_entered(), output.events().len());
    let mut lines = vec![changed(is_entered)];
    lines.extend(output.events().map(|event| message(&event)));
    lines.extend(frames(&mut output));
    let counts = Counts { events: before.events + delivered, entries: before.entries + usize::from(is_entered) };
    assert_eq!(member.counts(), counts);
    if is_repeat {
        assert_eq!(lines, ["unchanged"]);
        return Ok(vec!["repeat".into()]);
    }
    Ok(lines)
}

fn tick(member: &mut Member) -> Result<Vec<String>, Refusal> {
    let before = member.counts();
    let mut output = member.tick()?;
    let is_entered = output.is_entered();
    let mut lines = vec![changed(is_entered)];
    lines.extend(frames(&mut output));
    assert_eq!(output.events().len(), 0);
    assert_eq!(member.counts(), Counts { entries: before.entries + usize::from(is_entered), ..before });
    Ok(lines)
}

fn help(member: &mut Member, other: u32) -> Result<Vec<String>, Refusal> {
    let before = member.counts();
    let mut output = member.help(other)?;
    assert_eq!((output.is_entered(), output.events().len()), (false, 0));
    let lines = frames(&mut output);
    assert_eq!(member.counts(), before);
    Ok(or_none(lines))
}

fn frames(output: &mut Output<'_>) -> Vec<String> {
    let to = |to: Option<u32>| to.map_or("all".into(), |member| member.to_string());
    output.frames().map(|frame| format!("to {} {}", to(frame.to), spelled(frame.bytes))).collect()
}

/// Of who is no member there is none.
fn told(reading: Result<u32, Refusal>) -> String {
    reading.map_or("none".into(), |told| told.to_string())
}

fn waits_for(member: &Member, other: u32) -> String {
    let Ok(Some(delayed)) = member.waits_for(other) else { return "none".into() };
    let Some(awaits) = delayed.awaits else { return format!("{} awaits none", delayed.name) };
    let numbers = awaits.numbers;
    format!("{} awaits {}.{}-{}", delayed.name, awaits.sender, numbers.start(), numbers.end())
}

fn missing(member: &Member, other: u32) -> String {
    match member.missing(other) {
        Ok(ranges) if ranges.is_empty() => "none".into(),
        Ok(ranges) => {
            let ranges: Vec<String> = ranges.iter().map(|range| format!("{}-{}", range.start(), range.end())).collect();
            ranges.join(" ")
        }
        Err(refusal) => format!("{refusal:?}"),
    }
}

fn entries(member: &mut Member) -> Vec<String> {
    let mut lines = Vec::new();
    for index in 0..member.counts().entries {
        lines.push(match member.entry(index).unwrap() {
            Entry::Cast { frame } => format!("cast {}", hexadecimal(frame)),
            Entry::Tick { status } => format!("tick {}", hexadecimal(status)),
            Entry::Arrive { frame, delivered: [] } => format!("arrive {} -", hexadecimal(frame)),
            Entry::Arrive { frame, delivered } => {
                let names: String = delivered.iter().map(|name| format!(" {name}")).collect();
                format!("arrive {}{names}", hexadecimal(frame))
            }
        });
    }
    assert_eq!(member.entry(member.counts().entries), None);
    lines
}

/// A refusal without what is in brackets: the library does not tell what is wrong with bytes that are no frame.
fn shortened(line: &str) -> &str {
    line.split('(').next().filter(|word| *word == " Malformed").unwrap_or(line).trim_start()
}

/// The answers that stand behind the first line.
fn answers<'a>(lines: &[&'a str]) -> Vec<&'a str> {
    lines.iter().skip(1).take_while(|line| line.starts_with(' ')).map(|line| shortened(line)).collect()
}

#[test]
fn each_call_of_the_stanzas_has_its_answer() {
    let lines: Vec<&str> = STANZAS.lines().collect();
    let (mut member, mut calls) = (None, 0);
    for place in (0..lines.len()).filter(|place| !lines[*place].is_empty() && !lines[*place].starts_with([' ', '#'])) {
        let (call, wanted) = (lines[place], answers(&lines[place..]));
        // a history of no entries is none here
        if call.ends_with("history 0") {
            continue;
        }
        let answer = match call.strip_prefix("member ") {
            Some(words) => match member_of(words) {
                Ok(made) => {
                    member = Some(made);
                    Some(vec![])
                }
                Err(refusal) => Some(vec![format!("{refusal:?}")]),
            },
            None => answer(member.as_mut().unwrap(), call),
        };
        if let Some(answer) = answer {
            assert_eq!(answer, wanted, "{call}, line {}", place + 1);
            calls += 1;
        }
    }
    assert!(calls > 900, "{calls} calls");
}

/// Why a call was refused, or `None`.
fn refused(answer: Result<Output<'_>, Refusal>) -> Option<Refusal> {
    answer.err()
}

#[test]
fn a_payload_has_at_most_1024_bytes() {
    let mut sender = open(7, 3, 1, 0, 1);
    assert_eq!(refused(sender.cast(b"x")), None);
    assert_eq!(refused(sender.cast(&[b'x'; LONGEST_PAYLOAD + 1])), Some(Refusal::PayloadTooLong));
    assert_eq!(refused(sender.cast(b"x")), Some(Refusal::WindowFull));
    let (mut sender, mut receiver) = (open(7, 3, 4, 0, 100), open(7, 3, 4, 1, 100));
    let sent = the_frame(&mut sender.cast(&[b'x'; LONGEST_PAYLOAD]).unwrap());
    let frame = [&[17, 7, 0, 1, 0, 128, 8][..], &[b'x'; LONGEST_PAYLOAD]].concat();
    assert_eq!(sent, frame);
    let mut received = receiver.receive(&frame).unwrap();
    assert_eq!(received.events().next().unwrap().payload, [b'x'; LONGEST_PAYLOAD]);
    let longer = [&[17, 7, 0, 1, 0, 129, 8][..], &[b'x'; LONGEST_PAYLOAD + 1]].concat();
    assert_eq!(refused(receiver.receive(&longer)), Some(Refusal::Malformed));
}

#[test]
fn a_burst_has_1_to_32_payloads_of_1024_bytes_together() {
    let (bytes, most) = ([b'x'; 2 * LONGEST_PAYLOAD], LONGEST_PAYLOAD / MOST_MESSAGES);
    let mut sender = open(7, 3, 256, 0, 100);
    assert_eq!(refused(sender.cast_burst(&[])), Some(Refusal::EmptyBurst));
    assert_eq!(refused(sender.cast_burst(&[&bytes[..1]; MOST_MESSAGES + 1])), Some(Refusal::BurstTooLong));
    assert_eq!(refused(sender.cast_burst(&[&bytes[..]; 100])), Some(Refusal::BurstTooLong));
    let mut payloads = [&bytes[..most]; MOST_MESSAGES];
    payloads[5] = &bytes[..most + 1];
    assert_eq!(refused(sender.cast_burst(&payloads)), Some(Refusal::PayloadTooLong));
    payloads[31] = &bytes[..most - 1];
    assert_eq!(sender.counts().events, 0);
    let frame = the_frame(&mut sender.cast_burst(&payloads).unwrap());
    let mut receiver = open(7, 3, 256, 1, 0);
    let mut received = receiver.receive(&frame).unwrap();
    assert_eq!((received.is_entered(), received.events().len()), (true, MOST_MESSAGES));
    assert!(received.events().map(|event| event.payload).eq(payloads));
}

/// More than fit at once into what the wrapper begins with.
#[test]
fn at_most_64_frames_are_sent_again_at_once() {
    let mut member = open(7, 3, 100, 0, 100);
    for number in 1..=66 {
        assert_eq!(refused(member.cast(&[number; LONGEST_PAYLOAD])), None);
    }
    let mut answer = member.receive(b"\x13\x07\x02\x00\x01\x01\x40").unwrap();
    let frames = answer.frames();
    assert_eq!(frames.len(), 64);
    for (number, frame) in (2..).zip(frames) {
        let bytes = [&[17, 7, 0, number, 0, 128, 8][..], &[number; LONGEST_PAYLOAD]].concat();
        assert_eq!(frame, Frame { to: Some(2), bytes: &bytes });
    }
}

const GREATEST: [u8; 5] = [0xff, 0xff, 0xff, 0xff, 0x0f];

/// A frame of this kind of member 0 of group 4,294,967,295, with these bytes after 63 changes, which are the longest.
fn with_longest_changes(kind: u8, number: &[u8], carried: &[u8]) -> Vec<u8> {
    let change = |gap| [&[gap][..], &GREATEST].concat();
    let changes: Vec<Vec<u8>> = (0..63).map(|place| change(u8::from(place == 0))).collect();
    [&[kind][..], &GREATEST, &[0], number, &[63], &changes.concat(), carried].concat()
}

/// A cast whose payload is the longest.
fn longest_cast(number: &[u8]) -> Vec<u8> {
    with_longest_changes(0x11, number, &[&[0x80, 0x08][..], &[7; LONGEST_PAYLOAD]].concat())
}

/// A burst of eight payloads of 128 bytes and 24 of none.
fn longest_burst(number: &[u8]) -> Vec<u8> {
    let payload = [&[0x80, 0x01][..], &[7; 128]].concat();
    with_longest_changes(0x21, number, &[&[32][..], &payload.repeat(8), &[0; 24]].concat())
}

#[test]
fn the_longest_cast_has_1417_bytes() {
    let mut member = open(u32::MAX, 64, 1, 1, 100);
    let longest = longest_cast(&GREATEST);
    assert_eq!((longest.len(), refused(member.receive(&longest))), (1417, Some(Refusal::TooFar)));
    let first = longest_cast(&[1]);
    assert_eq!(member.receive(&first).map(|output| output.is_entered()), Ok(true));
    assert_eq!(member.entry(0), Some(Entry::Arrive { frame: &first, delivered: &[] }));
}

/// It ends at the last number.
#[test]
fn the_longest_frame_is_a_burst() {
    let mut member = open(u32::MAX, 64, 32, 1, 100);
    let longest = longest_burst(&[0xe0, 0xff, 0xff, 0xff, 0x0f]);
    assert_eq!((longest.len(), refused(member.receive(&longest))), (LONGEST_FRAME, Some(Refusal::TooFar)));
    let beyond = longest_burst(&[0xe1, 0xff, 0xff, 0xff, 0x0f]);
    assert_eq!(refused(member.receive(&beyond)), Some(Refusal::Malformed));
    let first = longest_burst(&[1]);
    assert_eq!(member.receive(&first).map(|output| output.is_entered()), Ok(true));
    assert_eq!(member.entry(0), Some(Entry::Arrive { frame: &first, delivered: &[] }));
}

/// The events are read in pieces, each at once, and from anywhere.
#[test]
fn events_are_the_same_in_pieces_of_any_length() {
    let mut member = open(7, 2, 256, 0, 1_000);
    for number in 0..200u8 {
        assert_eq!(refused(member.cast(&vec![number; usize::from(number) * 5])), None);
    }
    let own = |member: &mut Member, first: usize, last: usize| {
        let events: Vec<_> = member.events(first..last).map(|event| (event.name.number, event.payload.len())).collect();
        events
    };
    let all: Vec<_> = (0..200).map(|index: usize| (index as u32 + 1, index * 5)).collect();
    for length in [1, 3, 7, 64, 199, 200, 1_000] {
        let pieces = (0..200).step_by(length).flat_map(|first| own(&mut member, first, first + length));
        assert_eq!(pieces.collect::<Vec<_>>(), all, "by {length}");
    }
    assert_eq!(own(&mut member, 200, 300), []);
    assert_eq!(member.events(7..=7).next().unwrap().name, Name { sender: 0, number: 8 });
    assert_eq!(member.events(..).len(), 200);
    assert_eq!(member.events(5..5).len(), 0);
}

#[test]
fn each_refusal_of_opening_comes_before_the_next() {
    let fault = |size, window, me, history_max| {
        Member::open_with_history(Settings { group: 7, size, window, me }, history_max).err()
    };
    let rows = [
        (fault(1, 4, 9, 0), Some(Refusal::BadGroup)),
        (fault(65, 4, 9, 0), Some(Refusal::BadGroup)),
        (fault(3, 0, 9, 0), Some(Refusal::BadGroup)),
        (fault(3, 257, 9, 0), Some(Refusal::BadGroup)),
        (fault(3, 4, 3, 16_777_217), Some(Refusal::BadMember)),
        (fault(3, 4, 2, 16_777_217), Some(Refusal::BadLimit)),
        (fault(2, 1, 1, 0), None),
        (fault(2, 1, 1, 1), None),
        (fault(64, 256, 63, 16_777_216), None),
    ];
    for (found, expected) in rows {
        assert_eq!(found, expected);
    }
}

fn names(mut output: Output<'_>) -> Vec<Name> {
    output.events().map(|event| event.name).collect()
}

/// Without a history there is what the last call that was done added, until the next.
#[test]
fn without_a_history_the_last_call_is_shown() {
    let own = |number| Name { sender: 2, number };
    let mut member = open(7, 3, 4, 2, 0);
    assert_eq!(names(member.cast_burst(&[b"p", b"q"]).unwrap()), [own(1), own(2)]);
    assert_eq!(member.counts(), Counts { events: 2, entries: 1 });
    assert!(matches!(member.entry(0), Some(Entry::Cast { frame }) if frame.ends_with(b"\x01p\x01q")));
    member = open(7, 3, 4, 2, 0);
    assert_eq!(names(member.cast(b"a").unwrap()), [own(1)]);
    assert_eq!(names(member.cast(b"b").unwrap()), [own(2)]);
    assert_eq!(member.events(..).map(|event| event.payload.to_vec()).collect::<Vec<_>>(), [b"b"]);
    assert!(matches!(member.entry(0), Some(Entry::Cast { frame }) if frame.ends_with(b"b")));
    assert_eq!(member.entry(1), None);
    assert_eq!(member.counts(), Counts { events: 1, entries: 1 });
    // 0.2 waits for 0.1
    let (second, first) = (bytes_of("110700020001"), bytes_of("110700010001"));
    let (second, first) = ([&second[..], b"d"].concat(), [&first[..], b"c"].concat());
    assert_eq!((names(member.receive(&second).unwrap()), member.counts().events), (vec![], 0));
    let both = [1, 2].map(|number| Name { sender: 0, number });
    assert_eq!(names(member.receive(&first).unwrap()), both);
    assert_eq!(member.entry(0), Some(Entry::Arrive { frame: &first, delivered: &both }));
    assert_eq!(refused(member.receive(b"?")), Some(Refusal::Malformed));
    assert_eq!(member.events(..).len(), 2, "a refused call changes nothing");
    assert_eq!(names(member.tick().unwrap()), []);
    assert!(matches!(member.entry(0), Some(Entry::Tick { .. })));
    assert_eq!(names(member.tick().unwrap()), []);
    assert_eq!(member.entry(0), None, "the status is not new");
    assert_eq!(member.events(..).len(), 0);
}

/// The rows of the protocol's page that no frame has.
#[test]
fn bytes_that_are_no_frame_are_malformed() {
    let page = include_str!("../../../docs/PROTOCOL.md");
    let faults = "Short UnknownKind NotMinimal TooLarge BadIndex ZeroNumber ZeroDifference OwnField BadRange \
                  PayloadTooLong Trailing";
    let mut member = open(7, 3, 4, 0, 100);
    let mut rows = 0;
    for line in page.lines().filter(|line| line.starts_with("| `1") || line.starts_with("| `23")) {
        let cells: Vec<&str> = line.split(" | ").collect();
        let fault = cells[1].strip_prefix("`refused ").map(|rest| rest.trim_end_matches(['`', ' ', '|']));
        if fault.is_some_and(|fault| faults.split(' ').any(|word| word == fault)) {
            let bytes = bytes_of(&cells[0].replace(['|', '`', ' '], ""));
            assert_eq!(refused(member.receive(&bytes)), Some(Refusal::Malformed), "{line}");
            rows += 1;
        }
    }
    assert_eq!(refused(member.receive(&[])), Some(Refusal::Malformed));
    assert!(rows > 30, "{rows} rows");
}

#[test]
fn a_frame_says_whom_it_is_of() {
    let whose = |bytes: &[u8]| sender(bytes).map(|Sender { group, member }| (group, member));
    let mut member = open(300, 3, 4, 2, 0);
    assert_eq!(whose(&the_frame(&mut member.cast(b"a").unwrap())), Ok((300, 2)));
    assert_eq!(whose(&the_frame(&mut member.cast_burst(&[b"b", b"c"]).unwrap())), Ok((300, 2)));
    assert_eq!(whose(member.tick().unwrap().frames().next().unwrap().bytes), Ok((300, 2)));
    assert_eq!(whose(b"\x13\x07\x02\x00\x01\x01\x40"), Ok((7, 2)), "a request of member 2");
    for bytes in [&b""[..], b"?", b"\x13\x07\x02\x00\x01\x01\x40\x00"] {
        assert_eq!(whose(bytes), Err(Refusal::Malformed));
    }
}

#[test]
fn a_refusal_is_an_error_with_its_code() {
    let mut member = open(7, 3, 4, 0, 100);
    let refusal = member.receive(b"?").unwrap_err();
    let error: Box<dyn std::error::Error> = refusal.into();
    assert_eq!((refusal.code(), error.to_string()), (12, "the bytes are no frame: drop them".into()));
}

#[test]
fn a_member_goes_to_another_thread() {
    let mut member = open(7, 2, 4, 0, 100);
    assert_eq!(refused(member.cast(b"x")), None);
    let (member, time) = std::thread::spawn(move || (member.stable(), member.time())).join().unwrap();
    assert_eq!((member, time), (0, vec![1, 0]));
}
