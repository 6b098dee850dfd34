//! The job of `confer expand --group 7 --size 16` in plain Rust, with std alone and no proof, written for speed: what the proved
//! program is measured against. A table reads the digits, one buffer holds the input and one the output, numbers are
//! written by hand, and no line takes memory.

use std::io::{self, Read, Write};

const GROUP: u32 = 7;
const SIZE: usize = 16;
const CHUNK: usize = 65_536;

const NO_DIGIT: u8 = 0xff;

/// The value of each byte as a hexadecimal digit, in either case.
static VALUES: [u8; 256] = {
    let mut values = [NO_DIGIT; 256];
    let mut digit = 0;
    while digit < 16 {
        values[b"0123456789abcdef"[digit] as usize] = digit as u8;
        values[b"0123456789ABCDEF"[digit] as usize] = digit as u8;
        digit += 1;
    }
    values
};

/// Whether each byte is printed as itself in a payload.
static PLAIN: [bool; 256] = {
    let mut plain = [false; 256];
    let mut byte = b' ';
    while byte <= b'~' {
        plain[byte as usize] = byte != b'"' && byte != b'\\';
        byte += 1;
    }
    plain
};

struct Cast<'a> {
    group: u32,
    sender: usize,
    number: u32,
    changes: [(u32, u32); 64],
    count: usize,
    payload: &'a [u8],
}

enum Refusal {
    Named(&'static str),
    NotNext { expected: u32, found: u32 },
}

/// The bytes that pairs of digits spell.
fn bytes_of(line: &[u8], bytes: &mut Vec<u8>) -> bool {
    bytes.clear();
    if line.len() % 2 != 0 {
        return false;
    }
    for pair in line.chunks_exact(2) {
        let (high, low) = (VALUES[pair[0] as usize], VALUES[pair[1] as usize]);
        if high | low > 15 {
            return false;
        }
        bytes.push(high << 4 | low);
    }
    true
}

fn number(bytes: &mut &[u8]) -> Result<u32, &'static str> {
    let mut value = 0u32;
    for place in 0..bytes.len() {
        let byte = bytes[place];
        if place == 4 && byte > 0x0f {
            return Err("TooLarge");
        }
        value |= u32::from(byte & 0x7f) << (7 * place);
        if byte < 0x80 {
            if byte == 0 && place > 0 {
                return Err("NotMinimal");
            }
            *bytes = &bytes[place + 1..];
            return Ok(value);
        }
    }
    Err("Short")
}

fn member(bytes: &mut &[u8]) -> Result<u32, &'static str> {
    match number(bytes)? {
        member @ 0..=63 => Ok(member),
        _ => Err("BadIndex"),
    }
}

/// Reads pairs of a gap and a value up to the end of a cast's changes or of a status's values.
fn pairs(bytes: &mut &[u8], own: Option<u32>, changes: &mut [(u32, u32); 64]) -> Result<usize, &'static str> {
    let count = number(bytes)? as usize;
    let mut least = 0u64;
    for place in 0..count {
        let field = least + u64::from(number(bytes)?);
        if field > 63 {
            return Err("BadIndex");
        }
        if Some(field as u32) == own {
            return Err("OwnField");
        }
        let amount = number(bytes)?;
        if amount == 0 {
            return Err("ZeroDifference");
        }
        changes[place] = (field as u32, amount);
        least = field + 1;
    }
    Ok(count)
}

fn cast<'a>(mut bytes: &'a [u8]) -> Result<Cast<'a>, &'static str> {
    let group = number(&mut bytes)?;
    let sender = member(&mut bytes)?;
    let message = number(&mut bytes)?;
    if message == 0 {
        return Err("ZeroNumber");
    }
    let mut changes = [(0, 0); 64];
    let count = pairs(&mut bytes, Some(sender), &mut changes)?;
    let length = number(&mut bytes)? as usize;
    if length > 1024 {
        return Err("PayloadTooLong");
    }
    if bytes.len() < length {
        return Err("Short");
    }
    if bytes.len() > length {
        return Err("Trailing");
    }
    Ok(Cast { group, sender: sender as usize, number: message, changes, count, payload: bytes })
}

/// Why a status or a request is refused.
fn no_cast(kind: u8, mut bytes: &[u8]) -> Result<&'static str, &'static str> {
    number(&mut bytes)?;
    member(&mut bytes)?;
    if kind == 0x12 {
        pairs(&mut bytes, None, &mut [(0, 0); 64])?;
    } else {
        member(&mut bytes)?;
        let count = number(&mut bytes)?;
        if count == 0 || count > 32 {
            return Err("BadRange");
        }
        let mut least = 1u64;
        for _ in 0..count {
            let first = least + u64::from(number(&mut bytes)?);
            if first > u64::from(u32::MAX) {
                return Err("BadRange");
            }
            let last = first + u64::from(number(&mut bytes)?);
            if last > u64::from(u32::MAX) {
                return Err("BadRange");
            }
            least = last + 2;
        }
    }
    if bytes.is_empty() { Ok("NotACast") } else { Err("Trailing") }
}

/// Adds what the cast says to its sender's time.
fn expand<'a>(bytes: &'a [u8], times: &mut [[u32; SIZE]; SIZE]) -> Result<Cast<'a>, Refusal> {
    let cast = match bytes.split_first() {
        None => return Err(Refusal::Named("Short")),
        Some((0x11, rest)) => cast(rest).map_err(Refusal::Named)?,
        Some((kind @ (0x12 | 0x13), rest)) => {
            let (Ok(name) | Err(name)) = no_cast(*kind, rest);
            return Err(Refusal::Named(name));
        }
        Some(_) => return Err(Refusal::Named("UnknownKind")),
    };
    if cast.group != GROUP {
        return Err(Refusal::Named("OtherGroup"));
    }
    let changes = &cast.changes[..cast.count];
    if cast.sender >= SIZE || changes.iter().any(|change| change.0 as usize >= SIZE) {
        return Err(Refusal::Named("BadMember"));
    }
    let time = &mut times[cast.sender];
    let last = time[cast.sender];
    if last.checked_add(1) != Some(cast.number) {
        return Err(Refusal::NotNext { expected: last.saturating_add(1), found: cast.number });
    }
    for (field, amount) in changes {
        let field = &mut time[*field as usize];
        *field = field.saturating_add(*amount);
    }
    time[cast.sender] = cast.number;
    Ok(cast)
}

/// The decimal digits of each number below 100, two for each.
static PAIRS: [[u8; 2]; 100] = {
    let mut pairs = [[b'0'; 2]; 100];
    let mut number = 0;
    while number < 100 {
        pairs[number] = [b'0' + (number / 10) as u8, b'0' + (number % 10) as u8];
        number += 1;
    }
    pairs
};

fn put_number(mut value: u32, out: &mut Vec<u8>) {
    let mut digits = [0; 10];
    let mut start = digits.len();
    while value >= 100 {
        start -= 2;
        digits[start..start + 2].copy_from_slice(&PAIRS[(value % 100) as usize]);
        value /= 100;
    }
    if value >= 10 {
        start -= 2;
        digits[start..start + 2].copy_from_slice(&PAIRS[value as usize]);
    } else {
        start -= 1;
        digits[start] = b'0' + value as u8;
    }
    out.extend_from_slice(&digits[start..]);
}

fn put_answer(cast: &Cast, time: &[u32; SIZE], out: &mut Vec<u8>) {
    put_number(cast.sender as u32, out);
    out.push(b'.');
    put_number(cast.number, out);
    out.extend_from_slice(b" [");
    put_number(time[0], out);
    for field in &time[1..] {
        out.push(b',');
        put_number(*field, out);
    }
    out.extend_from_slice(b"] ");
    if cast.payload.iter().all(|byte| PLAIN[*byte as usize]) {
        out.push(b'"');
        out.extend_from_slice(cast.payload);
        out.extend_from_slice(b"\"\n");
    } else {
        out.push(b'x');
        for byte in cast.payload {
            out.push(b"0123456789abcdef"[usize::from(byte >> 4)]);
            out.push(b"0123456789abcdef"[usize::from(byte & 15)]);
        }
        out.push(b'\n');
    }
}

/// What is kept between lines.
struct Expansion {
    times: [[u32; SIZE]; SIZE],
    bytes: Vec<u8>,
    out: Vec<u8>,
}

impl Expansion {
    fn answer(&mut self, line: &[u8]) {
        let refusal = if !bytes_of(line, &mut self.bytes) {
            Refusal::Named("BadHex")
        } else {
            match expand(&self.bytes, &mut self.times) {
                Ok(cast) => return put_answer(&cast, &self.times[cast.sender], &mut self.out),
                Err(refusal) => refusal,
            }
        };
        self.out.extend_from_slice(b"refused ");
        match refusal {
            Refusal::Named(name) => self.out.extend_from_slice(name.as_bytes()),
            Refusal::NotNext { expected, found } => {
                self.out.extend_from_slice(b"NotNext expected ");
                put_number(expected, &mut self.out);
                self.out.extend_from_slice(b" found ");
                put_number(found, &mut self.out);
            }
        }
        self.out.push(b'\n');
    }
}

fn main() -> io::Result<()> {
    let mut input = io::stdin().lock();
    let mut output = io::stdout().lock();
    let mut expansion = Expansion {
        times: [[0; SIZE]; SIZE],
        bytes: Vec::new(),
        out: Vec::with_capacity(4 * CHUNK),
    };
    let mut chunk = vec![0; CHUNK];
    let mut begun = Vec::new();
    loop {
        let count = input.read(&mut chunk)?;
        if count == 0 {
            break;
        }
        let mut rest = &chunk[..count];
        while let Some(end) = rest.iter().position(|byte| *byte == b'\n') {
            if begun.is_empty() {
                expansion.answer(&rest[..end]);
            } else {
                begun.extend_from_slice(&rest[..end]);
                expansion.answer(&begun);
                begun.clear();
            }
            rest = &rest[end + 1..];
        }
        begun.extend_from_slice(rest);
        output.write_all(&expansion.out)?;
        expansion.out.clear();
    }
    if !begun.is_empty() {
        expansion.answer(&begun);
        output.write_all(&expansion.out)?;
    }
    Ok(())
}
