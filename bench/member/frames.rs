//! The frames of a group: how their numbers are read and written, what a cast adds to a time, where the payloads stand.

use std::sync::Arc;

/// The bytes of a frame, which all that keep it share.
pub type Frame = Arc<[u8]>;

pub const CAST: u8 = 0x11;
pub const BURST: u8 = 0x21;
pub const STATUS: u8 = 0x12;
pub const REQUEST: u8 = 0x13;
pub const HELP: u8 = 0x23;

pub const GROUP: u32 = 7;
pub const LONGEST_PAYLOAD: usize = 1024;
pub const MOST_MESSAGES: usize = 32;
pub const MOST_RANGES: usize = 32;
pub const MOST_FRAMES: usize = 64;

#[derive(Clone, Copy, Debug, PartialEq, Eq)]
pub enum Fault {
    Short,
    UnknownKind,
    NotMinimal,
    TooLarge,
    BadIndex,
    ZeroNumber,
    ZeroDifference,
    OwnField,
    BadRange,
    EmptyBurst,
    BurstTooLong,
    PayloadTooLong,
    Trailing,
}

// ---- numbers

pub fn put(frame: &mut Vec<u8>, mut value: u32) {
    while value >= 0x80 {
        frame.push(value as u8 | 0x80);
        value >>= 7;
    }
    frame.push(value as u8);
}

pub fn number(bytes: &mut &[u8]) -> Result<u32, Fault> {
    match *bytes {
        [byte, rest @ ..] if *byte < 0x80 => {
            *bytes = rest;
            Ok(u32::from(*byte))
        }
        [low, high, rest @ ..] if (1..0x80).contains(high) => {
            *bytes = rest;
            Ok(u32::from(low & 0x7f) | u32::from(*high) << 7)
        }
        _ => long_number(bytes),
    }
}

#[cold]
fn long_number(bytes: &mut &[u8]) -> Result<u32, Fault> {
    let mut value = 0;
    for (place, byte) in bytes.iter().enumerate() {
        if place == 4 && *byte > 0x0f {
            return Err(Fault::TooLarge);
        }
        value |= u32::from(byte & 0x7f) << (7 * place);
        if *byte < 0x80 {
            if *byte == 0 && place > 0 {
                return Err(Fault::NotMinimal);
            }
            *bytes = &bytes[place + 1..];
            return Ok(value);
        }
    }
    Err(Fault::Short)
}

pub fn member(bytes: &mut &[u8]) -> Result<usize, Fault> {
    match number(bytes)? {
        member @ 0..=63 => Ok(member as usize),
        _ => Err(Fault::BadIndex),
    }
}

pub fn is_end(bytes: &[u8]) -> Result<(), Fault> {
    if bytes.is_empty() { Ok(()) } else { Err(Fault::Trailing) }
}

// ---- times

/// The counts of a time, and a bound that no field is above.
#[derive(Clone, Copy)]
pub struct Counts<const FIELDS: usize> {
    pub fields: [u32; FIELDS],
    pub bound: u32,
}

/// Below this bound an amount of one byte is added without a look at overflow. No member delivers as many messages.
const SMALL: u32 = 1 << 30;

impl<const FIELDS: usize> Counts<FIELDS> {
    pub const ZERO: Counts<FIELDS> = Counts { fields: [0; FIELDS], bound: 0 };

    /// Adds pairs of a gap and an amount, where each has one byte and all else is as it should be, else nothing that is of use. Says
    /// how many fields the group must have for them.
    pub fn add_quickly(&mut self, bytes: &mut &[u8]) -> Option<usize> {
        let (count, rest) = bytes.split_first()?;
        if *count >= 0x80 || !self.is_small() {
            return None;
        }
        let (mut pairs, rest) = rest.split_at_checked(2 * usize::from(*count))?;
        let mut least = 0;
        while !pairs.is_empty() {
            let count = without_gaps(pairs);
            let (these, others) = pairs.split_at(2 * count);
            let fields = self.fields.get_mut(least..least + count)?;
            for (field, pair) in fields.iter_mut().zip(these.as_chunks::<2>().0) {
                *field += u32::from(u16::from_le_bytes(*pair) >> 8);
            }
            least += count;
            let (these, others) = others.split_at(others.len().min(8));
            for [gap, amount] in these.as_chunks::<2>().0 {
                if (*gap | *amount) >= 0x80 || *amount == 0 {
                    return None;
                }
                least += usize::from(*gap);
                *self.fields.get_mut(least)? += u32::from(*amount);
                least += 1;
            }
            pairs = others;
        }
        self.bound += 0x7f;
        *bytes = rest;
        Some(least)
    }

    /// The same for all pairs.
    fn add(&mut self, bytes: &mut &[u8], own: usize) -> Result<usize, Fault> {
        let mut rest = *bytes;
        let count = number(&mut rest)?;
        let mut least = 0;
        for _ in 0..count {
            let field = least + u64::from(number(&mut rest)?);
            if field > 63 {
                return Err(Fault::BadIndex);
            }
            if field == own as u64 {
                return Err(Fault::OwnField);
            }
            let amount = number(&mut rest)?;
            if amount == 0 {
                return Err(Fault::ZeroDifference);
            }
            if let Some(sum) = self.fields.get_mut(field as usize) {
                *sum = sum.saturating_add(amount);
                self.bound = self.bound.max(*sum);
            }
            least = field + 1;
        }
        *bytes = rest;
        Ok(least as usize)
    }

    /// From the time `before` of the sender's cast before, with which it begins, to that of a cast. Says how many fields the group must
    /// have.
    pub fn expand(&mut self, before: &Counts<FIELDS>, bytes: &mut &[u8], sender: usize) -> Result<usize, Fault> {
        let pairs = *bytes;
        match self.add_quickly(bytes) {
            Some(fields) if self.fields.get(sender) == before.fields.get(sender) => Ok(fields),
            _ => {
                *self = *before;
                *bytes = pairs;
                self.add(bytes, sender)
            }
        }
    }

    /// The sender's own field becomes the number of its first message, and the bound holds up to its last one.
    pub fn count_own(&mut self, sender: usize, numbers: Numbers) {
        self.fields[sender] = numbers.first;
        self.bound = self.bound.max(numbers.last);
    }

    pub fn is_small(&self) -> bool {
        self.bound < SMALL
    }
}

/// The first field in which the time is ahead, where there is none before `from`, and no field of `now` is large. First looks at all
/// fields at once, where those of the time are small.
#[inline(always)]
pub fn next_ahead<const FIELDS: usize>(time: &[u32; FIELDS], is_small: bool, now: &[u32; FIELDS], from: usize) -> Option<usize> {
    let differences = time.iter().zip(now).map(|(field, now)| now.wrapping_sub(*field));
    if differences.fold(0, |all, difference| all | difference) >> 31 == 0 && is_small {
        return None;
    }
    (from..FIELDS).find(|place| time[*place] > now[*place])
}

/// Reads pairs of a gap and a value. Says how many fields the group must have for them.
#[inline(always)]
fn read_values<const FIELDS: usize>(bytes: &mut &[u8], values: &mut [u32; FIELDS]) -> Result<usize, Fault> {
    let mut rest = *bytes;
    let count = number(&mut rest)?;
    let mut least = 0;
    for _ in 0..count {
        let (gap, value) = match rest {
            [gap, low, high, others @ ..] if (*gap | *high) < 0x80 && *low >= 0x80 && *high > 0 => {
                rest = others;
                (u64::from(*gap), u32::from(*low & 0x7f) | u32::from(*high) << 7)
            }
            _ => {
                let gap = u64::from(number(&mut rest)?);
                if least + gap > 63 {
                    return Err(Fault::BadIndex);
                }
                (gap, number(&mut rest)?)
            }
        };
        let field = least + gap;
        if field > 63 {
            return Err(Fault::BadIndex);
        }
        if value == 0 {
            return Err(Fault::ZeroDifference);
        }
        if let Some(kept) = values.get_mut(field as usize) {
            *kept = value;
        }
        least = field + 1;
    }
    *bytes = rest;
    Ok(least as usize)
}

/// How many pairs there are, a multiple of four, before the first ones that have a gap, no amount or more than two bytes.
fn without_gaps(pairs: &[u8]) -> usize {
    let eights = pairs.as_chunks::<8>().0;
    let end = eights.iter().position(|eight| {
        let word = u64::from_le_bytes(*eight);
        (word | word.wrapping_sub(0x0100_0100_0100_0100)) & 0x80ff_80ff_80ff_80ff != 0
    });
    4 * end.unwrap_or(eights.len())
}

// ---- casts and bursts

/// The first and the last number of the messages in a frame.
#[derive(Clone, Copy)]
pub struct Numbers {
    pub first: u32,
    pub last: u32,
}

impl Numbers {
    pub fn count(&self) -> u32 {
        self.last - self.first + 1
    }
}

/// The frame of some messages of one sender.
pub struct Unit {
    pub numbers: Numbers,
    pub frame: Frame,
}

impl Unit {
    /// Whether one of its numbers is in one of these ranges.
    pub fn is_in(&self, ranges: &[Numbers]) -> bool {
        ranges.iter().any(|range| range.first <= self.numbers.last && self.numbers.first <= range.last)
    }
}

pub struct CastHead {
    pub group: u32,
    pub sender: usize,
    pub first: u32,
}

pub fn cast_head(bytes: &mut &[u8]) -> Result<CastHead, Fault> {
    let group = number(bytes)?;
    let sender = member(bytes)?;
    let first = number(bytes)?;
    if first == 0 {
        return Err(Fault::ZeroNumber);
    }
    Ok(CastHead { group, sender, first })
}

/// The place of a payload in its frame.
#[derive(Clone, Copy, Default)]
#[allow(dead_code)]
pub struct Place {
    pub start: u16,
    pub length: u16,
}

/// Finds the payloads, which end the frame, and says how many there are.
#[inline(always)]
pub fn read_payloads(frame: &[u8], bytes: &[u8], first: u32, places: &mut [Place; MOST_MESSAGES]) -> Result<usize, Fault> {
    if frame[0] == BURST {
        return read_burst(frame, bytes, first, places);
    }
    let mut rest = bytes;
    let length = payload_length(&mut rest, LONGEST_PAYLOAD)?;
    is_end(&rest[length..])?;
    places[0] = Place { start: (frame.len() - length) as u16, length: length as u16 };
    Ok(1)
}

#[inline(never)]
fn read_burst(frame: &[u8], bytes: &[u8], first: u32, places: &mut [Place; MOST_MESSAGES]) -> Result<usize, Fault> {
    let mut rest = bytes;
    let count = number(&mut rest)?;
    if count == 0 {
        return Err(Fault::EmptyBurst);
    }
    if count as usize > MOST_MESSAGES || first.checked_add(count - 1).is_none() {
        return Err(Fault::BurstTooLong);
    }
    let mut room = LONGEST_PAYLOAD;
    for place in &mut places[..count as usize] {
        let length = payload_length(&mut rest, room)?;
        room -= length;
        *place = Place { start: (frame.len() - rest.len()) as u16, length: length as u16 };
        rest = &rest[length..];
    }
    is_end(rest)?;
    Ok(count as usize)
}

/// The length of a payload that is there.
fn payload_length(bytes: &mut &[u8], most: usize) -> Result<usize, Fault> {
    let length = number(bytes)? as usize;
    if length > most {
        return Err(Fault::PayloadTooLong);
    }
    if bytes.len() < length {
        return Err(Fault::Short);
    }
    Ok(length)
}

// ---- statuses, requests and help frames

pub struct Status<const FIELDS: usize> {
    pub group: u32,
    pub sender: usize,
    pub values: [u32; FIELDS],
    /// How many fields the group must have for the values.
    pub fields: usize,
}

#[inline(always)]
pub fn read_status<const FIELDS: usize>(mut bytes: &[u8]) -> Result<Status<FIELDS>, Fault> {
    let group = number(&mut bytes)?;
    let sender = member(&mut bytes)?;
    let (mut values, pairs) = (Counts::<FIELDS>::ZERO, bytes);
    let fields = match values.add_quickly(&mut bytes) {
        Some(fields) => fields,
        None => {
            (values.fields, bytes) = ([0; FIELDS], pairs);
            read_values(&mut bytes, &mut values.fields)?
        }
    };
    is_end(bytes)?;
    Ok(Status { group, sender, values: values.fields, fields })
}

/// The ranges that a request or a help frame asks for.
pub struct Ranges {
    ranges: [Numbers; MOST_RANGES],
    count: usize,
}

impl Ranges {
    pub fn as_slice(&self) -> &[Numbers] {
        &self.ranges[..self.count]
    }

    /// From the first number that is asked for to the last one.
    pub fn span(&self) -> Numbers {
        Numbers { first: self.ranges[0].first, last: self.ranges[self.count - 1].last }
    }
}

/// Reads the ranges, which end the frame.
pub fn read_ranges(mut bytes: &[u8]) -> Result<Ranges, Fault> {
    let count = number(&mut bytes)? as usize;
    if count == 0 || count > MOST_RANGES {
        return Err(Fault::BadRange);
    }
    let mut ranges = [Numbers { first: 0, last: 0 }; MOST_RANGES];
    let mut least = 1;
    for range in &mut ranges[..count] {
        let first = least + u64::from(number(&mut bytes)?);
        if first > u64::from(u32::MAX) {
            return Err(Fault::BadRange);
        }
        let last = first + u64::from(number(&mut bytes)?);
        if last > u64::from(u32::MAX) {
            return Err(Fault::BadRange);
        }
        *range = Numbers { first: first as u32, last: last as u32 };
        least = last + 2;
    }
    is_end(bytes)?;
    Ok(Ranges { ranges, count })
}
