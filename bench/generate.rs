//! Makes some 60 MB of in-order cast frames of 16 senders in group 7, a frame in hexadecimal a line, from a fixed seed.

use std::io::{self, BufWriter, Write};

const SENDERS: usize = 16;
const BYTES: usize = 60_000_000;

/// A xorshift generator: the same numbers on every machine.
struct Random(u64);

impl Random {
    fn next(&mut self) -> u64 {
        self.0 ^= self.0 << 13;
        self.0 ^= self.0 >> 7;
        self.0 ^= self.0 << 17;
        self.0
    }

    fn below(&mut self, end: u64) -> u64 {
        (self.next() >> 11) % end
    }
}

fn put_number(frame: &mut Vec<u8>, mut value: u32) {
    while value >= 0x80 {
        frame.push((value & 0x7f) as u8 | 0x80);
        value >>= 7;
    }
    frame.push(value as u8);
}

fn main() -> io::Result<()> {
    let mut out = BufWriter::new(io::stdout().lock());
    let mut random = Random(0x1991_0803_1978_0707);
    // What each sender has cast, what each has delivered of each, and what it had at its previous cast.
    let mut cast = [0u32; SENDERS];
    let mut delivered = [[0u32; SENDERS]; SENDERS];
    let mut previous = [[0u32; SENDERS]; SENDERS];
    let mut written = 0;
    while written < BYTES {
        let sender = random.below(SENDERS as u64) as usize;
        for other in 0..SENDERS {
            if other != sender && random.below(3) == 0 {
                delivered[sender][other] = cast[other];
            }
        }
        cast[sender] += 1;
        let mut frame = vec![0x11, 7, sender as u8];
        put_number(&mut frame, cast[sender]);
        let changed: Vec<usize> = (0..SENDERS)
            .filter(|other| *other != sender && delivered[sender][*other] > previous[sender][*other])
            .collect();
        put_number(&mut frame, changed.len() as u32);
        let mut least = 0;
        for other in changed {
            put_number(&mut frame, (other - least) as u32);
            put_number(&mut frame, delivered[sender][other] - previous[sender][other]);
            least = other + 1;
        }
        previous[sender] = delivered[sender];
        let length = random.below(48) as u32;
        put_number(&mut frame, length);
        for _ in 0..length {
            frame.push(b'a' + random.below(26) as u8);
        }
        let mut line = String::with_capacity(2 * frame.len() + 1);
        for byte in &frame {
            line.push_str(&format!("{byte:02x}"));
        }
        line.push('\n');
        out.write_all(line.as_bytes())?;
        written += line.len();
    }
    out.flush()
}
