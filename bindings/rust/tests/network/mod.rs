//! A network in memory that loses, repeats and reorders frames by chance: the same for the same seed.

use jolunza::Frame;

/// A generator of numbers by chance (splitmix64).
#[derive(Debug)]
pub struct Dice(pub u64);

impl Dice {
    /// From 0 up to, and not including, the end.
    pub fn below(&mut self, end: u64) -> u64 {
        self.0 = self.0.wrapping_add(0x9e37_79b9_7f4a_7c15);
        let mut mixed = self.0;
        mixed = (mixed ^ mixed >> 30).wrapping_mul(0xbf58_476d_1ce4_e5b9);
        mixed = (mixed ^ mixed >> 27).wrapping_mul(0x94d0_49bb_1331_11eb);
        (mixed ^ mixed >> 31) % end
    }
}

pub struct Network {
    size: u32,
    on_the_way: Vec<(u32, Vec<u8>)>,
    dice: Dice,
    /// Nothing is lost any more.
    pub is_good: bool,
    pub lost: usize,
    pub repeated: usize,
    pub overtaken: usize,
}

impl std::fmt::Debug for Network {
    fn fmt(&self, f: &mut std::fmt::Formatter<'_>) -> std::fmt::Result {
        write!(f, "{} lost, {} repeated, {} overtaken", self.lost, self.repeated, self.overtaken)
    }
}

impl Network {
    pub fn new(size: u32, seed: u64) -> Network {
        let dice = Dice(seed << 32);
        Network { size, on_the_way: Vec::new(), dice, is_good: false, lost: 0, repeated: 0, overtaken: 0 }
    }

    /// One frame in five is lost.
    pub fn send(&mut self, from: u32, frame: Frame<'_>) {
        let all = (0..self.size).filter(|member| *member != from);
        for to in frame.to.map_or_else(|| all.collect(), |to| vec![to]) {
            if !self.is_good && self.dice.below(5) == 0 {
                self.lost += 1;
            } else {
                self.on_the_way.push((to, frame.bytes.to_vec()));
            }
        }
    }

    /// One of the next ten frames, whichever; one in ten comes once more.
    pub fn take(&mut self) -> Option<(u32, Vec<u8>)> {
        let place = self.dice.below(self.on_the_way.len().clamp(1, 10) as u64) as usize;
        if place > 0 {
            self.overtaken += 1;
        }
        if self.dice.below(10) == 0 {
            self.repeated += 1;
            return self.on_the_way.get(place).cloned();
        }
        (place < self.on_the_way.len()).then(|| self.on_the_way.remove(place))
    }

    pub fn is_empty(&self) -> bool {
        self.on_the_way.is_empty()
    }
}
