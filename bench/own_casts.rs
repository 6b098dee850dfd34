//! The duties of a member that knows no more of others than it needs for its own window, and can't help them.

use crate::member::Duties;
use crate::member::frames::{Frame, Numbers, Unit};

/// How many own casts each other member is known to have delivered.
pub struct OwnCasts<const FIELDS: usize> {
    size: usize,
    me: usize,
    /// The member itself stands at the greatest number.
    acknowledged: [u32; FIELDS],
}

impl<const FIELDS: usize> Duties<FIELDS> for OwnCasts<FIELDS> {
    const HELPS: bool = false;
    const RESERVES: bool = false;

    fn new(size: usize, _: u32, me: usize) -> OwnCasts<FIELDS> {
        let mut acknowledged = [0; FIELDS];
        acknowledged[me] = u32::MAX;
        OwnCasts { size, me, acknowledged }
    }

    fn stable(&self) -> u32 {
        self.acknowledged[..self.size].iter().copied().min().unwrap_or(0)
    }

    fn keep(&mut self, _: usize, _: Numbers, _: &Frame) {}

    #[inline(always)]
    fn deliver(&mut self, sender: usize, time: &[u32; FIELDS]) {
        self.acknowledged[sender] = self.acknowledged[sender].max(time[self.me]);
    }

    #[inline(always)]
    fn is_news(&self, sender: usize, values: &[u32; FIELDS]) -> bool {
        values[self.me] > self.acknowledged[sender]
    }

    #[inline(always)]
    fn hear(&mut self, sender: usize, values: &[u32; FIELDS]) {
        self.deliver(sender, values);
    }

    fn handed_on(&self, _: usize, _: u32) -> impl Iterator<Item = &Unit> {
        std::iter::empty()
    }
}
