//! The frames of a call, copied out of the library at once.

use crate::refusal::{answered, Refusal};
use crate::{sys, LONGEST_FRAME};
use std::slice;

/// A frame that is to be sent.
#[derive(Clone, Copy, Debug, PartialEq, Eq)]
pub struct Frame<'a> {
    /// To whom; `None` is to all others.
    pub to: Option<u32>,
    pub bytes: &'a [u8],
}

/// The frames of a call, in the order in which they are to be sent.
#[derive(Clone, Debug, Default)]
pub struct Frames<'a> {
    heads: slice::Iter<'a, sys::jolunza_frame_head>,
    bytes: &'a [u8],
}

impl<'a> Iterator for Frames<'a> {
    type Item = Frame<'a>;

    #[inline]
    fn next(&mut self) -> Option<Frame<'a>> {
        let head = self.heads.next()?;
        let (bytes, rest) = self.bytes.split_at(head.length);
        self.bytes = rest;
        Some(Frame { to: (!head.to_all).then_some(head.to), bytes })
    }

    fn size_hint(&self) -> (usize, Option<usize>) {
        self.heads.size_hint()
    }
}

impl ExactSizeIterator for Frames<'_> {}

/// Whom a frame is of.
#[derive(Clone, Copy, Debug, PartialEq, Eq, Hash)]
pub struct Sender {
    /// The number of its group.
    pub group: u32,
    /// The sender of a cast, a burst or a status; of a request or a help frame the member that asks.
    pub member: u32,
}

/// Whom a frame is of, by its bytes, which anybody can forge. A cast may come from another member than its sender: a helper sends it on.
/// `Malformed` where they are no frame; or `NoMemory`.
pub fn sender(bytes: &[u8]) -> Result<Sender, Refusal> {
    let (mut group, mut member) = (0, 0);
    answered(unsafe { sys::jolunza_sender(bytes.as_ptr(), bytes.len(), &mut group, &mut member) })?;
    Ok(Sender { group, member })
}

/// The frames of several calls, in their order.
#[derive(Debug, Default)]
pub(crate) struct FrameList {
    heads: Vec<sys::jolunza_frame_head>,
    bytes: Vec<u8>,
}

impl FrameList {
    pub fn add(&mut self, frames: Frames<'_>) {
        let length = frames.heads.clone().map(|head| head.length).sum();
        self.bytes.extend_from_slice(&frames.bytes[..length]);
        self.heads.extend(frames.heads);
    }

    pub fn all(&self) -> Frames<'_> {
        Frames { heads: self.heads.iter(), bytes: &self.bytes }
    }
}

/// The frames of a call are copied here. It grows to what the longest answer until now needed, and stays.
pub(crate) struct FrameBuffer {
    heads: Vec<sys::jolunza_frame_head>,
    bytes: Vec<u8>,
}

impl FrameBuffer {
    pub fn new() -> FrameBuffer {
        let heads = vec![sys::jolunza_frame_head::default(); 4];
        FrameBuffer { bytes: vec![0; heads.len() * LONGEST_FRAME], heads }
    }

    /// Copies the first frame of the last call, which has one. The handle is open, and no other call runs on it.
    #[inline]
    pub unsafe fn fill_one(&mut self, handle: *mut sys::jolunza_handle) -> Frames<'_> {
        let (heads, bytes) = (&mut self.heads[..1], &mut self.bytes[..LONGEST_FRAME]);
        answered(sys::jolunza_frame(handle, 0, heads.as_mut_ptr(), bytes.as_mut_ptr(), bytes.len()))
            .expect("a cast has its frame");
        Frames { heads: heads.iter(), bytes }
    }

    /// Copies all frames of the last call. The handle is open, and no other call runs on it.
    #[inline]
    pub unsafe fn fill(&mut self, handle: *mut sys::jolunza_handle) -> Frames<'_> {
        let mut frames = self.copy(handle, 0, 0);
        while frames == self.heads.len() {
            frames = self.copy_more(handle, frames);
        }
        Frames { heads: self.heads[..frames].iter(), bytes: &self.bytes }
    }

    /// The buffer is full: it becomes longer.
    #[cold]
    unsafe fn copy_more(&mut self, handle: *mut sys::jolunza_handle, frames: usize) -> usize {
        let used = self.heads.iter().map(|head| head.length).sum();
        self.heads.resize(2 * frames, Default::default());
        self.bytes.resize(2 * frames * LONGEST_FRAME, 0);
        frames + self.copy(handle, frames, used)
    }

    /// Copies those that fit after the copied ones, and returns how many.
    #[inline]
    unsafe fn copy(&mut self, handle: *mut sys::jolunza_handle, frames: usize, used: usize) -> usize {
        let (heads, bytes) = (&mut self.heads[frames..], &mut self.bytes[used..]);
        let (heads_capacity, capacity) = (heads.len(), bytes.len());
        let (heads, bytes) = (heads.as_mut_ptr(), bytes.as_mut_ptr());
        let mut count = 0;
        let code = sys::jolunza_frames(handle, frames, heads, heads_capacity, bytes, capacity, &mut count);
        answered(code).expect("an open member shows its frames");
        count
    }
}
