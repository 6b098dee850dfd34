//! The history of a member, entry by entry.

use crate::refusal::{answered, Refusal};
use crate::{sys, Name, LONGEST_FRAME};

/// A call that changed the member. The same calls make the same member again.
#[derive(Clone, Copy, Debug, PartialEq, Eq)]
pub enum Entry<'a> {
    Cast {
        frame: &'a [u8],
    },
    /// Received bytes, and what was delivered then.
    Arrive {
        frame: &'a [u8],
        delivered: &'a [Name],
    },
    /// A tick with news.
    Tick {
        status: &'a [u8],
    },
}

/// The place for copied bytes.
pub(crate) struct EntryBuffer {
    frame: Vec<u8>,
    names: Vec<sys::jolunza_name>,
    delivered: Vec<Name>,
}

impl EntryBuffer {
    pub fn new() -> EntryBuffer {
        EntryBuffer { frame: vec![0; LONGEST_FRAME], names: vec![Default::default(); 4], delivered: Vec::new() }
    }

    /// Copies an entry, if there is one. The handle is open, and no other call runs on it.
    pub unsafe fn fill(&mut self, handle: *mut sys::jolunza_handle, index: usize) -> Option<Entry<'_>> {
        let mut head = self.copy(handle, index)?;
        if head.delivered > self.names.len() {
            self.names.resize(head.delivered, Default::default());
            head = self.copy(handle, index)?;
        }
        let names = self.names[..head.delivered].iter();
        self.delivered.clear();
        self.delivered.extend(names.map(|name| Name { sender: name.sender, number: name.number }));
        let frame = &self.frame[..head.length];
        Some(match head.kind {
            sys::JOLUNZA_CAST => Entry::Cast { frame },
            sys::JOLUNZA_ARRIVE => Entry::Arrive { frame, delivered: &self.delivered },
            sys::JOLUNZA_TICK => Entry::Tick { status: frame },
            kind => panic!("libjolunza.a has an entry of kind {kind}, which this crate does not know"),
        })
    }

    /// Copies as much as fits.
    unsafe fn copy(&mut self, handle: *mut sys::jolunza_handle, index: usize) -> Option<sys::jolunza_entry_head> {
        let mut head = Default::default();
        let (frame, capacity) = (self.frame.as_mut_ptr(), self.frame.len());
        let (names, names_capacity) = (self.names.as_mut_ptr(), self.names.len());
        let code = sys::jolunza_entry(handle, index, &mut head, frame, capacity, names, names_capacity);
        match answered(code) {
            Err(Refusal::NoneThere) => None,
            answer => {
                answer.expect("an open member shows its history");
                Some(head)
            }
        }
    }
}
