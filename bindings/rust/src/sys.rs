//! The functions of libjolunza.a, as bindings/c/jolunza.h declares them. bindings/check_header.py compares the two.

#![allow(non_camel_case_types)]

use std::ffi::c_void;

pub const JOLUNZA_LONGEST_PAYLOAD: usize = 1024;
pub const JOLUNZA_LONGEST_FRAME: usize = 1456;
pub const JOLUNZA_MOST_MEMBERS: usize = 64;
pub const JOLUNZA_MOST_MESSAGES: usize = 32;
pub const JOLUNZA_LONGEST_LINE: usize = 226_425;

pub const JOLUNZA_DONE: u32 = 0;
pub const JOLUNZA_CLOSED: u32 = 1;
pub const JOLUNZA_NO_MEMORY: u32 = 2;
pub const JOLUNZA_BAD_GROUP: u32 = 3;
pub const JOLUNZA_BAD_MEMBER: u32 = 4;
pub const JOLUNZA_BAD_LIMIT: u32 = 5;
pub const JOLUNZA_PAYLOAD_TOO_LONG: u32 = 6;
pub const JOLUNZA_WINDOW_FULL: u32 = 7;
pub const JOLUNZA_HISTORY_FULL: u32 = 8;
pub const JOLUNZA_OTHER_GROUP: u32 = 9;
pub const JOLUNZA_IMPOSSIBLE: u32 = 10;
pub const JOLUNZA_TOO_FAR: u32 = 11;
pub const JOLUNZA_MALFORMED: u32 = 12;
pub const JOLUNZA_NONE_THERE: u32 = 13;
pub const JOLUNZA_OVERLAP: u32 = 14;
pub const JOLUNZA_EMPTY_BURST: u32 = 15;
pub const JOLUNZA_BURST_TOO_LONG: u32 = 16;
pub const JOLUNZA_NO_HEAD: u32 = 17;
pub const JOLUNZA_BAD_LINE: u32 = 18;
pub const JOLUNZA_TOO_LONG: u32 = 19;
pub const JOLUNZA_NOT_LEGAL: u32 = 20;

#[repr(C)]
#[derive(Debug)]
pub struct jolunza_handle {
    pub at: *mut c_void,
    pub is_open: bool,
}

#[repr(C)]
#[derive(Clone, Copy, Debug, Default)]
pub struct jolunza_counts {
    pub frames: usize,
    pub events: usize,
    pub entries: usize,
}

#[repr(C)]
#[derive(Clone, Copy, Debug, Default)]
pub struct jolunza_received {
    pub is_repeat: bool,
    pub is_entered: bool,
    pub delivered: usize,
}

#[repr(C)]
#[derive(Clone, Copy, Debug, Default)]
pub struct jolunza_frame_head {
    pub to_all: bool,
    pub to: u32,
    pub length: usize,
}

#[repr(C)]
#[derive(Clone, Copy, Debug, Default)]
pub struct jolunza_event_head {
    pub is_own: bool,
    pub sender: u32,
    pub number: u32,
    pub length: usize,
}

pub const JOLUNZA_CAST: u32 = 0;
pub const JOLUNZA_ARRIVE: u32 = 1;
pub const JOLUNZA_TICK: u32 = 2;

#[repr(C)]
#[derive(Clone, Copy, Debug, Default)]
pub struct jolunza_entry_head {
    pub kind: u32,
    pub length: usize,
    pub delivered: usize,
}

#[repr(C)]
#[derive(Clone, Copy, Debug, Default)]
pub struct jolunza_name {
    pub sender: u32,
    pub number: u32,
}

#[repr(C)]
#[derive(Clone, Copy, Debug, Default)]
pub struct jolunza_range {
    pub first: u32,
    pub last: u32,
}

#[repr(C)]
#[derive(Clone, Copy, Debug, Default)]
pub struct jolunza_delayed {
    pub is_ready: bool,
    pub number: u32,
    pub sender: u32,
    pub first: u32,
    pub last: u32,
}

#[repr(C)]
#[derive(Clone, Copy, Debug, Default)]
pub struct jolunza_journal {
    pub group: u32,
    pub size: u32,
    pub window: u32,
    pub me: u32,
    pub entries: usize,
    pub read: usize,
    pub line: usize,
}

extern "C" {
    pub fn jolunza_open(
        handle: *mut jolunza_handle,
        group: u32,
        size: u32,
        window: u32,
        me: u32,
        history_max: usize,
    ) -> u32;

    pub fn jolunza_close(handle: *mut jolunza_handle);

    pub fn jolunza_cast(handle: *mut jolunza_handle, payload: *const u8, length: usize) -> u32;

    pub fn jolunza_cast_burst(
        handle: *mut jolunza_handle,
        payloads: *const u8,
        length: usize,
        lengths: *const usize,
        count: usize,
    ) -> u32;

    pub fn jolunza_receive(
        handle: *mut jolunza_handle,
        bytes: *const u8,
        length: usize,
        received: *mut jolunza_received,
    ) -> u32;

    pub fn jolunza_load(handle: *mut jolunza_handle, bytes: *const u8, length: usize) -> u32;

    pub fn jolunza_receive_loaded(
        handle: *mut jolunza_handle,
        first: usize,
        length: usize,
        received: *mut jolunza_received,
    ) -> u32;

    pub fn jolunza_receive_parts(
        handle: *mut jolunza_handle,
        first: usize,
        lengths: *const usize,
        count: usize,
        taken: *mut usize,
    ) -> u32;

    pub fn jolunza_tick(handle: *mut jolunza_handle) -> u32;

    pub fn jolunza_help(handle: *mut jolunza_handle, member: u32) -> u32;

    pub fn jolunza_help_among(
        handle: *mut jolunza_handle,
        member: u32,
        members: *const u32,
        count: usize,
    ) -> u32;

    pub fn jolunza_count(handle: *mut jolunza_handle, counts: *mut jolunza_counts) -> u32;

    pub fn jolunza_frame(
        handle: *mut jolunza_handle,
        index: usize,
        head: *mut jolunza_frame_head,
        bytes: *mut u8,
        capacity: usize,
    ) -> u32;

    pub fn jolunza_frames(
        handle: *mut jolunza_handle,
        first: usize,
        heads: *mut jolunza_frame_head,
        heads_capacity: usize,
        bytes: *mut u8,
        capacity: usize,
        count: *mut usize,
    ) -> u32;

    pub fn jolunza_event(
        handle: *mut jolunza_handle,
        index: usize,
        head: *mut jolunza_event_head,
        payload: *mut u8,
        capacity: usize,
        time: *mut u32,
        time_capacity: usize,
    ) -> u32;

    pub fn jolunza_events(
        handle: *mut jolunza_handle,
        first: usize,
        heads: *mut jolunza_event_head,
        heads_capacity: usize,
        payloads: *mut u8,
        capacity: usize,
        times: *mut u32,
        times_capacity: usize,
        count: *mut usize,
    ) -> u32;

    pub fn jolunza_entry(
        handle: *mut jolunza_handle,
        index: usize,
        head: *mut jolunza_entry_head,
        frame: *mut u8,
        capacity: usize,
        delivered: *mut jolunza_name,
        delivered_capacity: usize,
    ) -> u32;

    pub fn jolunza_time(handle: *mut jolunza_handle, time: *mut u32, capacity: usize) -> u32;

    pub fn jolunza_stable(handle: *mut jolunza_handle, count: *mut u32) -> u32;

    pub fn jolunza_stable_of(handle: *mut jolunza_handle, member: u32, count: *mut u32) -> u32;

    pub fn jolunza_acknowledged_by(handle: *mut jolunza_handle, member: u32, count: *mut u32) -> u32;

    pub fn jolunza_keeps_window_full(handle: *mut jolunza_handle, member: u32, full: *mut bool) -> u32;

    pub fn jolunza_waiting(handle: *mut jolunza_handle, count: *mut u32) -> u32;

    pub fn jolunza_waits_for(handle: *mut jolunza_handle, member: u32, delayed: *mut jolunza_delayed) -> u32;

    pub fn jolunza_missing(
        handle: *mut jolunza_handle,
        member: u32,
        ranges: *mut jolunza_range,
        capacity: usize,
        count: *mut usize,
    ) -> u32;

    pub fn jolunza_resume(
        handle: *mut jolunza_handle,
        bytes: *const u8,
        length: usize,
        history_max: usize,
        journal: *mut jolunza_journal,
    ) -> u32;

    pub fn jolunza_journal_head(handle: *mut jolunza_handle, text: *mut u8, capacity: usize, length: *mut usize)
        -> u32;

    pub fn jolunza_journal_line(
        handle: *mut jolunza_handle,
        index: usize,
        text: *mut u8,
        capacity: usize,
        length: *mut usize,
    ) -> u32;

    pub fn jolunza_sender(bytes: *const u8, length: usize, group: *mut u32, member: *mut u32) -> u32;
}
