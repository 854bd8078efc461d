//! The calls of `include/pafteis.h`, which says of each what it takes and answers.
#![allow(non_camel_case_types)]

use std::ffi::c_void;

pub const PAFTEIS_DONE: u32 = 0;
pub const PAFTEIS_REFUSED: u32 = 1;
pub const PAFTEIS_FAULTY: u32 = 2;
pub const PAFTEIS_NO_MEMORY: u32 = 3;
pub const PAFTEIS_WRONG_ARGUMENT: u32 = 4;
pub const PAFTEIS_NO_WORLD: u32 = 5;
pub const PAFTEIS_NO_ANSWER: u32 = 5;
pub const PAFTEIS_HAS_WORLD: u32 = 6;
pub const PAFTEIS_VERSION_NUMBER: u32 = 1_000_000 * number(env!("CARGO_PKG_VERSION_MAJOR"))
    + 1_000 * number(env!("CARGO_PKG_VERSION_MINOR"))
    + number(env!("CARGO_PKG_VERSION_PATCH"));

/// A number of the package's version.
const fn number(digits: &str) -> u32 {
    let (digits, mut at, mut found) = (digits.as_bytes(), 0, 0);
    while at < digits.len() {
        found = 10 * found + (digits[at] - b'0') as u32;
        at += 1;
    }
    found
}

#[repr(C)]
#[derive(Clone, Copy, Debug, Default, PartialEq, Eq)]
pub struct pafteis_verdict {
    pub line: u64,
    pub rule: u32,
    pub driver: u32,
    pub routine: u32,
    pub position: u32,
    pub text_fault: u32,
    pub image_fault: u32,
}

pub const PAFTEIS_CANCEL_LOCK: u8 = 8;
pub const PAFTEIS_ORDER: u32 = 1;
pub const PAFTEIS_CYCLE: u32 = 2;
pub const PAFTEIS_NONE: u8 = 255;

#[repr(C)]
#[derive(Clone, Copy, Debug, Default, PartialEq, Eq)]
pub struct pafteis_lock_edge {
    pub position: u32,
    pub routine: u8,
    pub held: u8,
    pub taken: u8,
}

#[repr(C)]
#[derive(Clone, Copy, Debug, Default, PartialEq, Eq)]
pub struct pafteis_lock_order {
    pub edges: u64,
    pub kind: u32,
    pub order: [u8; 9],
    pub cycle: [pafteis_lock_edge; 9],
}

#[repr(C)]
#[derive(Debug)]
pub struct pafteis_world {
    pub live: bool,
    pub inside: *mut c_void,
}

#[repr(C)]
#[derive(Debug)]
pub struct pafteis_answer {
    pub live: bool,
    pub inside: *mut c_void,
}

#[repr(C)]
#[derive(Clone, Copy, Debug, Default)]
pub struct pafteis_event {
    pub packet: u64,
    pub argument: u64,
    pub kind: u32,
    pub thread: u8,
    pub device: u8,
    pub major: u8,
    pub level: u8,
}

#[repr(C)]
#[derive(Clone, Copy, Debug, Default)]
pub struct pafteis_reply {
    pub packet: u64,
    pub info: u64,
    pub kind: u32,
    pub status: u32,
}

#[repr(C)]
#[derive(Clone, Copy, Debug, Default, PartialEq, Eq)]
pub struct pafteis_frame {
    pub packet: u64,
    pub kind: u32,
    pub position: u32,
    pub driver: u8,
    pub routine: u8,
    pub device: u8,
    pub next: u8,
}

#[repr(C)]
#[derive(Clone, Copy, Debug, Default, PartialEq, Eq)]
pub struct pafteis_thread {
    pub frames: u64,
    pub level: u32,
    pub top: pafteis_frame,
}

#[repr(C)]
#[derive(Clone, Copy, Debug, Default, PartialEq, Eq)]
pub struct pafteis_armed {
    pub kind: u8,
    pub device: u8,
    pub queue: u8,
}

#[repr(C)]
#[derive(Clone, Copy, Debug, Default, PartialEq, Eq)]
pub struct pafteis_packet {
    pub kind: u32,
    pub depth: u8,
    pub armed: pafteis_armed,
    pub cancel: bool,
    pub marks: [bool; 16],
}

#[repr(C)]
#[derive(Clone, Copy, Debug, Default, PartialEq, Eq)]
pub struct pafteis_due {
    pub start_io: bool,
    pub dpc: bool,
}

#[repr(C)]
#[derive(Clone, Copy, Debug, Default, PartialEq, Eq)]
pub struct pafteis_set {
    pub drivers: u32,
    pub devices: u32,
}

#[repr(C)]
#[derive(Clone, Copy, Debug, Default, PartialEq, Eq)]
pub struct pafteis_device_shape {
    pub driver: u8,
    pub stack: u8,
    pub lower: u8,
    pub read: u8,
    pub write: u8,
    pub control: u8,
    pub startio: u8,
    pub dpc: u8,
}

#[repr(C)]
#[derive(Clone, Copy, Debug, Default, PartialEq, Eq)]
pub struct pafteis_routine_shape {
    pub instructions: u32,
    pub certificate: u32,
    pub sort: u32,
}

#[repr(C)]
#[derive(Clone, Copy, Debug, Default, PartialEq, Eq)]
pub struct pafteis_cells {
    pub plain: [u64; 16],
    pub paged: [u64; 16],
}

#[repr(C)]
#[derive(Clone, Copy, Debug, Default, PartialEq, Eq)]
pub struct pafteis_owner {
    pub owned: bool,
    pub thread: u8,
}

#[repr(C)]
#[derive(Clone, Copy, Debug, Default, PartialEq, Eq)]
pub struct pafteis_request {
    pub argument: u64,
    pub info: u64,
    pub major: u64,
}

#[repr(C)]
#[derive(Clone, Copy, Debug, Default, PartialEq, Eq)]
pub struct pafteis_words {
    pub words: [u64; 16],
}

pub const PAFTEIS_STUCK: u32 = 1;
pub const PAFTEIS_BOUNDED: u32 = 2;
pub const PAFTEIS_FURTHER: u32 = 4;

#[repr(C)]
#[derive(Clone, Copy, Debug, PartialEq, Eq)]
pub struct pafteis_hunting {
    pub packets: u64,
    pub worlds: u64,
    pub events: u64,
    pub argument: u64,
    pub threads: u32,
    pub flags: u32,
}

impl Default for pafteis_hunting {
    /// `PAFTEIS_USUAL_HUNT`
    fn default() -> Self {
        pafteis_hunting {
            packets: 2,
            worlds: 1_000_000,
            events: 0,
            argument: 0,
            threads: 2,
            flags: 0,
        }
    }
}

pub const PAFTEIS_USUAL_TRIES: u64 = 20_000;

pub const PAFTEIS_NAME_OF_DRIVER: u32 = 1;
pub const PAFTEIS_NAME_OF_DEVICE: u32 = 2;
pub const PAFTEIS_NAME_OF_ROUTINE: u32 = 3;
pub const PAFTEIS_NAME_OF_QUEUE: u32 = 4;
pub const PAFTEIS_NAME_OF_RULE: u32 = 5;
pub const PAFTEIS_NAME_OF_STATUS: u32 = 6;
pub const PAFTEIS_NAME_OF_BUG_CHECK: u32 = 7;

#[repr(C)]
#[derive(Clone, Copy, Debug, Default, PartialEq, Eq)]
pub struct pafteis_schedule_size {
    pub events: u64,
    pub threads: u32,
}

#[repr(C)]
#[derive(Clone, Copy, Debug, Default, PartialEq, Eq)]
pub struct pafteis_schedule_fault {
    pub line: u64,
    pub kind: u32,
}

#[rustfmt::skip]
unsafe extern "C" {
    pub fn pafteis_check(set: *const u8, length: usize, verdict: *mut pafteis_verdict) -> u32;
    pub fn pafteis_order_of_locks(set: *const u8, length: usize, driver: u8, order: *mut pafteis_lock_order, verdict: *mut pafteis_verdict) -> u32;
    pub fn pafteis_shape(set: *const u8, length: usize, shape: *mut pafteis_set, verdict: *mut pafteis_verdict) -> u32;
    pub fn pafteis_device(set: *const u8, length: usize, number: u8, device: *mut pafteis_device_shape, verdict: *mut pafteis_verdict) -> u32;
    pub fn pafteis_routine(set: *const u8, length: usize, driver: u8, number: u8, routine: *mut pafteis_routine_shape, verdict: *mut pafteis_verdict) -> u32;
    pub fn pafteis_report(set: *const u8, length: usize, buffer: *mut u8, capacity: usize, needed: *mut usize) -> u32;
    pub fn pafteis_explain(set: *const u8, length: usize, extent: u32, buffer: *mut u8, capacity: usize, needed: *mut usize) -> u32;
    pub fn pafteis_explain_rule(rule: u32, buffer: *mut u8, capacity: usize, needed: *mut usize) -> u32;
    pub fn pafteis_trace(set: *const u8, length: usize, schedule: *const u8, schedule_length: usize, flags: u32, buffer: *mut u8, capacity: usize, needed: *mut usize) -> u32;
    pub fn pafteis_tell(set: *const u8, length: usize, schedule: *const u8, schedule_length: usize, flags: u32, buffer: *mut u8, capacity: usize, needed: *mut usize) -> u32;
    pub fn pafteis_draw(set: *const u8, length: usize, schedule: *const u8, schedule_length: usize, flags: u32, buffer: *mut u8, capacity: usize, needed: *mut usize) -> u32;
    pub fn pafteis_hunt(set: *const u8, length: usize, asked: *const pafteis_hunting, buffer: *mut u8, capacity: usize, needed: *mut usize) -> u32;
    pub fn pafteis_mend(set: *const u8, length: usize, tries: u64, buffer: *mut u8, capacity: usize, needed: *mut usize) -> u32;
    pub fn pafteis_name_in(text: *const u8, length: usize, kind: u32, driver: u8, number: u8, buffer: *mut u8, capacity: usize, needed: *mut usize) -> u32;
    pub fn pafteis_name_of(kind: u32, number: u32, buffer: *mut u8, capacity: usize, needed: *mut usize) -> u32;
    pub fn pafteis_schedule(schedule: *const u8, length: usize, size: *mut pafteis_schedule_size, fault: *mut pafteis_schedule_fault) -> u32;
    pub fn pafteis_list(set: *const u8, length: usize, buffer: *mut u8, capacity: usize, needed: *mut usize) -> u32;
    pub fn pafteis_rewrite(set: *const u8, length: usize, buffer: *mut u8, capacity: usize, needed: *mut usize) -> u32;
    pub fn pafteis_answer_explain(set: *const u8, length: usize, extent: u32, answer: *mut pafteis_answer, needed: *mut usize) -> u32;
    pub fn pafteis_answer_trace(set: *const u8, length: usize, schedule: *const u8, schedule_length: usize, flags: u32, answer: *mut pafteis_answer, needed: *mut usize) -> u32;
    pub fn pafteis_answer_tell(set: *const u8, length: usize, schedule: *const u8, schedule_length: usize, flags: u32, answer: *mut pafteis_answer, needed: *mut usize) -> u32;
    pub fn pafteis_answer_draw(set: *const u8, length: usize, schedule: *const u8, schedule_length: usize, flags: u32, answer: *mut pafteis_answer, needed: *mut usize) -> u32;
    pub fn pafteis_answer_hunt(set: *const u8, length: usize, asked: *const pafteis_hunting, answer: *mut pafteis_answer, needed: *mut usize) -> u32;
    pub fn pafteis_answer_mend(set: *const u8, length: usize, tries: u64, answer: *mut pafteis_answer, needed: *mut usize) -> u32;
    pub fn pafteis_answer_list(set: *const u8, length: usize, answer: *mut pafteis_answer, needed: *mut usize) -> u32;
    pub fn pafteis_answer_read(answer: *const pafteis_answer, from: usize, buffer: *mut u8, capacity: usize, count: *mut usize) -> u32;
    pub fn pafteis_answer_free(answer: *mut pafteis_answer) -> u32;
    pub fn pafteis_version_number() -> u32;
    pub fn pafteis_version(buffer: *mut u8, capacity: usize, needed: *mut usize) -> u32;
    pub fn pafteis_world_new(set: *const u8, length: usize, threads: u8, world: *mut pafteis_world, verdict: *mut pafteis_verdict) -> u32;
    pub fn pafteis_world_apply(world: *mut pafteis_world, event: *const pafteis_event, reply: *mut pafteis_reply) -> u32;
    pub fn pafteis_world_apply_all(world: *mut pafteis_world, events: *const pafteis_event, count: usize, replies: *mut pafteis_reply, room: usize, applied: *mut usize) -> u32;
    pub fn pafteis_world_steps(world: *mut pafteis_world, thread: u8, count: usize, made: *mut usize, reply: *mut pafteis_reply) -> u32;
    pub fn pafteis_world_thread(world: *const pafteis_world, number: u8, thread: *mut pafteis_thread) -> u32;
    pub fn pafteis_world_packet(world: *const pafteis_world, number: u64, packet: *mut pafteis_packet) -> u32;
    pub fn pafteis_world_due(world: *const pafteis_world, device: u8, due: *mut pafteis_due) -> u32;
    pub fn pafteis_world_reset(world: *mut pafteis_world, threads: u8) -> u32;
    pub fn pafteis_world_another(world: *const pafteis_world, threads: u8, other: *mut pafteis_world) -> u32;
    pub fn pafteis_world_cells(world: *const pafteis_world, device: u8, cells: *mut pafteis_cells) -> u32;
    pub fn pafteis_world_lock(world: *const pafteis_world, device: u8, lock: u8, owner: *mut pafteis_owner) -> u32;
    pub fn pafteis_world_request(world: *const pafteis_world, number: u64, request: *mut pafteis_request) -> u32;
    pub fn pafteis_world_words(world: *const pafteis_world, thread: u8, words: *mut pafteis_words) -> u32;
    pub fn pafteis_world_number(world: *const pafteis_world, slot: u64, number: *mut u64) -> u32;
    pub fn pafteis_world_free(world: *mut pafteis_world) -> u32;
}
