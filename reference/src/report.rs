//! The lines of verdicts, replies and faults.

use crate::instr::STATUSES;
use crate::rules::RULES;
use crate::verify::Refusal;
use crate::world::{Reply, Subject};

const IMAGE_FAULTS: [&str; 5] = ["Magic", "Truncated", "Trailing", "BadOpcode", "OverLimit"];
pub const TEXT_FAULTS: [&str; 7] = [
    "Lex", "UnknownWord", "DuplicateName", "UnknownName", "OutOfRange", "Unclosed", "OverLimit",
];
pub const SCHEDULE_FAULTS: [&str; 4] = ["Lex", "UnknownWord", "OutOfRange", "TooLong"];

pub fn refusal_line(refusal: &Refusal) -> String {
    let Refusal { driver, routine, at, rule } = refusal;
    let name = RULES[usize::from(*rule) - 1];
    format!("refused V{rule} {name} driver {driver} routine {routine} at {at}\n")
}

pub fn image_fault_line(kind: usize) -> String {
    format!("image fault {kind} {}\n", IMAGE_FAULTS[kind - 1])
}

pub fn text_fault_line(what: &str, names: &[&str], kind: usize, line: usize) -> String {
    format!("{what} fault {kind} {} line {line}\n", names[kind - 1])
}

pub fn topped_text(packet: u64, status: u8, info: u64) -> String {
    let (_, code) = STATUSES[usize::from(status)];
    format!("topped {packet} 0x{code:08X} {info}")
}

pub fn reply_text(reply: &Reply) -> String {
    match *reply {
        Reply::Started(packet) => format!("started {packet}"),
        Reply::Stepped => "stepped".to_string(),
        Reply::Finished => "finished".to_string(),
        Reply::Topped { packet, status, info } => topped_text(packet, status, info),
        Reply::Waited => "waited".to_string(),
        Reply::Idle => "idle".to_string(),
        Reply::Refused => "refused".to_string(),
        Reply::Bug(code, subject) => format!("bug 0x{code:02X} {}", subject_text(subject)),
        Reply::Wrong { driver, routine, at } => format!("wrong {driver}.{routine}.{at}"),
    }
}

fn subject_text(subject: Subject) -> String {
    match subject {
        Subject::Packet(number) => format!("packet {number}"),
        Subject::Lock(device, lock) => format!("lock {device}.{lock}"),
        Subject::CancelLock => "lock cancel".to_string(),
        Subject::Cell(device, cell) => format!("cell {device}.{cell}"),
    }
}
