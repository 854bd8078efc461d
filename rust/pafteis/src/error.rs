use crate::verdict::Refusal;
use pafteis_sys as sys;
use std::fmt;

/// Why there is no answer.
#[derive(Clone, Debug, PartialEq, Eq)]
pub enum Error {
    /// The set is refused, and an accepted one is wanted.
    Refused(Refusal),
    /// The bytes are a faulty driver text: the fault's number, and the line, from 1.
    FaultyText { fault: u32, line: u64 },
    /// The bytes are a faulty image: the fault's number.
    FaultyImage { fault: u32 },
    /// The bytes are no schedule: the fault's number, and the line, from 1.
    FaultySchedule { fault: u32, line: u64 },
    /// The set or the schedule is faulty, in the program's words.
    Faulty(String),
    /// Memory was refused.
    NoMemory,
    /// A number that names nothing.
    WrongArgument,
}

impl fmt::Display for Error {
    fn fmt(&self, out: &mut fmt::Formatter<'_>) -> fmt::Result {
        match self {
            Error::Refused(refusal) => write!(out, "{refusal}"),
            Error::FaultyText { fault, line } => write!(out, "text fault {fault} line {line}"),
            Error::FaultyImage { fault } => write!(out, "image fault {fault}"),
            Error::FaultySchedule { fault, line } => {
                write!(out, "schedule fault {fault} line {line}")
            }
            Error::Faulty(told) => write!(out, "{}", told.trim_end()),
            Error::NoMemory => write!(out, "out of memory"),
            Error::WrongArgument => write!(out, "a number that names nothing"),
        }
    }
}

impl std::error::Error for Error {}

/// Nothing where a call is done, and an error of those that any call may answer.
pub(crate) fn done(status: u32) -> Result<(), Error> {
    match status {
        sys::PAFTEIS_DONE => Ok(()),
        sys::PAFTEIS_NO_MEMORY => Err(Error::NoMemory),
        _ => Err(Error::WrongArgument),
    }
}
