//! Schedules and scripts.

use crate::instr::MAJORS;
use crate::lines::major;
use crate::names::{TextFault, LEX, UNKNOWN_WORD};
use crate::text::{lines, tokens, Operands};
use crate::world::Event;

/// The kinds of faults that a driver text has by other numbers.
const OUT_OF_RANGE: usize = 3;
const TOO_LONG: usize = 4;

const MAX_THREADS: u64 = 64;
const MAX_EVENTS: u64 = 1_000_000;
const MAX_COMMANDS: usize = 65_536;
/// The most that a number of a thread, a device or a level may be.
const MAX_SMALL: u64 = 255;

/// How many threads there are, and what happens.
pub struct Schedule {
    pub threads: usize,
    pub events: Vec<Event>,
}

#[derive(Clone, Copy)]
pub enum Command {
    Request { device: usize, major: usize, argument: u64 },
    Cancel { request: usize, level: u8 },
    Interrupt { device: usize },
}

/// Of each line with a token: its number and its tokens, or that it has none that may stand there.
type Numbered<'a> = (usize, Option<Vec<&'a str>>);

fn written(text: &[u8]) -> impl Iterator<Item = Numbered<'_>> {
    let numbered = lines(text).into_iter().zip(1..);
    let read = numbered.map(|(line, number)| (number, tokens(line)));
    read.filter(|(_, tokens)| tokens.as_ref().is_none_or(|tokens| !tokens.is_empty()))
}

/// Reads all operands of a line; the least kind of what is wrong with it.
fn whole<T>(
    tokens: &[&str],
    read: impl FnOnce(&mut Operands) -> Option<T>,
) -> Result<T, usize> {
    let mut operands = Operands::new(tokens);
    let value = read(&mut operands).ok_or(UNKNOWN_WORD)?;
    operands.end().ok_or(UNKNOWN_WORD)?;
    if operands.out_of_range { Err(OUT_OF_RANGE) } else { Ok(value) }
}

pub fn parse_schedule(text: &[u8]) -> Result<Schedule, TextFault> {
    let mut schedule: Option<Schedule> = None;
    for (line, tokens) in written(text) {
        add_line(&mut schedule, tokens).map_err(|kind| TextFault { kind, line })?;
    }
    let missing = TextFault { kind: UNKNOWN_WORD, line: lines(text).len() + 1 };
    schedule.ok_or(missing)
}

fn add_line(schedule: &mut Option<Schedule>, tokens: Option<Vec<&str>>) -> Result<(), usize> {
    let tokens = tokens.ok_or(LEX)?;
    match schedule {
        None => {
            let threads = whole(&tokens, threads)?;
            *schedule = Some(Schedule { threads, events: Vec::new() });
        }
        Some(schedule) => {
            let (event, count) = whole(&tokens, event)?;
            if schedule.events.len() as u64 + count > MAX_EVENTS {
                return Err(TOO_LONG);
            }
            schedule.events.extend((0..count).map(|_| event));
        }
    }
    Ok(())
}

fn threads(operands: &mut Operands) -> Option<usize> {
    match operands.any()? {
        "threads" => Some(operands.number(1, MAX_THREADS)? as usize),
        _ => None,
    }
}

fn small(operands: &mut Operands) -> Option<usize> {
    Some(operands.number(0, MAX_SMALL)? as usize)
}

/// An event, and how often it happens.
fn event(operands: &mut Operands) -> Option<(Event, u64)> {
    let word = operands.any()?;
    let first = small(operands)?;
    let event = match word {
        "issue" => Event::Issue {
            thread: first,
            device: small(operands)?,
            major: major(operands.any()?)?,
            argument: operands.number(0, u64::MAX)?,
        },
        "cancel" => Event::Cancel {
            thread: first,
            packet: operands.number(0, u64::MAX)?,
            level: small(operands)? as u8,
        },
        "interrupt" => Event::Interrupt { device: first },
        "dpc" => Event::Dpc { thread: first, device: small(operands)? },
        "startio" => Event::StartIo { thread: first, device: small(operands)? },
        "step" if operands.is_empty() => Event::Step { thread: first },
        "step" => return Some((Event::Step { thread: first }, operands.number(1, MAX_EVENTS)?)),
        _ => return None,
    };
    Some((event, 1))
}

pub fn parse_script(text: &[u8]) -> Result<Vec<Command>, TextFault> {
    let mut commands = Vec::new();
    for (line, tokens) in written(text) {
        add_command(&mut commands, tokens).map_err(|kind| TextFault { kind, line })?;
    }
    Ok(commands)
}

fn add_command(commands: &mut Vec<Command>, tokens: Option<Vec<&str>>) -> Result<(), usize> {
    let command = whole(&tokens.ok_or(LEX)?, command)?;
    if let Command::Cancel { request, .. } = command {
        if !matches!(commands.get(request), Some(Command::Request { .. })) {
            return Err(OUT_OF_RANGE);
        }
    }
    if commands.len() == MAX_COMMANDS {
        return Err(TOO_LONG);
    }
    commands.push(command);
    Ok(())
}

fn command(operands: &mut Operands) -> Option<Command> {
    match operands.any()? {
        "request" => Some(Command::Request {
            device: small(operands)?,
            major: major(operands.any()?)?,
            argument: operands.number(0, u64::MAX)?,
        }),
        "cancel" => Some(Command::Cancel {
            request: operands.number(0, u64::MAX)? as usize,
            level: small(operands)? as u8,
        }),
        "interrupt" => Some(Command::Interrupt { device: small(operands)? }),
        _ => None,
    }
}

/// The line of an event in a schedule.
pub fn event_line(event: &Event) -> String {
    match *event {
        Event::Issue { thread, device, major, argument } => {
            format!("issue {thread} {device} {} {argument}\n", MAJORS[major].0)
        }
        Event::Cancel { thread, packet, level } => format!("cancel {thread} {packet} {level}\n"),
        Event::Interrupt { device } => format!("interrupt {device}\n"),
        Event::Dpc { thread, device } => format!("dpc {thread} {device}\n"),
        Event::StartIo { thread, device } => format!("startio {thread} {device}\n"),
        Event::Step { thread } => format!("step {thread}\n"),
    }
}
