//! What a line of a driver text says, by itself.

use crate::instr::{Form, Instr, Operand, FIELDS, LOWER, MAJORS, NONE, RETURNS, STATUSES};
use crate::set::{Sort, CELLS, LOCKS, MAX_STACK, MAX_TURNS, REGISTERS, SORTS};
use crate::text::{label, Operands};

/// Where a line stands.
#[derive(Clone, Copy, PartialEq, Eq)]
pub enum Place {
    Outside,
    Driver,
    Routine,
}

/// An instruction with the names that stand in it.
pub struct Said<'a> {
    pub instr: Instr,
    pub label: Option<&'a str>,
    pub queue: Option<&'a str>,
    pub completion: Option<&'a str>,
}

pub enum Line<'a> {
    Driver(&'a str),
    EndDriver,
    Queue { name: &'a str, lock: u8, cancel: Option<&'a str> },
    Dispatch { major: usize, routine: &'a str },
    StartIo { routine: &'a str, cancel: Option<&'a str> },
    Dpc(&'a str),
    Routine { name: &'a str, sort: Sort },
    EndRoutine,
    Instruction { label: Option<&'a str>, said: Said<'a> },
    Device { name: &'a str, driver: &'a str, stack: u8, lower: Option<&'a str> },
}

/// What a line in its place says, and whether a number is out of its range; nothing where a word
/// may not stand there.
pub fn read<'a>(place: Place, tokens: &[&'a str]) -> Option<(Line<'a>, bool)> {
    let mut operands = Operands::new(tokens);
    let line = match place {
        Place::Outside => outside(&mut operands),
        Place::Driver => in_driver(&mut operands),
        Place::Routine => in_routine(&mut operands),
    }?;
    operands.end()?;
    Some((line, operands.out_of_range))
}

fn outside<'a>(operands: &mut Operands<'_, 'a>) -> Option<Line<'a>> {
    match operands.any()? {
        "driver" => Some(Line::Driver(operands.name()?)),
        "device" => device(operands),
        _ => None,
    }
}

fn device<'a>(operands: &mut Operands<'_, 'a>) -> Option<Line<'a>> {
    let (name, driver) = (operands.name()?, operands.name()?);
    let stack = operands.number(1, MAX_STACK)? as u8;
    Some(Line::Device { name, driver, stack, lower: operands.name_or_end()? })
}

fn in_driver<'a>(operands: &mut Operands<'_, 'a>) -> Option<Line<'a>> {
    match operands.any()? {
        "endd" => Some(Line::EndDriver),
        "queue" => queue(operands),
        "dispatch" => dispatch(operands),
        "startio" => startio(operands),
        "dpc" => Some(Line::Dpc(operands.name()?)),
        "routine" => routine(operands),
        _ => None,
    }
}

fn queue<'a>(operands: &mut Operands<'_, 'a>) -> Option<Line<'a>> {
    let (name, lock) = (operands.name()?, operands.numbered('l', LOCKS as u64)?);
    Some(Line::Queue { name, lock, cancel: operands.name_or_end()? })
}

fn dispatch<'a>(operands: &mut Operands<'_, 'a>) -> Option<Line<'a>> {
    let major = major(operands.any()?)?;
    Some(Line::Dispatch { major, routine: operands.name()? })
}

/// The place of a major function in the list of them.
pub fn major(token: &str) -> Option<usize> {
    MAJORS.iter().position(|&(word, _)| word == token)
}

fn startio<'a>(operands: &mut Operands<'_, 'a>) -> Option<Line<'a>> {
    let routine = operands.name()?;
    Some(Line::StartIo { routine, cancel: operands.name_or_end()? })
}

fn routine<'a>(operands: &mut Operands<'_, 'a>) -> Option<Line<'a>> {
    let (name, word) = (operands.name()?, operands.any()?);
    let &(_, sort) = SORTS.iter().find(|&&(known, _)| known == word)?;
    Some(Line::Routine { name, sort })
}

fn in_routine<'a>(operands: &mut Operands<'_, 'a>) -> Option<Line<'a>> {
    let first = operands.any()?;
    if first == "endr" {
        return Some(Line::EndRoutine);
    }
    let label = label(first);
    let word = if label.is_some() { operands.any()? } else { first };
    Some(Line::Instruction { label, said: instruction(word, operands)? })
}

fn instruction<'a>(word: &str, operands: &mut Operands<'_, 'a>) -> Option<Said<'a>> {
    let form = Form::of_word(word)?;
    let mut said =
        Said { instr: Instr::new(form.op), label: None, queue: None, completion: None };
    for (place, &operand) in form.operands.iter().enumerate() {
        let byte = read_operand(operand, operands, &mut said)?;
        if !operand.is_wide() {
            said.instr.operands[place] = byte;
        }
    }
    Some(said)
}

/// The byte of an operand; a wide one and names are noted.
fn read_operand<'a>(
    operand: Operand,
    operands: &mut Operands<'_, 'a>,
    said: &mut Said<'a>,
) -> Option<u8> {
    match operand {
        Operand::Register => return operands.numbered('r', REGISTERS as u64),
        Operand::Lock => return operands.numbered('l', LOCKS as u64),
        Operand::Cell => return operands.numbered('c', CELLS as u64),
        Operand::Paged => return operands.numbered('p', CELLS as u64),
        Operand::Field => return position(&FIELDS, operands.any()?),
        Operand::Status => return status(operands.any()?),
        Operand::Return => return read_return(operands, said),
        Operand::Queue => said.queue = Some(operands.name()?),
        Operand::Label => said.label = Some(operands.name()?),
        Operand::Completion => {
            said.completion = operands.name_or_end()?;
            return Some(NONE);
        }
        Operand::Constant => said.instr.wide = operands.number(0, u64::from(u32::MAX))? as u32,
        Operand::Turns => said.instr.wide = operands.number(1, MAX_TURNS)? as u32,
    }
    Some(0)
}

fn position(words: &[&str], token: &str) -> Option<u8> {
    words.iter().position(|&word| word == token).map(|place| place as u8)
}

fn status(token: &str) -> Option<u8> {
    STATUSES.iter().position(|&(word, _)| word == token).map(|place| place as u8)
}

/// The form of a return; what stands behind it is the second operand.
fn read_return<'a>(operands: &mut Operands<'_, 'a>, said: &mut Said<'a>) -> Option<u8> {
    let word = operands.any()?;
    if let Some(status) = status(word) {
        said.instr.operands[1] = status;
        return Some(0);
    }
    let form = position(&RETURNS, word)?;
    if form == LOWER {
        said.instr.operands[1] = operands.numbered('r', REGISTERS as u64)?;
    }
    Some(form)
}
