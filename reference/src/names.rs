//! A driver text read as the set that it names, or its first fault.

use std::collections::HashMap;

use crate::instr::Instr;
use crate::lines::{read, Line, Place, Said};
use crate::set::{
    Device, Driver, DriverSet, Queue, Routine, Sort, MAX_CODE, MAX_DEVICES, MAX_DRIVERS,
    MAX_QUEUES, MAX_ROUTINES,
};
use crate::text::{lines, tokens};

/// A fault of a text, a schedule or a script: its kind, and its line from 1.
pub struct TextFault {
    pub kind: usize,
    pub line: usize,
}

pub const LEX: usize = 1;
pub const UNKNOWN_WORD: usize = 2;
const DUPLICATE_NAME: usize = 3;
const UNKNOWN_NAME: usize = 4;
const OUT_OF_RANGE: usize = 5;
const UNCLOSED: usize = 6;
const OVER_LIMIT: usize = 7;

/// A name that is used, and the line on which it is.
type Use<'a> = (&'a str, usize);

/// The instructions of a routine, each with its line.
#[derive(Default)]
struct DraftRoutine<'a> {
    code: Vec<(Said<'a>, usize)>,
    labels: HashMap<&'a str, usize>,
}

/// The driver whose lines are read: its things by name, and the names that its lines use.
#[derive(Default)]
struct DraftDriver<'a> {
    queues: HashMap<&'a str, usize>,
    queue_lines: Vec<(u8, Option<Use<'a>>)>,
    majors: [Option<Use<'a>>; 3],
    startio: Option<(Use<'a>, Option<Use<'a>>)>,
    dpc: Option<Use<'a>>,
    routines: HashMap<&'a str, usize>,
    sorts: Vec<Sort>,
    drafts: Vec<DraftRoutine<'a>>,
}

/// What was read so far.
#[derive(Default)]
struct Draft<'a> {
    set: DriverSet,
    drivers: HashMap<&'a str, usize>,
    devices: HashMap<&'a str, usize>,
    open: Option<DraftDriver<'a>>,
    in_routine: bool,
    unknown: Option<usize>,
}

/// The set that a text names.
pub fn assemble(text: &[u8]) -> Result<DriverSet, TextFault> {
    let mut draft = Draft::default();
    let lines = lines(text);
    for (line, number) in lines.iter().zip(1..) {
        draft.add(line, number).map_err(|kind| TextFault { kind, line: number })?;
    }
    if draft.open.is_some() {
        return Err(TextFault { kind: UNCLOSED, line: lines.len() + 1 });
    }
    match draft.unknown {
        Some(line) => Err(TextFault { kind: UNKNOWN_NAME, line }),
        None => Ok(draft.set),
    }
}

/// Gives a thing its number by its name: refused where the name was given, or where there is no
/// room.
fn give<'a>(
    names: &mut HashMap<&'a str, usize>,
    name: &'a str,
    out_of_range: bool,
    count: usize,
    most: usize,
) -> Result<(), usize> {
    if names.contains_key(name) {
        return Err(DUPLICATE_NAME);
    }
    within(out_of_range)?;
    if count == most {
        return Err(OVER_LIMIT);
    }
    names.insert(name, count);
    Ok(())
}

fn within(out_of_range: bool) -> Result<(), usize> {
    if out_of_range { Err(OUT_OF_RANGE) } else { Ok(()) }
}

/// Fills an entry of a driver's table, which is given once.
fn fill<T>(entry: &mut Option<T>, value: T) -> Result<(), usize> {
    if entry.is_some() {
        return Err(DUPLICATE_NAME);
    }
    *entry = Some(value);
    Ok(())
}

impl<'a> Draft<'a> {
    fn place(&self) -> Place {
        match (&self.open, self.in_routine) {
            (None, _) => Place::Outside,
            (Some(_), false) => Place::Driver,
            (Some(_), true) => Place::Routine,
        }
    }

    /// Adds a line, or answers the least kind of what is wrong with it.
    fn add(&mut self, line: &'a [u8], number: usize) -> Result<(), usize> {
        let tokens = tokens(line).ok_or(LEX)?;
        if tokens.is_empty() {
            return Ok(());
        }
        let (said, out_of_range) = read(self.place(), &tokens).ok_or(UNKNOWN_WORD)?;
        match said {
            Line::Driver(name) => self.open_driver(name),
            Line::EndDriver => self.close_driver(),
            Line::Device { name, driver, stack, lower } => {
                let count = self.set.devices.len();
                give(&mut self.devices, name, out_of_range, count, MAX_DEVICES)?;
                self.add_device(driver, stack, lower, number);
                Ok(())
            }
            Line::Routine { name, sort } => self.open_routine(name, sort),
            Line::EndRoutine => {
                self.in_routine = false;
                Ok(())
            }
            inner => match &mut self.open {
                Some(driver) => driver.add(inner, out_of_range, number),
                None => Err(UNKNOWN_WORD),
            },
        }
    }

    fn open_driver(&mut self, name: &'a str) -> Result<(), usize> {
        give(&mut self.drivers, name, false, self.set.drivers.len(), MAX_DRIVERS)?;
        self.open = Some(DraftDriver::default());
        Ok(())
    }

    fn open_routine(&mut self, name: &'a str, sort: Sort) -> Result<(), usize> {
        let Some(driver) = &mut self.open else { return Err(UNKNOWN_WORD) };
        give(&mut driver.routines, name, false, driver.sorts.len(), MAX_ROUTINES)?;
        driver.sorts.push(sort);
        driver.drafts.push(DraftRoutine::default());
        self.in_routine = true;
        Ok(())
    }

    fn close_driver(&mut self) -> Result<(), usize> {
        let draft = self.open.take().unwrap_or_default();
        let mut names = Names { draft: &draft, unknown: self.unknown };
        let driver = names.driver();
        self.unknown = names.unknown;
        self.set.drivers.push(driver);
        Ok(())
    }

    /// A device stands behind its driver and the device under it.
    fn add_device(&mut self, driver: &str, stack: u8, lower: Option<&str>, line: usize) {
        let driver = self.drivers.get(driver).copied();
        let under = lower.map(|name| self.devices.get(name).copied());
        let count = self.set.devices.len();
        let is_before = |place: Option<usize>| place.is_some_and(|place| place < count);
        if driver.is_none() || !under.is_none_or(is_before) {
            self.unknown.get_or_insert(line);
        }
        let lower = under.flatten().map(|number| number as u8);
        self.set.devices.push(Device { driver: driver.unwrap_or(0) as u8, stack, lower });
    }
}

impl<'a> DraftDriver<'a> {
    /// Adds a line that stands in a driver, or in its last routine.
    fn add(&mut self, line: Line<'a>, out_of_range: bool, number: usize) -> Result<(), usize> {
        let used = |name| (name, number);
        match line {
            Line::Queue { name, lock, cancel } => {
                let count = self.queue_lines.len();
                give(&mut self.queues, name, out_of_range, count, MAX_QUEUES)?;
                self.queue_lines.push((lock, cancel.map(used)));
                Ok(())
            }
            Line::Dispatch { major, routine } => fill(&mut self.majors[major], used(routine)),
            Line::StartIo { routine, cancel } => {
                fill(&mut self.startio, (used(routine), cancel.map(used)))
            }
            Line::Dpc(routine) => fill(&mut self.dpc, used(routine)),
            Line::Instruction { label, said } => {
                let routine = self.drafts.last_mut().ok_or(UNKNOWN_WORD)?;
                routine.add(label, said, out_of_range, number)
            }
            _ => Err(UNKNOWN_WORD),
        }
    }
}

impl<'a> DraftRoutine<'a> {
    fn add(
        &mut self,
        label: Option<&'a str>,
        said: Said<'a>,
        out_of_range: bool,
        line: usize,
    ) -> Result<(), usize> {
        let position = self.code.len();
        if label.is_some_and(|label| self.labels.contains_key(label)) {
            return Err(DUPLICATE_NAME);
        }
        within(out_of_range)?;
        if position == MAX_CODE {
            return Err(OVER_LIMIT);
        }
        self.labels.extend(label.map(|label| (label, position)));
        self.code.push((said, line));
        Ok(())
    }
}

/// The names of a driver, looked up; the least line that uses one which nothing has is noted.
struct Names<'d, 'a> {
    draft: &'d DraftDriver<'a>,
    unknown: Option<usize>,
}

impl<'a> Names<'_, 'a> {
    fn note(&mut self, line: usize) {
        self.unknown = Some(self.unknown.map_or(line, |least| least.min(line)));
    }

    fn driver(&mut self) -> Driver {
        let draft = self.draft;
        let mut driver = Driver::default();
        for &(lock, cancel) in &draft.queue_lines {
            driver.queues.push(Queue { lock, cancel: self.routine(cancel, &[Sort::Cancel]) });
        }
        for (entry, &used) in driver.majors.iter_mut().zip(&draft.majors) {
            *entry = self.routine(used, &[Sort::Dispatch]);
        }
        if let Some((startio, cancel)) = draft.startio {
            driver.startio = self.routine(Some(startio), &[Sort::StartIo]);
            driver.waiting = self.routine(cancel, &[Sort::Cancel]);
        }
        driver.dpc = self.routine(draft.dpc, &[Sort::Dpc]);
        for (routine, &sort) in draft.drafts.iter().zip(&draft.sorts) {
            let code = routine.code.iter();
            let code = code.map(|(said, line)| self.instruction(routine, said, *line)).collect();
            driver.routines.push(Routine { sort, code });
        }
        driver
    }

    /// The number of a routine whose sort is one of these.
    fn routine(&mut self, used: Option<Use<'a>>, sorts: &[Sort]) -> Option<u8> {
        let (name, line) = used?;
        let number = self.draft.routines.get(name).copied();
        let fitting = number.filter(|&number| sorts.contains(&self.draft.sorts[number]));
        if fitting.is_none() {
            self.note(line);
        }
        fitting.map(|number| number as u8)
    }

    fn instruction(&mut self, routine: &DraftRoutine, said: &Said<'a>, line: usize) -> Instr {
        let mut instr = said.instr;
        if let Some(label) = said.label {
            instr.wide = self.number(routine.labels.get(label), line) as u32;
        }
        if let Some(queue) = said.queue {
            instr.operands[1] = self.number(self.draft.queues.get(queue), line) as u8;
        }
        if let Some(name) = said.completion {
            let number = self.routine(Some((name, line)), &[Sort::Propagate, Sort::Hold]);
            instr.operands[1] = number.unwrap_or(0);
        }
        instr
    }

    fn number(&mut self, found: Option<&usize>, line: usize) -> usize {
        if found.is_none() {
            self.note(line);
        }
        found.copied().unwrap_or(0)
    }
}
