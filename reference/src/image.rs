//! Images: a driver set in bytes, of edition 1 or 2.

use crate::instr::{
    Form, Instr, Op, Operand, FIELDS, LOWER, NONE, RETURNS, STATUSES, WITH_STATUS,
};
use crate::set::{
    Device, Driver, DriverSet, Queue, Routine, Sort, CELLS, LOCKS, MAX_CODE, MAX_DEVICES,
    MAX_DRIVERS, MAX_QUEUES, MAX_ROUTINES, MAX_STACK, MAX_TURNS, REGISTERS, SORTS,
};

/// The first three bytes of each image.
pub const MAGIC: [u8; 3] = *b"DVB";

/// The kinds of faults, by their numbers.
const WRONG_MAGIC: usize = 1;
const TRUNCATED: usize = 2;
const TRAILING: usize = 3;
const BAD_OPCODE: usize = 4;
const OVER_LIMIT: usize = 5;

/// The bytes that are read field by field, and whether edition 1 is.
struct Reader<'a> {
    left: &'a [u8],
    is_first_edition: bool,
}

/// What a word of a routine may name: queues and routines of its driver, positions of its code.
struct Counts {
    queues: usize,
    routines: usize,
    code: usize,
}

/// The set that an image spells, or the number of its first fault.
pub fn decode(bytes: &[u8]) -> Result<DriverSet, usize> {
    let mut reader = Reader { left: bytes, is_first_edition: false };
    for expected in MAGIC {
        ensure(reader.byte()? == expected, WRONG_MAGIC)?;
    }
    let edition = reader.byte()?;
    ensure(edition == b'1' || edition == b'2', WRONG_MAGIC)?;
    reader.is_first_edition = edition == b'1';
    let drivers = reader.below(MAX_DRIVERS + 1)?;
    let devices = reader.below(MAX_DEVICES + 1)?;
    reader.zero()?;
    reader.zero()?;
    let mut set = DriverSet::default();
    for _ in 0..drivers {
        set.drivers.push(reader.driver()?);
    }
    for number in 0..devices {
        set.devices.push(reader.device(drivers, number)?);
    }
    ensure(reader.left.is_empty(), TRAILING)?;
    ensure(set.drivers.iter().all(roles_fit), OVER_LIMIT)?;
    Ok(set)
}

fn ensure(holds: bool, fault: usize) -> Result<(), usize> {
    if holds { Ok(()) } else { Err(fault) }
}

impl Reader<'_> {
    fn field(&mut self, size: usize) -> Result<&[u8], usize> {
        ensure(self.left.len() >= size, TRUNCATED)?;
        let (field, left) = self.left.split_at(size);
        self.left = left;
        Ok(field)
    }

    fn byte(&mut self) -> Result<u8, usize> {
        Ok(self.field(1)?[0])
    }

    fn zero(&mut self) -> Result<(), usize> {
        let byte = self.byte()?;
        ensure(byte == 0, BAD_OPCODE)
    }

    fn below(&mut self, count: usize) -> Result<usize, usize> {
        let number = usize::from(self.byte()?);
        ensure(number < count, OVER_LIMIT)?;
        Ok(number)
    }

    /// A number below a count, or FF for none.
    fn optional(&mut self, count: usize) -> Result<Option<u8>, usize> {
        let byte = self.byte()?;
        ensure(byte == NONE || usize::from(byte) < count, OVER_LIMIT)?;
        Ok((byte != NONE).then_some(byte))
    }

    fn driver(&mut self) -> Result<Driver, usize> {
        let routines = self.below(MAX_ROUTINES + 1)?;
        let queues = self.below(MAX_QUEUES + 1)?;
        let mut driver = Driver::default();
        for major in &mut driver.majors {
            *major = self.optional(routines)?;
        }
        driver.startio = self.optional(routines)?;
        driver.dpc = self.optional(routines)?;
        if self.is_first_edition {
            self.zero()?;
        } else {
            driver.waiting = self.optional(routines)?;
        }
        for _ in 0..queues {
            let lock = self.below(LOCKS)? as u8;
            driver.queues.push(Queue { lock, cancel: self.optional(routines)? });
        }
        for _ in 0..routines {
            driver.routines.push(self.routine(queues, routines)?);
        }
        Ok(driver)
    }

    fn routine(&mut self, queues: usize, routines: usize) -> Result<Routine, usize> {
        let sort = self.byte()?;
        let &(_, sort) = SORTS.get(usize::from(sort)).ok_or(BAD_OPCODE)?;
        self.zero()?;
        let field = self.field(2)?;
        let code = usize::from(u16::from_le_bytes([field[0], field[1]]));
        ensure(code <= MAX_CODE, OVER_LIMIT)?;
        let counts = Counts { queues, routines, code };
        let code = (0..code).map(|_| self.word(&counts)).collect::<Result<_, _>>()?;
        Ok(Routine { sort, code })
    }

    fn word(&mut self, counts: &Counts) -> Result<Instr, usize> {
        let is_first_edition = self.is_first_edition;
        let word = self.field(8)?;
        let form = Form::of_number(word[0]).ok_or(BAD_OPCODE)?;
        ensure(form.op != Op::Dequeue || !is_first_edition, BAD_OPCODE)?;
        let instr = Instr {
            op: form.op,
            operands: [word[1], word[2], word[3]],
            wide: u32::from_le_bytes([word[4], word[5], word[6], word[7]]),
        };
        unused_are_zero(form, &instr)?;
        operands_fit(form, &instr, counts)?;
        Ok(instr)
    }

    fn device(&mut self, drivers: usize, number: usize) -> Result<Device, usize> {
        let driver = self.below(drivers)? as u8;
        let stack = self.byte()?;
        ensure((1..=MAX_STACK).contains(&u64::from(stack)), OVER_LIMIT)?;
        let lower = self.optional(number)?;
        self.zero()?;
        Ok(Device { driver, stack, lower })
    }
}

/// A byte of a word that has no use is zero, and a return has one of its forms.
fn unused_are_zero(form: &Form, instr: &Instr) -> Result<(), usize> {
    let mut narrow = form.operands.iter().filter(|operand| !operand.is_wide()).count();
    if form.op == Op::Ret {
        ensure(usize::from(instr.operands[0]) < RETURNS.len(), BAD_OPCODE)?;
        narrow += usize::from([WITH_STATUS, LOWER].contains(&instr.operands[0]));
    }
    let has_wide = form.operands.iter().any(|operand| operand.is_wide());
    ensure(instr.operands[narrow..].iter().all(|&byte| byte == 0), BAD_OPCODE)?;
    ensure(has_wide || instr.wide == 0, BAD_OPCODE)
}

fn operands_fit(form: &Form, instr: &Instr, counts: &Counts) -> Result<(), usize> {
    for (place, &operand) in form.operands.iter().enumerate() {
        let number = match operand.is_wide() {
            true => instr.wide as usize,
            false => usize::from(instr.operands[place]),
        };
        ensure(fits(operand, number, instr, counts), OVER_LIMIT)?;
    }
    Ok(())
}

fn fits(operand: Operand, number: usize, instr: &Instr, counts: &Counts) -> bool {
    match operand {
        Operand::Register => number < REGISTERS,
        Operand::Lock => number < LOCKS,
        Operand::Cell | Operand::Paged => number < CELLS,
        Operand::Queue => number < counts.queues,
        Operand::Field => number < FIELDS.len(),
        Operand::Status => number < STATUSES.len(),
        Operand::Completion => number < counts.routines || number == usize::from(NONE),
        Operand::Return => match instr.operands[0] {
            WITH_STATUS => usize::from(instr.operands[1]) < STATUSES.len(),
            LOWER => usize::from(instr.operands[1]) < REGISTERS,
            _ => true,
        },
        Operand::Label => number < counts.code,
        Operand::Constant => true,
        Operand::Turns => (1..=MAX_TURNS as usize).contains(&number),
    }
}

/// Each routine in a role is of the sort for it, and packets that wait for a StartIo routine can
/// be cancelled only where there is one.
fn roles_fit(driver: &Driver) -> bool {
    let is_of = |routine: Option<u8>, sort: Sort| {
        routine.is_none_or(|routine| driver.sort_of(routine) == sort)
    };
    driver.majors.iter().all(|&routine| is_of(routine, Sort::Dispatch))
        && is_of(driver.startio, Sort::StartIo)
        && is_of(driver.dpc, Sort::Dpc)
        && is_of(driver.waiting, Sort::Cancel)
        && (driver.waiting.is_none() || driver.startio.is_some())
        && driver.queues.iter().all(|queue| is_of(queue.cancel, Sort::Cancel))
        && driver.routines.iter().flat_map(|routine| &routine.code).all(|i| call_fits(driver, i))
}

fn call_fits(driver: &Driver, instr: &Instr) -> bool {
    instr.op != Op::Call
        || instr.completion().is_none_or(|routine| driver.sort_of(routine).is_completion())
}

/// The image of a set, of edition 2.
pub fn encode(set: &DriverSet) -> Vec<u8> {
    let mut image = MAGIC.to_vec();
    image.extend([b'2', set.drivers.len() as u8, set.devices.len() as u8, 0, 0]);
    for driver in &set.drivers {
        encode_driver(driver, &mut image);
    }
    for device in &set.devices {
        image.extend([device.driver, device.stack, device.lower.unwrap_or(NONE), 0]);
    }
    image
}

fn encode_driver(driver: &Driver, image: &mut Vec<u8>) {
    image.extend([driver.routines.len() as u8, driver.queues.len() as u8]);
    image.extend(driver.majors.map(|routine| routine.unwrap_or(NONE)));
    let others = [driver.startio, driver.dpc, driver.waiting];
    image.extend(others.map(|routine| routine.unwrap_or(NONE)));
    for queue in &driver.queues {
        image.extend([queue.lock, queue.cancel.unwrap_or(NONE)]);
    }
    for routine in &driver.routines {
        image.extend([routine.sort.number(), 0]);
        image.extend((routine.code.len() as u16).to_le_bytes());
        for instr in &routine.code {
            image.push(instr.number());
            image.extend(instr.operands);
            image.extend(instr.wide.to_le_bytes());
        }
    }
}
