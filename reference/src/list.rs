//! The listing of a set: a text that names it.

use crate::instr::{Instr, Operand, FIELDS, LOWER, MAJORS, RETURNS, STATUSES, WITH_STATUS};
use crate::set::{Driver, DriverSet, Routine};

/// The lines of a set: each driver with its queues, its table and its routines, then the devices.
pub fn listing(set: &DriverSet) -> String {
    let mut lines = Vec::new();
    for (number, driver) in set.drivers.iter().enumerate() {
        lines.push(format!("driver d{number}"));
        driver_lines(driver, &mut lines);
        lines.push("endd".to_string());
    }
    for (number, device) in set.devices.iter().enumerate() {
        let lower = optional('v', device.lower);
        lines.push(format!("device v{number} d{} {}{lower}", device.driver, device.stack));
    }
    lines.into_iter().map(|line| line + "\n").collect()
}

/// The name of a thing behind a space, or nothing where there is none.
fn optional(letter: char, number: Option<u8>) -> String {
    number.map_or(String::new(), |number| format!(" {letter}{number}"))
}

fn driver_lines(driver: &Driver, lines: &mut Vec<String>) {
    for (number, queue) in driver.queues.iter().enumerate() {
        lines.push(format!("queue q{number} l{}{}", queue.lock, optional('f', queue.cancel)));
    }
    for (routine, (word, _)) in driver.majors.iter().zip(MAJORS) {
        lines.extend(routine.map(|number| format!("dispatch {word} f{number}")));
    }
    let waiting = optional('f', driver.waiting);
    lines.extend(driver.startio.map(|number| format!("startio f{number}{waiting}")));
    lines.extend(driver.dpc.map(|number| format!("dpc f{number}")));
    for (number, routine) in driver.routines.iter().enumerate() {
        lines.push(format!("routine f{number} {}", routine.sort.word()));
        routine_lines(routine, lines);
        lines.push("endr".to_string());
    }
}

/// The instructions of a routine; one that is jumped to has a label with its position.
fn routine_lines(routine: &Routine, lines: &mut Vec<String>) {
    for (position, instr) in routine.code.iter().enumerate() {
        let is_labelled = routine.code.iter().any(|other| other.label() == Some(position));
        let label = if is_labelled { format!("a{position}: ") } else { String::new() };
        lines.push(label + &instruction(instr));
    }
}

fn instruction(instr: &Instr) -> String {
    let mut line = instr.form().word.to_string();
    for (place, &operand) in instr.form().operands.iter().enumerate() {
        let byte = instr.operands.get(place).copied().unwrap_or(0);
        line += &match operand {
            Operand::Register => format!(" r{byte}"),
            Operand::Lock => format!(" l{byte}"),
            Operand::Cell => format!(" c{byte}"),
            Operand::Paged => format!(" p{byte}"),
            Operand::Queue => format!(" q{byte}"),
            Operand::Field => format!(" {}", FIELDS[usize::from(byte)]),
            Operand::Status => format!(" {}", STATUSES[usize::from(byte)].0),
            Operand::Completion => optional('f', instr.completion()),
            Operand::Return => returned(instr),
            Operand::Label => format!(" a{}", instr.wide),
            Operand::Constant | Operand::Turns => format!(" {}", instr.wide),
        };
    }
    line
}

fn returned(instr: &Instr) -> String {
    let [form, operand, _] = instr.operands;
    match form {
        WITH_STATUS => format!(" {}", STATUSES[usize::from(operand)].0),
        LOWER => format!(" lower r{operand}"),
        _ => format!(" {}", RETURNS[usize::from(form)]),
    }
}
