//! A driver set: drivers with their routines and queues, and devices over one another.

use crate::instr::{Instr, Op, INVALID_DEVICE_REQUEST, WITH_STATUS};

pub const MAX_DRIVERS: usize = 8;
pub const MAX_DEVICES: usize = 16;
pub const MAX_ROUTINES: usize = 32;
pub const MAX_QUEUES: usize = 4;
pub const MAX_CODE: usize = 1_024;
pub const MAX_STACK: u64 = 16;
pub const MAX_TURNS: u64 = 1_000;
pub const REGISTERS: usize = 16;
pub const LOCKS: usize = 8;
pub const CELLS: usize = 16;

/// The number of the routine that serves a major function which no routine serves.
pub const DEFAULT: u8 = 255;

#[derive(Clone, Copy, PartialEq, Eq)]
pub enum Sort {
    Dispatch,
    StartIo,
    Dpc,
    Cancel,
    Propagate,
    Hold,
}

/// The sorts in the order of their numbers, with their words.
pub const SORTS: [(&str, Sort); 6] = [
    ("dispatch", Sort::Dispatch),
    ("startio", Sort::StartIo),
    ("dpc", Sort::Dpc),
    ("cancel", Sort::Cancel),
    ("propagate", Sort::Propagate),
    ("hold", Sort::Hold),
];

#[derive(Clone)]
pub struct Routine {
    pub sort: Sort,
    pub code: Vec<Instr>,
}

/// A queue of a driver: the lock that guards it, and the cancel routine of its packets, if any.
#[derive(Clone, Copy)]
pub struct Queue {
    pub lock: u8,
    pub cancel: Option<u8>,
}

/// A driver: which routines serve READ, WRITE and CONTROL, its StartIo and its DPC routine, and
/// the cancel routine of its device queue.
#[derive(Clone, Default)]
pub struct Driver {
    pub routines: Vec<Routine>,
    pub queues: Vec<Queue>,
    pub majors: [Option<u8>; 3],
    pub startio: Option<u8>,
    pub dpc: Option<u8>,
    pub waiting: Option<u8>,
}

#[derive(Clone, Copy)]
pub struct Device {
    pub driver: u8,
    pub stack: u8,
    pub lower: Option<u8>,
}

#[derive(Clone, Default)]
pub struct DriverSet {
    pub drivers: Vec<Driver>,
    pub devices: Vec<Device>,
}

/// Something in which packets wait that can be cancelled: a queue, or the device queue.
#[derive(Clone, Copy, PartialEq, Eq)]
pub enum List {
    Queue(u8),
    Device,
}

impl Sort {
    pub fn number(self) -> u8 {
        SORTS.iter().position(|&(_, sort)| sort == self).unwrap_or(0) as u8
    }

    pub fn word(self) -> &'static str {
        SORTS[usize::from(self.number())].0
    }

    pub fn is_completion(self) -> bool {
        matches!(self, Sort::Propagate | Sort::Hold)
    }
}

impl Routine {
    /// What serves a major function that no routine serves.
    pub fn default_routine() -> Routine {
        let mut complete = Instr::new(Op::Complete);
        complete.operands = [0, INVALID_DEVICE_REQUEST, 0];
        let mut ret = Instr::new(Op::Ret);
        ret.operands = [WITH_STATUS, INVALID_DEVICE_REQUEST, 0];
        Routine { sort: Sort::Dispatch, code: vec![complete, ret] }
    }
}

impl Driver {
    /// The lists whose packets a routine cancels.
    pub fn cancelled_by(&self, routine: u8) -> Vec<List> {
        let queues = (0..).zip(&self.queues).filter(|(_, queue)| queue.cancel == Some(routine));
        let mut lists: Vec<List> = queues.map(|(number, _)| List::Queue(number)).collect();
        if self.waiting == Some(routine) {
            lists.push(List::Device);
        }
        lists
    }

    /// The cancel routine of a list.
    pub fn cancel_routine(&self, list: List) -> Option<u8> {
        match list {
            List::Queue(number) => self.queues[usize::from(number)].cancel,
            List::Device => self.waiting,
        }
    }

    pub fn sort_of(&self, routine: u8) -> Sort {
        self.routines[usize::from(routine)].sort
    }
}

impl DriverSet {
    pub fn driver_of(&self, device: usize) -> &Driver {
        &self.drivers[usize::from(self.devices[device].driver)]
    }

    /// The devices of a driver, each with the device under it.
    pub fn devices_of(&self, driver: usize) -> impl Iterator<Item = (&Device, Option<&Device>)> {
        let devices = self.devices.iter();
        let devices = devices.filter(move |device| usize::from(device.driver) == driver);
        devices.map(|device| (device, device.lower.map(|lower| &self.devices[usize::from(lower)])))
    }
}
