//! The world: packets, threads with their frames, locks, and what devices have.

use std::collections::{BTreeMap, VecDeque};

use crate::set::{DriverSet, List, Routine, CELLS, DEFAULT, LOCKS, REGISTERS};

pub const MAX_LIVE: usize = 4_096;
pub const MAX_ENTRIES: usize = 4_096;
pub const MAX_FRAMES: usize = 32;
pub const DISPATCH_LEVEL: u8 = 2;

#[derive(Clone, Copy, PartialEq, Eq)]
pub enum Value {
    Blank,
    Num(u64),
    Ref(u64),
    Status(u8),
}

/// An I/O stack location; the completion routine is that of the device which set it.
#[derive(Clone, Copy)]
pub struct Location {
    pub major: usize,
    pub argument: u64,
    pub is_marked: bool,
    pub completion: Option<(usize, u8)>,
}

/// A live packet; the last of its locations is the current one.
pub struct Packet {
    pub stack: usize,
    pub locations: Vec<Location>,
    pub status: u8,
    pub info: u64,
    pub is_pending_returned: bool,
    pub is_cancelled: bool,
    pub armer: Option<(usize, List)>,
    pub is_completing: bool,
}

/// An open loop: the position behind its `loop`, and the turns that are left.
pub struct OpenLoop {
    pub body: usize,
    pub turns: u32,
}

pub struct Activation {
    pub driver: usize,
    pub routine: u8,
    pub device: usize,
    pub at: usize,
    pub registers: [Value; REGISTERS],
    pub loops: Vec<OpenLoop>,
    /// The register that is told what the lower driver returns.
    pub told: Option<u8>,
}

pub enum Frame {
    Routine(Activation),
    Walk(u64),
    Cancel { packet: u64, step: u8 },
}

/// The frames of a thread, the top one last; the level is that of the lowest one.
#[derive(Default)]
pub struct Thread {
    pub frames: Vec<Frame>,
    pub level: u8,
}

pub struct DeviceState {
    pub owners: [Option<usize>; LOCKS],
    pub cells: [u64; CELLS],
    pub paged: [u64; CELLS],
    pub queues: Vec<VecDeque<u64>>,
    pub is_busy: bool,
    pub start_list: VecDeque<u64>,
    pub device_queue: VecDeque<u64>,
    pub slot: Option<u64>,
    pub is_dpc_queued: bool,
}

/// What a bug check is about.
#[derive(Clone, Copy)]
pub enum Subject {
    Packet(u64),
    Lock(usize, u8),
    CancelLock,
    Cell(usize, u8),
}

#[derive(Clone, Copy)]
pub enum Reply {
    Started(u64),
    Stepped,
    Finished,
    Topped { packet: u64, status: u8, info: u64 },
    Waited,
    Idle,
    Refused,
    Bug(u8, Subject),
    Wrong { driver: usize, routine: u8, at: usize },
}

#[derive(Clone, Copy)]
pub enum Event {
    Issue { thread: usize, device: usize, major: usize, argument: u64 },
    Cancel { thread: usize, packet: u64, level: u8 },
    Interrupt { device: usize },
    Dpc { thread: usize, device: usize },
    StartIo { thread: usize, device: usize },
    Step { thread: usize },
}

pub struct World {
    pub set: DriverSet,
    pub threads: Vec<Thread>,
    pub packets: BTreeMap<u64, Packet>,
    pub issued: u64,
    pub cancel_owner: Option<usize>,
    pub devices: Vec<DeviceState>,
    default_routine: Routine,
}

impl World {
    /// The world in which nothing has happened.
    pub fn new(set: DriverSet, threads: usize) -> World {
        let state = |device| DeviceState {
            owners: [None; LOCKS],
            cells: [0; CELLS],
            paged: [0; CELLS],
            queues: vec![VecDeque::new(); set.driver_of(device).queues.len()],
            is_busy: false,
            start_list: VecDeque::new(),
            device_queue: VecDeque::new(),
            slot: None,
            is_dpc_queued: false,
        };
        let devices = (0..set.devices.len()).map(state).collect();
        let threads = (0..threads).map(|_| Thread::default()).collect();
        let default_routine = Routine::default_routine();
        let packets = BTreeMap::new();
        World { set, threads, packets, issued: 0, cancel_owner: None, devices, default_routine }
    }

    pub fn routine(&self, driver: usize, number: u8) -> &Routine {
        match number {
            DEFAULT => &self.default_routine,
            _ => &self.set.drivers[driver].routines[usize::from(number)],
        }
    }

    /// A frame of a routine of the device's driver; its packet is in the first register.
    pub fn activation(&self, device: usize, routine: u8, packet: Option<u64>) -> Frame {
        let mut registers = [Value::Blank; REGISTERS];
        registers[0] = packet.map_or(Value::Blank, Value::Ref);
        let driver = usize::from(self.set.devices[device].driver);
        let loops = Vec::new();
        Frame::Routine(Activation { driver, routine, device, at: 0, registers, loops, told: None })
    }

    /// The frame in which a device serves the request of a packet's current location.
    pub fn dispatch(&self, device: usize, packet: u64, major: usize) -> Frame {
        let routine = self.set.driver_of(device).majors[major].unwrap_or(DEFAULT);
        self.activation(device, routine, Some(packet))
    }

    /// What a thread has on top begins alone on it.
    pub fn begin(&mut self, thread: usize, level: u8, frame: Frame) {
        self.threads[thread] = Thread { frames: vec![frame], level };
    }

    pub fn is_topped(&self, packet: u64) -> bool {
        packet < self.issued && !self.packets.contains_key(&packet)
    }

    /// A thread that holds a lock is at DISPATCH_LEVEL.
    pub fn level(&self, thread: usize) -> u8 {
        let owners = self.devices.iter().flat_map(|device| &device.owners);
        let holds = self.cancel_owner == Some(thread) || owners.flatten().any(|&it| it == thread);
        if holds { DISPATCH_LEVEL } else { self.threads[thread].level }
    }

    /// The packet, which is touched.
    pub fn touch(&mut self, packet: u64) -> Result<&mut Packet, Reply> {
        self.packets.get_mut(&packet).ok_or(Reply::Bug(0x0A, Subject::Packet(packet)))
    }

    pub fn room_for_frame(&self, thread: usize) -> Result<(), Reply> {
        room(self.threads[thread].frames.len(), MAX_FRAMES)
    }
}

/// Whether one more fits in.
pub fn room(count: usize, most: usize) -> Result<(), Reply> {
    if count < most { Ok(()) } else { Err(Reply::Refused) }
}

impl Packet {
    pub fn new(stack: usize, major: usize, argument: u64) -> Packet {
        let first = Location { major, argument, is_marked: false, completion: None };
        Packet {
            stack,
            locations: vec![first],
            status: 0,
            info: 0,
            is_pending_returned: false,
            is_cancelled: false,
            armer: None,
            is_completing: false,
        }
    }

    pub fn current(&mut self) -> &mut Location {
        let last = self.locations.len() - 1;
        &mut self.locations[last]
    }
}
