use crate::error::{done, Error};
use crate::verdict::judged;
use pafteis_sys as sys;
use std::cell::UnsafeCell;
use std::ptr;

pub use pafteis_sys::{
    pafteis_cells as Cells, pafteis_due as Due, pafteis_packet as Packet,
    pafteis_request as Request, pafteis_thread as Thread,
};

/// Major functions of requests.
#[derive(Clone, Copy, Debug, PartialEq, Eq)]
pub enum Major {
    Read = 3,
    Write = 4,
    Control = 14,
}

/// Levels of who calls IoCancelIrp.
#[derive(Clone, Copy, Debug, PartialEq, Eq)]
pub enum Level {
    Passive = 0,
    Apc = 1,
    Dispatch = 2,
}

/// Events, each of which is one atomic step. Threads, devices and packets are counted from 0.
#[derive(Clone, Copy, Debug, PartialEq, Eq)]
pub enum Event {
    Issue {
        thread: u8,
        device: u8,
        major: Major,
        argument: u64,
    },
    Cancel {
        thread: u8,
        packet: u64,
        level: Level,
    },
    Interrupt {
        device: u8,
    },
    Dpc {
        thread: u8,
        device: u8,
    },
    StartIo {
        thread: u8,
        device: u8,
    },
    Step {
        thread: u8,
    },
}

/// Replies. `Refused` is an event that can't be: nothing changed.
#[derive(Clone, Copy, Debug, PartialEq, Eq)]
pub enum Reply {
    Started { packet: u64 },
    Stepped,
    Finished,
    Topped { packet: u64, status: u32, info: u64 },
    Waited,
    Idle,
    Refused,
}

impl From<Event> for sys::pafteis_event {
    fn from(event: Event) -> Self {
        let empty = sys::pafteis_event::default();
        match event {
            Event::Issue {
                thread,
                device,
                major,
                argument,
            } => sys::pafteis_event {
                kind: 1,
                thread,
                device,
                major: major as u8,
                argument,
                ..empty
            },
            Event::Cancel {
                thread,
                packet,
                level,
            } => sys::pafteis_event {
                kind: 2,
                thread,
                packet,
                level: level as u8,
                ..empty
            },
            Event::Interrupt { device } => sys::pafteis_event {
                kind: 3,
                device,
                ..empty
            },
            Event::Dpc { thread, device } => sys::pafteis_event {
                kind: 4,
                thread,
                device,
                ..empty
            },
            Event::StartIo { thread, device } => sys::pafteis_event {
                kind: 5,
                thread,
                device,
                ..empty
            },
            Event::Step { thread } => sys::pafteis_event {
                kind: 6,
                thread,
                ..empty
            },
        }
    }
}

impl From<sys::pafteis_reply> for Reply {
    fn from(reply: sys::pafteis_reply) -> Self {
        let sys::pafteis_reply {
            packet,
            info,
            status,
            ..
        } = reply;
        match reply.kind {
            1 => Reply::Started { packet },
            2 => Reply::Stepped,
            3 => Reply::Finished,
            4 => Reply::Topped {
                packet,
                status,
                info,
            },
            5 => Reply::Waited,
            6 => Reply::Idle,
            _ => Reply::Refused,
        }
    }
}

/// The world of an accepted driver set, which is freed when it is dropped.
#[derive(Debug)]
pub struct World {
    // A call that only looks has it as it was when it returns, and to itself meanwhile.
    handle: UnsafeCell<sys::pafteis_world>,
}

/// A handle without a world.
fn empty() -> sys::pafteis_world {
    sys::pafteis_world {
        live: false,
        inside: ptr::null_mut(),
    }
}

// A world is in no thread's own memory, and each call wants it alone.
unsafe impl Send for World {}

impl World {
    /// Makes the world of a set, with 1 to 64 threads.
    ///
    /// # Errors
    ///
    /// `Refused`, `FaultyText`, `FaultyImage`, `WrongArgument` of another number of threads,
    /// `NoMemory`.
    pub fn new(set: &[u8], threads: u8) -> Result<World, Error> {
        let mut handle = empty();
        let mut found = sys::pafteis_verdict::default();
        let (at, length) = (set.as_ptr(), set.len());
        let status =
            unsafe { sys::pafteis_world_new(at, length, threads, &mut handle, &mut found) };
        judged(status, &found).map(|()| World {
            handle: UnsafeCell::new(handle),
        })
    }

    /// Does an event.
    pub fn apply(&mut self, event: Event) -> Reply {
        let (event, mut reply) = (event.into(), sys::pafteis_reply::default());
        let status = unsafe { sys::pafteis_world_apply(self.handle.get(), &event, &mut reply) };
        debug_assert_eq!(status, sys::PAFTEIS_DONE);
        reply.into()
    }

    /// Does events one after the other: one reply for each.
    pub fn apply_all(&mut self, events: &[Event]) -> Vec<Reply> {
        let events: Vec<sys::pafteis_event> = events.iter().map(|&event| event.into()).collect();
        let mut replies = vec![sys::pafteis_reply::default(); events.len()];
        let (mut applied, count, room) = (0, events.len(), replies.len());
        let (from, to) = (events.as_ptr(), replies.as_mut_ptr());
        let handle = self.handle.get();
        let status =
            unsafe { sys::pafteis_world_apply_all(handle, from, count, to, room, &mut applied) };
        debug_assert_eq!((status, applied), (sys::PAFTEIS_DONE, count));
        replies.into_iter().map(Reply::from).collect()
    }

    /// One step of a thread.
    pub fn step(&mut self, thread: u8) -> Reply {
        self.apply(Event::Step { thread })
    }

    /// At most so many steps of a thread, up to the first that replies otherwise than `Stepped`: how
    /// many were made, and the reply to the last of them.
    pub fn steps(&mut self, thread: u8, count: usize) -> (usize, Reply) {
        let (mut made, mut reply) = (0, sys::pafteis_reply::default());
        let handle = self.handle.get();
        let status =
            unsafe { sys::pafteis_world_steps(handle, thread, count, &mut made, &mut reply) };
        debug_assert_eq!(status, sys::PAFTEIS_DONE);
        (made, reply.into())
    }

    /// Tells of a thread.
    ///
    /// # Errors
    ///
    /// `WrongArgument` where there is none of this number.
    pub fn thread(&self, number: u8) -> Result<Thread, Error> {
        let mut found = Thread::default();
        done(unsafe { sys::pafteis_world_thread(self.handle.get(), number, &mut found) })?;
        Ok(found)
    }

    /// Tells of a packet, by the number that `Started` told: its kind is 0 where none was issued.
    pub fn packet(&self, number: u64) -> Packet {
        let mut found = Packet::default();
        unsafe { sys::pafteis_world_packet(self.handle.get(), number, &mut found) };
        found
    }

    /// Tells what is due of a device: nothing where there is none of this number.
    pub fn due(&self, device: u8) -> Due {
        let mut found = Due::default();
        unsafe { sys::pafteis_world_due(self.handle.get(), device, &mut found) };
        found
    }

    /// The number cells of a device.
    ///
    /// # Errors
    ///
    /// `WrongArgument` where there is none of this number; so have the calls below, of a lock and
    /// of a packet that is live.
    pub fn cells(&self, device: u8) -> Result<Cells, Error> {
        let mut found = Cells::default();
        done(unsafe { sys::pafteis_world_cells(self.handle.get(), device, &mut found) })?;
        Ok(found)
    }

    /// The thread that owns a spin lock of a device, 0 to 7, or the system cancel spin lock,
    /// `CANCEL_LOCK`, if one does.
    pub fn owner(&self, device: u8, lock: u8) -> Result<Option<u8>, Error> {
        let mut found = sys::pafteis_owner::default();
        done(unsafe { sys::pafteis_world_lock(self.handle.get(), device, lock, &mut found) })?;
        Ok(found.owned.then_some(found.thread))
    }

    /// What is asked with a live packet.
    pub fn request(&self, packet: u64) -> Result<Request, Error> {
        let mut found = Request::default();
        done(unsafe { sys::pafteis_world_request(self.handle.get(), packet, &mut found) })?;
        Ok(found)
    }

    /// The words in the registers r0 to r15 of the routine on the top of a thread. A word doesn't
    /// say what it is: a number stands as itself, a status as its value, a packet as its slot.
    ///
    /// # Errors
    ///
    /// `WrongArgument` where no routine stands there; so has the call below, of an empty slot.
    pub fn words(&self, thread: u8) -> Result<[u64; 16], Error> {
        let mut found = sys::pafteis_words::default();
        done(unsafe { sys::pafteis_world_words(self.handle.get(), thread, &mut found) })?;
        Ok(found.words)
    }

    /// The number of the live packet in a slot.
    pub fn number(&self, slot: u64) -> Result<u64, Error> {
        let mut found = 0;
        done(unsafe { sys::pafteis_world_number(self.handle.get(), slot, &mut found) })?;
        Ok(found)
    }

    /// Begins anew: before the first event, with so many threads.
    ///
    /// # Errors
    ///
    /// `WrongArgument` of another number of threads, `NoMemory`: the world is as it was then.
    pub fn reset(&mut self, threads: u8) -> Result<(), Error> {
        done(unsafe { sys::pafteis_world_reset(self.handle.get(), threads) })
    }

    /// Another world of the same set, before its first event.
    ///
    /// # Errors
    ///
    /// As `reset`.
    pub fn another(&self, threads: u8) -> Result<World, Error> {
        let mut handle = empty();
        done(unsafe { sys::pafteis_world_another(self.handle.get(), threads, &mut handle) })?;
        Ok(World {
            handle: UnsafeCell::new(handle),
        })
    }
}

impl Drop for World {
    fn drop(&mut self) {
        unsafe { sys::pafteis_world_free(self.handle.get()) };
    }
}
