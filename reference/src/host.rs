//! A worker that serves a script alone.

use std::collections::HashMap;

use crate::machine::apply;
use crate::report::{reply_text, topped_text};
use crate::schedule::{event_line, Command};
use crate::set::DriverSet;
use crate::world::{Event, Reply, World};

const MAX_HISTORY: usize = 1_000_000;
/// A packet that there never is.
const NO_PACKET: u64 = u64::MAX;
/// The thread of the worker.
const THREAD: usize = 0;

/// What was done: the events that were stored with their replies, and the entry of each command.
struct Core {
    world: World,
    history: Vec<(Event, Reply)>,
    performed: Vec<usize>,
}

/// The lines of what comes of the commands, and the schedule of what was done.
pub struct Served {
    pub lines: String,
    pub history: String,
}

/// Serves the commands in their order: a busy thread steps, else what is due is started, else the
/// next command is performed.
pub fn serve(set: DriverSet, threads: usize, commands: &[Command]) -> Served {
    let world = World::new(set, threads);
    let mut core = Core { world, history: Vec::new(), performed: Vec::new() };
    while core.history.len() < MAX_HISTORY && core.turn(commands) {}
    Served { lines: core.lines(commands), history: core.schedule(threads) }
}

impl Core {
    /// A turn of the worker; none where nothing is left to do.
    fn turn(&mut self, commands: &[Command]) -> bool {
        if !self.world.threads[THREAD].frames.is_empty() {
            self.act(Event::Step { thread: THREAD });
        } else if let Some(event) = self.due() {
            self.act(event);
        } else if let Some(&command) = commands.get(self.performed.len()) {
            self.perform(command);
        } else {
            return false;
        }
        true
    }

    /// What is due of the least device: a packet to start before a DPC.
    fn due(&self) -> Option<Event> {
        let devices = self.world.devices.iter().enumerate();
        let mut events = devices.filter_map(|(device, state)| {
            if !state.start_list.is_empty() {
                return Some(Event::StartIo { thread: THREAD, device });
            }
            state.is_dpc_queued.then_some(Event::Dpc { thread: THREAD, device })
        });
        events.next()
    }

    /// An event of the worker's own: stored unless it waited or found nothing to do.
    fn act(&mut self, event: Event) {
        let reply = apply(&mut self.world, event);
        if !matches!(reply, Reply::Waited | Reply::Idle) {
            self.history.push((event, reply));
        }
    }

    fn perform(&mut self, command: Command) {
        let event = match command {
            Command::Request { device, major, argument } => {
                Event::Issue { thread: THREAD, device, major, argument }
            }
            Command::Cancel { request, level } => {
                let packet = self.started_by(request).unwrap_or(NO_PACKET);
                Event::Cancel { thread: THREAD, packet, level }
            }
            Command::Interrupt { device } => Event::Interrupt { device },
        };
        let reply = apply(&mut self.world, event);
        self.performed.push(self.history.len());
        self.history.push((event, reply));
    }

    /// The packet that a request's entry started.
    fn started_by(&self, request: usize) -> Option<u64> {
        match self.history[*self.performed.get(request)?] {
            (Event::Issue { .. }, Reply::Started(packet)) => Some(packet),
            _ => None,
        }
    }

    fn lines(&self, commands: &[Command]) -> String {
        let topped = self.topped();
        let mut lines = String::new();
        for (number, command) in commands.iter().enumerate() {
            let outcome = match self.performed.get(number) {
                None => "left".to_string(),
                Some(&entry) => self.outcome(command, entry, &topped),
            };
            lines += &format!("{number} {outcome}\n");
        }
        lines + &format!("history {} agrees\n", self.history.len())
    }

    /// The entries with which packets topped out, by the numbers of packets.
    fn topped(&self) -> HashMap<u64, Reply> {
        let replies = self.history.iter().map(|&(_, reply)| reply);
        let found = replies.filter_map(|reply| match reply {
            Reply::Topped { packet, .. } => Some((packet, reply)),
            _ => None,
        });
        found.collect()
    }

    fn outcome(&self, command: &Command, entry: usize, topped: &HashMap<u64, Reply>) -> String {
        let (_, reply) = self.history[entry];
        if let (Command::Request { .. }, Reply::Started(packet)) = (command, reply) {
            if let Some(&Reply::Topped { packet, status, info }) = topped.get(&packet) {
                return topped_text(packet, status, info);
            }
        }
        reply_text(&reply)
    }

    /// The history as a schedule; steps that follow one another stand on one line.
    fn schedule(&self, threads: usize) -> String {
        let mut text = format!("threads {threads}\n");
        let is_step = |&(event, _): &(Event, Reply)| matches!(event, Event::Step { .. });
        for run in self.history.chunk_by(|one, other| is_step(one) && is_step(other)) {
            match run {
                [(event, _)] => text += &event_line(event),
                steps => text += &format!("step {THREAD} {}\n", steps.len()),
            }
        }
        text
    }
}
