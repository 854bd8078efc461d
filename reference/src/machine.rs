//! The machine: what each event does to a world, with every test.

use crate::set::Sort;
use crate::steps;
use crate::world::{Event, Frame, Packet, Reply, Subject, Thread, World, DISPATCH_LEVEL, MAX_LIVE};

/// Carries out an event. After a bug check or a wrong operand no other one is to follow.
pub fn apply(world: &mut World, event: Event) -> Reply {
    let done = match event {
        Event::Issue { thread, device, major, argument } => {
            issue(world, thread, device, major, argument)
        }
        Event::Cancel { thread, packet, level } => cancel(world, thread, packet, level),
        Event::Interrupt { device } => interrupt(world, device),
        Event::Dpc { thread, device } => dpc(world, thread, device),
        Event::StartIo { thread, device } => startio(world, thread, device),
        Event::Step { thread } => step(world, thread),
    };
    done.unwrap_or_else(|reply| reply)
}

fn ensure(holds: bool) -> Result<(), Reply> {
    if holds { Ok(()) } else { Err(Reply::Refused) }
}

/// The thread is there, and has no frames.
fn ensure_idle(world: &World, thread: usize) -> Result<(), Reply> {
    ensure(world.threads.get(thread).is_some_and(|thread| thread.frames.is_empty()))
}

fn issue(
    world: &mut World,
    thread: usize,
    device: usize,
    major: usize,
    argument: u64,
) -> Result<Reply, Reply> {
    ensure_idle(world, thread)?;
    ensure(device < world.devices.len())?;
    ensure(world.packets.len() < MAX_LIVE && world.issued < u64::MAX)?;
    let number = world.issued;
    let stack = usize::from(world.set.devices[device].stack);
    world.packets.insert(number, Packet::new(stack, major, argument));
    world.issued += 1;
    let frame = world.dispatch(device, number, major);
    world.begin(thread, 0, frame);
    Ok(Reply::Started(number))
}

fn cancel(world: &mut World, thread: usize, packet: u64, level: u8) -> Result<Reply, Reply> {
    ensure_idle(world, thread)?;
    ensure(packet < world.issued && level <= DISPATCH_LEVEL)?;
    if world.is_topped(packet) {
        return Ok(Reply::Finished);
    }
    world.begin(thread, level, Frame::Cancel { packet, step: 1 });
    Ok(Reply::Started(packet))
}

fn interrupt(world: &mut World, device: usize) -> Result<Reply, Reply> {
    ensure(device < world.devices.len() && world.set.driver_of(device).dpc.is_some())?;
    let is_queued = std::mem::replace(&mut world.devices[device].is_dpc_queued, true);
    Ok(if is_queued { Reply::Idle } else { Reply::Stepped })
}

fn dpc(world: &mut World, thread: usize, device: usize) -> Result<Reply, Reply> {
    ensure_idle(world, thread)?;
    ensure(device < world.devices.len())?;
    let routine = world.set.driver_of(device).dpc.ok_or(Reply::Refused)?;
    if !std::mem::replace(&mut world.devices[device].is_dpc_queued, false) {
        return Ok(Reply::Idle);
    }
    let frame = world.activation(device, routine, None);
    world.begin(thread, DISPATCH_LEVEL, frame);
    Ok(Reply::Stepped)
}

fn startio(world: &mut World, thread: usize, device: usize) -> Result<Reply, Reply> {
    ensure_idle(world, thread)?;
    ensure(device < world.devices.len())?;
    let routine = world.set.driver_of(device).startio.ok_or(Reply::Refused)?;
    let packet = world.devices[device].start_list.pop_front().ok_or(Reply::Idle)?;
    let frame = world.activation(device, routine, Some(packet));
    world.begin(thread, DISPATCH_LEVEL, frame);
    Ok(Reply::Started(packet))
}

fn step(world: &mut World, thread: usize) -> Result<Reply, Reply> {
    match world.threads.get(thread).ok_or(Reply::Refused)?.frames.last() {
        None => Ok(Reply::Idle),
        Some(Frame::Routine(_)) => steps::execute(world, thread),
        Some(&Frame::Walk(packet)) => walk(world, thread, packet),
        Some(&Frame::Cancel { packet, step }) => go_on_cancelling(world, thread, packet, step),
    }
}

/// Completion leaves the current location of a packet.
fn walk(world: &mut World, thread: usize, number: u64) -> Result<Reply, Reply> {
    let has_room = world.room_for_frame(thread);
    let packet = world.touch(number)?;
    let left = *packet.current();
    if let Some((device, routine)) = left.completion {
        has_room?;
        packet.is_pending_returned = left.is_marked;
        packet.locations.pop();
        return Ok(lend(world, thread, number, device, routine));
    }
    packet.is_pending_returned = left.is_marked;
    if packet.locations.len() > 1 {
        packet.locations.pop();
        packet.current().is_marked |= left.is_marked;
        return Ok(Reply::Stepped);
    }
    let (status, info) = (packet.status, packet.info);
    world.packets.remove(&number);
    world.threads[thread].frames.pop();
    Ok(Reply::Topped { packet: number, status, info })
}

/// A completion routine begins, for the device that set it; to a hold routine the packet is lent.
fn lend(world: &mut World, thread: usize, number: u64, device: usize, routine: u8) -> Reply {
    let is_hold = world.set.driver_of(device).sort_of(routine) == Sort::Hold;
    if let (true, Some(packet)) = (is_hold, world.packets.get_mut(&number)) {
        packet.is_completing = false;
    }
    let frame = world.activation(device, routine, Some(number));
    world.threads[thread].frames.push(frame);
    Reply::Stepped
}

/// The steps of IoCancelIrp: it acquires the system cancel spin lock, sets the flag, and takes the
/// cancel routine, which runs in its place.
fn go_on_cancelling(
    world: &mut World,
    thread: usize,
    number: u64,
    step: u8,
) -> Result<Reply, Reply> {
    if step == 1 {
        acquire_cancel_lock(world, thread)?;
        return Ok(replace_top(world, thread, Frame::Cancel { packet: number, step: 2 }));
    }
    let Some(packet) = world.packets.get_mut(&number) else {
        return Ok(give_up_cancelling(world, thread));
    };
    if step == 2 {
        packet.is_cancelled = true;
        return Ok(replace_top(world, thread, Frame::Cancel { packet: number, step: 3 }));
    }
    let Some((device, list)) = packet.armer.take() else {
        return Ok(give_up_cancelling(world, thread));
    };
    let routine = world.set.driver_of(device).cancel_routine(list).unwrap_or(0);
    let frame = world.activation(device, routine, Some(number));
    Ok(replace_top(world, thread, frame))
}

pub fn acquire_cancel_lock(world: &mut World, thread: usize) -> Result<(), Reply> {
    match world.cancel_owner {
        Some(owner) if owner == thread => Err(Reply::Bug(0x0F, Subject::CancelLock)),
        Some(_) => Err(Reply::Waited),
        None => {
            world.cancel_owner = Some(thread);
            Ok(())
        }
    }
}

fn replace_top(world: &mut World, thread: usize, frame: Frame) -> Reply {
    if let Some(top) = world.threads[thread].frames.last_mut() {
        *top = frame;
    }
    Reply::Stepped
}

/// There is nothing to cancel: the lock is free, and the thread idle.
fn give_up_cancelling(world: &mut World, thread: usize) -> Reply {
    world.cancel_owner = None;
    world.threads[thread] = Thread::default();
    Reply::Finished
}
