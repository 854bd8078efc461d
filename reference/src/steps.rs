//! What an instruction does.

use std::collections::VecDeque;

use crate::instr::{Instr, Op, ARG, CONTINUE, LOWER, MAJOR, MAJORS, STOP, VOID, WITH_STATUS};
use crate::machine::acquire_cancel_lock;
use crate::set::{List, Sort};
use crate::world::{
    room, Activation, Frame, Location, OpenLoop, Packet, Reply, Subject, Value, World,
    DISPATCH_LEVEL, MAX_ENTRIES,
};

const MAX_LOOPS: usize = 4;

/// Where the routine goes on.
enum Onward {
    Next,
    To(usize),
}

/// The routine on top of a thread executes its instruction.
struct Step<'a> {
    world: &'a mut World,
    thread: usize,
    top: usize,
}

/// Executes the instruction of the routine on top of a thread. What is refused or has to wait
/// changes nothing.
pub fn execute(world: &mut World, thread: usize) -> Result<Reply, Reply> {
    let top = world.threads[thread].frames.len() - 1;
    let mut step = Step { world, thread, top };
    let instr = step.instruction()?;
    if instr.op == Op::Ret {
        return step.ret(&instr);
    }
    let onward = step.perform(&instr)?;
    let routine = step.routine();
    match onward {
        Onward::Next => routine.at += 1,
        Onward::To(position) => routine.at = position,
    }
    Ok(Reply::Stepped)
}

/// Whether a routine of a sort can return by a form; the verifier wants more.
fn may_return(form: u8, sort: Sort) -> bool {
    match sort {
        Sort::Dispatch => form == WITH_STATUS || form == LOWER,
        Sort::Propagate | Sort::Hold => form == CONTINUE || form == STOP,
        Sort::StartIo | Sort::Dpc | Sort::Cancel => form == VOID,
    }
}

/// It jumps to its label, or goes on.
fn jump_if(jumps: bool, instr: &Instr) -> Onward {
    if jumps { Onward::To(instr.wide as usize) } else { Onward::Next }
}

impl Step<'_> {
    fn routine(&mut self) -> &mut Activation {
        match &mut self.world.threads[self.thread].frames[self.top] {
            Frame::Routine(activation) => activation,
            _ => unreachable!("the frame is a routine's"),
        }
    }

    fn wrong(&mut self) -> Reply {
        let &mut Activation { driver, routine, at, .. } = self.routine();
        Reply::Wrong { driver, routine, at }
    }

    fn instruction(&mut self) -> Result<Instr, Reply> {
        let &mut Activation { driver, routine, at, .. } = self.routine();
        let instr = self.world.routine(driver, routine).code.get(at).copied();
        instr.ok_or(Reply::Wrong { driver, routine, at })
    }

    fn value(&mut self, register: u8) -> Value {
        self.routine().registers[usize::from(register)]
    }

    fn set(&mut self, register: u8, value: Value) {
        self.routine().registers[usize::from(register)] = value;
    }

    fn number(&mut self, register: u8) -> Result<u64, Reply> {
        match self.value(register) {
            Value::Num(number) => Ok(number),
            _ => Err(self.wrong()),
        }
    }

    fn packet_number(&mut self, register: u8) -> Result<u64, Reply> {
        match self.value(register) {
            Value::Ref(packet) => Ok(packet),
            _ => Err(self.wrong()),
        }
    }

    /// The packet in a register, which is touched.
    fn packet(&mut self, register: u8) -> Result<(u64, &mut Packet), Reply> {
        let number = self.packet_number(register)?;
        Ok((number, self.world.touch(number)?))
    }

    fn device(&mut self) -> usize {
        self.routine().device
    }

    fn queue(&mut self, queue: u8) -> &mut VecDeque<u64> {
        let device = self.device();
        &mut self.world.devices[device].queues[usize::from(queue)]
    }

    fn perform(&mut self, instr: &Instr) -> Result<Onward, Reply> {
        match instr.op {
            Op::Const | Op::Mov | Op::Clear | Op::Add | Op::Sub => self.compute(instr)?,
            Op::Jz | Op::Jlt | Op::Jmp | Op::Ifcancel | Op::Ifpending => return self.jump(instr),
            Op::Loop => self.open_loop(instr.wide)?,
            Op::End => return self.end_loop(),
            Op::Load | Op::Store | Op::Loadp | Op::Storep => self.use_cell(instr)?,
            Op::Get | Op::Put | Op::Mark => self.use_packet(instr)?,
            Op::Acquire | Op::Release | Op::Acqc | Op::Relc => self.use_lock(instr)?,
            Op::Insert | Op::Unlink | Op::Arm => self.use_queue(instr)?,
            Op::Remove => return self.remove(instr),
            Op::Disarm => {
                let (_, packet) = self.packet(instr.operands[0])?;
                let was_set = packet.armer.take().is_some();
                return Ok(jump_if(!was_set, instr));
            }
            Op::Start => self.start(instr.operands[0])?,
            Op::Take => return self.take(instr),
            Op::Begin => {
                let (number, _) = self.packet(instr.operands[0])?;
                let device = self.device();
                self.world.devices[device].slot = Some(number);
            }
            Op::Next => self.next()?,
            Op::Dequeue => {
                let (number, _) = self.packet(instr.operands[0])?;
                let device = self.device();
                take_off(&mut self.world.devices[device].device_queue, number);
            }
            Op::Pass => self.pass(instr.operands[0])?,
            Op::Call => self.call(instr)?,
            Op::Complete => self.complete(instr)?,
            Op::Ret => unreachable!("a return is no step of its routine"),
        }
        Ok(Onward::Next)
    }

    fn compute(&mut self, instr: &Instr) -> Result<(), Reply> {
        let [a, b, _] = instr.operands;
        let value = match instr.op {
            Op::Const => Value::Num(u64::from(instr.wide)),
            Op::Mov => self.value(b),
            Op::Clear => Value::Blank,
            Op::Add => Value::Num(self.number(a)?.wrapping_add(self.number(b)?)),
            _ => Value::Num(self.number(a)?.wrapping_sub(self.number(b)?)),
        };
        self.set(a, value);
        Ok(())
    }

    fn jump(&mut self, instr: &Instr) -> Result<Onward, Reply> {
        let [a, b, _] = instr.operands;
        let jumps = match instr.op {
            Op::Jz => self.number(a)? == 0,
            Op::Jlt => self.number(a)? < self.number(b)?,
            Op::Jmp => true,
            Op::Ifcancel => self.packet(a)?.1.is_cancelled,
            _ => self.packet(a)?.1.is_pending_returned,
        };
        Ok(jump_if(jumps, instr))
    }

    fn open_loop(&mut self, turns: u32) -> Result<(), Reply> {
        if self.routine().loops.len() >= MAX_LOOPS {
            return Err(self.wrong());
        }
        let body = self.routine().at + 1;
        self.routine().loops.push(OpenLoop { body, turns });
        Ok(())
    }

    fn end_loop(&mut self) -> Result<Onward, Reply> {
        let wrong = self.wrong();
        let loops = &mut self.routine().loops;
        let innermost = loops.last_mut().ok_or(wrong)?;
        innermost.turns -= 1;
        if innermost.turns > 0 {
            return Ok(Onward::To(innermost.body));
        }
        loops.pop();
        Ok(Onward::Next)
    }

    fn use_cell(&mut self, instr: &Instr) -> Result<(), Reply> {
        let [a, b, _] = instr.operands;
        let is_paged = matches!(instr.op, Op::Loadp | Op::Storep);
        let is_read = matches!(instr.op, Op::Load | Op::Loadp);
        let (register, cell) = if is_read { (a, b) } else { (b, a) };
        let stored = if is_read { 0 } else { self.number(register)? };
        let device = self.device();
        if is_paged && self.world.level(self.thread) == DISPATCH_LEVEL {
            return Err(Reply::Bug(0x0A, Subject::Cell(device, cell)));
        }
        let state = &mut self.world.devices[device];
        let cells = if is_paged { &mut state.paged } else { &mut state.cells };
        if !is_read {
            cells[usize::from(cell)] = stored;
            return Ok(());
        }
        let loaded = cells[usize::from(cell)];
        self.set(register, Value::Num(loaded));
        Ok(())
    }

    fn use_packet(&mut self, instr: &Instr) -> Result<(), Reply> {
        let [a, b, field] = instr.operands;
        match instr.op {
            Op::Get => {
                let (_, packet) = self.packet(b)?;
                let value = match field {
                    MAJOR => MAJORS[packet.current().major].1,
                    ARG => packet.current().argument,
                    _ => packet.info,
                };
                self.set(a, Value::Num(value));
            }
            Op::Put => {
                self.packet_number(a)?;
                let info = self.number(b)?;
                self.packet(a)?.1.info = info;
            }
            _ => self.packet(a)?.1.current().is_marked = true,
        }
        Ok(())
    }

    fn use_lock(&mut self, instr: &Instr) -> Result<(), Reply> {
        let (thread, lock, device) = (self.thread, instr.operands[0], self.device());
        let owner = &mut self.world.devices[device].owners[usize::from(lock)];
        match instr.op {
            Op::Acqc => acquire_cancel_lock(self.world, thread)?,
            Op::Relc if self.world.cancel_owner == Some(thread) => self.world.cancel_owner = None,
            Op::Relc => return Err(Reply::Bug(0x10, Subject::CancelLock)),
            Op::Acquire if *owner == Some(thread) => {
                return Err(Reply::Bug(0x0F, Subject::Lock(device, lock)));
            }
            Op::Acquire if owner.is_some() => return Err(Reply::Waited),
            Op::Acquire => *owner = Some(thread),
            _ if *owner == Some(thread) => *owner = None,
            _ => return Err(Reply::Bug(0x10, Subject::Lock(device, lock))),
        }
        Ok(())
    }

    fn use_queue(&mut self, instr: &Instr) -> Result<(), Reply> {
        let [register, queue, _] = instr.operands;
        let (device, list) = (self.device(), List::Queue(queue));
        let is_plain = self.world.set.driver_of(device).cancel_routine(list).is_none();
        self.packet_number(register)?;
        if instr.op == Op::Arm && is_plain {
            return Err(self.wrong());
        }
        let (number, packet) = self.packet(register)?;
        match instr.op {
            Op::Arm => packet.armer = Some((device, list)),
            Op::Insert => {
                room(self.queue(queue).len(), MAX_ENTRIES)?;
                self.queue(queue).push_back(number);
            }
            _ => take_off(self.queue(queue), number),
        }
        Ok(())
    }

    fn remove(&mut self, instr: &Instr) -> Result<Onward, Reply> {
        let [register, queue, _] = instr.operands;
        let Some(&head) = self.queue(queue).front() else {
            return Ok(jump_if(true, instr));
        };
        self.world.touch(head)?;
        self.queue(queue).pop_front();
        self.set(register, Value::Ref(head));
        Ok(Onward::Next)
    }

    fn start(&mut self, register: u8) -> Result<(), Reply> {
        let (number, _) = self.packet(register)?;
        let device = self.device();
        let can_be_cancelled = self.world.set.driver_of(device).waiting.is_some();
        let state = &mut self.world.devices[device];
        if !state.is_busy {
            room(state.start_list.len(), MAX_ENTRIES)?;
            state.is_busy = true;
            state.start_list.push_back(number);
            return Ok(());
        }
        room(state.device_queue.len(), MAX_ENTRIES)?;
        state.device_queue.push_back(number);
        if can_be_cancelled {
            self.world.touch(number)?.armer = Some((device, List::Device));
        }
        Ok(())
    }

    fn take(&mut self, instr: &Instr) -> Result<Onward, Reply> {
        let device = self.device();
        let Some(packet) = self.world.devices[device].slot.take() else {
            return Ok(jump_if(true, instr));
        };
        self.set(instr.operands[0], Value::Ref(packet));
        Ok(Onward::Next)
    }

    fn next(&mut self) -> Result<(), Reply> {
        let device = self.device();
        let can_be_cancelled = self.world.set.driver_of(device).waiting.is_some();
        let Some(&first) = self.world.devices[device].device_queue.front() else {
            self.world.devices[device].is_busy = false;
            return Ok(());
        };
        if can_be_cancelled {
            self.world.touch(first)?;
        }
        room(self.world.devices[device].start_list.len(), MAX_ENTRIES)?;
        if can_be_cancelled {
            self.world.touch(first)?.armer = None;
        }
        self.world.devices[device].device_queue.pop_front();
        self.world.devices[device].start_list.push_back(first);
        Ok(())
    }

    /// The device under the routine's, which is there.
    fn lower(&mut self) -> Result<usize, Reply> {
        let device = self.device();
        match self.world.set.devices[device].lower {
            Some(lower) => Ok(usize::from(lower)),
            None => Err(self.wrong()),
        }
    }

    fn pass(&mut self, register: u8) -> Result<(), Reply> {
        self.packet_number(register)?;
        let lower = self.lower()?;
        let (number, packet) = self.packet(register)?;
        let major = packet.current().major;
        self.send_down(register, lower, number, major)
    }

    fn call(&mut self, instr: &Instr) -> Result<(), Reply> {
        let register = instr.operands[0];
        self.packet_number(register)?;
        let (lower, device, thread) = (self.lower()?, self.device(), self.thread);
        let has_room = self.world.room_for_frame(thread);
        let (number, packet) = self.packet(register)?;
        if packet.locations.len() == packet.stack {
            return Err(Reply::Bug(0x35, Subject::Packet(number)));
        }
        has_room?;
        let Location { major, argument, .. } = *packet.current();
        let completion = instr.completion().map(|routine| (device, routine));
        packet.locations.push(Location { major, argument, is_marked: false, completion });
        self.send_down(register, lower, number, major)
    }

    /// The lower driver's routine runs, and the register is told what it returns.
    fn send_down(
        &mut self,
        register: u8,
        lower: usize,
        packet: u64,
        major: usize,
    ) -> Result<(), Reply> {
        self.world.room_for_frame(self.thread)?;
        self.routine().told = Some(register);
        let frame = self.world.dispatch(lower, packet, major);
        self.world.threads[self.thread].frames.push(frame);
        Ok(())
    }

    fn complete(&mut self, instr: &Instr) -> Result<(), Reply> {
        let number = self.packet_number(instr.operands[0])?;
        let has_room = self.world.room_for_frame(self.thread);
        let bug = |code| Reply::Bug(code, Subject::Packet(number));
        let packet = self.world.packets.get_mut(&number).ok_or(bug(0x44))?;
        if packet.is_completing {
            return Err(bug(0x44));
        }
        if packet.armer.is_some() {
            return Err(bug(0x48));
        }
        has_room?;
        packet.status = instr.operands[1];
        packet.is_completing = true;
        self.world.threads[self.thread].frames.push(Frame::Walk(number));
        Ok(())
    }

    fn ret(&mut self, instr: &Instr) -> Result<Reply, Reply> {
        let [form, operand, _] = instr.operands;
        let &mut Activation { driver, routine, .. } = self.routine();
        let sort = self.world.routine(driver, routine).sort;
        if !may_return(form, sort) {
            return Err(self.wrong());
        }
        match form {
            WITH_STATUS => self.tell(Value::Status(operand)),
            LOWER => match self.value(operand) {
                Value::Status(status) => self.tell(Value::Status(status)),
                _ => return Err(self.wrong()),
            },
            CONTINUE => self.go_on_completing(sort)?,
            _ => {}
        }
        let frames = &mut self.world.threads[self.thread].frames;
        frames.pop();
        if form == STOP {
            frames.pop();
        }
        Ok(if frames.is_empty() { Reply::Finished } else { Reply::Stepped })
    }

    /// The caller's register has the status that its lower driver returns.
    fn tell(&mut self, status: Value) {
        let frames = &mut self.world.threads[self.thread].frames;
        let below = self.top.checked_sub(1).and_then(|below| frames.get_mut(below));
        if let Some(Frame::Routine(caller)) = below {
            if let Some(register) = caller.told.take() {
                caller.registers[usize::from(register)] = status;
            }
        }
    }

    /// The completion that a routine lets go on; the packet that was lent is given back.
    fn go_on_completing(&mut self, sort: Sort) -> Result<(), Reply> {
        let frames = &self.world.threads[self.thread].frames;
        let below = self.top.checked_sub(1).map(|below| &frames[below]);
        if let Some(&Frame::Walk(number)) = below {
            let packet = self.world.touch(number)?;
            packet.is_completing |= sort == Sort::Hold;
        }
        Ok(())
    }
}

/// Takes the first entry of a packet off a list, if any.
fn take_off(list: &mut VecDeque<u64>, packet: u64) {
    if let Some(place) = list.iter().position(|&entry| entry == packet) {
        list.remove(place);
    }
}
