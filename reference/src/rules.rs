//! The local rule: what an instruction demands of what is known before it, and what is known
//! after it.

use crate::instr::{Instr, Op, CONTINUE, LOWER, PENDING, STOP, VOID, WITH_STATUS};
use crate::set::{Driver, DriverSet, List, Sort, LOCKS, REGISTERS};

/// The rules by their numbers, from 1.
pub const RULES: [&str; 20] = [
    "Malformed", "Unreachable", "StatesDiffer", "WrongKind", "DoubleCompletion", "MarkIrpPending",
    "CancelSpinLock", "SpinLock", "LockHeld", "Level", "Guard", "CancelState", "Dropped", "Token",
    "Sort", "Completion", "StackTooSmall", "NoLower", "TooLong", "Memory",
];
pub const MALFORMED: u8 = 1;
pub const UNREACHABLE: u8 = 2;
pub const STATES_DIFFER: u8 = 3;
const WRONG_KIND: u8 = 4;
const DOUBLE_COMPLETION: u8 = 5;
const MARK_IRP_PENDING: u8 = 6;
const CANCEL_SPIN_LOCK: u8 = 7;
const SPIN_LOCK: u8 = 8;
const LOCK_HELD: u8 = 9;
const LEVEL: u8 = 10;
const GUARD: u8 = 11;
const CANCEL_STATE: u8 = 12;
const DROPPED: u8 = 13;
const TOKEN: u8 = 14;
pub const SORT: u8 = 15;
const COMPLETION: u8 = 16;
const STACK_TOO_SMALL: u8 = 17;
const NO_LOWER: u8 = 18;
pub const TOO_LONG: u8 = 19;

/// What a register has.
#[derive(Clone, Copy, PartialEq, Eq)]
pub enum Kind {
    Blank,
    Num,
    Lower,
    New,
    Own,
    Listed(List),
    Armed(List),
    Taken(List),
    Cancelling(List),
    View,
}

/// What a dispatch or a hold routine owes for its packet.
#[derive(Clone, Copy, PartialEq, Eq)]
pub enum Duty {
    Fresh,
    Pending,
    GivenDown,
    Finished,
    NoDuty,
}

/// How far a propagate routine is with the mark.
#[derive(Clone, Copy, PartialEq, Eq)]
pub enum Settled {
    Open,
    NeedMark,
    Settled,
}

/// What is known before an instruction.
#[derive(Clone, PartialEq, Eq)]
pub struct State {
    pub kinds: [Kind; REGISTERS],
    pub locks: [bool; LOCKS],
    pub cancel: bool,
    pub duty: Duty,
    pub settled: Settled,
    pub token: bool,
}

/// Where an instruction stands.
pub struct Context<'a> {
    pub set: &'a DriverSet,
    pub driver: usize,
    pub sort: Sort,
}

impl Kind {
    fn is_packet(self) -> bool {
        !matches!(self, Kind::Blank | Kind::Num | Kind::Lower)
    }

    fn is_of_list(self) -> bool {
        matches!(
            self,
            Kind::Listed(_) | Kind::Armed(_) | Kind::Taken(_) | Kind::Cancelling(_)
        )
    }
}

impl State {
    /// What is known where a routine begins; a cancel routine is that of one list.
    pub fn entry(sort: Sort, list: Option<List>) -> Option<State> {
        let (first, duty, settled) = match sort {
            Sort::Dispatch | Sort::Hold => (Kind::New, Duty::Fresh, Settled::Settled),
            Sort::StartIo => (Kind::Own, Duty::NoDuty, Settled::Settled),
            Sort::Dpc => (Kind::Blank, Duty::NoDuty, Settled::Settled),
            Sort::Cancel => (Kind::Cancelling(list?), Duty::NoDuty, Settled::Settled),
            Sort::Propagate => (Kind::View, Duty::NoDuty, Settled::Open),
        };
        let mut kinds = [Kind::Blank; REGISTERS];
        kinds[0] = first;
        let (cancel, token) = (sort == Sort::Cancel, sort == Sort::StartIo);
        Some(State { kinds, locks: [false; LOCKS], cancel, duty, settled, token })
    }

    fn kind(&self, register: u8) -> Kind {
        self.kinds[usize::from(register)]
    }

    fn set(&mut self, register: u8, kind: Kind) {
        self.kinds[usize::from(register)] = kind;
    }

    fn holds_lock(&self) -> bool {
        self.cancel || self.locks.contains(&true)
    }

    fn has(&self, kind: Kind) -> bool {
        self.kinds.contains(&kind)
    }
}

/// The least of the rules that are broken.
#[derive(Default)]
struct Broken(Option<u8>);

impl Broken {
    fn unless(&mut self, holds: bool, rule: u8) {
        if !holds {
            self.0 = Some(self.0.map_or(rule, |least| least.min(rule)));
        }
    }

    /// The register may be written over.
    fn free(&mut self, kind: Kind) {
        self.unless(!kind.is_packet(), DROPPED);
    }

    fn number(&mut self, kind: Kind) {
        self.unless(kind == Kind::Num, WRONG_KIND);
    }

    /// The register has a packet of one of these kinds.
    fn wanted(&mut self, kind: Kind, wanted: &[Kind]) {
        self.unless(wanted.contains(&kind), missing(kind, wanted));
    }

    fn packet(&mut self, kind: Kind) {
        self.unless(kind.is_packet(), WRONG_KIND);
    }
}

/// The rule that is broken where a packet of none of the wanted kinds is.
fn missing(kind: Kind, wanted: &[Kind]) -> u8 {
    match kind {
        Kind::Blank | Kind::Num | Kind::Lower => WRONG_KIND,
        Kind::View => COMPLETION,
        Kind::New if wanted.contains(&Kind::Own) => MARK_IRP_PENDING,
        Kind::Own if wanted.contains(&Kind::New) => MARK_IRP_PENDING,
        _ if kind.is_of_list() || wanted.iter().all(|kind| kind.is_of_list()) => CANCEL_STATE,
        _ => COMPLETION,
    }
}

impl Context<'_> {
    fn driver(&self) -> &Driver {
        &self.set.drivers[self.driver]
    }

    fn is_cancelable(&self, queue: u8) -> bool {
        self.driver().queues[usize::from(queue)].cancel.is_some()
    }

    /// Whether a spin lock guards a list.
    fn is_guard(&self, lock: u8, list: List) -> bool {
        matches!(list, List::Queue(queue) if self.lock_of(queue) == lock)
    }

    fn lock_of(&self, queue: u8) -> u8 {
        self.driver().queues[usize::from(queue)].lock
    }

    fn has_guard(&self, state: &State, queue: u8) -> bool {
        state.locks[usize::from(self.lock_of(queue))]
    }

    /// The system cancel spin lock is held where the device queue has a cancel routine.
    fn may_move_waiting(&self, state: &State) -> bool {
        self.driver().waiting.is_none() || state.cancel
    }

    fn is_hold(&self, completion: Option<u8>) -> bool {
        completion.is_some_and(|routine| self.driver().sort_of(routine) == Sort::Hold)
    }
}

/// The least rule that an instruction breaks in a state.
pub fn broken(state: &State, instr: &Instr, context: &Context) -> Option<u8> {
    let mut broken = Broken::default();
    let [a, b, _] = instr.operands;
    match instr.op {
        Op::Const | Op::Clear | Op::Load | Op::Mov => broken.free(state.kind(a)),
        Op::Add | Op::Sub | Op::Jlt => {
            broken.number(state.kind(a));
            broken.number(state.kind(b));
        }
        Op::Jz => broken.number(state.kind(a)),
        Op::Jmp | Op::Loop | Op::End => {}
        Op::Store => broken.number(state.kind(b)),
        Op::Loadp | Op::Storep => paged(&mut broken, state, instr, context.sort),
        Op::Get => {
            broken.free(state.kind(a));
            broken.packet(state.kind(b));
        }
        Op::Put => {
            broken.packet(state.kind(a));
            broken.number(state.kind(b));
        }
        Op::Mark => marked(&mut broken, state, a),
        Op::Acquire | Op::Release | Op::Acqc | Op::Relc => {
            locked(&mut broken, state, instr, context)
        }
        Op::Insert | Op::Remove | Op::Unlink | Op::Arm => {
            queued(&mut broken, state, instr, context)
        }
        Op::Disarm => disarmed(&mut broken, state.kind(a)),
        Op::Ifcancel => broken.packet(state.kind(a)),
        Op::Start | Op::Take | Op::Begin | Op::Next | Op::Dequeue => {
            started(&mut broken, state, instr, context)
        }
        Op::Pass | Op::Call => forwarded(&mut broken, state, instr, context),
        Op::Complete => completed(&mut broken, state, instr, context.sort),
        Op::Ifpending => {
            let kind = state.kind(a);
            broken.wanted(kind, &[Kind::View]);
            broken.unless(kind != Kind::View || state.settled == Settled::Open, COMPLETION);
        }
        Op::Ret => returned(&mut broken, state, instr, context.sort),
    }
    broken.0
}

fn paged(broken: &mut Broken, state: &State, instr: &Instr, sort: Sort) {
    let [a, b, _] = instr.operands;
    broken.unless(sort == Sort::Dispatch && !state.holds_lock(), LEVEL);
    match instr.op {
        Op::Loadp => broken.free(state.kind(a)),
        _ => broken.number(state.kind(b)),
    }
}

fn marked(broken: &mut Broken, state: &State, register: u8) {
    let kind = state.kind(register);
    broken.wanted(kind, &[Kind::New, Kind::View]);
    broken.unless(kind != Kind::View || state.settled == Settled::NeedMark, COMPLETION);
}

fn locked(broken: &mut Broken, state: &State, instr: &Instr, context: &Context) {
    let lock = instr.operands[0];
    let is_held = state.locks[usize::from(lock)];
    match instr.op {
        Op::Acquire => broken.unless(!is_held, SPIN_LOCK),
        Op::Release => {
            broken.unless(is_held, SPIN_LOCK);
            broken.unless(!state.kinds.iter().any(|&kind| stays(kind, lock, context)), GUARD);
        }
        Op::Acqc => broken.unless(!state.cancel, CANCEL_SPIN_LOCK),
        _ => {
            broken.unless(state.cancel, CANCEL_SPIN_LOCK);
            broken.unless(!state.has(Kind::Cancelling(List::Device)), GUARD);
        }
    }
}

/// A register that needs the guard of its list, which is this lock.
fn stays(kind: Kind, lock: u8, context: &Context) -> bool {
    matches!(kind, Kind::Listed(list) | Kind::Taken(list) if context.is_guard(lock, list))
}

fn queued(broken: &mut Broken, state: &State, instr: &Instr, context: &Context) {
    let [register, queue, _] = instr.operands;
    let (kind, list) = (state.kind(register), List::Queue(queue));
    broken.unless(context.has_guard(state, queue), GUARD);
    match instr.op {
        Op::Insert => broken.wanted(kind, &[Kind::Own]),
        Op::Unlink => broken.wanted(kind, &[Kind::Listed(list), Kind::Cancelling(list)]),
        Op::Arm => broken.wanted(kind, &[Kind::Listed(list)]),
        _ => {
            broken.free(kind);
            let names = [Kind::Listed(list), Kind::Armed(list), Kind::Cancelling(list)];
            broken.unless(!names.iter().any(|&kind| state.has(kind)), CANCEL_STATE);
        }
    }
}

fn disarmed(broken: &mut Broken, kind: Kind) {
    let is_wanted = matches!(kind, Kind::Armed(_) | Kind::Taken(_));
    broken.unless(is_wanted, missing(kind, &[]));
}

fn started(broken: &mut Broken, state: &State, instr: &Instr, context: &Context) {
    let kind = state.kind(instr.operands[0]);
    match instr.op {
        Op::Start => {
            broken.unless(context.driver().startio.is_some(), SORT);
            broken.unless(context.may_move_waiting(state), GUARD);
            broken.wanted(kind, &[Kind::Own]);
        }
        Op::Take => {
            broken.unless(!state.token, TOKEN);
            broken.unless(context.sort == Sort::Dpc, SORT);
            broken.free(kind);
        }
        Op::Begin => {
            broken.unless(state.token, TOKEN);
            broken.wanted(kind, &[Kind::Own]);
        }
        Op::Next => {
            broken.unless(state.token, TOKEN);
            broken.unless(context.may_move_waiting(state), GUARD);
        }
        _ => {
            broken.unless(state.cancel, GUARD);
            broken.unless(context.driver().waiting.is_some(), SORT);
            broken.wanted(kind, &[Kind::Cancelling(List::Device)]);
        }
    }
}

fn forwarded(broken: &mut Broken, state: &State, instr: &Instr, context: &Context) {
    let kind = state.kind(instr.operands[0]);
    broken.unless(!state.holds_lock(), LOCK_HELD);
    broken.unless(!context.sort.is_completion(), COMPLETION);
    broken.unless(context.sort.is_completion() || context.sort == Sort::Dispatch, SORT);
    let more = u8::from(instr.op == Op::Call);
    for (device, lower) in context.set.devices_of(context.driver) {
        broken.unless(lower.is_some(), NO_LOWER);
        broken.unless(lower.is_none_or(|it| device.stack >= it.stack + more), STACK_TOO_SMALL);
    }
    if instr.op == Op::Pass {
        broken.wanted(kind, &[Kind::New]);
    } else {
        broken.wanted(kind, &[Kind::New, Kind::Own]);
        broken.unless(kind != Kind::New || !context.is_hold(instr.completion()), COMPLETION);
    }
}

fn completed(broken: &mut Broken, state: &State, instr: &Instr, sort: Sort) {
    let kind = state.kind(instr.operands[0]);
    if kind == Kind::Blank {
        broken.unless(false, DOUBLE_COMPLETION);
    } else {
        broken.wanted(kind, &[Kind::New, Kind::Own]);
    }
    broken.unless(instr.operands[1] != PENDING, MARK_IRP_PENDING);
    broken.unless(!state.holds_lock(), LOCK_HELD);
    broken.unless(!sort.is_completion(), COMPLETION);
}

fn returned(broken: &mut Broken, state: &State, instr: &Instr, sort: Sort) {
    let [form, operand, _] = instr.operands;
    match form {
        LOWER => {
            broken.unless(state.kind(operand) == Kind::Lower, WRONG_KIND);
            broken.unless(state.duty == Duty::GivenDown, MARK_IRP_PENDING);
        }
        WITH_STATUS if operand == PENDING => {
            broken.unless(state.duty == Duty::Pending, MARK_IRP_PENDING);
        }
        WITH_STATUS => {
            let is_owed = matches!(state.duty, Duty::Pending | Duty::GivenDown);
            broken.unless(!is_owed, MARK_IRP_PENDING);
        }
        _ => {}
    }
    broken.unless(!state.cancel, CANCEL_SPIN_LOCK);
    broken.unless(!state.locks.contains(&true), SPIN_LOCK);
    let gives_back = sort == Sort::Hold && form == CONTINUE;
    let is_kept = |kind: Kind| {
        kind.is_packet() && kind != Kind::View && !(gives_back && kind == Kind::New)
    };
    broken.unless(!state.kinds.iter().any(|&kind| is_kept(kind)), DROPPED);
    broken.unless(!state.token, TOKEN);
    broken.unless(is_form_of(form, sort), SORT);
    match (sort, form) {
        (Sort::Propagate, _) => broken.unless(state.settled == Settled::Settled, COMPLETION),
        (Sort::Hold, CONTINUE) => broken.unless(state.duty == Duty::Fresh, COMPLETION),
        (Sort::Hold, STOP) => broken.unless(state.duty == Duty::Pending, COMPLETION),
        _ => {}
    }
}

/// Whether routines of a sort return by a form.
fn is_form_of(form: u8, sort: Sort) -> bool {
    match sort {
        Sort::Dispatch => form == WITH_STATUS || form == LOWER,
        Sort::Propagate => form == CONTINUE,
        Sort::Hold => form == CONTINUE || form == STOP,
        Sort::StartIo | Sort::Dpc | Sort::Cancel => form == VOID,
    }
}

/// What is known at the next position, after an instruction that breaks no rule.
pub fn after(before: &State, instr: &Instr, context: &Context) -> State {
    let mut state = before.clone();
    let [a, b, _] = instr.operands;
    match instr.op {
        Op::Const | Op::Load | Op::Loadp | Op::Get => state.set(a, Kind::Num),
        Op::Clear | Op::Start => state.set(a, Kind::Blank),
        Op::Mov => {
            let kind = state.kind(b);
            state.set(a, kind);
            if kind != Kind::Num {
                state.set(b, Kind::Blank);
            }
        }
        Op::Mark => after_mark(&mut state, a),
        Op::Acquire => state.locks[usize::from(a)] = true,
        Op::Release => after_release(&mut state, a, context),
        Op::Acqc => state.cancel = true,
        Op::Relc => state.cancel = false,
        Op::Insert | Op::Remove | Op::Arm => after_queued(&mut state, instr, context),
        Op::Unlink | Op::Dequeue => state.set(a, Kind::Own),
        Op::Disarm => match state.kind(a) {
            Kind::Armed(list) => state.set(a, Kind::Listed(list)),
            _ => state.set(a, Kind::Own),
        },
        Op::Take => {
            state.set(a, Kind::Own);
            state.token = true;
        }
        Op::Begin => {
            state.set(a, Kind::Blank);
            state.token = false;
        }
        Op::Next => state.token = false,
        Op::Pass | Op::Call => after_forward(&mut state, a),
        Op::Complete => {
            if state.kind(a) == Kind::New {
                state.duty = Duty::Finished;
            }
            state.set(a, Kind::Blank);
        }
        Op::Ifpending => state.settled = Settled::Settled,
        _ => {}
    }
    state
}

fn after_mark(state: &mut State, register: u8) {
    if state.kind(register) == Kind::View {
        state.settled = Settled::Settled;
    } else {
        state.set(register, Kind::Own);
        state.duty = Duty::Pending;
    }
}

fn after_release(state: &mut State, lock: u8, context: &Context) {
    state.locks[usize::from(lock)] = false;
    for kind in &mut state.kinds {
        if matches!(*kind, Kind::Armed(list) if context.is_guard(lock, list)) {
            *kind = Kind::Blank;
        }
    }
}

fn after_queued(state: &mut State, instr: &Instr, context: &Context) {
    let [register, queue, _] = instr.operands;
    let list = List::Queue(queue);
    let kind = match (instr.op, context.is_cancelable(queue)) {
        (Op::Insert, true) => Kind::Listed(list),
        (Op::Insert, false) => Kind::Blank,
        (Op::Remove, true) => Kind::Taken(list),
        (Op::Remove, false) => Kind::Own,
        _ => Kind::Armed(list),
    };
    state.set(register, kind);
}

fn after_forward(state: &mut State, register: u8) {
    if state.kind(register) == Kind::New {
        state.set(register, Kind::Lower);
        state.duty = Duty::GivenDown;
    } else {
        state.set(register, Kind::Blank);
    }
}

/// What is known at the label, after an instruction that breaks no rule.
pub fn after_jump(before: &State, instr: &Instr) -> State {
    let mut state = before.clone();
    match instr.op {
        Op::Remove | Op::Disarm | Op::Take => state.set(instr.operands[0], Kind::Blank),
        Op::Ifpending => state.settled = Settled::NeedMark,
        _ => {}
    }
    state
}
