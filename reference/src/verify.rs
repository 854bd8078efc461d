//! The verdict on a set: the certificate of each routine, or the first fault.

use crate::instr::{Instr, Op};
use crate::rules::{
    after, after_jump, broken, Context, State, MALFORMED, SORT, STATES_DIFFER, TOO_LONG,
    UNREACHABLE,
};
use crate::set::{DriverSet, Routine};

const MAX_CERTIFICATE: u128 = 1_000_000;
const MAX_LOOPS: usize = 4;

/// The first fault of a set.
pub struct Refusal {
    pub driver: usize,
    pub routine: usize,
    pub at: usize,
    pub rule: u8,
}

/// The loops of a routine.
struct Loops {
    /// Of each position the loops that are open before it, the innermost last.
    open: Vec<Vec<usize>>,
    /// The loops that have no `end`.
    unclosed: Vec<usize>,
}

/// What arrives at a position along all paths.
#[derive(Clone)]
enum Arrival {
    Never,
    Once(State),
    Differing,
}

/// The certificates of an accepted set, by driver and routine.
pub fn verify(set: &DriverSet) -> Result<Vec<Vec<u128>>, Refusal> {
    if set.devices.is_empty() {
        return Err(Refusal { driver: 0, routine: 0, at: 0, rule: MALFORMED });
    }
    let mut certificates = Vec::new();
    for (driver, parts) in set.drivers.iter().enumerate() {
        let mut row = Vec::new();
        for routine in 0..parts.routines.len() {
            let judged = judge(set, driver, routine);
            let place = |(at, rule)| Refusal { driver, routine, at, rule };
            row.push(judged.map_err(place)?);
        }
        certificates.push(row);
    }
    Ok(certificates)
}

/// The certificate of a routine, or its first position with a fault and the least rule there.
fn judge(set: &DriverSet, driver: usize, number: usize) -> Result<u128, (usize, u8)> {
    let parts = &set.drivers[driver];
    let routine = &parts.routines[number];
    if routine.code.is_empty() {
        return Err((0, MALFORMED));
    }
    let loops = Loops::of(&routine.code);
    if loops.is_malformed(&routine.code, 0) {
        return Err((0, MALFORMED));
    }
    let lists = parts.cancelled_by(number as u8);
    let list = (lists.len() == 1).then(|| lists[0]);
    let entry = State::entry(routine.sort, list).ok_or((0, SORT))?;
    let context = Context { set, driver, sort: routine.sort };
    follow(routine, &loops, entry, &context)
}

/// Goes through the positions in order: all paths lead forward but for the turns of loops.
fn follow(
    routine: &Routine,
    loops: &Loops,
    entry: State,
    context: &Context,
) -> Result<u128, (usize, u8)> {
    let code = &routine.code;
    let mut arrivals = vec![Arrival::Never; code.len()];
    arrivals[0] = Arrival::Once(entry);
    let mut certificate = 0;
    for (at, instr) in code.iter().enumerate() {
        if loops.is_malformed(code, at) {
            return Err((at, MALFORMED));
        }
        let state = match arrivals[at].clone() {
            Arrival::Never => return Err((at, UNREACHABLE)),
            Arrival::Differing => return Err((at, STATES_DIFFER)),
            Arrival::Once(state) => state,
        };
        if instr.op == Op::End && !loops.closes_alike(&arrivals, at, &state) {
            return Err((at, STATES_DIFFER));
        }
        if let Some(rule) = broken(&state, instr, context) {
            return Err((at, rule));
        }
        certificate += loops.turns_at(code, at);
        if certificate > MAX_CERTIFICATE {
            return Err((at, TOO_LONG));
        }
        go_on(&mut arrivals, at, instr, &state, context);
    }
    Ok(certificate)
}

fn go_on(arrivals: &mut [Arrival], at: usize, instr: &Instr, state: &State, context: &Context) {
    if !matches!(instr.op, Op::Ret | Op::Jmp) {
        arrive(&mut arrivals[at + 1], after(state, instr, context));
    }
    if let Some(label) = instr.label() {
        arrive(&mut arrivals[label], after_jump(state, instr));
    }
}

fn arrive(arrival: &mut Arrival, state: State) {
    let joined = match arrival {
        Arrival::Never => Arrival::Once(state),
        Arrival::Once(known) if *known == state => return,
        _ => Arrival::Differing,
    };
    *arrival = joined;
}

impl Loops {
    /// `end` closes the innermost loop that is open, as brackets do.
    fn of(code: &[Instr]) -> Loops {
        let mut open = Vec::new();
        let mut stack: Vec<usize> = Vec::new();
        for (at, instr) in code.iter().enumerate() {
            open.push(stack.clone());
            match instr.op {
                Op::Loop => stack.push(at),
                Op::End => drop(stack.pop()),
                _ => {}
            }
        }
        Loops { open, unclosed: stack }
    }

    /// The loops whose body holds a position: that of one without `end` is empty.
    fn round(&self, at: usize) -> Vec<usize> {
        let open = self.open[at].iter().copied();
        open.filter(|start| !self.unclosed.contains(start)).collect()
    }

    fn is_malformed(&self, code: &[Instr], at: usize) -> bool {
        let instr = &code[at];
        let is_last = at + 1 == code.len();
        let jumps_badly =
            |label: usize| label <= at || self.round(label) != self.round(at);
        is_last && instr.op != Op::Ret
            || instr.label().is_some_and(jumps_badly)
            || instr.op == Op::End && self.open[at].is_empty()
            || instr.op == Op::Loop
                && (self.unclosed.contains(&at) || self.open[at].len() >= MAX_LOOPS)
    }

    /// The state at an `end` is that at its `loop`.
    fn closes_alike(&self, arrivals: &[Arrival], at: usize, state: &State) -> bool {
        let start = self.open[at].last().map(|&start| &arrivals[start]);
        matches!(start, Some(Arrival::Once(known)) if known == state)
    }

    /// How often an instruction is executed at most.
    fn turns_at(&self, code: &[Instr], at: usize) -> u128 {
        self.round(at).iter().map(|&start| u128::from(code[start].wide)).product()
    }
}

/// The words of the verdict: the lines of `check`.
pub fn certificate_lines(set: &DriverSet, certificates: &[Vec<u128>]) -> String {
    let mut lines = "accepted\n".to_string();
    for (driver, (parts, row)) in set.drivers.iter().zip(certificates).enumerate() {
        for (routine, (it, certificate)) in parts.routines.iter().zip(row).enumerate() {
            let sort = it.sort.word();
            let place = format!("driver {driver} routine {routine}");
            lines += &format!("{place} {sort} certificate {certificate}\n");
        }
    }
    lines
}
