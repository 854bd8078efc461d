use crate::error::{done, Error};
use crate::verdict::check;
use pafteis_sys as sys;

/// Of which faults `explain` tells.
#[derive(Clone, Copy, Debug, PartialEq, Eq)]
pub enum Extent {
    /// The first one.
    First,
    /// The first one of each routine.
    Each,
}

/// A run of a schedule: what `drvhost trace` prints, and whether it came to the schedule's end.
#[derive(Clone, Debug, PartialEq, Eq)]
pub struct Trace {
    pub text: String,
    pub complete: bool,
}

/// The bytes of a call that puts its answer into a buffer, and whether all went well.
pub(crate) fn told(
    call: impl Fn(*mut u8, usize, *mut usize) -> u32,
) -> Result<(Vec<u8>, bool), Error> {
    let mut buffer = vec![0; 1024];
    loop {
        let mut needed = 0;
        let status = call(buffer.as_mut_ptr(), buffer.len(), &mut needed);
        if needed > buffer.len() {
            buffer.resize(needed, 0);
            continue;
        }
        buffer.truncate(needed);
        return judged(status, buffer);
    }
}

/// An answer that the library keeps until it is dropped.
struct Kept(sys::pafteis_answer);

impl Drop for Kept {
    fn drop(&mut self) {
        unsafe { sys::pafteis_answer_free(&mut self.0) };
    }
}

/// The bytes of a large answer, which is made once, and whether all went well.
fn kept(
    call: impl Fn(*mut sys::pafteis_answer, *mut usize) -> u32,
) -> Result<(Vec<u8>, bool), Error> {
    let mut answer = Kept(sys::pafteis_answer {
        live: false,
        inside: std::ptr::null_mut(),
    });
    let mut needed = 0;
    let status = call(&mut answer.0, &mut needed);
    let mut bytes = vec![0; needed];
    unsafe { sys::pafteis_answer_read(&answer.0, 0, bytes.as_mut_ptr(), needed, &mut needed) };
    judged(status, bytes)
}

/// The bytes of an answer, and whether all went well.
fn judged(status: u32, bytes: Vec<u8>) -> Result<(Vec<u8>, bool), Error> {
    match status {
        sys::PAFTEIS_DONE | sys::PAFTEIS_REFUSED => Ok((bytes, status == sys::PAFTEIS_DONE)),
        sys::PAFTEIS_FAULTY => Err(Error::Faulty(text(bytes))),
        _ => done(status).map(|()| (bytes, false)),
    }
}

fn text(bytes: Vec<u8>) -> String {
    String::from_utf8_lossy(&bytes).into_owned()
}

/// What `drvhost check` prints: the verdict, and a certificate for each routine.
///
/// # Errors
///
/// `Faulty`, `NoMemory`; so have the calls below.
pub fn report(set: &[u8]) -> Result<String, Error> {
    let (at, length) = (set.as_ptr(), set.len());
    told(|b, c, n| unsafe { sys::pafteis_report(at, length, b, c, n) }).map(|(it, _)| text(it))
}

/// What `drvhost explain` prints.
pub fn explain(set: &[u8], extent: Extent) -> Result<String, Error> {
    let (at, length, extent) = (set.as_ptr(), set.len(), u32::from(extent == Extent::Each));
    kept(|a, n| unsafe { sys::pafteis_answer_explain(at, length, extent, a, n) })
        .map(|(it, _)| text(it))
}

/// A rule in words, 1 to 20; `WrongArgument` where there is none of this number.
pub fn explain_rule(rule: u32) -> Result<String, Error> {
    told(|b, c, n| unsafe { sys::pafteis_explain_rule(rule, b, c, n) }).map(|(it, _)| text(it))
}

/// A text that names the same set.
pub fn list(set: &[u8]) -> Result<String, Error> {
    let (at, length) = (set.as_ptr(), set.len());
    kept(|a, n| unsafe { sys::pafteis_answer_list(at, length, a, n) }).map(|(it, _)| text(it))
}

/// The image of the set, of edition 2.
pub fn rewrite(set: &[u8]) -> Result<Vec<u8>, Error> {
    let (at, length) = (set.as_ptr(), set.len());
    told(|b, c, n| unsafe { sys::pafteis_rewrite(at, length, b, c, n) }).map(|(it, _)| it)
}

/// A call that answers of a run.
type Call = unsafe extern "C" fn(
    *const u8,
    usize,
    *const u8,
    usize,
    u32,
    *mut sys::pafteis_answer,
    *mut usize,
) -> u32;

/// What a call answers of a run, by its flags.
fn run(call: Call, set: &[u8], schedule: &[u8], flags: u32) -> Result<Trace, Error> {
    let (at, length, events, count) = (set.as_ptr(), set.len(), schedule.as_ptr(), schedule.len());
    let answer = kept(|a, n| unsafe { call(at, length, events, count, flags, a, n) });
    let (bytes, complete) = answer.map_err(|error| numbered(error, schedule))?;
    if !complete && flags % 2 == 0 {
        if let Some(refusal) = check(set)? {
            return Err(Error::Refused(refusal));
        }
    }
    Ok(traced((bytes, complete)))
}

/// The error of a run, with the numbers of the fault where its schedule is faulty.
fn numbered(error: Error, schedule: &[u8]) -> Error {
    match &error {
        Error::Faulty(told) if told.starts_with("schedule fault ") => {
            crate::schedule::schedule(schedule).err().unwrap_or(error)
        }
        _ => error,
    }
}

/// A run of a schedule of events; of a refused set only where it is `unchecked`, else `Refused`.
pub fn trace(set: &[u8], schedule: &[u8], unchecked: bool) -> Result<Trace, Error> {
    run(
        sys::pafteis_answer_trace,
        set,
        schedule,
        u32::from(unchecked),
    )
}

/// Of which events `tell` tells a line.
#[derive(Clone, Copy, Debug, PartialEq, Eq)]
pub enum Detail {
    /// Of those about packets, locks, lists and levels.
    Usual,
    /// Of those that do more than step.
    Quiet,
    /// Of each.
    Every,
}

/// A run of a schedule in words, with an audit of what it has left behind: it is complete where
/// nothing was found amiss.
pub fn tell(set: &[u8], schedule: &[u8], unchecked: bool, detail: Detail) -> Result<Trace, Error> {
    let detail = match detail {
        Detail::Usual => 0,
        Detail::Quiet => 2,
        Detail::Every => 4,
    };
    run(
        sys::pafteis_answer_tell,
        set,
        schedule,
        u32::from(unchecked) + detail,
    )
}

/// A run of a schedule as a picture in SVG.
pub fn draw(set: &[u8], schedule: &[u8], unchecked: bool) -> Result<Trace, Error> {
    run(
        sys::pafteis_answer_draw,
        set,
        schedule,
        u32::from(unchecked),
    )
}

/// How far a hunt goes, and what it looks for.
pub use pafteis_sys::pafteis_hunting as Hunting;

/// A shortest run that ends amiss, as a schedule: it is complete where none is within reach, and
/// the text says so then.
pub fn hunt(set: &[u8], asked: &Hunting) -> Result<Trace, Error> {
    let (at, length) = (set.as_ptr(), set.len());
    kept(|a, n| unsafe { sys::pafteis_answer_hunt(at, length, asked, a, n) }).map(traced)
}

/// Mends of a text, as diffs, tried so often for each faulty routine: it is complete where the
/// whole is mended, or there is nothing to mend.
pub fn mend(set: &[u8], tries: u64) -> Result<Trace, Error> {
    let (at, length) = (set.as_ptr(), set.len());
    kept(|a, n| unsafe { sys::pafteis_answer_mend(at, length, tries, a, n) }).map(traced)
}

fn traced((bytes, complete): (Vec<u8>, bool)) -> Trace {
    Trace {
        text: text(bytes),
        complete,
    }
}
