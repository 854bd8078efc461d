use crate::error::{done, Error};
use pafteis_sys as sys;

pub use pafteis_sys::pafteis_schedule_size as ScheduleSize;

/// How large a schedule is.
///
/// # Errors
///
/// `FaultySchedule` with its first fault, `NoMemory`.
pub fn schedule(text: &[u8]) -> Result<ScheduleSize, Error> {
    let mut size = ScheduleSize::default();
    let mut fault = sys::pafteis_schedule_fault::default();
    let (at, length) = (text.as_ptr(), text.len());
    let status = unsafe { sys::pafteis_schedule(at, length, &mut size, &mut fault) };
    if status == sys::PAFTEIS_FAULTY {
        let sys::pafteis_schedule_fault { line, kind } = fault;
        return Err(Error::FaultySchedule { fault: kind, line });
    }
    done(status)?;
    Ok(size)
}
