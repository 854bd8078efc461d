use crate::error::Error;
use crate::words::told;
use pafteis_sys as sys;

/// What a driver text names, by its number from 0.
#[derive(Clone, Copy, Debug, PartialEq, Eq)]
pub enum Named {
    Driver(u8),
    Device(u8),
    Routine { driver: u8, routine: u8 },
    Queue { driver: u8, queue: u8 },
}

/// The name that a driver text gives to something.
///
/// # Errors
///
/// `WrongArgument` where there is no such name; so have the calls below.
pub fn name_in(text: &[u8], named: Named) -> Result<String, Error> {
    let (kind, driver, number) = match named {
        Named::Driver(number) => (sys::PAFTEIS_NAME_OF_DRIVER, 0, number),
        Named::Device(number) => (sys::PAFTEIS_NAME_OF_DEVICE, 0, number),
        Named::Routine { driver, routine } => (sys::PAFTEIS_NAME_OF_ROUTINE, driver, routine),
        Named::Queue { driver, queue } => (sys::PAFTEIS_NAME_OF_QUEUE, driver, queue),
    };
    let (at, length) = (text.as_ptr(), text.len());
    name(|b, c, n| unsafe { sys::pafteis_name_in(at, length, kind, driver, number, b, c, n) })
}

/// The name of a rule, such as `V11 Guard`.
pub fn rule_name(rule: u32) -> Result<String, Error> {
    constant(sys::PAFTEIS_NAME_OF_RULE, rule)
}

/// The name of a status, such as `STATUS_CANCELLED`.
pub fn status_name(status: u32) -> Result<String, Error> {
    constant(sys::PAFTEIS_NAME_OF_STATUS, status)
}

/// The name of a bug check, such as `MULTIPLE_IRP_COMPLETE_REQUESTS`.
pub fn bug_check_name(number: u32) -> Result<String, Error> {
    constant(sys::PAFTEIS_NAME_OF_BUG_CHECK, number)
}

fn constant(kind: u32, number: u32) -> Result<String, Error> {
    name(|b, c, n| unsafe { sys::pafteis_name_of(kind, number, b, c, n) })
}

fn name(call: impl Fn(*mut u8, usize, *mut usize) -> u32) -> Result<String, Error> {
    told(call).map(|(bytes, _)| String::from_utf8_lossy(&bytes).into_owned())
}
