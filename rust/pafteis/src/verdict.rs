use crate::error::{done, Error};
use pafteis_sys as sys;
use std::fmt;

/// Where a rule is broken, each number from 0 in the order of the text.
#[derive(Clone, Copy, Debug, PartialEq, Eq)]
pub struct Place {
    pub driver: u32,
    pub routine: u32,
    pub position: u32,
}

/// Why a set is refused: the rule by its number, 1 to 19, and where it is broken.
#[derive(Clone, Copy, Debug, PartialEq, Eq)]
pub struct Refusal {
    pub rule: u32,
    pub place: Place,
}

impl fmt::Display for Refusal {
    fn fmt(&self, out: &mut fmt::Formatter<'_>) -> fmt::Result {
        let Place {
            driver,
            routine,
            position,
        } = self.place;
        let rule = self.rule;
        write!(
            out,
            "refused V{rule} driver {driver} routine {routine} at {position}"
        )
    }
}

/// Nothing of an accepted set, and the refusal of a refused one.
///
/// # Errors
///
/// `FaultyText` and `FaultyImage` where the bytes are no set, `NoMemory`.
pub fn check(set: &[u8]) -> Result<Option<Refusal>, Error> {
    let mut found = sys::pafteis_verdict::default();
    // The pointers are those of a slice and of a value that lives.
    let status = unsafe { sys::pafteis_check(set.as_ptr(), set.len(), &mut found) };
    match judged(status, &found) {
        Err(Error::Refused(refusal)) => Ok(Some(refusal)),
        told => told.map(|()| None),
    }
}

/// What a call has told by its status and its verdict.
pub(crate) fn judged(status: u32, found: &sys::pafteis_verdict) -> Result<(), Error> {
    if status != sys::PAFTEIS_REFUSED && status != sys::PAFTEIS_FAULTY {
        return done(status);
    }
    if found.rule != 0 {
        let sys::pafteis_verdict {
            driver,
            routine,
            position,
            ..
        } = *found;
        let place = Place {
            driver,
            routine,
            position,
        };
        return Err(Error::Refused(Refusal {
            rule: found.rule,
            place,
        }));
    }
    if found.text_fault != 0 {
        return Err(Error::FaultyText {
            fault: found.text_fault,
            line: found.line,
        });
    }
    Err(Error::FaultyImage {
        fault: found.image_fault,
    })
}
