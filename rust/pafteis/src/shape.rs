//! What an accepted driver set has.
use crate::error::Error;
use crate::verdict::judged;
use pafteis_sys as sys;

pub use sys::pafteis_device_shape as DeviceShape;
pub use sys::pafteis_routine_shape as RoutineShape;

/// What a set has: its devices by number, and of each driver the routines by number.
#[derive(Clone, Debug, PartialEq, Eq)]
pub struct Shape {
    pub devices: Vec<DeviceShape>,
    pub drivers: Vec<Vec<RoutineShape>>,
}

/// What an accepted set has.
///
/// # Errors
///
/// `Refused`, `FaultyText`, `FaultyImage`, `NoMemory`.
pub fn describe(set: &[u8]) -> Result<Shape, Error> {
    let (at, length) = (set.as_ptr(), set.len());
    let (mut found, mut verdict) = <(sys::pafteis_set, sys::pafteis_verdict)>::default();
    // The pointers are those of a slice and of values that live; so are those below.
    let status = unsafe { sys::pafteis_shape(at, length, &mut found, &mut verdict) };
    judged(status, &verdict)?;
    let devices = (0..found.devices).map(|number| {
        let (mut device, mut verdict) = (DeviceShape::default(), sys::pafteis_verdict::default());
        let number = number as u8;
        let status = unsafe { sys::pafteis_device(at, length, number, &mut device, &mut verdict) };
        judged(status, &verdict).map(|()| device)
    });
    Ok(Shape {
        devices: devices.collect::<Result<_, _>>()?,
        drivers: (0..found.drivers)
            .map(|driver| routines(set, driver as u8))
            .collect(),
    })
}

/// The routines of a driver.
fn routines(set: &[u8], driver: u8) -> Vec<RoutineShape> {
    let (at, length) = (set.as_ptr(), set.len());
    let routine = |number| {
        let (mut found, mut verdict) = (RoutineShape::default(), sys::pafteis_verdict::default());
        let status =
            unsafe { sys::pafteis_routine(at, length, driver, number, &mut found, &mut verdict) };
        (status == sys::PAFTEIS_DONE).then_some(found)
    };
    (0..sys::PAFTEIS_NONE).map_while(routine).collect()
}
