//! Pafteis, a proved host for driver routines, over the library libpafteis: verdicts on driver sets,
//! words on them, traces of their runs, and worlds, driven event by event. docs/TEXTS.md says what
//! stands in texts and schedules.
mod error;
mod locks;
mod names;
mod schedule;
mod shape;
mod verdict;
mod words;
mod world;

pub use error::Error;
pub use locks::{order_of_locks, LockEdge, LockOrder, CANCEL_LOCK};
pub use names::{bug_check_name, name_in, rule_name, status_name, Named};
pub use schedule::{schedule, ScheduleSize};
pub use shape::{describe, DeviceShape, RoutineShape, Shape};
pub use verdict::{check, Place, Refusal};
pub use words::{
    draw, explain, explain_rule, hunt, list, mend, report, rewrite, tell, trace, Detail, Extent,
    Hunting, Trace,
};
pub use world::{Cells, Due, Event, Level, Major, Packet, Reply, Request, Thread, World};
