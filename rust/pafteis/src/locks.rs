use crate::error::Error;
use crate::verdict::judged;
use pafteis_sys as sys;

/// A routine acquires a lock, `taken`, while it holds another, `held`. Locks are numbers: 0 to 7 the
/// spin locks of a device, [`CANCEL_LOCK`] the system cancel spin lock.
pub use pafteis_sys::pafteis_lock_edge as LockEdge;

/// The number of the system cancel spin lock.
pub use pafteis_sys::PAFTEIS_CANCEL_LOCK as CANCEL_LOCK;

/// What the routines of a driver make of its nine locks.
#[derive(Clone, Debug, PartialEq, Eq)]
pub enum LockOrder {
    /// All nine in an order: none is acquired while it or a later one is held.
    Ordered([u8; 9]),
    /// A shortest cycle: each edge acquires the lock that is held at the next, and the last the one
    /// that is held at the first.
    Cycle(Vec<LockEdge>),
}

/// The locks of a driver of an accepted set in an order, or where they have none a shortest cycle.
///
/// # Errors
///
/// `Refused`, `FaultyText`, `FaultyImage`, `WrongArgument` where the set has no driver of this
/// number, `NoMemory`.
pub fn order_of_locks(set: &[u8], driver: u8) -> Result<LockOrder, Error> {
    let (mut order, mut verdict) = Default::default();
    let (at, length) = (set.as_ptr(), set.len());
    // The pointers are those of a slice and of values that live.
    let status =
        unsafe { sys::pafteis_order_of_locks(at, length, driver, &mut order, &mut verdict) };
    judged(status, &verdict)?;
    Ok(if order.kind == sys::PAFTEIS_CYCLE {
        let edges = order.cycle.iter().take(order.edges as usize);
        LockOrder::Cycle(edges.copied().collect())
    } else {
        LockOrder::Ordered(order.order)
    })
}
