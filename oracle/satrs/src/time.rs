//! Stand-in for `satrs::time`: the trait that the destination handler's check timer implements.

use core::fmt::Debug;

/// A timer that expires and can be started again.
pub trait CountdownProvider: Debug {
    fn has_expired(&self) -> bool;
    fn reset(&mut self);
}
