//! Stand-in for the root of satrs 0.2.1. The four files in `cfdp` that `SHA256SUMS` names are the original.
#![allow(clippy::all)]

extern crate alloc;

pub mod cfdp;
pub mod time;
