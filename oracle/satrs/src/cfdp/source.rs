//! Stand-in: the sending side is left out; `mod.rs` names this module.
