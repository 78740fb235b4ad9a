//! Checks of the planner: an independent implementation, a comparison of the
//! two, an optimised search, and programs run by tests.

pub mod buffers;
pub mod differential;
pub mod optimised;
pub mod program;
pub mod reference;
pub mod turning;
