//! What the benchmark, the comparison and the stack's measurement share.

pub mod automaton;
pub mod calls;
pub mod clock;
pub mod drawn;
pub mod families;
pub mod figure2;
pub mod game;
pub mod goals;
pub mod lucorphane;
pub mod model;
pub mod naive;
pub mod pending;
pub mod row;
