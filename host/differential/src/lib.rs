//! The crate lorawan 0.9.0 and the port on the same inputs.

pub mod cases;
pub mod commands;
pub mod compare;
pub mod encode;
pub mod frames;
pub mod intended;
mod intended_commands;
pub mod lists;
pub mod port;
pub mod random;
