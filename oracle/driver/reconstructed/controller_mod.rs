//! Reconstructed: used where the checkout has no src/memory/controller/mod.rs. These are the modules
//! that the driver's other files import from it.

pub mod configuration;
pub mod fifo;
pub mod filter;
pub mod interrupt;
