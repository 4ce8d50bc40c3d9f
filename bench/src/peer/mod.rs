//! The peer: the calls of documents 01 and 02 as somebody would write them for speed alone, word by word and without proofs.
//!
//! It keeps no state and allocates nothing, and judges the refusals in the order of their numbers; a transfer is kept by its
//! caller, and its finish has an order of its own.

mod block;
mod bytes;
pub mod convert;
mod counters;
pub mod grid;
mod grid_narrow;
mod grid_wide;
mod levels;
mod planes;
pub mod pointer;
pub mod transfer;
mod wide;
