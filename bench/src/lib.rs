//! Measures the archive of Ernavluq against two peers, after it has checked that all three agree.

pub mod agree;
pub mod answers;
pub mod archive;
pub mod archive_transfer;
pub mod calls;
pub mod calls_bad_counter;
pub mod calls_convert;
pub mod calls_grid;
pub mod calls_pointer;
pub mod calls_transfer;
pub mod contestant;
pub mod input;
pub mod inputs_convert;
pub mod inputs_grid;
pub mod inputs_pointer;
pub mod inputs_transfer;
pub mod peer;
#[path = "../../rust/src/raw.rs"]
pub mod raw;
pub mod records;
pub mod scenarios;
pub mod scenarios_grid;
pub mod scenarios_transfer;
pub mod script;
pub mod table;
pub mod time;
