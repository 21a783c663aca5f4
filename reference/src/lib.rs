//! Settlement of curtailed energy: a reference written from document 01, requests 1 to 3, 5 and 6 and the decisions
//! on them alone; request 4 changes no answer.
//!
//! The plain modules follow the paper sentence by sentence: `archive` ("The archive"), `settle` ("From readings to
//! exact fractions" and settle, with request 3's rules of October 2026), `calendar` (request 1's dates and delivery
//! day), `filing` (fresh, append, show, and request 2's taking back), `audit`, `correction` (request 5's cents),
//! `preview` (request 6's one more record) and `program`. They keep S and R as exact sums and round those.
//! `fast` does the same calls with speed in mind. `builder` and `generate` make inputs, `slips` holds likely wrong
//! readings, so that the inputs can be shown to tell them apart.

#![forbid(unsafe_code)]

pub mod archive;
pub mod audit;
pub mod builder;
pub mod calendar;
pub mod correction;
pub mod fast;
pub mod filing;
pub mod generate;
pub mod preview;
pub mod program;
pub mod rng;
pub mod settle;
pub mod sha256;
pub mod slips;

#[cfg(test)]
mod tests;

pub use audit::audit;
pub use calendar::{delivery_day, host_delivery_day};
pub use correction::{correction, host_correction};
pub use filing::{append, fresh, show, take_back};
pub use preview::{host_preview, preview};
pub use program::program;
pub use settle::{host_settle, settle, Answer};
