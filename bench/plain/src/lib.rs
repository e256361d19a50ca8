//! The planner's rule in plain Rust: the same board, the same order and the same looks as the proved crates.
#![forbid(unsafe_code)]

mod board;
mod chains;
mod change;
mod evening;
mod found;
mod list;
mod making;
mod placing;
mod planning;
mod refusal;
mod register;
mod sizes;
mod text;

pub use change::{change_bytes, Changed};
pub use list::{List, Meeting};
pub use planning::{plan, plan_bytes, Planned};
pub use refusal::Refusal;
pub use sizes::sizes_of;
pub use text::{changes_text, plan_text, print};
