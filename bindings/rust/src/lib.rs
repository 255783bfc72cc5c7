#![doc = include_str!("../README.md")]
#![deny(missing_docs)]
#![deny(unsafe_code)]

mod answers;
#[allow(unsafe_code)]
pub mod calls;
mod network;
pub mod raw;
mod refusal;
mod week;

pub use answers::{Choice, Found, Path, Record, Regret, Search, State};
pub use network::Network;
pub use refusal::Refusal;
pub use week::Week;
