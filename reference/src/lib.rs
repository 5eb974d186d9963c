//! The originals of oxml behind the line format of call lists, for comparison with the port. README.md says how to run it.

#![forbid(unsafe_code)]

extern crate alloc;

include!(concat!(env!("OUT_DIR"), "/originals.rs"));

mod answers;
#[cfg(feature = "port")]
mod bench;
mod calls;
mod chars;
mod check;
mod choose;
mod coverage;
#[cfg(feature = "port")]
mod damage;
mod driver;
mod dump;
mod generate;
mod judge;
mod limits;
mod memory;
mod noise;
#[cfg(feature = "port")]
mod orders;
mod parse;
mod plain;
#[cfg(feature = "port")]
mod port;
mod profiles;
mod random;
mod rules;
mod run;
mod state;
#[cfg(test)]
mod tests;
mod texts;
#[cfg(feature = "port")]
mod walks;

#[cfg(feature = "port")]
pub use bench::{Benchmark, bench};
#[cfg(feature = "port")]
pub use damage::{Tally, damage};
pub use generate::{generate, profiles};
pub use judge::judge;
pub use memory::Memory;
#[cfg(feature = "port")]
pub use orders::{Pairs, orders};
#[cfg(feature = "port")]
pub use run::run_port;
pub use run::{Options, Report, run};
#[cfg(feature = "port")]
pub use walks::{Walks, walks};
