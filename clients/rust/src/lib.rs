//! Starts `toxi serve`, a TCP proxy that adds faults, in front of the services of a test.
//!
//! A rule says which toxics the connections of a proxy meet, and the same seed gives the same faults again.
//!
//! ```no_run
//! use toxi::{Config, Latency, Proxy, Rule};
//!
//! # fn main() -> Result<(), toxi::Error> {
//! let served = Config::new()
//!     .proxy(Proxy::new("shop", "127.0.0.1:8080"))
//!     .rule(Rule::new("shop").toxic(Latency::new().latency(100)))
//!     .start_for_test()?;
//! let address = served.address("shop")?;
//! # Ok(())
//! # }
//! ```
//!
//! It ends when it is dropped, and where a test panics it prints the seed, the command that runs the test again, and what Toxi reports.
//! The program is [`Config::program`], else `TOXI`, else `toxi` on the `PATH`. It runs on Linux alone, and must be of this crate's version.
//!
//! Calls that wait hold up their thread. Under tokio, make them by `tokio::task::spawn_blocking`.

mod answer;
mod config;
mod error;
mod event;
mod folder;
mod guard;
mod ports;
mod process;
mod program;
mod report;
mod served;
mod toxic;
mod toxics;

pub use answer::answer_runs;
pub use config::{Config, Proxy, Rule};
pub use error::{Error, Fault};
pub use event::{Link, Total};
pub use guard::Guard;
pub use served::Toxi;
pub use toxic::{Stream, Toxic};
pub use toxics::{Bandwidth, Latency, LimitData, ResetPeer, Slicer, SlowClose, Timeout};
