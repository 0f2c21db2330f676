//! A Toxi of a test.
use std::ops::Deref;
use std::thread;

use crate::config::{environment_seed, Config};
use crate::error::Error;
use crate::folder::random;
use crate::report::shell_word;
use crate::served::Toxi;

/// A seed of a few digits is easily typed.
const MAX_DRAWN: u64 = 1_000_000;

/// A [`Toxi`] that ends when it is dropped. Where its test panics, it prints the seed, the command that runs the test again, and what Toxi reports.
pub struct Guard(Toxi);

impl Config {
    /// Starts a Toxi for the test that runs, with the errors of [`Config::start`]. Where neither the config nor `TOXI_SEED` has a seed, it is drawn.
    pub fn start_for_test(mut self) -> Result<Guard, Error> {
        if self.seed.is_none() {
            self.seed = environment_seed()?.or_else(|| Some(random() % MAX_DRAWN));
        }
        self.start().map(Guard)
    }
}

impl Deref for Guard {
    type Target = Toxi;

    fn deref(&self) -> &Toxi {
        &self.0
    }
}

impl Drop for Guard {
    fn drop(&mut self) {
        self.0.stop();
        if thread::panicking() {
            // The thread of a test has its name.
            let thread = thread::current();
            let test = shell_word(thread.name().unwrap_or_default());
            eprintln!("TOXI_SEED={} cargo test -- --exact {test}\n{}", self.0.seed(), self.0.report());
        }
    }
}
