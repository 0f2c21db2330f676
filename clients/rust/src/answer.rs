//! Glue for `toxi-find --persistent`.
use std::collections::HashMap;
use std::io::{self, BufRead};

use serde_json::Value;

/// Runs a client for each line that `toxi-find --persistent` writes to standard input, with `host:port` of each proxy, and answers with its status: 0 is right.
/// It returns once standard input ends. What the client prints on standard output begins on a line of its own.
pub fn answer_runs(mut client: impl FnMut(HashMap<String, String>) -> u8) -> io::Result<()> {
    for line in io::stdin().lock().lines() {
        let request: Value = serde_json::from_str(&line?)?;
        let proxies = request["proxies"].as_object().into_iter().flatten();
        let proxies = proxies.filter_map(|(name, address)| Some((name.clone(), address.as_str()?.to_owned())));
        println!("toxi-answer {} {}", request["run"], client(proxies.collect()));
    }
    Ok(())
}
