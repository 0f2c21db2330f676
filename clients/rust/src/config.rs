//! What a Toxi serves, and how.
use std::collections::HashMap;
use std::path::PathBuf;
use std::time::Duration;

use serde_json::json;

use crate::error::Error;
use crate::toxic::Toxic;

/// A proxy that listens before an upstream.
#[derive(Clone, Debug)]
#[must_use]
pub struct Proxy {
    pub(crate) name: String,
    pub(crate) upstream: String,
    pub(crate) listen: String,
    pub(crate) is_enabled: bool,
}

impl Proxy {
    /// A proxy before `host:port`, at a port of 127.0.0.1 that the system chooses and that stays its own.
    pub fn new(name: &str, upstream: &str) -> Self {
        Proxy { name: name.to_owned(), upstream: upstream.to_owned(), listen: "127.0.0.1:0".to_owned(), is_enabled: true }
    }

    /// Listens at this `host:port`.
    pub fn listen(self, address: &str) -> Self {
        Proxy { listen: address.to_owned(), ..self }
    }

    /// Doesn't listen.
    pub fn disabled(self) -> Self {
        Proxy { is_enabled: false, ..self }
    }
}

/// The toxics that the connections of a proxy from one number to another meet. A connection meets the first rule that covers it, and no other.
#[derive(Clone, Debug)]
#[must_use]
pub struct Rule {
    proxy: String,
    first: u64,
    last: Option<u64>,
    toxics: Vec<Toxic>,
}

impl Rule {
    /// A rule for all connections of a proxy.
    pub fn new(proxy: &str) -> Self {
        Rule { proxy: proxy.to_owned(), first: 1, last: None, toxics: vec![] }
    }

    /// From this connection on, counted from 1.
    pub fn first(self, connection: u64) -> Self {
        Rule { first: connection, ..self }
    }

    /// Up to this connection.
    pub fn last(self, connection: u64) -> Self {
        Rule { last: Some(connection), ..self }
    }

    /// Adds a toxic.
    pub fn toxic(mut self, toxic: impl Into<Toxic>) -> Self {
        self.toxics.push(toxic.into());
        self
    }

    fn lines(&self) -> Vec<String> {
        let mut lines = vec![String::new(), "[[rule]]".to_owned(), format!("proxy = {}", quoted(&self.proxy)), format!("first = {}", self.first)];
        lines.extend(self.last.map(|last| format!("last = {last}")));
        lines.extend(self.toxics.iter().flat_map(Toxic::lines));
        lines
    }
}

/// What a Toxi serves, and how. What isn't given is the program's default.
#[derive(Clone, Debug)]
#[must_use]
pub struct Config {
    pub(crate) proxies: Vec<Proxy>,
    pub(crate) rules: Vec<Rule>,
    pub(crate) seed: Option<u64>,
    pub(crate) program: Option<String>,
    pub(crate) directory: Option<PathBuf>,
    pub(crate) log: Option<PathBuf>,
    pub(crate) options: Vec<String>,
    pub(crate) start_timeout: Duration,
}

impl Default for Config {
    fn default() -> Self {
        Config::new()
    }
}

impl Config {
    /// Without a proxy.
    pub fn new() -> Self {
        Config {
            proxies: vec![],
            rules: vec![],
            seed: None,
            program: None,
            directory: None,
            log: None,
            options: vec![],
            // A clone's ./toxi compiles itself first.
            start_timeout: Duration::from_secs(300),
        }
    }

    /// Adds a proxy.
    pub fn proxy(mut self, proxy: Proxy) -> Self {
        self.proxies.push(proxy);
        self
    }

    /// Adds a rule.
    pub fn rule(mut self, rule: Rule) -> Self {
        self.rules.push(rule);
        self
    }

    /// What the draws are made from. Otherwise the seed is that of `TOXI_SEED`, or else 1. A [`Guard`](crate::Guard) draws one in place of 1.
    pub fn seed(self, seed: u64) -> Self {
        Config { seed: Some(seed), ..self }
    }

    /// The path of the program. Otherwise it is that of `TOXI`, or else `toxi` on the `PATH`.
    pub fn program(self, program: &str) -> Self {
        Config { program: Some(program.to_owned()), ..self }
    }

    /// Keeps the populate file and the script there. Otherwise they go away once the program has read them.
    pub fn directory(self, directory: impl Into<PathBuf>) -> Self {
        Config { directory: Some(directory.into()), ..self }
    }

    /// A folder, new or empty, that gets a log of each stream of a link. Later runs have their number behind its name.
    pub fn log(self, folder: impl Into<PathBuf>) -> Self {
        Config { log: Some(folder.into()), ..self }
    }

    /// After how many connections each proxy stops listening.
    pub fn links(self, links: u64) -> Self {
        self.option("--links", links)
    }

    /// How many threads drive all links. Otherwise each link has four of its own.
    pub fn workers(self, workers: u64) -> Self {
        self.option("--workers", workers)
    }

    /// How many milliseconds a connect to an upstream may take.
    pub fn connect_timeout(self, milliseconds: u64) -> Self {
        self.option("--connect-timeout", milliseconds)
    }

    /// How long the program has until it listens: 300 seconds otherwise.
    pub fn start_timeout(self, limit: Duration) -> Self {
        Config { start_timeout: limit, ..self }
    }

    fn option(mut self, option: &str, value: u64) -> Self {
        self.options.extend([option.to_owned(), value.to_string()]);
        self
    }
}

/// The seed of `TOXI_SEED`, if it is set.
pub(crate) fn environment_seed() -> Result<Option<u64>, Error> {
    match std::env::var("TOXI_SEED") {
        Err(_) => Ok(None),
        Ok(text) if text.is_empty() => Ok(None),
        Ok(text) => match text.parse() {
            Ok(seed) => Ok(Some(seed)),
            Err(_) => Err(Error::Setting(format!("TOXI_SEED is a whole number from 0 to {}, not {text}", u64::MAX))),
        },
    }
}

/// The populate file of proxies. Those that have listened keep their addresses.
pub(crate) fn populate_text(proxies: &[Proxy], addresses: &HashMap<String, String>) -> String {
    let entries = proxies.iter().map(|proxy| {
        let listen = addresses.get(&proxy.name).unwrap_or(&proxy.listen);
        json!({ "name": proxy.name, "upstream": proxy.upstream, "listen": listen, "enabled": proxy.is_enabled })
    });
    serde_json::Value::from_iter(entries).to_string()
}

/// The script with these rules, a document of TOML in version 2.
pub(crate) fn script_text(rules: &[Rule]) -> String {
    let mut lines = vec!["version = 2".to_owned()];
    lines.extend(rules.iter().flat_map(Rule::lines));
    lines.join("\n") + "\n"
}

/// A text as TOML. JSON's escapes are TOML's, but JSON leaves U+007F as it is.
pub(crate) fn quoted(text: &str) -> String {
    serde_json::Value::from(text).to_string().replace('\u{7f}', "\\u007f")
}
