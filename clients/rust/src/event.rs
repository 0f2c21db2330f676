//! The lines of `serve --json`, as values.
use serde_json::Value;

/// How a connection ended. An end is `closed`, `reset`, `open` or `broken`.
#[derive(Clone, Debug, PartialEq, Eq)]
pub struct Link {
    /// The proxy's name.
    pub proxy: String,
    /// The connection's number, from 1.
    pub number: u64,
    /// How many bytes were written upstream.
    pub up: u64,
    /// How that stream ended.
    pub up_end: String,
    /// How many bytes were written downstream.
    pub down: u64,
    /// How that stream ended.
    pub down_end: String,
}

/// The links of a proxy that has ended, and the sums of their bytes.
#[derive(Clone, Debug, PartialEq, Eq)]
pub struct Total {
    /// The proxy's name.
    pub proxy: String,
    /// How many connections it had.
    pub links: u64,
    /// How many bytes were written upstream.
    pub up: u64,
    /// How many bytes were written downstream.
    pub down: u64,
}

pub(crate) enum Event {
    Listening(String, String),
    Link(Link),
    Total(Total),
}

/// A line, or nothing for one of another kind.
pub(crate) fn parse(line: &str) -> Option<Event> {
    let line: Value = serde_json::from_str(line).ok()?;
    let text = |key: &str| Some(line.get(key)?.as_str()?.to_owned());
    let number = |key: &str| line.get(key)?.as_u64();
    let proxy = text("proxy")?;
    Some(match line.get("event")?.as_str()? {
        "listening" => Event::Listening(proxy, text("address")?),
        "link" => {
            Event::Link(Link { proxy, number: number("link")?, up: number("up")?, up_end: text("up_end")?, down: number("down")?, down_end: text("down_end")? })
        }
        "total" => Event::Total(Total { proxy, links: number("links")?, up: number("up")?, down: number("down")? }),
        _ => return None,
    })
}
