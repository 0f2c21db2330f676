//! A service that answers each line with a thousand bytes and closes, and its clients.
#![allow(dead_code, reason = "each file of tests is a program, and uses some of these")]
use std::io::{BufRead, BufReader, ErrorKind, Read, Result, Write};
use std::net::{TcpListener, TcpStream};
use std::sync::OnceLock;
use std::thread;
use std::time::{Duration, Instant};

use toxi::{Config, Guard, Proxy, Rule, Toxic};

pub const SIZE: usize = 1000;
pub const PATIENCE: Duration = Duration::from_secs(30);
pub const SHORT: Duration = Duration::from_secs(2);

pub fn service() -> &'static str {
    static ADDRESS: OnceLock<String> = OnceLock::new();
    ADDRESS.get_or_init(|| {
        let listener = TcpListener::bind("127.0.0.1:0").unwrap();
        let address = listener.local_addr().unwrap().to_string();
        thread::spawn(move || {
            for client in listener.incoming().flatten() {
                thread::spawn(move || answer(client));
            }
        });
        address
    })
}

fn answer(mut client: TcpStream) -> Result<()> {
    let mut line = String::new();
    if BufReader::new(client.try_clone()?).read_line(&mut line)? > 0 {
        client.write_all(&[b'x'; SIZE])?;
    }
    Ok(())
}

/// One proxy, `shop`, whose connections all meet these toxics.
pub fn shop(toxics: impl IntoIterator<Item = Toxic>) -> Config {
    let config = Config::new().proxy(Proxy::new("shop", service()));
    let mut toxics = toxics.into_iter().peekable();
    if toxics.peek().is_none() {
        return config;
    }
    config.rule(toxics.fold(Rule::new("shop"), Rule::toxic))
}

/// A Toxi of one proxy, whose connections meet this toxic.
pub fn served(toxic: impl Into<Toxic>) -> Guard {
    shop([toxic.into()]).start_for_test().unwrap()
}

/// The bytes of an answer, whose pieces each come within a limit.
pub fn fetched_within(address: &str, limit: Duration) -> Result<usize> {
    let mut client = TcpStream::connect(address)?;
    client.set_read_timeout(Some(limit))?;
    client.write_all(b"get\n")?;
    client.read_to_end(&mut vec![])
}

pub fn fetched(address: &str) -> Result<usize> {
    fetched_within(address, PATIENCE)
}

/// Of each of some tries, whether it had the whole answer.
pub fn works(config: Config, tries: usize) -> Vec<bool> {
    let served = config.start_for_test().unwrap();
    let address = served.address("shop").unwrap();
    (0..tries).map(|_| fetched(&address).is_ok_and(|got| got == SIZE)).collect()
}

pub fn is_refused(address: &str) -> bool {
    TcpStream::connect(address).is_err_and(|error| error.kind() == ErrorKind::ConnectionRefused)
}

pub fn eventually(what: &str, holds: impl Fn() -> bool) {
    let end = Instant::now() + PATIENCE;
    while !holds() {
        assert!(Instant::now() < end, "not within 30 s: {what}");
        thread::sleep(Duration::from_millis(10));
    }
}
