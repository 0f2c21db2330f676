//! Ports that are kept while nobody listens at them.
use std::collections::HashMap;
use std::io;
use std::net::SocketAddr;
use std::thread;
use std::time::{Duration, Instant};

use socket2::{Domain, Socket, Type};

use crate::error::Error;
use crate::process::STOP_LIMIT;

/// Between two looks whether the program has stopped listening.
const PAUSE: Duration = Duration::from_millis(1);

/// Bound sockets that don't listen: a connect is refused, and no other process gets the port.
#[derive(Default)]
pub(crate) struct HeldPorts(HashMap<String, Socket>);

impl HeldPorts {
    /// Holds these ports, once the program has stopped listening there.
    pub(crate) fn hold<'a>(&mut self, addresses: impl Iterator<Item = &'a String>) -> Result<(), Error> {
        for address in addresses.filter(|address| !self.0.contains_key(*address)).cloned().collect::<Vec<_>>() {
            let end = Instant::now() + STOP_LIMIT;
            let socket = loop {
                match bound(&address) {
                    Ok(socket) => break socket,
                    Err(error) if Instant::now() > end => return Err(error.into()),
                    Err(_) => thread::sleep(PAUSE),
                }
            };
            self.0.insert(address, socket);
        }
        self.share(false)
    }

    /// Lets the program listen at them. It sets SO_REUSEADDR too, which both sockets need.
    pub(crate) fn lend(&self) -> Result<(), Error> {
        self.share(true)
    }

    fn share(&self, is_shared: bool) -> Result<(), Error> {
        Ok(self.0.values().try_for_each(|socket| socket.set_reuse_address(is_shared))?)
    }

    pub(crate) fn release(&mut self) {
        self.0.clear();
    }
}

fn bound(address: &str) -> io::Result<Socket> {
    let place: SocketAddr = address.parse().map_err(|error| io::Error::new(io::ErrorKind::InvalidInput, error))?;
    let socket = Socket::new(Domain::for_address(place), Type::STREAM, None)?;
    // Else the connections that have just ended would keep the port from being bound.
    socket.set_reuse_address(true)?;
    socket.bind(&place.into())?;
    Ok(socket)
}
