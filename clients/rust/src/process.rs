//! A running `serve`, which ends when its standard input does, and so with the process that started it.
use std::collections::HashMap;
use std::io::{BufRead, BufReader, Read};
use std::path::PathBuf;
use std::process::{Child, ExitStatus, Stdio};
use std::sync::{Arc, Condvar, Mutex, MutexGuard};
use std::thread::{self, JoinHandle};
use std::time::{Duration, Instant};

use crate::error::{error_of, Error};
use crate::event::{parse, Event, Link, Total};
use crate::program::{command, unstartable};
use crate::report::{shell_command, shell_word};

/// It ends within 2 seconds of the end of its input, or some more with thousands of links. A busy machine gets more.
pub(crate) const STOP_LIMIT: Duration = Duration::from_secs(10);
/// Between two looks whether it has ended.
const PAUSE: Duration = Duration::from_millis(2);

/// What it has printed.
#[derive(Default)]
pub(crate) struct Printed {
    pub(crate) lines: Vec<String>,
    pub(crate) addresses: HashMap<String, String>,
    pub(crate) links: Vec<Link>,
    pub(crate) totals: Vec<Total>,
    pub(crate) said: String,
    pub(crate) is_read: bool,
}

#[derive(Default)]
struct Shared {
    printed: Mutex<Printed>,
    changed: Condvar,
}

impl Shared {
    fn lock(&self) -> MutexGuard<'_, Printed> {
        self.printed.lock().unwrap_or_else(|poisoned| poisoned.into_inner())
    }

    fn note(&self, line: String) {
        let mut printed = self.lock();
        match parse(&line) {
            Some(Event::Listening(proxy, address)) => {
                printed.addresses.insert(proxy, address);
            }
            Some(Event::Link(link)) => printed.links.push(link),
            Some(Event::Total(total)) => printed.totals.push(total),
            None => {}
        }
        printed.lines.push(line);
        self.changed.notify_all();
    }
}

/// A start of the program.
pub(crate) struct Run {
    pub(crate) script: String,
    pub(crate) log: Option<PathBuf>,
    command: Vec<String>,
    child: Mutex<Child>,
    readers: Mutex<Vec<JoinHandle<()>>>,
    shared: Arc<Shared>,
}

impl Run {
    pub(crate) fn start(words: Vec<String>, script: String, log: Option<PathBuf>) -> Result<Run, Error> {
        let mut child = command(&words[0], &words[1..])
            .stdin(Stdio::piped())
            .stdout(Stdio::piped())
            .stderr(Stdio::piped())
            .spawn()
            .map_err(|error| unstartable(&words[0], error))?;
        let shared = Arc::new(Shared::default());
        let mut readers = vec![];
        if let Some(output) = child.stdout.take() {
            let shared = Arc::clone(&shared);
            readers.push(thread::spawn(move || {
                BufReader::new(output).lines().map_while(Result::ok).for_each(|line| shared.note(line));
                shared.lock().is_read = true;
                shared.changed.notify_all();
            }));
        }
        if let Some(mut errors) = child.stderr.take() {
            let shared = Arc::clone(&shared);
            readers.push(thread::spawn(move || {
                let mut said = vec![];
                // What was read before a failure is kept.
                let _ = errors.read_to_end(&mut said);
                shared.lock().said = String::from_utf8_lossy(&said).into_owned();
            }));
        }
        Ok(Run { script, log, command: words, child: Mutex::new(child), readers: Mutex::new(readers), shared })
    }

    fn child(&self) -> MutexGuard<'_, Child> {
        self.child.lock().unwrap_or_else(|poisoned| poisoned.into_inner())
    }

    pub(crate) fn printed(&self) -> MutexGuard<'_, Printed> {
        self.shared.lock()
    }

    /// Waits until a function finds something in what was printed. Nothing once that has ended or the time is up, and it finds nothing.
    pub(crate) fn wait_for<T>(&self, find: impl Fn(&Printed) -> Option<T>, limit: Duration) -> Option<T> {
        let end = Instant::now() + limit;
        let mut printed = self.shared.lock();
        loop {
            let found = find(&printed);
            let left = end.saturating_duration_since(Instant::now());
            if found.is_some() || printed.is_read || left.is_zero() {
                return found;
            }
            printed = self.shared.changed.wait_timeout(printed, left).unwrap_or_else(|poisoned| poisoned.into_inner()).0;
        }
    }

    /// The status of one that has ended.
    pub(crate) fn status(&self) -> Option<ExitStatus> {
        self.child().try_wait().ok().flatten()
    }

    pub(crate) fn close_input(&self) {
        self.child().stdin = None;
    }

    /// Ends its input, and kills it if it goes on. What it printed has been read then.
    pub(crate) fn stop(&self) -> Result<ExitStatus, Error> {
        self.close_input();
        let end = Instant::now() + STOP_LIMIT;
        while self.status().is_none() && Instant::now() < end {
            thread::sleep(PAUSE);
        }
        let mut child = self.child();
        // It has ended already where this fails.
        let _ = child.kill();
        let status = child.wait()?;
        for reader in self.readers.lock().unwrap_or_else(|poisoned| poisoned.into_inner()).drain(..) {
            let _ = reader.join();
        }
        Ok(status)
    }

    /// What an ended program has said.
    pub(crate) fn fault(&self) -> Error {
        match self.stop() {
            Ok(status) => error_of(&self.printed().said, status),
            Err(error) => error,
        }
    }

    /// The command, the script, the lines, and how the logs are judged.
    pub(crate) fn report(&self) -> Vec<String> {
        let mut report = vec![shell_command(&self.command), self.script.trim_end().to_owned()];
        let printed = self.printed();
        report.extend(printed.lines.iter().cloned());
        if !printed.said.is_empty() {
            report.push(printed.said.trim_end().to_owned());
        }
        if let Some(log) = &self.log {
            report.push(format!("find {} -name '*.log' | {} replay -", shell_word(&log.to_string_lossy()), shell_word(&self.command[0])));
        }
        report
    }
}
