//! What can go wrong.
use std::fmt;
use std::io;
use std::process::ExitStatus;

/// What the program refused, or couldn't do.
#[derive(Clone, Debug, PartialEq, Eq)]
pub struct Fault {
    /// Such as `S5`.
    pub code: String,
    /// The fault's line, and the lines that explain it.
    pub text: String,
}

/// An error of this crate.
#[derive(Debug)]
#[non_exhaustive]
pub enum Error {
    /// The program refused its files, or couldn't serve.
    Fault(Fault),
    /// A rule is for no proxy, or a rule or a toxic has no effect: the lines of `toxi check`.
    NoEffect(String),
    /// There is no proxy of this name, or it doesn't listen.
    UnknownProxy(String),
    /// What was waited for hasn't come within its time.
    Timeout(String),
    /// The program has ended, so what was waited for can't come.
    Ended(String),
    /// There is no program, or one of another version, or a setting is wrong.
    Setting(String),
    /// A file, a port or a process can't be had.
    Io(io::Error),
}

impl fmt::Display for Error {
    fn fmt(&self, formatter: &mut fmt::Formatter<'_>) -> fmt::Result {
        match self {
            Error::Fault(fault) => formatter.write_str(&fault.text),
            Error::NoEffect(text) | Error::UnknownProxy(text) | Error::Timeout(text) | Error::Ended(text) | Error::Setting(text) => formatter.write_str(text),
            Error::Io(error) => error.fmt(formatter),
        }
    }
}

impl std::error::Error for Error {
    fn source(&self) -> Option<&(dyn std::error::Error + 'static)> {
        match self {
            Error::Io(error) => Some(error),
            _ => None,
        }
    }
}

impl From<io::Error> for Error {
    fn from(error: io::Error) -> Self {
        Error::Io(error)
    }
}

/// The code of a line `toxi: S5 OutOfRange 1 1`.
fn code_of(line: &str) -> Option<&str> {
    let code = line.strip_prefix("toxi: ")?.split(' ').next()?;
    let mut letters = code.chars();
    let is_code = letters.next()?.is_ascii_uppercase() && letters.next()?.is_ascii_digit() && letters.next().is_none();
    is_code.then_some(code)
}

/// The error of a program that ended with this status and these lines on standard error.
pub(crate) fn error_of(said: &str, status: ExitStatus) -> Error {
    let mut lines = said.trim_end().lines().skip_while(|line| code_of(line).is_none());
    match lines.next().and_then(|line| Some((line, code_of(line)?))) {
        None => Error::Ended(format!("toxi ended with {status}: {}", said.trim_end())),
        Some((line, code)) => {
            let mut text = line["toxi: ".len()..].to_owned();
            lines.for_each(|line| text.extend(["\n", line]));
            let code = code.to_owned();
            Error::Fault(Fault { code, text })
        }
    }
}
