//! The program: its version, and commands of it that answer and end.
use std::collections::BTreeMap;
use std::ffi::OsStr;
use std::process::{Command, Stdio};
use std::sync::Mutex;
use std::time::SystemTime;

use crate::error::{error_of, Error};

const VERSION: &str = env!("CARGO_PKG_VERSION");

/// Versions that were asked for, by the program and the time of its last change.
static VERSIONS: Mutex<BTreeMap<(String, Option<SystemTime>), String>> = Mutex::new(BTreeMap::new());

/// The path of the program, which must be of this crate's version.
pub(crate) fn found_program(given: Option<&str>) -> Result<String, Error> {
    let told = given.map(str::to_owned).or_else(|| std::env::var("TOXI").ok().filter(|path| !path.is_empty()));
    let program = told.unwrap_or_else(|| "toxi".to_owned());
    let version = version_of(&program)?;
    if version != VERSION {
        return Err(Error::Setting(format!("{program} is of version {version}, and the crate toxi of {VERSION}")));
    }
    Ok(program)
}

fn version_of(program: &str) -> Result<String, Error> {
    let changed = std::fs::metadata(program).and_then(|about| about.modified()).ok();
    let key = (program.to_owned(), changed);
    let mut versions = VERSIONS.lock().unwrap_or_else(|poisoned| poisoned.into_inner());
    if let Some(known) = versions.get(&key) {
        return Ok(known.clone());
    }
    let printed = answer(program, ["--version"])?;
    let mut words = printed.split_whitespace();
    let version = match (words.next(), words.next()) {
        (Some("toxi"), Some(version)) => version.to_owned(),
        _ => return Err(Error::Setting(format!("{program} isn't the program `toxi`: it doesn't tell a version"))),
    };
    versions.insert(key, version.clone());
    Ok(version)
}

/// A command of the program. Its environment is this process's without options of `serve`, since those of a suite are its own. Explanations of faults are
/// asked for unless it refuses them.
pub(crate) fn command<S: AsRef<OsStr>>(program: &str, words: impl IntoIterator<Item = S>) -> Command {
    let mut command = Command::new(program);
    command.args(words);
    for (name, _) in std::env::vars_os() {
        if name.as_encoded_bytes().starts_with(b"TOXI_") && name != "TOXI_EXPLAIN" {
            command.env_remove(name);
        }
    }
    if std::env::var_os("TOXI_EXPLAIN").is_none() {
        command.env("TOXI_EXPLAIN", "1");
    }
    command
}

pub(crate) fn unstartable(program: &str, error: std::io::Error) -> Error {
    Error::Setting(format!("{program} can't be started: {error}"))
}

/// What a command prints on standard output. The error is what it says on standard error where it fails.
pub(crate) fn answer<S: AsRef<OsStr>>(program: &str, words: impl IntoIterator<Item = S>) -> Result<String, Error> {
    let ran = command(program, words).stdin(Stdio::null()).output().map_err(|error| unstartable(program, error))?;
    if ran.status.success() {
        return Ok(String::from_utf8_lossy(&ran.stdout).into_owned());
    }
    Err(error_of(&String::from_utf8_lossy(&ran.stderr), ran.status))
}
