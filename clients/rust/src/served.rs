//! `Toxi`: a `toxi serve` process in front of the services of a test.
use std::collections::HashMap;
use std::fs;
use std::path::{Path, PathBuf};
use std::sync::{Arc, Mutex, MutexGuard};
use std::time::Duration;

use crate::config::{environment_seed, populate_text, quoted, script_text, Config, Rule};
use crate::error::Error;
use crate::event::{Link, Total};
use crate::folder::Folder;
use crate::ports::HeldPorts;
use crate::process::Run;
use crate::program::{answer, found_program};

/// A started program, which ends when it is dropped.
pub struct Toxi {
    config: Config,
    program: String,
    seed: u64,
    /// Locked before the state while the program is started or ended.
    held: Mutex<HeldPorts>,
    state: Mutex<State>,
}

#[derive(Default)]
struct State {
    runs: Vec<Arc<Run>>,
    rules: Vec<Rule>,
    addresses: HashMap<String, String>,
    is_down: bool,
    is_stopped: bool,
}

fn locked<T>(mutex: &Mutex<T>) -> MutexGuard<'_, T> {
    mutex.lock().unwrap_or_else(|poisoned| poisoned.into_inner())
}

impl Config {
    /// Starts the program, and waits until every enabled proxy listens. Rules for no proxy, and rules and toxics without effect, are errors.
    pub fn start(self) -> Result<Toxi, Error> {
        let program = found_program(self.program.as_deref())?;
        let seed = match self.seed {
            Some(seed) => seed,
            None => environment_seed()?.unwrap_or(1),
        };
        let rules = self.rules.clone();
        let toxi = Toxi { config: self, program, seed, held: Mutex::default(), state: Mutex::default() };
        toxi.serve(&mut locked(&toxi.held), rules)?;
        Ok(toxi)
    }
}

impl Toxi {
    /// The seed of the draws.
    pub fn seed(&self) -> u64 {
        self.seed
    }

    /// `host:port` of a proxy. The error is `UnknownProxy` for one that isn't there, or doesn't listen.
    pub fn address(&self, proxy: &str) -> Result<String, Error> {
        let state = locked(&self.state);
        state.addresses.get(proxy).cloned().ok_or_else(|| unknown(proxy, state.addresses.keys()))
    }

    /// `http://host:port` of a proxy, with the errors of `address`.
    pub fn url(&self, proxy: &str) -> Result<String, Error> {
        self.address(proxy).map(|address| format!("http://{address}"))
    }

    /// The lines of the program so far. A restart begins anew.
    pub fn lines(&self) -> Vec<String> {
        self.run().map(|run| run.printed().lines.clone()).unwrap_or_default()
    }

    /// The links of a proxy that have ended so far, in the order of their ends. The error is `UnknownProxy` for one that isn't there.
    pub fn links(&self, proxy: &str) -> Result<Vec<Link>, Error> {
        self.require_known(proxy)?;
        let run = self.run()?;
        let printed = run.printed();
        Ok(printed.links.iter().filter(|link| link.proxy == proxy).cloned().collect())
    }

    /// Waits for the end of the connection of this number, counted from 1. The error is `Timeout`, or `Ended` where it can't come.
    pub fn wait_for_link(&self, proxy: &str, number: u64, limit: Duration) -> Result<Link, Error> {
        self.require_known(proxy)?;
        let run = self.run()?;
        let find = |link: &&Link| link.proxy == proxy && link.number == number;
        let found = run.wait_for(|printed| printed.links.iter().find(find).cloned(), limit);
        found.ok_or_else(|| {
            let what = format!("the end of link {number} of {proxy}");
            if run.printed().is_read {
                return Error::Ended(format!("toxi has ended without {what}"));
            }
            Error::Timeout(format!("not within {limit:?}: {what}"))
        })
    }

    /// Waits until the program ends by itself, which it does with [`Config::links`], and returns its totals. The error is `Timeout`, or its fault.
    pub fn wait(&self, limit: Duration) -> Result<Vec<Total>, Error> {
        let run = self.run()?;
        run.wait_for(|printed| printed.is_read.then_some(()), limit).ok_or_else(|| Error::Timeout(format!("not within {limit:?}: the end of toxi")))?;
        if !run.stop()?.success() {
            return Err(run.fault());
        }
        let printed = run.printed();
        Ok(printed.totals.clone())
    }

    /// The logs so far, one for each stream of a link. None without [`Config::log`].
    pub fn logs(&self) -> Result<Vec<PathBuf>, Error> {
        let run = self.run()?;
        let Some(folder) = &run.log else { return Ok(vec![]) };
        let files = fs::read_dir(folder)?.collect::<Result<Vec<_>, _>>()?;
        let logs = files.iter().map(fs::DirEntry::path).filter(|path| path.extension().is_some_and(|end| end == "log"));
        Ok(logs.collect())
    }

    /// What a person needs after a failed test, of each run: the seed, the command, the script, and the lines of the program.
    pub fn report(&self) -> String {
        let runs = locked(&self.state).runs.clone();
        let reports = runs.iter().map(|run| format!("seed {}\n{}", self.seed, run.report().join("\n")));
        reports.collect::<Vec<_>>().join("\n")
    }

    /// Serves other rules at the same addresses. Links that live are broken, and the next is number 1. Rules that are wrong are the errors that they are at
    /// the start, and what runs goes on.
    pub fn restart(&self, rules: impl IntoIterator<Item = Rule>) -> Result<(), Error> {
        let mut held = locked(&self.held);
        self.require_running()?;
        self.serve(&mut held, rules.into_iter().collect())
    }

    /// Takes the service down: links that live are broken, and connects are refused. The ports stay its own. A second call does nothing.
    pub fn down(&self) -> Result<(), Error> {
        let mut held = locked(&self.held);
        self.require_running()?;
        self.end_run(&mut held)
    }

    /// Takes the service up again, at the same addresses under the same rules and seed. The next link is number 1. If it is up, nothing is done.
    pub fn up(&self) -> Result<(), Error> {
        let mut held = locked(&self.held);
        self.require_running()?;
        if self.run()?.status().is_none() {
            return Ok(());
        }
        let rules = locked(&self.state).rules.clone();
        self.serve(&mut held, rules)
    }

    /// Ends the program, and gives its ports up. Links that live are broken, and have their lines. A second call does nothing.
    pub fn stop(&self) {
        let mut held = locked(&self.held);
        locked(&self.state).is_stopped = true;
        if let Ok(run) = self.run() {
            // What isn't there any more has ended.
            let _ = run.stop();
        }
        held.release();
    }

    fn run(&self) -> Result<Arc<Run>, Error> {
        locked(&self.state).runs.last().cloned().ok_or_else(|| Error::Ended("toxi hasn't begun".to_owned()))
    }

    fn require_running(&self) -> Result<(), Error> {
        if locked(&self.state).is_stopped {
            return Err(Error::Ended("it was stopped".to_owned()));
        }
        Ok(())
    }

    /// Checks the rules, ends what runs, and starts the next run at the same addresses. Where the rules are wrong, what runs goes on.
    fn serve(&self, held: &mut HeldPorts, rules: Vec<Rule>) -> Result<(), Error> {
        let number = locked(&self.state).runs.len() + 1;
        let suffix = if number == 1 { String::new() } else { format!("-{number}") };
        let folder = Folder::new(self.config.directory.as_deref())?;
        let files = self.written_files(&folder.path, &suffix, &rules)?;
        let check = [&["check".to_owned()], &files[..]].concat();
        let found = answer(&self.program, &check)?;
        if !found.trim().is_empty() {
            return Err(Error::NoEffect(found.trim().to_owned()));
        }
        self.end_run(held)?;
        held.lend()?;
        let log = self.config.log.as_ref().map(|log| PathBuf::from(format!("{}{suffix}", log.display())));
        let run = Arc::new(Run::start(self.serve_command(files, log.as_deref()), script_text(&rules), log)?);
        let mut state = locked(&self.state);
        state.runs.push(Arc::clone(&run));
        state.rules = rules;
        drop(state);
        let addresses = self.listening(&run)?;
        let mut state = locked(&self.state);
        state.addresses = addresses;
        state.is_down = false;
        held.release();
        Ok(())
    }

    /// Writes the populate file and the script, and returns the options that name them.
    fn written_files(&self, folder: &Path, suffix: &str, rules: &[Rule]) -> Result<Vec<String>, Error> {
        let config = folder.join(format!("proxies{suffix}.json"));
        let script = folder.join(format!("script{suffix}.toml"));
        fs::write(&config, populate_text(&self.config.proxies, &locked(&self.state).addresses))?;
        fs::write(&script, script_text(rules))?;
        let words = ["--config".to_owned(), config.display().to_string(), "--script".to_owned(), script.display().to_string()];
        Ok(words.to_vec())
    }

    fn serve_command(&self, files: Vec<String>, log: Option<&Path>) -> Vec<String> {
        let mut command = vec![self.program.clone()];
        command.extend(["serve", "--json", "--until-eof", "--seed"].map(str::to_owned));
        command.push(self.seed.to_string());
        command.extend(files);
        command.extend(self.config.options.iter().cloned());
        command.extend(log.into_iter().flat_map(|log| ["--log".to_owned(), log.display().to_string()]));
        command
    }

    fn listening(&self, run: &Run) -> Result<HashMap<String, String>, Error> {
        let enabled = self.config.proxies.iter().filter(|proxy| proxy.is_enabled).count();
        let limit = self.config.start_timeout;
        let addresses = run.wait_for(|printed| (printed.addresses.len() == enabled).then(|| printed.addresses.clone()), limit);
        let is_read = run.printed().is_read;
        addresses.ok_or_else(|| if is_read { run.fault() } else { Error::Timeout(format!("toxi doesn't listen within {limit:?}")) })
    }

    /// Ends the program, and takes its ports as soon as it stops listening.
    fn end_run(&self, held: &mut HeldPorts) -> Result<(), Error> {
        let Ok(run) = self.run() else { return Ok(()) };
        if locked(&self.state).is_down {
            return Ok(());
        }
        if run.status().is_some_and(|status| !status.success()) {
            return Err(run.fault());
        }
        run.close_input();
        let addresses = locked(&self.state).addresses.clone();
        held.hold(addresses.values())?;
        run.stop()?;
        locked(&self.state).is_down = true;
        Ok(())
    }

    fn require_known(&self, name: &str) -> Result<(), Error> {
        let mut names = self.config.proxies.iter().map(|proxy| &proxy.name);
        if names.any(|each| each == name) {
            return Ok(());
        }
        Err(unknown(name, self.config.proxies.iter().map(|proxy| &proxy.name)))
    }
}

impl Drop for Toxi {
    fn drop(&mut self) {
        self.stop();
    }
}

fn unknown<'a>(name: &str, known: impl Iterator<Item = &'a String>) -> Error {
    let names: Vec<_> = known.map(|each| quoted(each)).collect();
    Error::UnknownProxy(format!("no proxy {} listens or is known; there are {}", quoted(name), names.join(", ")))
}
