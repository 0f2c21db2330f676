//! Starts, restarts and ends.
mod common;

use std::env;
use std::fs;
use std::io::{BufRead, BufReader, ErrorKind, Write};
use std::net::TcpListener;
use std::os::unix::fs::PermissionsExt;
use std::path::PathBuf;
use std::process::{Child, Command, Stdio};
use std::thread;
use std::time::Duration;

use common::{eventually, fetched, is_refused, served, service, shop, PATIENCE, SIZE};
use toxi::{Config, Error, Latency, LimitData, Proxy, Rule};

/// A fresh folder of a test.
fn folder(test: &str) -> PathBuf {
    let path = PathBuf::from(env!("CARGO_TARGET_TMPDIR")).join(format!("{test}-{}", std::process::id()));
    fs::create_dir_all(&path).unwrap();
    path
}

/// This program, with one of its tests that aren't run otherwise.
fn other_test(name: &str) -> Command {
    let mut command = Command::new(env::current_exe().unwrap());
    command.args(["--ignored", "--exact", name]).env_remove("TOXI_SEED").env("TOXI_WORKERS", "none").env("TOXI_TEST_UPSTREAM", service());
    command
}

/// The test that is killed, once its Toxi listens: its address and its seed.
fn killable(command: &mut Command) -> (Child, String, String) {
    let mut child = command.arg("--nocapture").stdout(Stdio::piped()).spawn().unwrap();
    let lines = BufReader::new(child.stdout.take().unwrap()).lines();
    let told = lines.map_while(Result::ok).find(|line| line.starts_with("serves ")).unwrap();
    let words: Vec<_> = told.split(' ').map(str::to_owned).collect();
    (child, words[1].clone(), words[2].clone())
}

#[test]
#[ignore = "a test that is killed"]
fn killed() {
    let toxi = Config::new().proxy(Proxy::new("shop", &env::var("TOXI_TEST_UPSTREAM").unwrap())).start().unwrap();
    println!("\nserves {} {}", toxi.address("shop").unwrap(), toxi.seed());
    thread::sleep(2 * PATIENCE);
}

#[test]
#[ignore = "a test that is red"]
fn red() {
    let served = served(LimitData::new().bytes(100));
    let got = fetched(&served.address("shop").unwrap()).unwrap();
    served.wait_for_link("shop", 1, PATIENCE).unwrap();
    assert_eq!(got, SIZE);
}

#[test]
#[ignore = "a client that stays for many runs"]
fn answers() {
    println!();
    toxi::answer_runs(|proxies| proxies.get("shop").map_or(0, |address| address.len() as u8)).unwrap();
}

#[test]
fn runs_are_answered() {
    let mut client = other_test("answers").arg("--nocapture").stdin(Stdio::piped()).stdout(Stdio::piped()).spawn().unwrap();
    let requests = "{\"run\": 1, \"proxies\": {\"shop\": \"127.0.0.1:4\"}}\n{\"run\": 2, \"proxies\": {}}\n";
    client.stdin.take().unwrap().write_all(requests.as_bytes()).unwrap();
    let printed = String::from_utf8(client.wait_with_output().unwrap().stdout).unwrap();
    assert!(printed.contains("\ntoxi-answer 1 11\ntoxi-answer 2 0\n"), "{printed}");
}

#[test]
fn a_link_that_does_not_come_times_out() {
    let served = shop([]).start_for_test().unwrap();
    let error = served.wait_for_link("shop", 1, Duration::from_millis(100));
    assert!(matches!(error, Err(Error::Timeout(_))));
}

#[test]
fn a_restart_serves_other_rules_at_the_same_address() {
    let served = shop([]).start_for_test().unwrap();
    let address = served.address("shop").unwrap();
    fetched(&address).unwrap();
    served.wait_for_link("shop", 1, PATIENCE).unwrap();
    for bytes in [100, 10] {
        served.restart([Rule::new("shop").toxic(LimitData::new().bytes(bytes))]).unwrap();
        assert_eq!(served.address("shop").unwrap(), address);
        fetched(&address).unwrap();
        assert_eq!(served.wait_for_link("shop", 1, PATIENCE).unwrap().down, bytes);
    }
}

#[test]
fn a_wrong_restart_changes_nothing() {
    let served = shop([]).start_for_test().unwrap();
    let error = served.restart([Rule::new("shp")]).unwrap_err();
    assert!(error.to_string().contains("no proxy shp"), "{error}");
    assert_eq!(fetched(&served.address("shop").unwrap()).unwrap(), SIZE);
}

#[test]
fn down_refuses_and_up_answers() {
    let served = shop([]).start_for_test().unwrap();
    let address = served.address("shop").unwrap();
    served.down().unwrap();
    served.down().unwrap();
    assert!(is_refused(&address));
    assert_eq!(TcpListener::bind(&address).unwrap_err().kind(), ErrorKind::AddrInUse);
    served.up().unwrap();
    served.up().unwrap();
    assert_eq!(fetched(&address).unwrap(), SIZE);
    assert_eq!(served.wait_for_link("shop", 1, PATIENCE).unwrap().down, 1000);
}

#[test]
fn logs_are_kept() {
    let folder = folder("logs");
    let served = shop([Latency::new().latency(5).into()]).log(folder.join("logs")).start_for_test().unwrap();
    fetched(&served.address("shop").unwrap()).unwrap();
    served.wait_for_link("shop", 1, PATIENCE).unwrap();
    served.stop();
    let logs = served.logs().unwrap();
    assert_eq!(logs.len(), 2);
    let judged = Command::new(env::var("TOXI").unwrap()).arg("replay").args(logs).output().unwrap();
    let judged = String::from_utf8(judged.stdout).unwrap();
    assert_eq!(judged.matches("faithful shop 1 ").count(), 2, "{judged}");
    fs::remove_dir_all(folder).unwrap();
}

#[test]
fn a_red_test_tells_how_to_run_it_again() {
    let ran = other_test("red").output().unwrap();
    let told = String::from_utf8(ran.stdout).unwrap();
    let seed = told.split("TOXI_SEED=").nth(1).and_then(|rest| rest.split(' ').next()).expect("a seed");
    let again = format!("TOXI_SEED={seed} cargo test -- --exact red\nseed {seed}\n");
    for wanted in [again.as_str(), "bytes = 100", "\"down\":100"] {
        assert!(told.contains(wanted), "{told}");
    }
}

#[test]
fn the_seed_comes_from_the_environment() {
    let (mut child, _, seed) = killable(other_test("killed").env("TOXI_SEED", "18446744073709551615"));
    child.kill().unwrap();
    child.wait().unwrap();
    assert_eq!(seed, "18446744073709551615");
    let wrong = other_test("killed").env("TOXI_SEED", "seven").output().unwrap();
    let told = String::from_utf8(wrong.stdout).unwrap();
    assert!(told.contains("TOXI_SEED is a whole number"), "{told}");
}

#[test]
fn a_program_that_is_not_there_or_is_of_another_version() {
    let folder = folder("program");
    let program = folder.join("toxi");
    let start = || shop([]).program(program.to_str().unwrap()).start().err().expect("an error").to_string();
    assert!(start().contains("can't be started"), "{}", start());
    fs::write(&program, "#!/bin/sh\necho toxi 0.0.1\n").unwrap();
    fs::set_permissions(&program, PermissionsExt::from_mode(0o700)).unwrap();
    // A fork of another test may hold the file open for writing for a moment.
    eventually("the program is refused", || !start().contains("busy"));
    assert!(start().contains("is of version 0.0.1"), "{}", start());
    fs::remove_dir_all(folder).unwrap();
}

#[test]
fn a_port_that_is_taken() {
    let taken = shop([]).start_for_test().unwrap();
    let address = taken.address("shop").unwrap();
    let wrong = Config::new().proxy(Proxy::new("shop", service()).listen(&address)).start();
    assert!(matches!(wrong, Err(Error::Fault(fault)) if fault.code == "P4"));
}

#[test]
fn nothing_is_left_of_a_test_that_ended_or_was_killed() {
    let ended = shop([]).start_for_test().unwrap();
    let address = ended.address("shop").unwrap();
    ended.stop();
    drop(ended);
    assert!(is_refused(&address));
    let folder = folder("killed");
    let (mut child, address, _) = killable(other_test("killed").env("TMPDIR", &folder));
    assert!(!is_refused(&address));
    child.kill().unwrap();
    child.wait().unwrap();
    eventually("toxi ends with the test that started it", || is_refused(&address));
    assert_eq!(fs::read_dir(&folder).unwrap().count(), 0);
    fs::remove_dir(folder).unwrap();
}
