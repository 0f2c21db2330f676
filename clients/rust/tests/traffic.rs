//! What passes a proxy, and what doesn't.
mod common;

use std::io::ErrorKind;

use common::{fetched, fetched_within, served, shop, works, PATIENCE, SHORT, SIZE};
use toxi::{Bandwidth, Error, Latency, LimitData, Link, ResetPeer, Rule, Slicer, SlowClose, Stream, Timeout, Toxic};

fn times_out(toxic: impl Into<Toxic>) {
    let served = served(toxic);
    let error = fetched_within(&served.address("shop").unwrap(), SHORT).unwrap_err();
    assert!(matches!(error.kind(), ErrorKind::WouldBlock | ErrorKind::TimedOut), "{error}");
}

#[test]
fn an_answer_passes() {
    let served = shop([]).start_for_test().unwrap();
    assert_eq!(fetched(&served.address("shop").unwrap()).unwrap(), SIZE);
    let closed = || "closed".to_owned();
    let link = Link { proxy: "shop".to_owned(), number: 1, up: 4, up_end: closed(), down: 1000, down_end: closed() };
    assert_eq!(served.wait_for_link("shop", 1, PATIENCE).unwrap(), link);
}

#[test]
fn a_slow_answer_times_out() {
    times_out(Latency::new().latency(10_000));
}

#[test]
fn silence_times_out() {
    times_out(Timeout::new());
}

#[test]
fn a_connection_is_reset() {
    let served = served(ResetPeer::new());
    let error = fetched(&served.address("shop").unwrap()).unwrap_err();
    assert!(matches!(error.kind(), ErrorKind::ConnectionReset | ErrorKind::BrokenPipe), "{error}");
    assert_eq!(served.wait_for_link("shop", 1, PATIENCE).unwrap().down_end, "reset");
}

#[test]
fn an_answer_is_cut() {
    let served = served(LimitData::new().bytes(100));
    assert_eq!(fetched(&served.address("shop").unwrap()).unwrap(), 100);
    assert_eq!(served.wait_for_link("shop", 1, PATIENCE).unwrap().down, 100);
}

#[test]
fn a_request_is_cut() {
    let served = served(LimitData::new().bytes(2).stream(Stream::Upstream));
    assert_eq!(fetched(&served.address("shop").unwrap()).unwrap_or(0), 0);
    assert_eq!(served.wait_for_link("shop", 1, PATIENCE).unwrap().up, 2);
}

#[test]
fn the_third_try_works() {
    let config = shop([]).rule(Rule::new("shop").last(2).toxic(LimitData::new()));
    assert_eq!(works(config, 3), [false, false, true]);
}

#[test]
fn a_seed_gives_its_sequence_again() {
    let config = shop([LimitData::new().toxicity(0.5).into()]);
    let first = works(config.clone().seed(7), 16);
    assert_eq!(works(config.clone().seed(7), 16), first);
    assert_ne!(works(config.seed(8), 16), first);
}

#[test]
fn every_toxic_is_taken() {
    let toxics: [Toxic; 7] = [
        Latency::new().name("slow").latency(3).jitter(1).until(9).from(1).into(),
        Bandwidth::new(1000).until(9).from(1).into(),
        SlowClose::new().delay(1).into(),
        Timeout::new().timeout(9000).from(8000).after(5000).into(),
        ResetPeer::new().timeout(9000).after(9000).into(),
        Slicer::new(10).size_variation(5).delay(1).until(9).from(1).into(),
        LimitData::new().bytes(4000).into(),
    ];
    for toxic in toxics {
        assert_eq!(fetched(&served(toxic).address("shop").unwrap()).unwrap(), SIZE);
    }
}

#[test]
fn a_share_is_whole_thousandths() {
    let report = served(Latency::new().latency(1).toxicity(0.1 + 0.2)).report();
    assert!(report.contains("toxicity = \"0.3\"\n"), "{report}");
    let wrong = shop([Latency::new().latency(1).toxicity(0.0005).into()]).start();
    assert!(matches!(wrong, Err(Error::Fault(fault)) if fault.code == "S7"));
}
