//! Names and addresses, and what is wrong with them.
mod common;

use std::net::TcpListener;

use common::{fetched, service, shop, PATIENCE, SIZE};
use toxi::{Config, Error, Latency, LimitData, Proxy, Rule};

fn assert_says<T>(result: Result<T, Error>, wanted: &str) {
    let message = result.err().expect("an error").to_string();
    assert!(message.contains(wanted), "{message}");
}

/// An address of this machine at which nobody listens.
fn free_address() -> String {
    TcpListener::bind("127.0.0.1:0").unwrap().local_addr().unwrap().to_string()
}

#[test]
fn a_proxy_listens_at_a_fixed_address() {
    let address = free_address();
    let served = Config::new().proxy(Proxy::new("shop", service()).listen(&address)).start_for_test().unwrap();
    assert_eq!(served.address("shop").unwrap(), address);
    assert_eq!(fetched(&address).unwrap(), SIZE);
}

#[test]
fn a_url_has_the_address() {
    let served = shop([]).start_for_test().unwrap();
    assert_eq!(served.url("shop").unwrap(), format!("http://{}", served.address("shop").unwrap()));
}

#[test]
fn two_proxies_have_links_of_their_own() {
    let served = shop([]).proxy(Proxy::new("mail", service())).start_for_test().unwrap();
    for name in ["mail", "shop", "mail"] {
        fetched(&served.address(name).unwrap()).unwrap();
    }
    served.wait_for_link("mail", 2, PATIENCE).unwrap();
    served.wait_for_link("shop", 1, PATIENCE).unwrap();
    assert_eq!(served.links("mail").unwrap().len(), 2);
    assert_eq!(served.links("shop").unwrap().len(), 1);
}

#[test]
fn a_name_needs_escapes() {
    let name = "a \"shop\" \\ of\u{7f} é\u{202e}";
    let config = Config::new().proxy(Proxy::new(name, service())).rule(Rule::new(name).toxic(LimitData::new().bytes(5)));
    let served = config.start_for_test().unwrap();
    fetched(&served.address(name).unwrap()).unwrap();
    assert_eq!(served.wait_for_link(name, 1, PATIENCE).unwrap().down, 5);
}

#[test]
fn a_disabled_proxy_has_no_address() {
    let served = shop([]).proxy(Proxy::new("mail", service()).disabled()).start_for_test().unwrap();
    assert_says(served.address("mail"), "\"mail\"");
    assert_eq!(served.links("mail").unwrap(), []);
}

#[test]
fn a_misspelt_address_is_refused() {
    let served = shop([]).start_for_test().unwrap();
    assert_says(served.address("shp"), "no proxy \"shp\" listens or is known; there are \"shop\"");
}

#[test]
fn a_misspelt_link_is_refused() {
    let served = shop([]).start_for_test().unwrap();
    assert_says(served.wait_for_link("shp", 1, PATIENCE), "\"shop\"");
    assert_says(served.links("shp"), "\"shop\"");
}

#[test]
fn a_rule_for_no_proxy_fails_the_start() {
    let wrong = shop([]).rule(Rule::new("shp").toxic(Latency::new().latency(1)));
    assert_says(wrong.start(), "rule 1 never applies: no proxy shp (shop?)");
}

#[test]
fn a_rule_without_effect_fails_the_start() {
    let rule = Rule::new("shop").toxic(Latency::new().latency(1));
    assert_says(shop([]).rule(rule.clone()).rule(rule).start(), "rule 2 never applies");
}

#[test]
fn a_wrong_value_is_explained() {
    let Err(Error::Fault(fault)) = shop([Latency::new().latency(3_600_001).into()]).start() else { panic!("no fault") };
    assert_eq!(fault.code, "S5");
    assert!(fault.text.contains("latency = 3600001") && fault.text.contains("3600000"), "{}", fault.text);
}
