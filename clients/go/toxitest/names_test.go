package toxitest_test

import (
	"errors"
	"net"
	"strings"
	"testing"

	"toxi.invalid/toxi"
	"toxi.invalid/toxi/toxitest"
)

// freeAddress is one of this machine at which nobody listens.
func freeAddress(t *testing.T) string {
	t.Helper()
	listener, err := net.Listen("tcp", "127.0.0.1:0")
	noError(t, err)
	defer listener.Close()
	return listener.Addr().String()
}

func TestAProxyListensAtAFixedAddress(t *testing.T) {
	t.Parallel()
	address := freeAddress(t)
	config := shop()
	config.Proxies[0].Listen = address
	expect(t, toxitest.New(t, config).Address("shop"), address)
	got, err := fetched(address, patience)
	noError(t, err)
	expect(t, got, size)
}

func TestAURLHasTheAddress(t *testing.T) {
	t.Parallel()
	served := toxitest.New(t, shop())
	expect(t, served.URL("shop"), "http://"+served.Address("shop"))
}

func TestTwoProxiesHaveLinksOfTheirOwn(t *testing.T) {
	t.Parallel()
	config := shop()
	config.Proxies = append(config.Proxies, toxi.Proxy{Name: "mail", Upstream: service})
	served := toxitest.New(t, config)
	for _, name := range []string{"mail", "shop", "mail"} {
		fetched(served.Address(name), patience)
	}
	served.Link("mail", 2)
	served.Link("shop", 1)
	expect(t, len(served.Links("mail")), 2)
	expect(t, len(served.Links("shop")), 1)
}

func TestANameNeedsEscapes(t *testing.T) {
	t.Parallel()
	name := "a \"shop\" \\ of\x7f é\u202e"
	config := toxi.Config{
		Proxies: []toxi.Proxy{{Name: name, Upstream: service}},
		Rules:   []toxi.Rule{{Proxy: name, Toxics: []toxi.Toxic{toxi.LimitData{Bytes: 5}}}},
	}
	served := toxitest.New(t, config)
	fetched(served.Address(name), patience)
	expect(t, served.Link(name, 1).Down, 5)
}

func TestADisabledProxyHasNoAddress(t *testing.T) {
	t.Parallel()
	config := shop()
	config.Proxies = append(config.Proxies, toxi.Proxy{Name: "mail", Upstream: service, Disabled: true})
	served := toxitest.New(t, config)
	_, err := served.Toxi.Address("mail")
	expectError(t, err, `"mail"`)
	expect(t, len(served.Links("mail")), 0)
}

func TestAMisspeltAddressIsRefused(t *testing.T) {
	t.Parallel()
	_, err := toxitest.New(t, shop()).Toxi.Address("shp")
	expectError(t, err, `no proxy "shp" listens or is known; there are "shop"`)
}

func TestAMisspeltLinkIsRefused(t *testing.T) {
	t.Parallel()
	served := toxitest.New(t, shop())
	_, err := served.WaitForLink("shp", 1, patience)
	expectError(t, err, `"shop"`)
	_, err = served.Toxi.Links("shp")
	expectError(t, err, `"shop"`)
}

func TestARuleForNoProxyFailsTheStart(t *testing.T) {
	t.Parallel()
	config := shop(toxi.Latency{Latency: 1})
	config.Rules[0].Proxy = "shp"
	_, err := toxi.Start(config)
	expectError(t, err, "rule 1 never applies: no proxy shp (shop?)")
}

func TestARuleWithoutEffectFailsTheStart(t *testing.T) {
	t.Parallel()
	config := shop(toxi.Latency{Latency: 1})
	config.Rules = append(config.Rules, config.Rules[0])
	_, err := toxi.Start(config)
	expectError(t, err, "rule 2 never applies")
}

func TestAWrongValueIsExplained(t *testing.T) {
	t.Parallel()
	_, err := toxi.Start(shop(toxi.Latency{Latency: 3_600_001}))
	fault := &toxi.Fault{}
	if !errors.As(err, &fault) {
		t.Fatalf("no fault: %v", err)
	}
	expect(t, fault.Code, "S5")
	if !strings.Contains(fault.Text, "latency = 3600001") || !strings.Contains(fault.Text, "3600000") {
		t.Fatalf("not explained: %s", fault.Text)
	}
}
