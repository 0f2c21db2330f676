// Package toxitest starts Toxi for a test.
//
//	func TestSlowAnswer(t *testing.T) {
//		served := toxitest.New(t, toxi.Config{
//			Proxies: []toxi.Proxy{{Name: "shop", Upstream: "127.0.0.1:8080"}},
//			Rules:   []toxi.Rule{{Proxy: "shop", Toxics: []toxi.Toxic{toxi.Latency{Latency: 100}}}},
//		})
//		connect(served.Address("shop"))
//	}
package toxitest

import (
	"fmt"
	"math/rand"
	"os"
	"strings"
	"testing"
	"time"

	"toxi.invalid/toxi"
)

// Patience is how long Link waits.
const Patience = 30 * time.Second

// Toxi is a toxi.Toxi of a test. What is an error there is fatal to the test here.
type Toxi struct {
	*toxi.Toxi
	t testing.TB
}

// New starts one, which ends with the test. The seed is that of the config, else $TOXI_SEED, else it is drawn. A red test prints the seed, the command
// that runs it again, and what Toxi reports.
func New(t testing.TB, config toxi.Config) *Toxi {
	t.Helper()
	config.Seed = seedOf(t, config)
	started, err := toxi.Start(config)
	if err != nil {
		t.Fatalf("toxi: %v", err)
	}
	t.Cleanup(func() {
		started.Stop()
		if t.Failed() {
			t.Log(RunAgain(t, started.Seed()) + "\n" + started.Report())
		}
	})
	return &Toxi{started, t}
}

func seedOf(t testing.TB, config toxi.Config) *uint64 {
	t.Helper()
	if config.Seed != nil {
		return config.Seed
	}
	seed, err := toxi.EnvironmentSeed()
	if err != nil {
		t.Fatalf("toxi: %v", err)
	}
	if seed == nil {
		// A seed of a few digits is easily typed. The default source isn't seeded before Go 1.20.
		seed = toxi.Seed(uint64(rand.New(rand.NewSource(time.Now().UnixNano())).Intn(1_000_000)))
	}
	return seed
}

// RunAgain is the command that runs a test again with this seed.
func RunAgain(t testing.TB, seed uint64) string {
	pattern := "^" + strings.ReplaceAll(t.Name(), "/", "$/^") + "$"
	command := fmt.Sprintf("TOXI_SEED=%d %s", seed, toxi.ShellCommand([]string{"go", "test", "-count=1", "-run", pattern, "."}))
	if folder, err := os.Getwd(); err == nil {
		command = toxi.ShellCommand([]string{"cd", folder}) + " && " + command
	}
	return command
}

func (served *Toxi) must(err error) {
	served.t.Helper()
	if err != nil {
		served.t.Fatalf("toxi: %v", err)
	}
}

// Address is `host:port` of a proxy.
func (served *Toxi) Address(proxy string) string {
	served.t.Helper()
	address, err := served.Toxi.Address(proxy)
	served.must(err)
	return address
}

// URL is `http://host:port` of a proxy.
func (served *Toxi) URL(proxy string) string {
	served.t.Helper()
	url, err := served.Toxi.URL(proxy)
	served.must(err)
	return url
}

// Link waits for the end of the connection of this number, counted from 1.
func (served *Toxi) Link(proxy string, number int) toxi.Link {
	served.t.Helper()
	link, err := served.Toxi.WaitForLink(proxy, number, Patience)
	served.must(err)
	return link
}

// Links are the links of a proxy that have ended so far.
func (served *Toxi) Links(proxy string) []toxi.Link {
	served.t.Helper()
	links, err := served.Toxi.Links(proxy)
	served.must(err)
	return links
}

// Restart serves other rules at the same addresses. Links that live are broken, and the next is number 1.
func (served *Toxi) Restart(rules ...toxi.Rule) {
	served.t.Helper()
	served.must(served.Toxi.Restart(rules))
}

// Down takes the service down: links that live are broken, and connects are refused.
func (served *Toxi) Down() {
	served.t.Helper()
	served.must(served.Toxi.Down())
}

// Up takes the service up again at the same addresses. The next link is number 1.
func (served *Toxi) Up() {
	served.t.Helper()
	served.must(served.Toxi.Up())
}
