// Package toxi starts `toxi serve`, a TCP proxy that adds faults, in front of the services of a test.
//
// A rule says which toxics the connections of a proxy meet, and the same seed gives the same faults again. Package toxitest has what tests
// need: each of its Toxis ends with its test, and a red test tells how to run it again.
//
//	served, err := toxi.Start(toxi.Config{
//		Proxies: []toxi.Proxy{{Name: "shop", Upstream: "127.0.0.1:8080"}},
//		Rules:   []toxi.Rule{{Proxy: "shop", Toxics: []toxi.Toxic{toxi.Latency{Latency: 100}}}},
//	})
//	defer served.Stop()
//	address, err := served.Address("shop")
//
// The program is Config.Program, else $TOXI, else `toxi` on the PATH. It runs on Linux alone, and must be of this module's version.
package toxi
