package toxi

import (
	"bytes"
	"encoding/json"
	"fmt"
	"os"
	"strconv"
	"strings"
	"time"
)

// A Proxy listens before an upstream.
type Proxy struct {
	Name     string
	Upstream string
	// Listen is `host:port`. Empty: a port of 127.0.0.1 that the system chooses, and that stays the proxy's own.
	Listen string
	// Disabled: it doesn't listen.
	Disabled bool
}

// A Rule has the toxics that the connections First to Last of a proxy meet. A connection meets the first rule that covers it, and no other.
type Rule struct {
	Proxy string
	// First is counted from 1. 0 is 1.
	First int
	// Last is the last of them. 0: no upper end.
	Last   int
	Toxics []Toxic
}

// Config is what a Toxi serves, and how.
type Config struct {
	Proxies []Proxy
	Rules   []Rule
	// Seed decides which links a toxic with a toxicity meets, and all other draws. Nil: $TOXI_SEED, else 1. Package toxitest draws one in place of 1.
	Seed *uint64
	// Program is the path of the program. Empty: $TOXI, else `toxi` on the PATH.
	Program string
	// Directory keeps the populate file and the script. Empty: they go away once the program has read them.
	Directory string
	// Log is a folder, new or empty, that gets a log of each stream of a link. Later runs have their number behind its name.
	Log string
	// Links is after how many connections each proxy stops listening. 0: it goes on.
	Links int
	// Workers is how many threads drive all links. 0: each link has four of its own.
	Workers int
	// ConnectTimeout is how many milliseconds a connect to an upstream may take. 0: the system's time.
	ConnectTimeout int
	// StartTimeout is how long the program has until it listens. 0: 300 seconds, since a clone's ./toxi compiles itself first.
	StartTimeout time.Duration
}

const startTimeout = 300 * time.Second

// Seed is a seed for Config.Seed.
func Seed(seed uint64) *uint64 { return &seed }

// EnvironmentSeed is the seed of $TOXI_SEED, or nil where it isn't set. The error tells of one that is no number.
func EnvironmentSeed() (*uint64, error) {
	text := os.Getenv("TOXI_SEED")
	if text == "" {
		return nil, nil
	}
	seed, err := strconv.ParseUint(text, 10, 64)
	if err != nil {
		return nil, fmt.Errorf("TOXI_SEED is a whole number from 0 to 18446744073709551615, not %q", text)
	}
	return &seed, nil
}

// completed is a config with what wasn't given.
func (config Config) completed() (Config, error) {
	if config.StartTimeout == 0 {
		config.StartTimeout = startTimeout
	}
	if config.Seed == nil {
		seed, err := EnvironmentSeed()
		if err != nil {
			return config, err
		}
		config.Seed = seed
	}
	if config.Seed == nil {
		config.Seed = Seed(1)
	}
	var err error
	config.Program, err = foundProgram(config.Program, config.StartTimeout)
	return config, err
}

// options are the options of `serve` that were given.
func (config Config) options() []string {
	options := []string{}
	numbers := []struct {
		name  string
		value int
	}{{"--links", config.Links}, {"--workers", config.Workers}, {"--connect-timeout", config.ConnectTimeout}}
	for _, each := range numbers {
		if each.value != 0 {
			options = append(options, each.name, strconv.Itoa(each.value))
		}
	}
	return options
}

// populateText is the populate file of proxies. Those that have listened keep their addresses.
func populateText(proxies []Proxy, addresses map[string]string) ([]byte, error) {
	type entry struct {
		Name     string `json:"name"`
		Upstream string `json:"upstream"`
		Listen   string `json:"listen"`
		Enabled  bool   `json:"enabled"`
	}
	entries := []entry{}
	for _, proxy := range proxies {
		listen := proxy.Listen
		if listen == "" {
			listen = "127.0.0.1:0"
		}
		if had, ok := addresses[proxy.Name]; ok {
			listen = had
		}
		entries = append(entries, entry{proxy.Name, proxy.Upstream, listen, !proxy.Disabled})
	}
	return json.Marshal(entries)
}

// scriptText is the script with these rules, a document of TOML in version 2.
func scriptText(rules []Rule) string {
	lines := []string{"version = 2"}
	for _, rule := range rules {
		first := rule.First
		if first == 0 {
			first = 1
		}
		lines = append(lines, "", "[[rule]]", "proxy = "+quoted(rule.Proxy), fmt.Sprintf("first = %d", first))
		if rule.Last != 0 {
			lines = append(lines, fmt.Sprintf("last = %d", rule.Last))
		}
		for _, toxic := range rule.Toxics {
			lines = append(lines, toxic.settings().lines()...)
		}
	}
	return strings.Join(lines, "\n") + "\n"
}

// quoted is a text as TOML. JSON's escapes are TOML's, but JSON leaves U+007F as it is.
func quoted(text string) string {
	written := &bytes.Buffer{}
	encoder := json.NewEncoder(written)
	encoder.SetEscapeHTML(false)
	if err := encoder.Encode(text); err != nil {
		panic(err) // A string always has a form in JSON.
	}
	return strings.ReplaceAll(strings.TrimSuffix(written.String(), "\n"), "\x7f", `\u007f`)
}
