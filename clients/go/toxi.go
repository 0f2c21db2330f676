package toxi

import (
	"errors"
	"fmt"
	"os"
	"path/filepath"
	"sort"
	"strconv"
	"strings"
	"sync"
	"time"
)

// ErrEnded tells that the program has ended, so that what was waited for can't come.
var ErrEnded = errors.New("toxi has ended")

// ErrTimeout tells that a link hasn't ended within the time that was given.
var ErrTimeout = errors.New("not within its time")

// Toxi is a started program. Its methods may be called from several goroutines.
type Toxi struct {
	config Config
	// Serialises what starts and ends the program.
	changing  sync.Mutex
	held      heldPorts
	isStopped bool

	mutex     sync.Mutex
	addresses map[string]string
	runs      []*run
}

// A run is a start of the program.
type run struct {
	script  string
	command []string
	log     string
	*process
}

// Start starts the program, and waits until every enabled proxy listens. The error is a *Fault where the program refuses what it is given. A rule for
// no proxy and a rule or a toxic without effect are errors too.
func Start(config Config) (*Toxi, error) {
	completed, err := config.completed()
	if err != nil {
		return nil, err
	}
	toxi := &Toxi{config: completed, held: heldPorts{}, addresses: map[string]string{}}
	if err := toxi.serve(completed.Rules); err != nil {
		toxi.Stop()
		return nil, err
	}
	return toxi, nil
}

// serve checks the rules, ends what runs, and starts the next run at the same addresses. Where the rules are wrong, what runs goes on.
func (toxi *Toxi) serve(rules []Rule) error {
	next, folder, err := toxi.nextRun(rules)
	if folder != "" {
		defer os.RemoveAll(folder)
	}
	if err != nil {
		return err
	}
	if err := toxi.endRun(); err != nil {
		return err
	}
	if err := toxi.held.lend(); err != nil {
		return err
	}
	if next.process, err = startProcess(next.command); err != nil {
		return err
	}
	toxi.mutex.Lock()
	toxi.runs = append(toxi.runs, next)
	toxi.mutex.Unlock()
	toxi.config.Rules = rules
	return toxi.waitForListeners(next)
}

// nextRun writes the files of the next run, and checks them. The folder is to be removed once the program has read them.
func (toxi *Toxi) nextRun(rules []Rule) (*run, string, error) {
	suffix := ""
	if number := len(toxi.runs) + 1; number > 1 {
		suffix = fmt.Sprintf("-%d", number)
	}
	directory, folder := toxi.config.Directory, ""
	var err error
	if directory == "" {
		folder, err = os.MkdirTemp("", "toxi-")
		directory = folder
	} else {
		err = os.MkdirAll(directory, 0o777)
	}
	if err != nil {
		return nil, folder, err
	}
	populate, err := populateText(toxi.config.Proxies, toxi.addresses)
	if err != nil {
		return nil, folder, err
	}
	next := &run{script: scriptText(rules)}
	if toxi.config.Log != "" {
		next.log = toxi.config.Log + suffix
	}
	config, script := filepath.Join(directory, "proxies"+suffix+".json"), filepath.Join(directory, "script"+suffix+".toml")
	if err := os.WriteFile(config, populate, 0o666); err != nil {
		return nil, folder, err
	}
	if err := os.WriteFile(script, []byte(next.script), 0o666); err != nil {
		return nil, folder, err
	}
	files := []string{"--config", config, "--script", script}
	next.command = append([]string{toxi.config.Program, "serve", "--json", "--until-eof", "--seed", strconv.FormatUint(toxi.Seed(), 10)}, files...)
	next.command = append(next.command, toxi.config.options()...)
	if next.log != "" {
		next.command = append(next.command, "--log", next.log)
	}
	return next, folder, check(append([]string{toxi.config.Program, "check"}, files...), toxi.config.StartTimeout)
}

func (toxi *Toxi) waitForListeners(next *run) error {
	enabled := 0
	for _, proxy := range toxi.config.Proxies {
		if !proxy.Disabled {
			enabled++
		}
	}
	// Without an enabled proxy it ends at once.
	if next.waitUntil(func() bool { return len(next.addresses) == enabled }, toxi.config.StartTimeout) {
		toxi.mutex.Lock()
		toxi.addresses = next.addresses
		toxi.mutex.Unlock()
		toxi.held.release()
		return nil
	}
	if next.hasEnded() {
		return next.fault()
	}
	return fmt.Errorf("toxi doesn't listen within %v", toxi.config.StartTimeout)
}

// endRun ends the program, and takes its ports as soon as it stops listening.
func (toxi *Toxi) endRun() error {
	if len(toxi.runs) == 0 {
		return nil
	}
	process := toxi.last().process
	if process.hasEnded() && process.status != nil {
		return process.fault()
	}
	process.input.Close()
	err := toxi.held.hold(toxi.addresses)
	process.stop()
	return err
}

func (toxi *Toxi) last() *run {
	toxi.mutex.Lock()
	defer toxi.mutex.Unlock()
	return toxi.runs[len(toxi.runs)-1]
}

// change runs what starts or ends the program.
func (toxi *Toxi) change(work func() error) error {
	toxi.changing.Lock()
	defer toxi.changing.Unlock()
	if toxi.isStopped {
		return errors.New("it was stopped")
	}
	return work()
}

// Restart serves other rules at the same addresses. Links that live are broken, and the next is number 1. Rules that are wrong are the error that
// they are at the start, and what runs goes on.
func (toxi *Toxi) Restart(rules []Rule) error {
	return toxi.change(func() error { return toxi.serve(rules) })
}

// Down takes the service down: links that live are broken, and connects are refused. The ports stay its own. A second call does nothing.
func (toxi *Toxi) Down() error { return toxi.change(toxi.endRun) }

// Up takes the service up again, at the same addresses under the same rules and seed. The next link is number 1. If it is up, nothing is done.
func (toxi *Toxi) Up() error {
	return toxi.change(func() error {
		if !toxi.last().hasEnded() {
			return nil
		}
		return toxi.serve(toxi.config.Rules)
	})
}

// Stop ends the program, and gives its ports up. Links that live are broken, and have their lines. A second call does nothing.
func (toxi *Toxi) Stop() {
	toxi.changing.Lock()
	defer toxi.changing.Unlock()
	toxi.isStopped = true
	if len(toxi.runs) > 0 {
		toxi.last().stop()
	}
	toxi.held.release()
}

// Wait waits until the program ends by itself, which it does with Config.Links, and returns its totals.
func (toxi *Toxi) Wait(limit time.Duration) ([]Total, error) {
	run := toxi.last()
	select {
	case <-run.ended:
	case <-time.After(limit):
		return nil, fmt.Errorf("the end of toxi: %w of %v", ErrTimeout, limit)
	}
	if run.status != nil {
		return nil, run.fault()
	}
	return run.totals, nil
}

// Seed is the seed of the draws.
func (toxi *Toxi) Seed() uint64 { return *toxi.config.Seed }

// Address is `host:port` of a proxy. The error tells of one that isn't there, or doesn't listen.
func (toxi *Toxi) Address(proxy string) (string, error) {
	toxi.mutex.Lock()
	defer toxi.mutex.Unlock()
	address, ok := toxi.addresses[proxy]
	if !ok {
		return "", unknown(proxy, toxi.addresses)
	}
	return address, nil
}

// URL is `http://host:port` of a proxy.
func (toxi *Toxi) URL(proxy string) (string, error) {
	address, err := toxi.Address(proxy)
	if err != nil {
		return "", err
	}
	return "http://" + address, nil
}

// Links are the links of a proxy that have ended so far, in the order of their ends. A restart begins anew.
func (toxi *Toxi) Links(proxy string) ([]Link, error) {
	if err := toxi.known(proxy); err != nil {
		return nil, err
	}
	run := toxi.last()
	run.mutex.Lock()
	defer run.mutex.Unlock()
	links := []Link{}
	for _, link := range run.process.links {
		if link.Proxy == proxy {
			links = append(links, link)
		}
	}
	return links, nil
}

// WaitForLink waits for the end of the connection of this number, counted from 1. The error is ErrTimeout, or ErrEnded where it can't come.
func (toxi *Toxi) WaitForLink(proxy string, number int, limit time.Duration) (Link, error) {
	if err := toxi.known(proxy); err != nil {
		return Link{}, err
	}
	run := toxi.last()
	found := Link{}
	ended := func() bool {
		for _, link := range run.process.links {
			if link.Proxy == proxy && link.Number == number {
				found = link
				return true
			}
		}
		return false
	}
	if run.waitUntil(ended, limit) {
		return found, nil
	}
	if run.hasEnded() {
		return Link{}, fmt.Errorf("%w without link %d of %s", ErrEnded, number, proxy)
	}
	return Link{}, fmt.Errorf("the end of link %d of %s: %w of %v", number, proxy, ErrTimeout, limit)
}

// Lines are the lines of the program so far. A restart begins anew.
func (toxi *Toxi) Lines() []string { return toxi.last().printed() }

// Logs are the logs so far, one for each stream of a link. None without Config.Log.
func (toxi *Toxi) Logs() ([]string, error) {
	return filepath.Glob(filepath.Join(toxi.last().log, "*.log"))
}

func (toxi *Toxi) known(name string) error {
	names := map[string]string{}
	for _, proxy := range toxi.config.Proxies {
		names[proxy.Name] = ""
	}
	if _, ok := names[name]; !ok {
		return unknown(name, names)
	}
	return nil
}

func unknown(name string, known map[string]string) error {
	names := []string{}
	for each := range known {
		names = append(names, strconv.Quote(each))
	}
	sort.Strings(names)
	return fmt.Errorf("no proxy %q listens or is known; there are %s", name, strings.Join(names, ", "))
}
