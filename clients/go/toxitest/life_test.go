package toxitest_test

import (
	"errors"
	"fmt"
	"net"
	"os"
	"os/exec"
	"path/filepath"
	"strconv"
	"strings"
	"syscall"
	"testing"
	"time"

	"toxi.invalid/toxi"
	"toxi.invalid/toxi/toxitest"
)

func TestALinkThatDoesNotComeTimesOut(t *testing.T) {
	t.Parallel()
	_, err := toxitest.New(t, shop()).WaitForLink("shop", 1, 100*time.Millisecond)
	if !errors.Is(err, toxi.ErrTimeout) {
		t.Fatalf("no timeout: %v", err)
	}
}

func TestARestartServesOtherRulesAtTheSameAddress(t *testing.T) {
	t.Parallel()
	served := toxitest.New(t, shop())
	address := served.Address("shop")
	fetched(address, patience)
	served.Link("shop", 1)
	for _, bytes := range []int64{100, 10} {
		served.Restart(toxi.Rule{Proxy: "shop", Toxics: []toxi.Toxic{toxi.LimitData{Bytes: bytes}}})
		expect(t, served.Address("shop"), address)
		fetched(address, patience)
		expect(t, served.Link("shop", 1).Down, bytes)
	}
}

func TestAWrongRestartChangesNothing(t *testing.T) {
	t.Parallel()
	served := toxitest.New(t, shop())
	expectError(t, served.Toxi.Restart([]toxi.Rule{{Proxy: "shp"}}), "no proxy shp")
	got, err := fetched(served.Address("shop"), patience)
	noError(t, err)
	expect(t, got, size)
}

func TestDownRefusesAndUpAnswers(t *testing.T) {
	t.Parallel()
	served := toxitest.New(t, shop())
	address := served.Address("shop")
	served.Down()
	served.Down()
	_, err := fetched(address, patience)
	if !errors.Is(err, syscall.ECONNREFUSED) {
		t.Fatalf("not refused: %v", err)
	}
	if _, err := net.Listen("tcp", address); !errors.Is(err, syscall.EADDRINUSE) {
		t.Fatalf("another has the port: %v", err)
	}
	served.Up()
	served.Up()
	got, err := fetched(address, patience)
	noError(t, err)
	expect(t, got, size)
	expect(t, served.Link("shop", 1).Down, size)
}

func TestLogsAreKept(t *testing.T) {
	t.Parallel()
	config := shop(toxi.Latency{Latency: 5})
	config.Log = filepath.Join(t.TempDir(), "logs")
	served := toxitest.New(t, config)
	fetched(served.Address("shop"), patience)
	served.Link("shop", 1)
	served.Stop()
	logs, err := served.Logs()
	noError(t, err)
	expect(t, len(logs), 2)
	judged, err := exec.Command(os.Getenv("TOXI"), append([]string{"replay"}, logs...)...).Output()
	noError(t, err)
	expect(t, strings.Count(string(judged), "faithful shop 1"), 2)
}

// A test that is red, whose cleanups run at its end.
type redTest struct {
	testing.TB
	cleanups []func()
	logged   string
}

func (red *redTest) Name() string           { return "TestShop/slow answer" }
func (red *redTest) Failed() bool           { return true }
func (red *redTest) Cleanup(cleanup func()) { red.cleanups = append(red.cleanups, cleanup) }
func (red *redTest) Log(arguments ...any)   { red.logged += fmt.Sprintln(arguments...) }

func TestARedTestTellsHowToRunItAgain(t *testing.T) {
	t.Parallel()
	red := &redTest{TB: t}
	served := toxitest.New(red, shop(toxi.LimitData{Bytes: 100}))
	fetched(served.Address("shop"), patience)
	served.Link("shop", 1)
	red.cleanups[0]()
	seed := strconv.FormatUint(served.Seed(), 10)
	for _, wanted := range []string{"TOXI_SEED=" + seed + " go test -count=1 -run '^TestShop$/^slow answer$' .", "seed " + seed, "bytes = 100", `"down":100`} {
		if !strings.Contains(red.logged, wanted) {
			t.Fatalf("%q isn't in %s", wanted, red.logged)
		}
	}
}

func TestTheSeedComesFromTheEnvironment(t *testing.T) {
	t.Setenv("TOXI_SEED", "18446744073709551615")
	expect(t, toxitest.New(t, shop()).Seed(), 18446744073709551615)
	t.Setenv("TOXI_SEED", "seven")
	_, err := toxi.Start(shop())
	expectError(t, err, "TOXI_SEED is a whole number")
}

func TestAProgramThatIsNotThereOrIsOfAnotherVersion(t *testing.T) {
	t.Parallel()
	config := shop()
	config.Program = filepath.Join(t.TempDir(), "toxi")
	_, err := toxi.Start(config)
	expectError(t, err, "can't be started")
	noError(t, os.WriteFile(config.Program, []byte("#!/bin/sh\necho toxi 0.0.1\n"), 0o700))
	// A fork of another test may hold the file open for writing for a moment.
	eventually(t, "the program is refused", func() bool {
		_, err = toxi.Start(config)
		return err == nil || !errors.Is(err, syscall.ETXTBSY)
	})
	expectError(t, err, "is of version 0.0.1")
}

func TestAPortThatIsTaken(t *testing.T) {
	t.Parallel()
	config := shop()
	config.Proxies[0].Listen = toxitest.New(t, shop()).Address("shop")
	_, err := toxi.Start(config)
	expectError(t, err, "P4 ListenRefused shop")
}

// serveUntilKilled is the test that is killed: it tells its address, and waits.
func serveUntilKilled(upstream string) {
	served, err := toxi.Start(toxi.Config{Proxies: []toxi.Proxy{{Name: "shop", Upstream: upstream}}})
	if err != nil {
		panic(err)
	}
	address, _ := served.Address("shop")
	fmt.Println(address)
	select {}
}

func isRefused(address string) bool {
	client, err := net.Dial("tcp", address)
	if err == nil {
		client.Close()
	}
	return errors.Is(err, syscall.ECONNREFUSED)
}

func TestNothingIsLeftOfATestThatEndedOrWasKilled(t *testing.T) {
	t.Parallel()
	served := toxitest.New(t, shop())
	address := served.Address("shop")
	served.Stop()
	served.Stop()
	expect(t, isRefused(address), true)
	folder := t.TempDir()
	killed := exec.Command(os.Args[0])
	killed.Env = append(os.Environ(), "TOXI_TEST_SERVED="+service, "TMPDIR="+folder)
	output, err := killed.StdoutPipe()
	noError(t, err)
	noError(t, killed.Start())
	_, err = fmt.Fscanln(output, &address)
	noError(t, err)
	expect(t, isRefused(address), false)
	noError(t, killed.Process.Kill())
	killed.Wait()
	eventually(t, "toxi ends with the test that started it", func() bool { return isRefused(address) })
	left, err := os.ReadDir(folder)
	noError(t, err)
	expect(t, len(left), 0)
}

func TestRunsAreAnswered(t *testing.T) {
	t.Parallel()
	client := exec.Command(os.Args[0])
	client.Env = append(os.Environ(), "TOXI_TEST_ANSWERS=yes")
	client.Stdin = strings.NewReader(`{"run": 1, "proxies": {"shop": "127.0.0.1:4"}}` + "\n" + `{"run": 2, "proxies": {}}` + "\n")
	printed, err := client.Output()
	noError(t, err)
	expect(t, string(printed), "toxi-answer 1 11\ntoxi-answer 2 0\n")
}
