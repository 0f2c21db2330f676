package toxitest_test

import (
	"bufio"
	"errors"
	"io"
	"net"
	"os"
	"strings"
	"testing"
	"time"

	"toxi.invalid/toxi"
	"toxi.invalid/toxi/toxitest"
)

const (
	size     = 1000
	patience = 30 * time.Second
	short    = 2 * time.Second
)

var service string

func TestMain(m *testing.M) {
	if address := os.Getenv("TOXI_TEST_SERVED"); address != "" {
		serveUntilKilled(address)
	}
	if os.Getenv("TOXI_TEST_ANSWERS") != "" {
		toxi.AnswerRuns(func(proxies map[string]string) int { return len(proxies["shop"]) })
		return
	}
	// An option of `serve` that isn't the suite's.
	os.Setenv("TOXI_WORKERS", "none")
	service = startService()
	os.Exit(m.Run())
}

// startService answers each line with a thousand bytes, and closes.
func startService() string {
	listener, err := net.Listen("tcp", "127.0.0.1:0")
	if err != nil {
		panic(err)
	}
	go func() {
		for {
			client, err := listener.Accept()
			if err != nil {
				return
			}
			go func() {
				defer client.Close()
				if _, err := bufio.NewReader(client).ReadString('\n'); err == nil {
					client.Write([]byte(strings.Repeat("x", size)))
				}
			}()
		}
	}()
	return listener.Addr().String()
}

// shop is a config of one proxy, `shop`, whose connections all meet these toxics.
func shop(toxics ...toxi.Toxic) toxi.Config {
	config := toxi.Config{Proxies: []toxi.Proxy{{Name: "shop", Upstream: service}}}
	if len(toxics) > 0 {
		config.Rules = []toxi.Rule{{Proxy: "shop", Toxics: toxics}}
	}
	return config
}

// fetched are the bytes of an answer, read within a limit.
func fetched(address string, limit time.Duration) (int, error) {
	client, err := net.Dial("tcp", address)
	if err != nil {
		return 0, err
	}
	defer client.Close()
	client.SetDeadline(time.Now().Add(limit))
	if _, err := client.Write([]byte("get\n")); err != nil {
		return 0, err
	}
	answer, err := io.ReadAll(client)
	return len(answer), err
}

func expect[T comparable](t *testing.T, got, wanted T) {
	t.Helper()
	if got != wanted {
		t.Fatalf("%v, not %v", got, wanted)
	}
}

func noError(t *testing.T, err error) {
	t.Helper()
	if err != nil {
		t.Fatal(err)
	}
}

func expectError(t *testing.T, err error, wanted string) {
	t.Helper()
	if err == nil || !strings.Contains(err.Error(), wanted) {
		t.Fatalf("the error %v hasn't %q", err, wanted)
	}
}

func expectTimeout(t *testing.T, config toxi.Config) {
	t.Helper()
	_, err := fetched(toxitest.New(t, config).Address("shop"), short)
	var timeout net.Error
	if !errors.As(err, &timeout) || !timeout.Timeout() {
		t.Fatalf("no timeout: %v", err)
	}
}

// works tells of each of some tries whether it had the whole answer.
func works(t *testing.T, config toxi.Config, tries int) string {
	t.Helper()
	served := toxitest.New(t, config)
	told := ""
	for len(told) < tries {
		if got, err := fetched(served.Address("shop"), patience); err == nil && got == size {
			told += "+"
		} else {
			told += "-"
		}
	}
	return told
}

// eventually waits until something holds.
func eventually(t *testing.T, what string, holds func() bool) {
	t.Helper()
	for end := time.Now().Add(patience); !holds(); time.Sleep(10 * time.Millisecond) {
		if time.Now().After(end) {
			t.Fatal("not within 30 s: " + what)
		}
	}
}
