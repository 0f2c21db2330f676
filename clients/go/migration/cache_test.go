// Package migration has a suite that was one of Toxiproxy, with a client that knows a fixed address.
package migration

import (
	"errors"
	"fmt"
	"net"
	"os"
	"syscall"
	"testing"
	"time"

	"toxi.invalid/toxi"
)

const address = "127.0.26.79:26379"

var cache *toxi.Toxi

func TestMain(m *testing.M) {
	var err error
	cache, err = toxi.Start(toxi.Config{
		Proxies: []toxi.Proxy{{Name: "cache", Listen: address, Upstream: startCache()}},
	})
	if err != nil {
		fmt.Println(err)
		os.Exit(1)
	}
	status := m.Run()
	cache.Stop()
	os.Exit(status)
}

// with serves toxics until the test ends.
func with(t *testing.T, toxics ...toxi.Toxic) {
	t.Helper()
	if err := cache.Restart([]toxi.Rule{{Proxy: "cache", Toxics: toxics}}); err != nil {
		t.Fatal(err)
	}
	t.Cleanup(func() {
		if err := cache.Restart(nil); err != nil {
			t.Error(err)
		}
	})
}

func TestSlowCache(t *testing.T) {
	with(t, toxi.Latency{Latency: 10_000})
	if _, err := get(); !errors.Is(err, os.ErrDeadlineExceeded) {
		t.Fatalf("not late: %v", err)
	}
}

func TestCacheDown(t *testing.T) {
	if err := cache.Down(); err != nil {
		t.Fatal(err)
	}
	t.Cleanup(func() { cache.Up() })
	if _, err := get(); !errors.Is(err, syscall.ECONNREFUSED) {
		t.Fatalf("not refused: %v", err)
	}
}

func TestCache(t *testing.T) {
	answer, err := get()
	if err != nil || answer != "pong" {
		t.Fatalf("%q, %v", answer, err)
	}
}

// startCache answers every connection with four bytes.
func startCache() string {
	listener, err := net.Listen("tcp", "127.0.0.1:0")
	if err != nil {
		panic(err)
	}
	go func() {
		for {
			client, err := listener.Accept()
			if err != nil {
				return
			}
			client.Write([]byte("pong"))
			client.Close()
		}
	}()
	return listener.Addr().String()
}

// get is the client under test, whose limit is short where an answer is late by ten seconds.
func get() (string, error) {
	client, err := net.Dial("tcp", address)
	if err != nil {
		return "", err
	}
	defer client.Close()
	client.SetReadDeadline(time.Now().Add(2 * time.Second))
	answer := make([]byte, 4)
	count, err := client.Read(answer)
	return string(answer[:count]), err
}
