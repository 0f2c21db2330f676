package toxitest_test

import (
	"errors"
	"syscall"
	"testing"

	"toxi.invalid/toxi"
	"toxi.invalid/toxi/toxitest"
)

func TestAnAnswerPasses(t *testing.T) {
	t.Parallel()
	served := toxitest.New(t, shop())
	got, err := fetched(served.Address("shop"), patience)
	noError(t, err)
	expect(t, got, size)
	expect(t, served.Link("shop", 1), toxi.Link{Proxy: "shop", Number: 1, Up: 4, UpEnd: "closed", Down: size, DownEnd: "closed"})
}

func TestASlowAnswerTimesOut(t *testing.T) {
	t.Parallel()
	expectTimeout(t, shop(toxi.Latency{Latency: 10_000}))
}

func TestSilenceTimesOut(t *testing.T) {
	t.Parallel()
	expectTimeout(t, shop(toxi.Timeout{}))
}

func TestAConnectionIsReset(t *testing.T) {
	t.Parallel()
	served := toxitest.New(t, shop(toxi.ResetPeer{}))
	_, err := fetched(served.Address("shop"), patience)
	if !errors.Is(err, syscall.ECONNRESET) && !errors.Is(err, syscall.EPIPE) {
		t.Fatalf("no reset: %v", err)
	}
	expect(t, served.Link("shop", 1).DownEnd, "reset")
}

func TestAnAnswerIsCut(t *testing.T) {
	t.Parallel()
	served := toxitest.New(t, shop(toxi.LimitData{Bytes: 100}))
	got, err := fetched(served.Address("shop"), patience)
	noError(t, err)
	expect(t, got, 100)
	expect(t, served.Link("shop", 1).Down, 100)
}

func TestARequestIsCut(t *testing.T) {
	t.Parallel()
	served := toxitest.New(t, shop(toxi.LimitData{Common: toxi.Common{Stream: toxi.Upstream}, Bytes: 2}))
	got, _ := fetched(served.Address("shop"), patience)
	expect(t, got, 0)
	expect(t, served.Link("shop", 1).Up, 2)
}

func TestTheThirdTryWorks(t *testing.T) {
	t.Parallel()
	config := shop(toxi.LimitData{})
	config.Rules[0].Last = 2
	expect(t, works(t, config, 3), "--+")
}

func TestASeedGivesItsSequenceAgain(t *testing.T) {
	t.Parallel()
	config := shop(toxi.LimitData{Common: toxi.Common{Toxicity: toxi.Share(0.5)}})
	config.Seed = toxi.Seed(7)
	first := works(t, config, 16)
	expect(t, works(t, config, 16), first)
	config.Seed = toxi.Seed(8)
	if other := works(t, config, 16); other == first {
		t.Fatalf("the seeds 7 and 8 both give %s", other)
	}
}

func TestEveryToxicIsTaken(t *testing.T) {
	t.Parallel()
	toxics := []toxi.Toxic{
		toxi.Latency{Common: toxi.Common{Name: "slow"}, Latency: 3, Jitter: 1, Until: 9, From: 1},
		toxi.Bandwidth{Rate: 1000, Until: 9, From: 1},
		toxi.SlowClose{Delay: 1},
		toxi.Timeout{Timeout: 9000, From: 8000, After: 5000},
		toxi.ResetPeer{Timeout: 9000, After: 9000},
		toxi.Slicer{AverageSize: 10, SizeVariation: 5, Delay: 1, Until: 9, From: 1},
		toxi.LimitData{Bytes: 4000},
	}
	for place := range toxics {
		served := toxitest.New(t, shop(toxics[place]))
		got, err := fetched(served.Address("shop"), patience)
		noError(t, err)
		expect(t, got, size)
	}
}

func TestAShareIsWholeThousandths(t *testing.T) {
	t.Parallel()
	// A sum of constants would be exact.
	tenth, fifth := 0.1, 0.2
	expect(t, toxi.Share(tenth+fifth), "0.3")
	toxitest.New(t, shop(toxi.Latency{Common: toxi.Common{Toxicity: toxi.Share(tenth + fifth)}, Latency: 1}))
	_, err := toxi.Start(shop(toxi.Latency{Common: toxi.Common{Toxicity: toxi.Share(0.0005)}, Latency: 1}))
	expectError(t, err, "S7 ToxicityNotThousandths")
}
