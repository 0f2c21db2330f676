package toxi

import (
	"bufio"
	"bytes"
	"encoding/json"
	"fmt"
	"io"
	"os"
	"os/exec"
	"strings"
	"sync"
	"time"
)

// `serve` ends within 2 seconds of the end of its input, or some more with thousands of links. A busy machine gets more.
const stopLimit = 10 * time.Second

// A process is a running `serve`, which ends when its standard input does, and so with the process that started it.
type process struct {
	command *exec.Cmd
	input   io.Closer
	said    bytes.Buffer
	ended   chan struct{}
	status  error

	mutex     sync.Mutex
	changed   chan struct{}
	lines     []string
	addresses map[string]string
	links     []Link
	totals    []Total
}

// environment is that of the program: this process's without options of `serve`, since those of a suite are its own. Explanations of faults are asked for
// unless it refuses them.
func environment() []string {
	kept := []string{"TOXI_EXPLAIN=1"}
	for _, variable := range os.Environ() {
		if !strings.HasPrefix(variable, "TOXI_") || strings.HasPrefix(variable, "TOXI_EXPLAIN=") {
			kept = append(kept, variable)
		}
	}
	return kept
}

func startProcess(words []string) (*process, error) {
	started := &process{command: exec.Command(words[0], words[1:]...), ended: make(chan struct{}), changed: make(chan struct{}), addresses: map[string]string{}}
	started.command.Env = environment()
	started.command.Stderr = &started.said
	input, err := started.command.StdinPipe()
	if err != nil {
		return nil, err
	}
	output, err := started.command.StdoutPipe()
	if err != nil {
		return nil, err
	}
	if err := started.command.Start(); err != nil {
		return nil, fmt.Errorf("%s can't be started: %w", words[0], err)
	}
	started.input = input
	go started.read(output)
	return started, nil
}

// read notes each line until the output ends, and waits for the process.
func (process *process) read(output io.Reader) {
	lines := bufio.NewReader(output)
	for {
		line, err := lines.ReadString('\n')
		if err != nil {
			break
		}
		process.note(strings.TrimSuffix(line, "\n"))
	}
	process.status = process.command.Wait()
	close(process.ended)
}

func (process *process) note(line string) {
	read := event{}
	err := json.Unmarshal([]byte(line), &read)
	process.mutex.Lock()
	defer process.mutex.Unlock()
	process.lines = append(process.lines, line)
	if err == nil {
		switch read.Event {
		case "listening":
			process.addresses[read.Proxy] = read.Address
		case "link":
			process.links = append(process.links, read.Link)
		case "total":
			process.totals = append(process.totals, Total{read.Proxy, read.Links, read.Up, read.Down})
		}
	}
	close(process.changed)
	process.changed = make(chan struct{})
}

// waitUntil waits for what the lines tell. It is false once they have ended or the time is up, and it doesn't hold. The caller's function is
// called with the lines locked.
func (process *process) waitUntil(holds func() bool, limit time.Duration) bool {
	timer := time.NewTimer(limit)
	defer timer.Stop()
	for {
		process.mutex.Lock()
		held, changed := holds(), process.changed
		process.mutex.Unlock()
		if held {
			return true
		}
		select {
		case <-changed:
		case <-process.ended:
			process.mutex.Lock()
			defer process.mutex.Unlock()
			return holds()
		case <-timer.C:
			return false
		}
	}
}

func (process *process) hasEnded() bool {
	select {
	case <-process.ended:
		return true
	default:
		return false
	}
}

// stop ends its input, and kills it if it goes on. What it printed has been read then.
func (process *process) stop() {
	process.input.Close()
	select {
	case <-process.ended:
	case <-time.After(stopLimit):
		process.command.Process.Kill()
		<-process.ended
	}
}

// fault is what an ended program has said.
func (process *process) fault() error {
	<-process.ended
	return faultOf(process.said.String(), process.status)
}
