package toxi

import (
	"errors"
	"fmt"
	"os/exec"
	"regexp"
	"strings"
	"time"
)

// A Fault is what the program refused: its code, such as S5, and the lines that explain it.
type Fault struct {
	Code string
	Text string
}

func (fault *Fault) Error() string { return fault.Text }

var faultLine = regexp.MustCompile(`(?m)^toxi: ([A-Z]\d)( .*)?$`)

// faultOf is the error of a program that ended with this status and these lines on standard error.
func faultOf(said string, status error) error {
	said = strings.TrimRight(said, "\n")
	found := faultLine.FindStringSubmatchIndex(said)
	if found == nil {
		return fmt.Errorf("toxi has ended: %v: %s", status, said)
	}
	return &Fault{said[found[2]:found[3]], strings.TrimPrefix(said[found[0]:], "toxi: ")}
}

// check runs `toxi check`. Each line that it finds is an error: a rule for no proxy, and a rule or a toxic without effect.
func check(words []string, limit time.Duration) error {
	command := exec.Command(words[0], words[1:]...)
	command.Env = environment()
	timer := time.AfterFunc(limit, func() { command.Process.Kill() })
	defer timer.Stop()
	printed, err := command.Output()
	exit := &exec.ExitError{}
	if errors.As(err, &exit) {
		return faultOf(string(exit.Stderr), err)
	}
	if err != nil {
		return fmt.Errorf("%s can't be started: %w", words[0], err)
	}
	if found := strings.TrimSpace(string(printed)); found != "" {
		return errors.New(found)
	}
	return nil
}
