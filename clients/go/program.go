package toxi

import (
	"context"
	"fmt"
	"os"
	"os/exec"
	"strings"
	"sync"
	"time"
)

// Version is the version of this module, and of the program that it starts.
const Version = "0.8.0"

// Programs whose version was asked for, by their paths and the times of their last change.
var versions sync.Map

// foundProgram is the path of the program, which must be of this module's version.
func foundProgram(given string, limit time.Duration) (string, error) {
	program := given
	if program == "" {
		program = os.Getenv("TOXI")
	}
	if program == "" {
		program = "toxi"
	}
	path, err := exec.LookPath(program)
	if err != nil && program == "toxi" {
		return "", fmt.Errorf("no program `toxi`: Config.Program is empty, TOXI isn't set, and the PATH has none")
	}
	if err != nil {
		return "", fmt.Errorf("%s can't be started: %w", program, err)
	}
	version, err := versionOf(path, limit)
	if err != nil {
		return "", err
	}
	if version != Version {
		return "", fmt.Errorf("%s is of version %s, and the module toxi of %s", program, version, Version)
	}
	return path, nil
}

// versionOf is the version that a program tells. It is asked once for a path and a time of change.
func versionOf(path string, limit time.Duration) (string, error) {
	info, err := os.Stat(path)
	if err != nil {
		return "", err
	}
	key := path + info.ModTime().String()
	if known, ok := versions.Load(key); ok {
		return known.(string), nil
	}
	context, cancel := context.WithTimeout(context.Background(), limit)
	defer cancel()
	printed, err := exec.CommandContext(context, path, "--version").Output()
	if err != nil {
		return "", fmt.Errorf("%s can't be started: %w", path, err)
	}
	words := strings.Fields(string(printed))
	if len(words) < 2 || words[0] != "toxi" {
		return "", fmt.Errorf("%s isn't the program `toxi`: it doesn't tell a version", path)
	}
	versions.Store(key, words[1])
	return words[1], nil
}
