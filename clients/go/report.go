package toxi

import (
	"fmt"
	"strings"
)

// Report is what a person needs after a failed test, of each run: the seed, the command, the script, the line of each link, and what the program
// said on standard error.
func (toxi *Toxi) Report() string {
	toxi.mutex.Lock()
	runs := append([]*run{}, toxi.runs...)
	toxi.mutex.Unlock()
	lines := []string{}
	for _, run := range runs {
		lines = append(lines, fmt.Sprintf("seed %d", toxi.Seed()), ShellCommand(run.command), strings.TrimRight(run.script, "\n"))
		lines = append(lines, run.printed()...)
		// What it says is complete, and no longer written, once it has ended.
		if run.hasEnded() && run.said.Len() > 0 {
			lines = append(lines, strings.TrimRight(run.said.String(), "\n"))
		}
		if run.log != "" {
			lines = append(lines, fmt.Sprintf("find %s -name '*.log' | %s replay -", shellWord(run.log), shellWord(run.command[0])))
		}
	}
	return strings.Join(lines, "\n")
}

func (process *process) printed() []string {
	process.mutex.Lock()
	defer process.mutex.Unlock()
	return append([]string{}, process.lines...)
}

// ShellCommand is a command as a POSIX shell reads it.
func ShellCommand(words []string) string {
	quoted := []string{}
	for _, word := range words {
		quoted = append(quoted, shellWord(word))
	}
	return strings.Join(quoted, " ")
}

const plainLetters = "abcdefghijklmnopqrstuvwxyzABCDEFGHIJKLMNOPQRSTUVWXYZ0123456789@%+=:,./-_"

func shellWord(word string) string {
	if word != "" && strings.Trim(word, plainLetters) == "" {
		return word
	}
	return "'" + strings.ReplaceAll(word, "'", `'"'"'`) + "'"
}
