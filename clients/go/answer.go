package toxi

import (
	"encoding/json"
	"errors"
	"fmt"
	"io"
	"os"
)

// AnswerRuns runs a client for each line that `toxi-find --persistent` writes to standard input, with `host:port` of each proxy, and answers with its
// status: 0 is right. It returns once standard input ends. What the client prints on standard output begins on a line of its own.
func AnswerRuns(client func(proxies map[string]string) int) error {
	requests := json.NewDecoder(os.Stdin)
	for {
		request := struct {
			Run     int
			Proxies map[string]string
		}{}
		if err := requests.Decode(&request); errors.Is(err, io.EOF) {
			return nil
		} else if err != nil {
			return err
		}
		fmt.Printf("toxi-answer %d %d\n", request.Run, client(request.Proxies))
	}
}
