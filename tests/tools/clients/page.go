// Prints a page by net/http, with a time limit in seconds, or without one where that is 0, and a check of the status.
package main

import (
	"io"
	"log"
	"net/http"
	"os"
	"time"
)

func main() {
	limit, err := time.ParseDuration(os.Args[1] + "s")
	if err != nil {
		log.Fatal(err)
	}
	client := http.Client{Timeout: limit}
	answer, err := client.Get(os.Args[2])
	if err != nil {
		log.Fatal(err)
	}
	defer answer.Body.Close()
	if answer.StatusCode != http.StatusOK {
		log.Fatal(answer.Status)
	}
	page, err := io.ReadAll(answer.Body)
	if err != nil {
		log.Fatal(err)
	}
	os.Stdout.Write(page)
}
