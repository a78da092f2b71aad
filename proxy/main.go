// mvtgate-proxy stands in front of a map server and judges its vector tiles. docs/PROXY.md of the repository says how to use it.
package main

import (
	"context"
	"errors"
	"flag"
	"fmt"
	"os"
	"os/signal"
	"syscall"

	"mvtgate"
)

// The exit statuses.
const (
	statusOK     = 0
	statusFailed = 1
	statusWords  = 2
)

func main() { os.Exit(run(os.Args[1:])) }

func run(words []string) int {
	it, err := read(words, os.Stderr)
	switch {
	case errors.Is(err, flag.ErrHelp):
		return statusOK
	case err != nil:
		fmt.Fprintf(os.Stderr, "%s: %v\n", program, err)
		return statusWords
	case it.isVersion:
		fmt.Println(program, mvtgate.Version())
		return statusOK
	}
	end, stop := signal.NotifyContext(context.Background(), syscall.SIGTERM, syscall.SIGINT)
	defer stop()
	if err := serve(end, it); err != nil {
		fmt.Fprintf(os.Stderr, "%s: %v\n", program, err)
		return statusFailed
	}
	return statusOK
}
