// Package toy runs toy stores whose events are the same in each language, and prints what is said of them.
// tests/languages compares that.
package toy

import (
	"fmt"
	"os"

	"example.org/regcheck"
)

// Run records one run of a store, and prints the verdict in words. The first word of the command line says
// which store: faulty or right, or, for the right one and a search that soon gives up, bounded.
func Run(name string, record func(recorder *regcheck.Recorder, right bool)) {
	var time int64
	recorder := &regcheck.Recorder{Folder: "kept", Clock: func() int64 { time += 1_000_000; return time }}
	kind := os.Args[1]
	if kind == "bounded" {
		recorder.Bounds = []regcheck.Bound{regcheck.Steps(1)}
	}
	record(recorder, kind != "faulty")
	if !recorder.Assert(printed(name)) {
		os.Exit(1)
	}
	fmt.Println("linearizable")
}

// printed is a test that prints why it fails.
type printed string

func (printed) Helper() {}

func (name printed) Name() string { return string(name) }

func (printed) Errorf(format string, arguments ...any) { fmt.Printf(format+"\n", arguments...) }

func (printed) Cleanup(func()) {}
