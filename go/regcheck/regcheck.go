// Package regcheck says whether recorded runs of registers are linearizable. It asks the proved checkers
// regcheck, regsearch and reglevel, and decides nothing itself.
//
// A Recorder writes down what goroutines call and get, and fails a test with an explanation in words. Check
// takes operations with the times of their calls and returns, as the checker Porcupine does. CheckHistory
// takes a history in the form of the programs, and Report gives regcheck's report of it.
//
// It links libregcheck.a, from lib in the release that it came with, which has the three checkers. Without
// cgo, or with the build tag regcheck_program, it runs the programs instead: the regcheck that REGCHECK
// names, or the one on PATH; and for histories that regcheck refuses, above all those with compare-and-swap
// or repeated values, the regsearch that REGSEARCH names, the one beside regcheck, or the one on PATH. The
// reglevel is the one that REGLEVEL names, or is found in the same way.
package regcheck

import "errors"

// ErrMemory says that memory ran out in the library. A program says so in words.
var ErrMemory = errors.New("memory ran out")

// A Refusal says why a history has no report.
type Refusal struct {
	Number int    // as docs/format.md has them, if the library refused the history; a program tells words alone
	Line   int    // the refused line, from 1; 0 if no line is refused
	Other  int    // the line of the open call, of the earlier write or of the crash that it contradicts; else 0
	Words  string // what the program says of it
}

// Error is what the program says of the refusal.
func (refusal *Refusal) Error() string { return refusal.Words }

// Report gives whether regcheck finds the history atomic, and the bytes of its report. Goroutines may
// call it at once.
//
// The error is a *Refusal or ErrMemory. Without the library it may also say why the program couldn't be run.
func Report(history []byte) (atomic bool, report []byte, err error) {
	verdict, report, err := checked(history)
	return verdict == Yes, report, err
}
