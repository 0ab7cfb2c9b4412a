//go:build cgo && !regcheck_program

package regcheck

// The header and the archive stand beside this file in a release, where `go mod vendor` takes them along, and
// in bin in the repository; else where the C compiler looks.

/*
#cgo CFLAGS: -I${SRCDIR} -I${SRCDIR}/../../bin
#cgo LDFLAGS: -L${SRCDIR} -L${SRCDIR}/../../bin -l:libregcheck.a
#if !__has_include(<regcheck.h>)
#error "there is no libregcheck: to run the programs, build with -tags regcheck_program or CGO_ENABLED=0"
#else
#include <regcheck.h>
#ifndef REGCHECK_VERSION
#error "libregcheck is too old for this package: install that of the same release"
#endif
#endif
*/
import "C"

import (
	"fmt"
	"unsafe"
)

// checked gives what regcheck says of the history.
func checked(history []byte) (Verdict, []byte, error) {
	input, length := at(history), C.size_t(len(history))
	return asked(len(history), func(out []byte, answer *C.regcheck_answer) {
		C.regcheck_report(input, length, at(out), C.size_t(len(out)), answer)
	}, func(line []byte) C.size_t {
		return C.regcheck_refusal(input, length, at(line), C.size_t(len(line)))
	})
}

// searched gives what regsearch says of the history.
func searched(history []byte, bounds []Bound) (Verdict, []byte, error) {
	input, length := at(history), C.size_t(len(history))
	mostSteps, mostConfigurations := C.uint64_t(most(bounds, steps)), C.size_t(most(bounds, configurations))
	return asked(len(history), func(out []byte, answer *C.regcheck_answer) {
		C.regsearch_report(input, length, mostSteps, mostConfigurations, at(out), C.size_t(len(out)), answer)
	}, func(line []byte) C.size_t {
		return C.regsearch_refusal(input, length, at(line), C.size_t(len(line)))
	})
}

var levels = map[Level]C.uint32_t{
	Atomic: C.REGLEVEL_ATOMIC, Regular: C.REGLEVEL_REGULAR, Session: C.REGLEVEL_SESSION,
	OwnWrites: C.REGLEVEL_OWN_WRITES, Monotonic: C.REGLEVEL_MONOTONIC, Sequential: C.REGLEVEL_SEQUENTIAL,
	Causal: C.REGLEVEL_CAUSAL,
}

// ask asks reglevel, whose report lists each stale read.
func (answer *LevelAnswer) ask() error {
	level, known := levels[answer.Level]
	if !known {
		return fmt.Errorf("%q is no level", string(answer.Level))
	}
	input, length := at(answer.History), C.size_t(len(answer.History))
	verdict, report, err := asked(len(answer.History), func(out []byte, told *C.regcheck_answer) {
		C.reglevel_report(input, length, level, C.REGLEVEL_STALE, at(out), C.size_t(len(out)), told)
	}, func(line []byte) C.size_t {
		return C.regcheck_refusal(input, length, at(line), C.size_t(len(line)))
	})
	answer.Kept, answer.Report = verdict == Yes, report
	if err == nil && verdict == Unknown {
		return ErrLevelUnknown
	}
	return err
}

// asked gives what the library says of a history of so many bytes, by its functions for a report and for
// a refusal's words.
func asked(
	length int, report func([]byte, *C.regcheck_answer), refusal func([]byte) C.size_t,
) (Verdict, []byte, error) {
	var answer C.regcheck_answer
	out := make([]byte, length+1024) // enough unless registers have few operations
	report(out, &answer)
	if answer.status == C.REGCHECK_TOO_SMALL {
		out = make([]byte, answer.length)
		report(out, &answer)
	}
	if verdict, known := verdicts[int(answer.status)]; known {
		return verdict, out[:answer.length], nil
	}
	if answer.status == C.REGCHECK_REFUSED {
		line := make([]byte, C.REGCHECK_LINE_LENGTH)
		if words := string(line[:refusal(line)]); words != "" {
			return Unknown, nil, &Refusal{int(answer.number), int(answer.line), int(answer.other), words}
		}
	}
	return Unknown, nil, ErrMemory
}

var nothing [1]byte

// at gives where the bytes lie, for C, which is given no null even for no bytes.
func at(bytes []byte) *C.uint8_t {
	if len(bytes) == 0 {
		bytes = nothing[:]
	}
	return (*C.uint8_t)(unsafe.Pointer(&bytes[0]))
}
