// Command stream answers each history on standard input. tests/embed compares what it writes; its form is
// that of tests/library/stream.c.
//
// With two arguments, of steps and configurations, it asks regsearch too, within these bounds. With one it
// asks for that level.
package main

import (
	"bufio"
	"encoding/binary"
	"errors"
	"io"
	"log"
	"os"
	"strconv"

	"example.org/regcheck"
)

type numbers struct {
	Status, Number, Line, Other uint32
	Length                      uint64
}

var statuses = map[regcheck.Verdict]uint32{regcheck.Yes: 0, regcheck.No: 1, regcheck.Unknown: 6}

func statusOf(holds bool) uint32 {
	if holds {
		return 0
	}
	return 1
}

func ask(history []byte, words []string) (uint32, []byte, error) {
	switch len(words) {
	case 0:
		atomic, report, err := regcheck.Report(history)
		return statusOf(atomic), report, err
	case 1:
		answer, err := regcheck.CheckLevel(history, regcheck.Level(words[0]))
		return statusOf(answer.Kept), answer.Report, err
	}
	answer, err := regcheck.CheckHistory(history, boundsOf(words)...)
	return statuses[answer.Verdict], answer.Report, err
}

func answer(history []byte, words []string) (numbers, []byte) {
	status, report, err := ask(history, words)
	var refusal *regcheck.Refusal
	switch {
	case errors.As(err, &refusal):
		words := []byte(err.Error())
		number, line, other := uint32(refusal.Number), uint32(refusal.Line), uint32(refusal.Other)
		return numbers{2, number, line, other, uint64(len(words))}, words
	case err != nil:
		log.Fatal(err)
	}
	return numbers{status, 0, 0, 0, uint64(len(report))}, report
}

func boundsOf(words []string) []regcheck.Bound {
	var bounds []regcheck.Bound
	for place, word := range words {
		number, err := strconv.ParseUint(word, 10, 64)
		if err != nil {
			log.Fatal(err)
		}
		kinds := []func(uint64) regcheck.Bound{regcheck.Steps, regcheck.Configurations}
		bounds = append(bounds, kinds[place](number))
	}
	return bounds
}

func main() {
	input, output := bufio.NewReader(os.Stdin), bufio.NewWriter(os.Stdout)
	defer output.Flush()
	var length uint64
	for binary.Read(input, binary.LittleEndian, &length) == nil {
		history := make([]byte, length)
		if _, err := io.ReadFull(input, history); err != nil {
			log.Fatal(err)
		}
		said, bytes := answer(history, os.Args[1:])
		if err := binary.Write(output, binary.LittleEndian, said); err != nil {
			log.Fatal(err)
		}
		output.Write(bytes)
	}
}
