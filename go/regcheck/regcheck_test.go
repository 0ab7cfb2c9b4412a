package regcheck_test

import (
	"errors"
	"fmt"
	"os"
	"path/filepath"
	"regexp"
	"strings"
	"sync"
	"testing"

	"example.org/regcheck"
)

// A write of 1, then a write of 2 that is open while two reads begin and end: the first gives 2, the
// second what is asked.
func inversion(second int64) []regcheck.Operation {
	return []regcheck.Operation{
		{ClientId: 1, Register: "x", Write: true, Value: regcheck.Value(1), Call: 0, Return: 10},
		{ClientId: 1, Register: "x", Write: true, Value: regcheck.Value(2), Call: 20, Return: 90},
		{ClientId: 2, Register: "x", Value: regcheck.Value(2), Call: 30, Return: 40},
		{ClientId: 2, Register: "x", Value: regcheck.Value(second), Call: 50, Return: 60},
	}
}

func ExampleCheck() {
	answer, err := regcheck.Check(inversion(1))
	fmt.Println(answer.Verdict, err)
	// Output: no <nil>
}

// A user of Porcupine has operations of this type.
type porcupineOperation struct {
	ClientId int
	Input    interface{}
	Call     int64
	Output   interface{}
	Return   int64
}

type put struct {
	key   string
	value int64
}

type get struct{ key string }

func ExampleCheckOperations() {
	operations := []porcupineOperation{
		{0, put{"x", 1}, 0, nil, 10},
		{1, get{"x"}, 5, int64(1), 15},
	}
	// This was: porcupine.CheckOperations(model, operations)
	answer, err := regcheck.CheckOperations(operations, func(operation porcupineOperation) regcheck.Operation {
		known := regcheck.Operation{ClientId: operation.ClientId, Call: operation.Call, Return: operation.Return}
		switch input := operation.Input.(type) {
		case put:
			known.Register, known.Write, known.Value = input.key, true, regcheck.Value(input.value)
		case get:
			known.Register, known.Value = input.key, regcheck.Value(operation.Output.(int64))
		}
		return known
	})
	fmt.Println(answer.Verdict, err)
	// Output: yes <nil>
}

func ExampleReport() {
	history := `{"process":1,"event":"call","op":"read","register":"x"}
{"process":1,"event":"reply","value":null}
`
	atomic, report, err := regcheck.Report([]byte(history))
	fmt.Printf("%v %v\n%s", atomic, err, report)
	// Output:
	// true <nil>
	// {"atomic":"yes","order":[1],"pending":0,"points":[1],"reads":1,"register":"x","regular":"yes","safe":"yes","writes":0}
	// {"atomic":"yes","operations":1,"order":[1],"registers":1}
}

// Two cas from nil to 1 that overlap, and then a read of 1. A cas without an outcome is pending.
func cas(outcomes ...regcheck.Outcome) []regcheck.Operation {
	operations := []regcheck.Operation{
		{ClientId: 3, Register: "x", Value: regcheck.Value(1), Call: 30, Return: 31}}
	for client, outcome := range outcomes {
		operation := regcheck.Operation{ClientId: client, Register: "x", Call: int64(client), Return: 20,
			Cas: &regcheck.Cas{To: 1, Outcome: outcome}}
		if outcome == 0 {
			operation.Return = regcheck.Pending
		}
		operations = append(operations, operation)
	}
	return operations
}

func TestVerdicts(t *testing.T) {
	one, two := regcheck.Value(1), regcheck.Value(2)
	for name, test := range map[string]struct {
		operations []regcheck.Operation
		want       regcheck.Verdict
	}{
		"no operations":               {nil, regcheck.Yes},
		"the new value twice":         {inversion(2), regcheck.Yes},
		"the new value, then the old": {inversion(1), regcheck.No},
		"a pending write is read": {[]regcheck.Operation{
			{ClientId: 1, Register: "x", Write: true, Value: one, Call: 0, Return: regcheck.Pending},
			{ClientId: 2, Register: "x", Value: one, Call: 5, Return: 6}}, regcheck.Yes},
		"a pending read": {[]regcheck.Operation{
			{ClientId: 1, Register: "x", Call: 0, Return: regcheck.Pending}}, regcheck.Yes},
		"nothing was written": {[]regcheck.Operation{
			{ClientId: 1, Register: "x", Call: 0, Return: 1}}, regcheck.Yes},
		"at one moment they overlap": {[]regcheck.Operation{
			{ClientId: 1, Register: "x", Write: true, Value: one, Call: 0, Return: 5},
			{ClientId: 2, Register: "x", Call: 5, Return: 6}}, regcheck.Yes},
		"a moment later they don't": {[]regcheck.Operation{
			{ClientId: 1, Register: "x", Write: true, Value: one, Call: 0, Return: 5},
			{ClientId: 2, Register: "x", Call: 6, Return: 7}}, regcheck.No},
		"a value twice": {append(inversion(2), regcheck.Operation{
			ClientId: 1, Register: "x", Write: true, Value: two, Call: 100, Return: 110}), regcheck.Yes},
		"one cas of two finds the value": {cas(regcheck.TookPlace, regcheck.Missed), regcheck.Yes},
		"two cas find the value":         {cas(regcheck.TookPlace, regcheck.TookPlace), regcheck.No},
		"no cas finds the value":         {cas(regcheck.Missed, regcheck.Missed), regcheck.No},
		"a pending cas took place":       {cas(regcheck.Missed, 0), regcheck.Yes},
		"a client that has two calls open": {[]regcheck.Operation{
			{ClientId: 0, Register: "x", Write: true, Value: one, Call: 0, Return: 9},
			{ClientId: 0, Register: "x", Write: true, Value: two, Call: 1, Return: 8},
			{ClientId: 1, Register: "<&>", Call: 2, Return: 3},
			{ClientId: 0, Register: "x", Value: one, Call: 10, Return: 11}}, regcheck.Yes},
	} {
		have, err := regcheck.Check(test.operations)
		if err != nil || have.Verdict != test.want {
			t.Errorf("%s: %v, %v", name, have.Verdict, err)
		}
	}
}

func TestHistory(t *testing.T) {
	operations := []regcheck.Operation{
		{ClientId: 0, Register: "<&>", Write: true, Value: regcheck.Value(1), Call: 5, Return: 9},
		{ClientId: 0, Register: "x", Call: 4, Return: 5},
		{ClientId: 2, Register: "x", Call: 6, Return: regcheck.Pending},
		{ClientId: 3, Register: "x", Call: 10, Return: 11, Cas: &regcheck.Cas{To: 1, Outcome: regcheck.TookPlace}},
		{ClientId: 3, Register: "x", Call: 12, Return: 13,
			Cas: &regcheck.Cas{From: regcheck.Value(0), Outcome: regcheck.Missed}},
	}
	want := `{"process":0,"event":"call","op":"read","register":"x"}
{"process":1,"event":"call","op":"write","register":"<&>","value":1}
{"process":0,"event":"reply","value":null}
{"process":2,"event":"call","op":"read","register":"x"}
{"process":1,"event":"reply"}
{"process":3,"event":"call","op":"cas","register":"x","from":null,"to":1}
{"process":3,"event":"reply","ok":true}
{"process":3,"event":"call","op":"cas","register":"x","from":0,"to":0}
{"process":3,"event":"reply","ok":false}
`
	have, err := regcheck.History(operations)
	if err != nil || string(have) != want {
		t.Errorf("%v\n%s", err, have)
	}
}

const open = `{"process":1,"event":"call","op":"read","register":"x"}` + "\n"

func TestRefusals(t *testing.T) {
	for history, want := range map[string]regcheck.Refusal{
		"\n" + open + open:            {Line: 3, Other: 2, Words: "line 3: the process has an open call at line 2"},
		"[]\n":                        {Line: 1, Words: "line 1: not an object"},
		strings.Repeat("\n", 1<<26+1): {Words: "input is longer than 67108864 bytes"},
	} {
		_, _, reported := regcheck.Report([]byte(history))
		_, checked := regcheck.CheckHistory([]byte(history))
		for _, err := range []error{reported, checked} {
			var refusal *regcheck.Refusal
			if !errors.As(err, &refusal) {
				t.Errorf("%v is no refusal", err)
				continue
			}
			refusal.Number = 0 // a program tells none
			if *refusal != want || err.Error() != want.Words {
				t.Errorf("%v, not %v", err, want)
			}
		}
	}
}

// What regcheck refuses for a value that is written twice is refused by Report, and judged by Check.
func TestRefusedByReportAlone(t *testing.T) {
	twice := valueTwice()
	_, _, err := regcheck.Report(mustHave(regcheck.History(twice)))
	var refusal *regcheck.Refusal
	if !errors.As(err, &refusal) || refusal.Line != 9 || refusal.Other != 1 {
		t.Errorf("%v", err)
	}
	if answer, err := regcheck.Check(twice); err != nil || answer.Verdict != regcheck.Yes {
		t.Errorf("%v, %v", answer.Verdict, err)
	}
}

// A history in which a value is written again at the end.
func valueTwice() []regcheck.Operation {
	again := inversion(2)[0]
	again.Call, again.Return = 100, 110
	return append(inversion(2), again)
}

func mustHave(history []byte, err error) []byte {
	if err != nil {
		panic(err)
	}
	return history
}

// script gives the path of a program of these lines.
func script(t *testing.T, lines string) string {
	path := filepath.Join(t.TempDir(), "script")
	if err := os.WriteFile(path, []byte("#!/bin/sh\n"+lines+"\n"), 0o777); err != nil {
		t.Fatal(err)
	}
	return path
}

// Without a fault or a bound there is nothing to say. The words of the rest are those of regkit: this one
// says its arguments.
func TestWords(t *testing.T) {
	t.Setenv("REGKIT", script(t, "echo \"$4: $*\"\ngrep -q gave_up \"$5\" && exit 6\nexit 1"))
	few := regcheck.Steps(1)
	for name, test := range map[string]struct {
		operations []regcheck.Operation
		verdict    regcheck.Verdict
		want       string
	}{
		"yes": {inversion(2), regcheck.Yes, `^$`},
		"no": {inversion(1), regcheck.No,
			`^explain --color never \S+history.jsonl \S+history.report --steps 1$`},
		"unknown": {cas(regcheck.TookPlace, regcheck.Missed), regcheck.Unknown,
			`^explain --color never .* --steps 1$`},
	} {
		answer, err := regcheck.Check(test.operations, few)
		if err != nil || answer.Verdict != test.verdict {
			t.Errorf("%s: %v, %v", name, answer.Verdict, err)
		}
		if have, err := answer.Words(); err != nil || !regexp.MustCompile(test.want).MatchString(have) {
			t.Errorf("%s: %v, %q, not %q", name, err, have, test.want)
		}
	}
	t.Setenv("REGKIT", "/nowhere/regkit")
	answer, _ := regcheck.Check(inversion(1))
	words, err := answer.Words()
	if err == nil || !strings.Contains(err.Error(), "/nowhere/regkit could not be run") {
		t.Errorf("%v, %q", err, words)
	}
}

func TestErrors(t *testing.T) {
	for want, operation := range map[string]regcheck.Operation{
		"before its call":     {Register: "x", Call: 2, Return: 1},
		"writes no value":     {Register: "x", Write: true, Call: 1, Return: 2},
		"isn't UTF-8":         {Register: "\xff", Call: 1, Return: 2},
		"TookPlace or Missed": {Register: "x", Cas: &regcheck.Cas{To: 1}, Call: 1, Return: 2},
		"has Write or Value too": {
			Register: "x", Cas: &regcheck.Cas{To: 1}, Value: regcheck.Value(1), Call: 1, Return: 2},
		"a cas, and has Write or ": {
			Register: "x", Cas: &regcheck.Cas{To: 1}, Write: true, Value: regcheck.Value(1), Call: 1, Return: 2},
	} {
		_, err := regcheck.Check([]regcheck.Operation{operation})
		if err == nil || !strings.Contains(err.Error(), want) {
			t.Errorf("%s: %v", want, err)
		}
	}
}

// Many registers with one operation each make a report that is longer than the room that is tried first.
func TestLongReport(t *testing.T) {
	var history strings.Builder
	for process := 0; process < 1000; process++ {
		fmt.Fprintf(&history, `{"process":%d,"event":"call","op":"read","register":"%d"}`+"\n", process, process)
	}
	atomic, report, err := regcheck.Report([]byte(history.String()))
	if err != nil || !atomic || len(report) <= history.Len()+1024 {
		t.Errorf("%v, %v, %d bytes for %d", atomic, err, len(report), history.Len())
	}
}

func TestAtOnce(t *testing.T) {
	var all sync.WaitGroup
	for number := 0; number < 8; number++ {
		all.Add(1)
		go func(second int64) {
			defer all.Done()
			for round := 0; round < 200; round++ {
				have, err := regcheck.Check(inversion(second))
				if err != nil || (have.Verdict == regcheck.Yes) != (second == 2) {
					t.Errorf("%v, %v", have.Verdict, err)
				}
			}
		}(int64(1 + number%2))
	}
	all.Wait()
}
