//go:build cgo && !regcheck_program

package regcheck_test

import (
	"errors"
	"strings"
	"testing"

	"example.org/regcheck"
)

// The library has the verdicts, and the words of refusals: no program is run.
func TestWithoutPrograms(t *testing.T) {
	t.Setenv("REGCHECK", "/nowhere/regcheck")
	t.Setenv("REGSEARCH", "/nowhere/regsearch")
	t.Setenv("REGLEVEL", "/nowhere/reglevel")
	TestVerdicts(t)
	TestRefusals(t)
	TestRefusedByReportAlone(t)
	TestLevels(t)
	TestNoLevel(t)
	answer, err := regcheck.Check(cas(regcheck.TookPlace, regcheck.Missed), regcheck.Steps(1))
	if err != nil || answer.Verdict != regcheck.Unknown {
		t.Errorf("%v, %v", answer.Verdict, err)
	}
}

// A refusal by the library has a number.
func TestNumbers(t *testing.T) {
	noOk := `{"process":1,"event":"call","op":"cas","register":"x","from":null,"to":1}` + "\n" + `{"process":1,"event":"reply"}`
	for history, want := range map[string]regcheck.Refusal{
		"[]\n":      {Number: 3, Line: 1, Words: "line 1: not an object"},
		open + open: {Number: 9, Line: 2, Other: 1, Words: "line 2: the process has an open call at line 1"},
		noOk:        {Number: 21, Line: 2, Words: "line 2: a cas's reply has no ok, true or false"},
	} {
		_, err := regcheck.CheckHistory([]byte(history))
		if refusal, is := err.(*regcheck.Refusal); !is || *refusal != want {
			t.Errorf("%v, not %v", err, want)
		}
	}
	_, err := regcheck.CheckLevel([]byte("[]\n"), regcheck.Session)
	var refusal *regcheck.Refusal
	want := regcheck.Refusal{Number: 3, Line: 1, Words: "line 1: not an object"}
	if !errors.As(err, &refusal) || *refusal != want {
		t.Errorf("%v", err)
	}
}

// The words are those of regkit, which asks whatever it finds: this one says its arguments.
func TestWordsOfLevels(t *testing.T) {
	t.Setenv("REGKIT", script(t, "echo \"$6: $*\"; exit 1"))
	answer, err := regcheck.CheckLevel(goesBack(t).History(), regcheck.Session)
	words, none := answer.Words()
	if err != nil || none != nil || !strings.HasPrefix(words, "levels --color never --require session ") {
		t.Errorf("%v, %v, %q", err, none, words)
	}
}

func TestNoSuchLevel(t *testing.T) {
	mustSay(t, leveled(goesBack(t), "eventual"), `no verdict: "eventual" is no level`)
}
