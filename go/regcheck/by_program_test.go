//go:build !cgo || regcheck_program

package regcheck_test

import (
	"errors"
	"os"
	"os/exec"
	"path/filepath"
	"strings"
	"testing"

	"example.org/regcheck"
)

// Without regsearch, what regcheck refuses has no answer.
func TestWithoutSearch(t *testing.T) {
	t.Setenv("REGSEARCH", "/nowhere/regsearch")
	answer, err := regcheck.Check(valueTwice())
	if err == nil || answer.Verdict != regcheck.Unknown ||
		!strings.Contains(err.Error(), "/nowhere/regsearch could not be run") {
		t.Errorf("%v, %v", answer.Verdict, err)
	}
}

// If there is none at all, the refusal stands, and says what would decide.
func TestSearchNotFound(t *testing.T) {
	t.Setenv("REGSEARCH", "")
	t.Setenv("REGCHECK", alone(t))
	t.Setenv("PATH", "")
	_, err := regcheck.Check(valueTwice())
	var refusal *regcheck.Refusal
	if !errors.As(err, &refusal) || refusal.Line != 9 ||
		!strings.Contains(err.Error(), "; repeated values and cas need regsearch, but ") {
		t.Errorf("%v", err)
	}
}

// A folder that has the name of a program isn't taken for it.
func TestFolder(t *testing.T) {
	path := alone(t)
	if err := os.Mkdir(filepath.Join(filepath.Dir(path), "regsearch"), 0o777); err != nil {
		t.Fatal(err)
	}
	t.Setenv("REGSEARCH", "")
	t.Setenv("REGCHECK", path)
	t.Setenv("PATH", "")
	_, err := regcheck.Check(valueTwice())
	if err == nil || !strings.Contains(err.Error(), "regsearch was not found") {
		t.Errorf("%v", err)
	}
}

// The words are those of regkit, which asks the same reglevel.
func TestWordsOfLevels(t *testing.T) {
	recorder := goesBack(t)
	mustSay(t, leveled(recorder, regcheck.Session), "TestTold_a_b.jsonl: keeps read your writes; ",
		`required: session, which doesn't hold of 1 of 1 register: "x"`, "page: ")
	for end, want := range map[string]string{".html": "</svg>", ".report": `"session":"no"`} {
		kept, _ := os.ReadFile(filepath.Join(recorder.Folder, "TestTold_a_b"+end))
		mustSay(t, string(kept), want)
	}
	answer, err := regcheck.CheckLevel(recorder.History(), regcheck.Session)
	words, none := answer.Words()
	if err != nil || none != nil || answer.Kept || !strings.HasPrefix(words, "keeps read your writes; ") {
		t.Errorf("%v, %v, %q", err, none, words)
	}
}

func TestWithoutLevels(t *testing.T) {
	recorder := goesBack(t)
	mustSay(t, leveled(recorder, "eventual"), "no verdict: ", "ended with status 3: ")
	unsure := filepath.Join(t.TempDir(), "reglevel")
	if err := os.WriteFile(unsure, []byte("#!/bin/sh\nexit 6\n"), 0o755); err != nil {
		t.Fatal(err)
	}
	t.Setenv("REGLEVEL", unsure)
	mustSay(t, leveled(recorder, regcheck.Causal), "no verdict: causal is unknown: deciding it would take ")
	t.Setenv("REGLEVEL", "/nowhere/reglevel")
	mustSay(t, leveled(recorder, regcheck.Session), "no verdict: /nowhere/reglevel could not be run")
}

// alone gives the path of a regcheck with nothing beside it.
func alone(t *testing.T) string {
	path := os.Getenv("REGCHECK")
	if path == "" {
		path, _ = exec.LookPath("regcheck")
	}
	link := filepath.Join(t.TempDir(), "regcheck")
	if err := os.Symlink(path, link); err != nil {
		t.Fatal(err)
	}
	return link
}
