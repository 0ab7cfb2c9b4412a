package regcheck

import (
	"errors"
	"fmt"
	"os"
	"path/filepath"
	"strings"
)

// A Level is a guarantee that a store may give of each of its keys, or, as Causal, of all of them together.
// docs/levels.md explains them. A session is a client of a recorder until one of its calls stays pending.
type Level string

const (
	Atomic     Level = "atomic"     // linearizable: each read gives the latest write
	Regular    Level = "regular"    // no read misses a newer write that had ended before it began
	Session    Level = "session"    // writes in the order of time; each session's operations in its own order
	OwnWrites  Level = "own_writes" // writes in the order of time; no session misses a write of its own
	Monotonic  Level = "monotonic"  // writes in the order of time; no session goes back to an older value
	Sequential Level = "sequential" // each session in order; all agree on one order of the writes
	Causal     Level = "causal"     // of all keys together: no read misses a newer write that it knew of
)

// ErrLevelUnknown says that reglevel gave up, as it may do if Causal is asked for.
var ErrLevelUnknown = errors.New("causal is unknown: deciding it would take more memory or work than " +
	"reglevel spends. It is decided for fewer sessions, or a shorter run")

// A LevelAnswer says whether each register of a history, or the whole of it, keeps a level, and why not.
type LevelAnswer struct {
	Level   Level
	Kept    bool
	History []byte // in the form of the programs
	Report  []byte // that of reglevel

	program string // the path of reglevel, unless the library answered
}

// CheckLevel says whether each register of a history in the form of the programs keeps a level. reglevel
// decides, which takes what regcheck takes: reads and writes, each value written once to a register. Without
// the library it is the one that REGLEVEL names, the one beside regcheck, or the one on PATH.
//
// The error says why there is no answer: it may be a *Refusal, or ErrLevelUnknown.
func CheckLevel(history []byte, level Level) (LevelAnswer, error) {
	answer := LevelAnswer{Level: level, History: history}
	err := answer.ask()
	var refusal *Refusal
	if errors.As(err, &refusal) {
		err = fmt.Errorf("%w; reglevel takes reads and writes of distinct values", refusal)
	}
	return answer, err
}

// Words says why a history doesn't keep the level, as `regkit levels` does. If it does, there is nothing to
// say. The error says why there are no words.
func (answer LevelAnswer) Words() (string, error) {
	if answer.Report == nil || answer.Kept {
		return "", nil
	}
	folder, err := os.MkdirTemp("", "regcheck-")
	if err != nil {
		return "", err
	}
	defer os.RemoveAll(folder)
	files := filesOf(filepath.Join(folder, "history"))
	if err := files.keep(answer.History, nil); err != nil {
		return "", err
	}
	words, err := files.levels(answer)
	return strings.TrimPrefix(words, files.history+": "), err
}

// RecordLevel gives a recorder whose history is checked when the test ends, as by AssertLevel.
func RecordLevel(test TB, level Level) *Recorder {
	test.Helper()
	recorder := &Recorder{}
	test.Cleanup(func() {
		test.Helper()
		recorder.AssertLevel(test, level)
	})
	return recorder
}

// AssertLevel fails the test unless each register of the history keeps the level, a read was completed, and
// the recorder was used rightly. It says whether the test may go on.
//
// It says why in the words of `regkit levels`, and leaves the history, the report of reglevel and a page in
// Folder, as Assert does. The page shows why the history isn't linearizable. CheckLevel says which histories
// have an answer.
func (recorder *Recorder) AssertLevel(test TB, level Level) bool {
	test.Helper()
	reads, keeper, ok := recorder.recorded(test)
	if !ok {
		return false
	}
	answer, err := CheckLevel(recorder.History(), level)
	return assert(test, keeper, answer.finding(), err, reads)
}

func (answer LevelAnswer) finding() finding {
	return finding{answer.History, answer.Report, answer.Kept, "keeps " + string(answer.Level),
		func(files files) string { return files.explainLevel(answer) }}
}

// explainLevel says why the kept history doesn't keep the level, and has it drawn.
func (files files) explainLevel(answer LevelAnswer) string {
	kept := "history: " + files.history + "\nreport: " + files.report
	words, err := files.levels(answer)
	if err != nil {
		return fmt.Sprintf("%s: %s\n%v\n%s", files.history, lacking(answer), err, kept)
	}
	return words + "\n\n" + kept + "\n" + files.drawWhole(answer.History)
}

// levels gives the words of regkit for the kept history, by the program that answered, if it was one.
func (files files) levels(answer LevelAnswer) (string, error) {
	path, err := regkit()
	if err != nil {
		return "", err
	}
	words := []string{"levels", "--color", "never", "--require", string(answer.Level), files.history}
	var more []string
	if answer.program != "" {
		more = []string{"REGLEVEL=" + answer.program}
	}
	said, err := runIn(more, path, nil, words...)
	if err != nil {
		return "", err
	}
	if said.status != statusNotAtomic {
		return "", said.failure(path)
	}
	return strings.TrimRight(string(said.output), "\n"), nil
}

// drawWhole has the kept history drawn by the report of regcheck, since one of reglevel has no fault to draw.
func (files files) drawWhole(history []byte) string {
	_, report, err := checked(history)
	if err != nil {
		return "no page: " + err.Error()
	}
	return files.draw("-", report)
}

// lacking gives the lines of the report whose registers lack the level. Of Causal it is the last line.
func lacking(answer LevelAnswer) string {
	lines := []string{"doesn't keep " + string(answer.Level)}
	for _, line := range strings.Split(string(answer.Report), "\n") {
		told := answer.Level == Causal || strings.Contains(line, `"register":`)
		if told && strings.Contains(line, `"`+string(answer.Level)+`":"no"`) {
			lines = append(lines, "  "+line)
		}
	}
	return strings.Join(lines, "\n")
}
