package regcheck

import (
	"errors"
	"fmt"
	"os"
	"path/filepath"
	"strconv"
	"strings"
)

// A Verdict says whether a history is linearizable.
type Verdict int

const (
	Unknown Verdict = iota // nobody knows: the search gave up at a bound, or there is no answer
	Yes
	No
)

func (verdict Verdict) String() string { return [...]string{"unknown", "yes", "no"}[verdict] }

// The verdicts, by the exit status of a program, or by the status that the library gives.
var verdicts = map[int]Verdict{statusAtomic: Yes, statusNotAtomic: No, statusUnknown: Unknown}

// An Answer says whether a history is linearizable, and why.
type Answer struct {
	Verdict Verdict
	History []byte // in the form of the programs
	Report  []byte // that of regcheck, or of regsearch where regcheck refused the history

	bounds []Bound
}

// A Bound is where the search of regsearch gives up, in place of its default. It counts work and never time.
type Bound struct {
	name string
	most uint64
}

const steps, configurations = "steps", "configurations"

// Steps says how many steps the search for an order of one register may take; by default, or
// if 0, 1,000,000,000.
func Steps(most uint64) Bound { return Bound{steps, most} }

// Configurations says how many configurations the search may hold in one list; by default, or if 0, 65,536.
func Configurations(most uint64) Bound { return Bound{configurations, most} }

// most gives the bound of that name, or 0 for the default.
func most(bounds []Bound, name string) uint64 {
	var found uint64
	for _, bound := range bounds {
		if bound.name == name {
			found = bound.most
		}
	}
	return found
}

// options gives the bounds as the words of a command line.
func options(bounds []Bound) []string {
	var words []string
	for _, name := range []string{steps, configurations} {
		if number := most(bounds, name); number > 0 {
			words = append(words, "--"+name, strconv.FormatUint(number, 10))
		}
	}
	return words
}

// CheckHistory says whether a history in the form of the programs is linearizable. regcheck decides what
// it accepts, and regsearch what else there is: repeated values and compare-and-swap. The bounds are
// those of regsearch.
//
// The error says why there is no answer: it may be a *Refusal.
func CheckHistory(history []byte, bounds ...Bound) (Answer, error) {
	answer := Answer{History: history, bounds: bounds}
	var err error
	answer.Verdict, answer.Report, err = checked(history)
	var refusal *Refusal
	if errors.As(err, &refusal) {
		return answer.search(refusal)
	}
	return answer, err
}

// search gives the answer of regsearch to a history that regcheck refused. What both refuse has the
// words of regsearch.
func (answer Answer) search(refusal *Refusal) (Answer, error) {
	var err error
	answer.Verdict, answer.Report, err = searched(answer.History, answer.bounds)
	var missing notFound
	if errors.As(err, &missing) {
		err = fmt.Errorf("%w; repeated values and cas need regsearch, but %v", refusal, missing)
	}
	return answer, err
}

// Words says why a history isn't linearizable, or what to do if nobody knows, as `regkit explain` does. Of a
// yes there is nothing to say. The error says why there are no words.
func (answer Answer) Words() (string, error) {
	if answer.Report == nil || answer.Verdict == Yes {
		return "", nil
	}
	folder, err := os.MkdirTemp("", "regcheck-")
	if err != nil {
		return "", err
	}
	defer os.RemoveAll(folder)
	files := filesOf(filepath.Join(folder, "history"))
	if err := files.keep(answer.History, answer.Report); err != nil {
		return "", err
	}
	words, err := files.byRegkit(answer)
	return strings.TrimPrefix(words, files.history+": "), err
}
