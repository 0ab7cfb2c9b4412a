package regcheck

import (
	"fmt"
	"os"
	"path/filepath"
	"regexp"
	"strings"
	"sync"
)

// TB is what is asked of a *testing.T, *testing.B or *testing.F.
type TB interface {
	Helper()
	Name() string
	Errorf(format string, arguments ...any)
	Cleanup(func())
}

const failuresFolder = "regcheck-failures"

// Record gives a recorder whose history is checked when the test ends, as by Assert.
func Record(test TB) *Recorder {
	test.Helper()
	recorder := &Recorder{}
	test.Cleanup(func() {
		test.Helper()
		recorder.Assert(test)
	})
	return recorder
}

// Assert fails the test unless the history is linearizable, a read was completed, and the recorder was used
// rightly. A compare-and-swap that was answered counts as a read. It says whether the test may go on.
//
// It says why in words, and leaves the history, its report and a page that shows the fault in Folder, named
// after the test; a pass deletes what an earlier run left there. If the search for an order gave up, nobody
// knows: that fails the test too, and the words say what to do. The words and the page are made by regkit:
// where it isn't there, Assert says so, and gives the lines of the report instead.
func (recorder *Recorder) Assert(test TB) bool {
	test.Helper()
	reads, keeper, ok := recorder.recorded(test)
	if !ok {
		return false
	}
	recorder.lock.Lock()
	bounds := recorder.Bounds
	recorder.lock.Unlock()
	answer, err := CheckHistory(recorder.History(), bounds...)
	return assert(test, keeper, answer.finding(), err, reads)
}

// recorded gives how many reads were completed, and who keeps files. It fails the test if the recorder was
// used wrongly.
func (recorder *Recorder) recorded(test TB) (int, keeper, bool) {
	test.Helper()
	if err := recorder.Err(); err != nil {
		test.Errorf("the recorder was used wrongly: %v", err)
		return 0, keeper{}, false
	}
	recorder.lock.Lock()
	defer recorder.lock.Unlock()
	folder := recorder.Folder
	if folder == "" {
		folder = failuresFolder
	}
	return recorder.reads, keeper{folder, recorder}, true
}

// AssertOperations is CheckOperations for a test: it fails the test as Assert does.
func AssertOperations[O any](test TB, operations []O, as func(O) Operation, bounds ...Bound) bool {
	test.Helper()
	reads, known := 0, convert(operations, as)
	for _, operation := range known {
		if !operation.Write && operation.Return != Pending {
			reads++
		}
	}
	history, err := History(known)
	if err != nil {
		test.Errorf("%v", err)
		return false
	}
	answer, err := CheckHistory(history, bounds...)
	return assert(test, keeper{failuresFolder, &answer}, answer.finding(), err, reads)
}

// A finding is what an answer says of a history.
type finding struct {
	history, report []byte
	holds           bool
	what            string             // what the history does if that holds
	explain         func(files) string // why it doesn't, from the kept files
}

func (answer Answer) finding() finding {
	return finding{answer.History, answer.Report, answer.Verdict == Yes, "is linearizable",
		func(files files) string { return files.explain(answer) }}
}

func assert(test TB, keeper keeper, found finding, err error, reads int) bool {
	test.Helper()
	if err == nil && found.holds && reads > 0 {
		keeper.clear(test.Name())
		return true
	}
	files := keeper.files(test.Name())
	if unkept := files.keep(found.history, found.report); unkept != nil {
		test.Errorf("what the test recorded can't be kept: %v", unkept)
	}
	switch {
	case err != nil:
		test.Errorf("no verdict: %v\n\nhistory: %s", err, files.history)
	case found.holds:
		test.Errorf("too little evidence: the history %s, but no read was completed\n\nhistory: %s",
			found.what, files.history)
	default:
		test.Errorf("%s", found.explain(files))
	}
	return false
}

// files are what a failed test leaves behind.
type files struct{ history, report, page string }

func filesOf(begin string) files { return files{begin + ".jsonl", begin + ".report", begin + ".html"} }

var (
	unfit = regexp.MustCompile(`[^A-Za-z0-9._-]+`)
	taken sync.Map // how the files begin that failed tests of this process left, each with its owner
)

// A keeper is who leaves files of failed tests, and where.
type keeper struct {
	folder string
	owner  any
}

func (keeper keeper) begin(test string) string {
	name := unfit.ReplaceAllString(test, "_")
	if len(name) > 200 {
		name = name[len(name)-200:]
	}
	return filepath.Join(keeper.folder, name)
}

// files gives those that are named after the test; with a number behind it if another owner has them.
func (keeper keeper) files(test string) files {
	begin := keeper.begin(test)
	free := begin
	for number := 2; ; number++ {
		if owner, _ := taken.LoadOrStore(free, keeper.owner); owner == keeper.owner {
			return filesOf(free)
		}
		free = fmt.Sprintf("%s-%d", begin, number)
	}
}

// clear deletes what an earlier run left of a test that passed now.
func (keeper keeper) clear(test string) {
	begin := keeper.begin(test)
	if _, kept := taken.Load(begin); kept {
		return
	}
	files := filesOf(begin)
	for _, file := range []string{files.history, files.report, files.page} {
		_ = os.Remove(file) // mostly there is none
	}
}

// keep writes the history, and its report if there is one.
func (files files) keep(history, report []byte) error {
	if err := os.MkdirAll(filepath.Dir(files.history), 0o777); err != nil {
		return err
	}
	if err := os.WriteFile(files.history, history, 0o666); err != nil || report == nil {
		return err
	}
	return os.WriteFile(files.report, report, 0o666)
}

// explain says why the kept history isn't linearizable, or what to do if nobody knows, and has it drawn.
func (files files) explain(answer Answer) string {
	kept := "history: " + files.history + "\nreport: " + files.report
	words, err := files.byRegkit(answer)
	if err != nil {
		return fmt.Sprintf("%s: %s\n%v\n%s", files.history, shown(answer), err, kept)
	}
	words += "\n\n" + kept + "\n" + files.draw(files.report, nil)
	if answer.Verdict == Unknown {
		words += "\nbounds: give the recorder Bounds, such as Steps and Configurations"
	}
	return words
}

// byRegkit gives the words of regkit for the kept history.
func (files files) byRegkit(answer Answer) (string, error) {
	path, err := regkit()
	if err != nil {
		return "", err
	}
	words := []string{"explain", "--color", "never", files.history, files.report}
	words = append(words, options(answer.bounds)...)
	said, err := run(path, nil, words...)
	if err != nil {
		return "", err
	}
	if said.status != statusNotAtomic && said.status != statusUnknown {
		return "", said.failure(path)
	}
	return strings.TrimRight(string(said.output), "\n"), nil
}

// draw has the kept history drawn by a report, which is given if it isn't in a file, and says where.
func (files files) draw(report string, given []byte) string {
	path, err := regkit()
	if err != nil {
		return "no page: " + err.Error()
	}
	said, err := run(path, given, "draw", files.history, report, "-o", files.page)
	switch {
	case err != nil:
		return "no page: " + err.Error()
	case said.status != 0:
		return "no page: " + said.complaint
	}
	return "page: " + files.page
}

// shown gives the verdict, and the lines of the report that it rests on.
func shown(answer Answer) string {
	verdict, key := "not linearizable", `"fault":`
	if answer.Verdict == Unknown {
		verdict = "unknown: the search gave up; raise its bounds, or record runs with fewer calls open at once"
		key = `"gave_up":`
	}
	lines := []string{verdict}
	for _, line := range strings.Split(string(answer.Report), "\n") {
		if strings.Contains(line, key) {
			lines = append(lines, "  "+line)
		}
	}
	return strings.Join(lines, "\n")
}
