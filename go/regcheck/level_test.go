package regcheck_test

import (
	"os"
	"path/filepath"
	"strings"
	"testing"

	"example.org/regcheck"
)

// leveled gives what a test is told that asks for a level, or nothing if it didn't fail.
func leveled(recorder *regcheck.Recorder, level regcheck.Level) string {
	test := &told{}
	if recorder.AssertLevel(test, level) != (test.said.Len() == 0) {
		return "the test fails, and may go on"
	}
	return test.said.String()
}

func mustSay(t *testing.T, said string, wants ...string) {
	t.Helper()
	for _, want := range wants {
		if !strings.Contains(said, want) {
			t.Errorf("%q isn't in %q", want, said)
		}
	}
}

// goesBack has one session that reads the newer value, and then the older one.
func goesBack(t *testing.T) *regcheck.Recorder {
	recorder := &regcheck.Recorder{Folder: t.TempDir()}
	_ = recorder.Client("one").Write("x", returns(nil))
	two := recorder.Client("two")
	_, _ = two.Read("x", gives(regcheck.Value(1), nil))
	_, _ = two.Read("x", gives(nil, nil))
	return recorder
}

// The verdicts are the same with the library and without. Here is no regkit.
func TestLevels(t *testing.T) {
	t.Setenv("REGKIT", "/nowhere/regkit")
	recorder := goesBack(t)
	if said := leveled(recorder, regcheck.OwnWrites); said != "" {
		t.Error(said)
	}
	for _, level := range []regcheck.Level{
		regcheck.Atomic, regcheck.Regular, regcheck.Session, regcheck.Monotonic, regcheck.Sequential,
		regcheck.Causal,
	} {
		mustSay(t, leveled(recorder, level), "/nowhere/regkit could not be run",
			"TestTold_a_b.jsonl: doesn't keep "+string(level)+"\n  {\"atomic\":\"no\"")
	}
	kept, _ := os.ReadFile(filepath.Join(recorder.Folder, "TestTold_a_b.report"))
	mustSay(t, string(kept), `"session":"no"`, `"stale_reads":[[5,1]]`)
}

func TestNoLevel(t *testing.T) {
	recorder := &regcheck.Recorder{Folder: t.TempDir()}
	_ = recorder.Client("one").Write("x", returns(nil))
	mustSay(t, leveled(recorder, regcheck.Session), "the history keeps session, but no read was completed")
	_, _ = recorder.Client("one").Cas("x", nil, 1, func() (bool, error) { return true, nil })
	mustSay(t, leveled(recorder, regcheck.Session), "; reglevel takes reads and writes of distinct values")
}
