package regcheck_test

import (
	"encoding/json"
	"errors"
	"fmt"
	"os"
	"path/filepath"
	"strings"
	"sync"
	"testing"

	"example.org/regcheck"
)

var errTime, errRefused = errors.New("no answer in time"), errors.New("connection refused")

// ticking gives a clock that goes on by a millisecond each time it is asked.
func ticking() func() int64 {
	var time int64
	return func() int64 { time += 1_000_000; return time }
}

func returns(err error) func(int64) error { return func(int64) error { return err } }

func gives(value *int64, err error) func() (*int64, error) {
	return func() (*int64, error) { return value, err }
}

func panics(int64) error { panic("the client is gone") }

func TestRecorder(t *testing.T) {
	var output strings.Builder
	recorder := &regcheck.Recorder{Output: &output, Clock: ticking()}
	one, two := recorder.Client("one").On("a"), recorder.Client("")
	for place, have := range []error{
		one.Write("x", returns(nil)),
		one.Write("x", returns(errTime)),
		one.Write("y", returns(regcheck.NoEffect(errRefused))),
	} {
		if want := []error{nil, errTime, errRefused}[place]; !errors.Is(have, want) {
			t.Errorf("the write at index %d gave %v, not %v", place, have, want)
		}
	}
	func() {
		defer func() { _ = recover() }()
		_ = one.Write("x", panics)
	}()
	for _, known := range []*int64{nil, regcheck.Value(-3)} {
		if have, err := two.On("b").Read("<&>", gives(known, nil)); have != known || err != nil {
			t.Errorf("a read gave %v, %v", have, err)
		}
	}
	_, _ = one.Read("x", gives(nil, errTime))
	_, _ = one.Read("x", gives(nil, nil))
	_ = one.WriteValue("x", -3, returns(nil))
	for place, end := range []error{nil, nil, regcheck.NoEffect(errRefused), errTime} {
		from := []*int64{nil, regcheck.Value(-3), nil, nil}[place]
		tookPlace, err := one.Cas("x", from, 1, func() (bool, error) { return place == 1, end })
		if tookPlace != (place == 1) || err != end {
			t.Errorf("the cas at index %d gave %v, %v", place, tookPlace, err)
		}
	}
	want := `{"process":1,"event":"call","op":"write","register":"x","value":1,"client":"one","node":"a","time":1000000}
{"process":1,"event":"reply","register":"x","client":"one","node":"a","time":2000000}
{"process":1,"event":"call","op":"write","register":"x","value":2,"client":"one","node":"a","time":3000000}
{"process":2,"event":"call","op":"write","register":"y","value":1,"client":"one","node":"a","time":4000000}
{"process":2,"event":"fail","register":"y","client":"one","node":"a","time":5000000}
{"process":2,"event":"call","op":"write","register":"x","value":3,"client":"one","node":"a","time":6000000}
{"process":3,"event":"call","op":"read","register":"<&>","node":"b","time":7000000}
{"process":3,"event":"reply","register":"<&>","value":null,"node":"b","time":8000000}
{"process":3,"event":"call","op":"read","register":"<&>","node":"b","time":9000000}
{"process":3,"event":"reply","register":"<&>","value":-3,"node":"b","time":10000000}
{"process":4,"event":"call","op":"read","register":"x","client":"one","node":"a","time":11000000}
{"process":5,"event":"call","op":"read","register":"x","client":"one","node":"a","time":12000000}
{"process":5,"event":"reply","register":"x","value":null,"client":"one","node":"a","time":13000000}
{"process":5,"event":"call","op":"write","register":"x","value":-3,"client":"one","node":"a","time":14000000}
{"process":5,"event":"reply","register":"x","client":"one","node":"a","time":15000000}
{"process":5,"event":"call","op":"cas","register":"x","from":null,"to":1,"client":"one","node":"a","time":16000000}
{"process":5,"event":"reply","register":"x","ok":false,"client":"one","node":"a","time":17000000}
{"process":5,"event":"call","op":"cas","register":"x","from":-3,"to":1,"client":"one","node":"a","time":18000000}
{"process":5,"event":"reply","register":"x","ok":true,"client":"one","node":"a","time":19000000}
{"process":5,"event":"call","op":"cas","register":"x","from":null,"to":1,"client":"one","node":"a","time":20000000}
{"process":5,"event":"fail","register":"x","client":"one","node":"a","time":21000000}
{"process":5,"event":"call","op":"cas","register":"x","from":null,"to":1,"client":"one","node":"a","time":22000000}
`
	if have := string(recorder.History()); have != want || output.String() != want || recorder.Err() != nil {
		t.Errorf("%v\n%s%s", recorder.Err(), have, output.String())
	}
}

func TestChanges(t *testing.T) {
	recorder := &regcheck.Recorder{Clock: ticking()}
	client := recorder.Client("")
	put := func(value int64) (bool, error) { return value == 5, nil }
	for place, have := range []func() (bool, error){
		func() (bool, error) { return client.Create("x", 5, put) },
		func() (bool, error) { return client.Replace("x", 6, put) },
		func() (bool, error) { return client.Lock("x", 1, func() (bool, error) { return false, nil }) },
		func() (bool, error) { return client.Unlock("x", 1, func() (bool, error) { return false, nil }) },
		func() (bool, error) { return client.DeleteFound("x", func() (bool, error) { return true, nil }) },
	} {
		if said, err := have(); said != []bool{true, false, false, false, true}[place] || err != nil {
			t.Errorf("the change at index %d gave %v, %v", place, said, err)
		}
	}
	if err := client.Delete("x", func() error { return errTime }); err != errTime {
		t.Errorf("the delete gave %v", err)
	}
	if err := client.Expires("x", -3); err != nil {
		t.Errorf("the expiry gave %v", err)
	}
	old, err := client.Swap("x", -3, func(value int64) (*int64, error) { return regcheck.Value(value + 1), nil })
	if err != nil || *old != -2 {
		t.Errorf("the swap gave %v, %v", old, err)
	}
	_, _ = client.Swap("x", 7, func(int64) (*int64, error) { return nil, regcheck.NoEffect(errRefused) })
	want := `{"process":1,"event":"call","op":"cas","register":"x","from":null,"to":5,"time":1000000}
{"process":1,"event":"reply","register":"x","ok":true,"time":2000000}
{"process":1,"event":"call","op":"cas","register":"x","unless":null,"to":6,"time":3000000}
{"process":1,"event":"reply","register":"x","ok":false,"time":4000000}
{"process":1,"event":"call","op":"cas","register":"x","from":null,"to":1,"time":5000000}
{"process":1,"event":"reply","register":"x","ok":false,"time":6000000}
{"process":1,"event":"call","op":"cas","register":"x","from":1,"to":null,"time":7000000}
{"process":1,"event":"reply","register":"x","ok":false,"time":8000000}
{"process":1,"event":"call","op":"delete","register":"x","time":9000000}
{"process":1,"event":"reply","register":"x","found":true,"time":10000000}
{"process":1,"event":"call","op":"delete","register":"x","time":11000000}
{"process":2,"event":"call","op":"cas","register":"x","from":-3,"to":null,"time":12000000}
{"process":3,"event":"call","op":"swap","register":"x","value":-3,"time":13000000}
{"process":3,"event":"reply","register":"x","old":-2,"time":14000000}
{"process":3,"event":"call","op":"swap","register":"x","value":7,"time":15000000}
{"process":3,"event":"fail","register":"x","time":16000000}
`
	if have := string(recorder.History()); have != want || recorder.Err() != nil {
		t.Errorf("%v\n%s", recorder.Err(), have)
	}
	if err := client.Expires("", 1); err == nil {
		t.Error("a register without a name expired")
	}
}

func TestMistakes(t *testing.T) {
	for name, test := range map[string]struct {
		use  func(client *regcheck.Client) error
		want string
	}{
		"no name": {func(client *regcheck.Client) error { return client.Write("", returns(nil)) }, "no register"},
		"a long name": {func(client *regcheck.Client) error {
			return client.Write(strings.Repeat("x", 256), returns(nil))
		}, "1 to 255 bytes"},
		"not UTF-8": {func(client *regcheck.Client) error {
			return client.Write("\xff", returns(nil))
		}, "no register"},
		"two calls at once": {func(client *regcheck.Client) error {
			return client.Write("x", func(int64) error { return client.Write("y", returns(nil)) })
		}, "for each goroutine"},
		"no number": {func(client *regcheck.Client) error {
			_, err := client.Read("x", func() (*int64, error) { return regcheck.Number("7a") })
			return err
		}, "the store gave \"7a\""},
	} {
		var recorder regcheck.Recorder
		err := test.use(recorder.Client("one"))
		var mistake *regcheck.Mistake
		if !errors.As(err, &mistake) || !strings.Contains(err.Error(), test.want) || recorder.Err() != mistake {
			t.Errorf("%s: %v, %v", name, err, recorder.Err())
		}
		if said := asserted(&recorder); !strings.Contains(said, test.want) {
			t.Errorf("%s: the test is told %q", name, said)
		}
	}
}

func TestNames(t *testing.T) {
	for want, use := range map[string]func(recorder *regcheck.Recorder){
		"is no client": func(recorder *regcheck.Recorder) { recorder.Client(strings.Repeat("x", 256)) },
		"is no node":   func(recorder *regcheck.Recorder) { recorder.Client("one").On("\xff") },
	} {
		var recorder regcheck.Recorder
		use(&recorder)
		if err := recorder.Err(); err == nil || !strings.Contains(err.Error(), want) {
			t.Errorf("%v, not %s", err, want)
		}
	}
}

func TestValuesAfter(t *testing.T) {
	recorder := &regcheck.Recorder{ValuesAfter: 1000}
	for want := int64(1001); want < 1004; want++ {
		_ = recorder.Client("one").Write("x", func(have int64) error {
			if have != want {
				t.Errorf("%d, not %d", have, want)
			}
			return nil
		})
	}
}

type full struct{}

func (full) Write([]byte) (int, error) { return 0, errors.New("the disk is full") }

func TestLostOutput(t *testing.T) {
	recorder := &regcheck.Recorder{Output: full{}}
	_ = recorder.Client("one").Write("x", returns(nil))
	if err := recorder.Err(); err == nil || !strings.Contains(err.Error(), "the disk is full") {
		t.Errorf("%v", err)
	}
}

// locked is a right store.
type locked struct {
	lock   sync.Mutex
	values map[string]int64
}

func (store *locked) set(register string, value int64) error {
	store.lock.Lock()
	defer store.lock.Unlock()
	store.values[register] = value
	return nil
}

func (store *locked) get(register string) (*int64, error) {
	store.lock.Lock()
	defer store.lock.Unlock()
	if value, there := store.values[register]; there {
		return &value, nil
	}
	return nil, nil
}

func TestGoroutines(t *testing.T) {
	recorder, store := regcheck.Record(t), &locked{values: map[string]int64{}}
	var all sync.WaitGroup
	for number := 0; number < 8; number++ {
		all.Add(1)
		go func(client *regcheck.Client, own string) {
			defer all.Done()
			for round := 0; round < 25; round++ {
				_ = client.Write(own, func(value int64) error { return store.set(own, value) })
				_, _ = client.Read("x0", func() (*int64, error) { return store.get("x0") })
			}
		}(recorder.Client(fmt.Sprint("worker-", number)), fmt.Sprint("x", number%2))
	}
	all.Wait()
	var last int64
	lines := strings.Split(strings.TrimSpace(string(recorder.History())), "\n")
	for _, line := range lines {
		var event struct{ Time int64 }
		if err := json.Unmarshal([]byte(line), &event); err != nil || event.Time < last || event.Time == 0 {
			t.Fatalf("%v: %s after %d", err, line, last)
		}
		last = event.Time
	}
	if len(lines) != 800 {
		t.Errorf("%d lines", len(lines))
	}
}

// A told keeps what a test is told.
type told struct{ said strings.Builder }

func (*told) Helper() {}

func (*told) Name() string { return "TestTold/a b" }

func (told *told) Errorf(format string, arguments ...any) {
	fmt.Fprintf(&told.said, format, arguments...)
}

func (*told) Cleanup(func()) {}

// asserted gives what a failed test is told, or nothing if it didn't fail.
func asserted(recorder *regcheck.Recorder) string {
	test := &told{}
	if recorder.Assert(test) != (test.said.Len() == 0) {
		return "the test fails, and may go on"
	}
	return test.said.String()
}

func TestTooLittle(t *testing.T) {
	recorder := &regcheck.Recorder{Folder: t.TempDir()}
	_ = recorder.Client("one").Write("x", returns(nil))
	if said := asserted(recorder); !strings.Contains(said, "no read was completed") {
		t.Errorf("%q", said)
	}
	_, _ = recorder.Client("one").Read("x", gives(regcheck.Value(1), nil))
	if said := asserted(recorder); said != "" {
		t.Errorf("%q", said)
	}
}

func TestCasIsEvidence(t *testing.T) {
	recorder := &regcheck.Recorder{Folder: t.TempDir()}
	_, _ = recorder.Client("one").Cas("x", nil, 1, func() (bool, error) { return true, nil })
	if said := asserted(recorder); said != "" {
		t.Errorf("%q", said)
	}
}

// Two cas that find no value, at once, without regkit. A search of one step gives up, and one without
// configurations is none.
func TestUnknown(t *testing.T) {
	recorder := &regcheck.Recorder{Folder: t.TempDir()}
	one, two := recorder.Client("one"), recorder.Client("two")
	_, _ = one.Cas("x", nil, 1, func() (bool, error) {
		return two.Cas("x", nil, 1, func() (bool, error) { return true, nil })
	})
	t.Setenv("REGKIT", "/nowhere/regkit")
	for _, test := range []struct {
		bounds []regcheck.Bound
		wants  []string
	}{
		{nil, []string{"TestTold_a_b.jsonl: not linearizable", `"kind":"search"`}},
		{[]regcheck.Bound{regcheck.Steps(1)}, []string{
			"TestTold_a_b.jsonl: unknown: the search gave up; raise its bounds", `"gave_up":{"bound":"steps"}`}},
		{[]regcheck.Bound{regcheck.Steps(0), regcheck.Configurations(0)},
			[]string{"TestTold_a_b.jsonl: not linearizable"}},
	} {
		recorder.Bounds = test.bounds
		said := asserted(recorder)
		for _, want := range test.wants {
			if !strings.Contains(said, want) {
				t.Errorf("%q isn't in %q", want, said)
			}
		}
	}
}

// Failed tests of one name have files of their own; a pass deletes only those of an earlier run.
func TestFiles(t *testing.T) {
	folder := t.TempDir()
	named := func(name string) string { return filepath.Join(folder, name) }
	passes := func() {
		right := &regcheck.Recorder{Folder: folder}
		_, _ = right.Client("one").Read("x", gives(nil, nil))
		if said := asserted(right); said != "" {
			t.Error(said)
		}
	}
	if err := os.WriteFile(named("TestTold_a_b.report"), nil, 0o666); err != nil {
		t.Fatal(err)
	}
	passes()
	if _, err := os.Stat(named("TestTold_a_b.report")); !errors.Is(err, os.ErrNotExist) {
		t.Errorf("a pass deletes what an earlier run left: %v", err)
	}
	t.Setenv("REGKIT", "/nowhere/regkit")
	for place, file := range []string{"TestTold_a_b.jsonl", "TestTold_a_b-2.jsonl"} {
		recorder := &regcheck.Recorder{Folder: folder}
		_, _ = recorder.Client("one").Read("x", gives(regcheck.Value(int64(7+place)), nil))
		for time := 0; time < 2; time++ {
			_ = asserted(recorder)
		}
		passes()
		if have, err := os.ReadFile(named(file)); err != nil || string(have) != string(recorder.History()) {
			t.Errorf("%s: %v\n%s", file, err, have)
		}
	}
	if _, err := os.Stat(named("TestTold_a_b-3.jsonl")); err == nil {
		t.Error("a recorder has one name")
	}
}

// A read that gives what nobody wrote, with regkit and without.
func TestFault(t *testing.T) {
	recorder := &regcheck.Recorder{Folder: t.TempDir()}
	_, _ = recorder.Client("one").Read("x", gives(regcheck.Value(7), nil))
	t.Setenv("REGKIT", "/nowhere/regkit")
	said := asserted(recorder)
	for _, want := range []string{
		"TestTold_a_b.jsonl: not linearizable",
		`"kind":"unwritten"`,
		"/nowhere/regkit could not be run",
		"report: ",
	} {
		if !strings.Contains(said, want) {
			t.Errorf("%q isn't in %q", want, said)
		}
	}
	kept, err := os.ReadFile(filepath.Join(recorder.Folder, "TestTold_a_b.jsonl"))
	if err != nil || string(kept) != string(recorder.History()) {
		t.Errorf("%v\n%s", err, kept)
	}
}

func TestAssertOperations(t *testing.T) {
	as := func(operation regcheck.Operation) regcheck.Operation { return operation }
	inFolder(t, t.TempDir())
	for name, test := range map[string]struct {
		operations []regcheck.Operation
		want       string
	}{
		"atomic":     {inversion(2), ""},
		"not atomic": {inversion(1), "not linearizable"},
		"no read":    {inversion(2)[:2], "no read was completed"},
		"no value":   {[]regcheck.Operation{{Register: "x", Write: true, Call: 1, Return: 2}}, "writes no value"},
		"a value twice": {append(inversion(2), regcheck.Operation{
			Register: "x", Write: true, Value: regcheck.Value(1), Call: 100, Return: 110}), ""},
		"one cas": {cas(regcheck.TookPlace, regcheck.Missed), ""},
		"two cas": {cas(regcheck.TookPlace, regcheck.TookPlace), "not linearizable"},
		"no client": {[]regcheck.Operation{{ClientId: -1, Register: "x", Call: 1, Return: 2}},
			"no verdict: line 1: "},
	} {
		told := &told{}
		may := regcheck.AssertOperations(told, test.operations, as)
		said := told.said.String()
		if may != (test.want == "") || may != (said == "") || !strings.Contains(said, test.want) {
			t.Errorf("%s: %v, %q", name, may, said)
		}
	}
}

// inFolder changes the working directory until the test ends.
func inFolder(t *testing.T, folder string) {
	before, err := os.Getwd()
	if err == nil {
		err = os.Chdir(folder)
	}
	if err != nil {
		t.Fatal(err)
	}
	t.Cleanup(func() { _ = os.Chdir(before) })
}
