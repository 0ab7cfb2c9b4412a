// Command changes records one client that creates, replaces, swaps, deletes and locks, and says whether what
// it saw is linearizable:
//
//	go run ./internal/changes faulty
//	go run ./internal/changes right
//
// The faulty store gives a value that was deleted. tests/languages compares what all languages say of it.
package main

import (
	"example.org/regcheck"
	"example.org/regcheck/internal/toy"
)

func answers(answer bool) func(int64) (bool, error) {
	return func(int64) (bool, error) { return answer, nil }
}

// record lets one client make all calls, while another one says when a value may expire.
func record(recorder *regcheck.Recorder, right bool) {
	client := recorder.Client("thread-1").On("store")
	expiring := recorder.Client("thread-2").On("store")
	yes := func() (bool, error) { return true, nil }
	_, _ = client.Create("x", 5, answers(true))
	_, _ = client.Create("x", 6, answers(false))
	_, _ = client.Replace("x", 7, answers(true))
	_, _ = client.Swap("x", 8, func(int64) (*int64, error) { return regcheck.Value(7), nil })
	_ = expiring.Expires("x", 8)
	_, _ = client.DeleteFound("x", yes)
	_, _ = client.Read("x", func() (*int64, error) {
		if right {
			return nil, nil
		}
		return regcheck.Value(8), nil
	})
	_ = client.Delete("x", func() error { return nil })
	_, _ = client.Lock("lock", 1, yes)
	_, _ = client.Unlock("lock", 1, yes)
}

func main() { toy.Run("changes", record) }
