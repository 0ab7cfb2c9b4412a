// Command lock records two clients that take a lock by compare-and-swap at once, and says whether what they
// saw is linearizable:
//
//	go run ./internal/lock faulty
//	go run ./internal/lock right
//
// The faulty register compares and swaps in two steps, so both clients get the lock. tests/languages compares
// what all languages say of it.
package main

import (
	"sync"

	"example.org/regcheck"
	"example.org/regcheck/internal/toy"
)

// A register that compares, and then swaps.
type register struct {
	lock       sync.Mutex
	value      int64
	looksAgain bool // whether it swaps only what it still finds then
}

func (register *register) set(value int64) error {
	register.lock.Lock()
	defer register.lock.Unlock()
	register.value = value
	return nil
}

func (register *register) get() (*int64, error) {
	register.lock.Lock()
	defer register.lock.Unlock()
	return regcheck.Value(register.value), nil
}

// swap calls compared between its two steps.
func (register *register) swap(from, to int64, compared func()) (bool, error) {
	found, _ := register.get()
	if *found != from {
		return false, nil
	}
	compared()
	register.lock.Lock()
	defer register.lock.Unlock()
	if register.looksAgain && register.value != from {
		return false, nil
	}
	register.value = to
	return true, nil
}

// record lets a second client take the lock while a first one is between its two steps.
func record(recorder *regcheck.Recorder, right bool) {
	compared, taken, done := make(chan bool), make(chan bool), make(chan bool)
	store := &register{looksAgain: right}
	use := func(name string) *regcheck.Client { return recorder.Client(name).On("register") }
	take := func(client *regcheck.Client, compared func()) {
		_, _ = client.Cas("lock", regcheck.Value(0), 1, func() (bool, error) { return store.swap(0, 1, compared) })
	}
	first := use("thread-1")
	_ = first.WriteValue("lock", 0, store.set)
	go func() {
		take(use("thread-2"), func() { compared <- true; <-taken })
		done <- true
	}()
	<-compared
	take(first, func() {})
	taken <- true
	<-done
	_ = first.WriteValue("lock", 0, store.set)
	_, _ = use("thread-3").Read("lock", store.get)
}

func main() { toy.Run("lock", record) }
