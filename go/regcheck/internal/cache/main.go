// Command cache records three clients of a cache in front of a database, and says whether what they
// saw is linearizable:
//
//	go run ./internal/cache faulty
//	go run ./internal/cache right
//
// The faulty one keeps a value that it read before a write. tests/languages compares what all
// languages say of it.
package main

import (
	"sync"

	"example.org/regcheck"
	"example.org/regcheck/internal/toy"
)

type cache struct {
	lock     sync.Mutex
	database map[string]int64
	kept     map[string]int64
	writes   map[string]int
	counts   bool   // whether it keeps nothing that it read before a write
	loaded   func() // called between reading the database and keeping the value
}

func (cache *cache) set(key string, value int64) error {
	cache.lock.Lock()
	defer cache.lock.Unlock()
	cache.database[key] = value
	cache.writes[key]++
	delete(cache.kept, key)
	return nil
}

func (cache *cache) get(key string) (*int64, error) {
	cache.lock.Lock()
	defer cache.lock.Unlock()
	if value, there := cache.kept[key]; there {
		return &value, nil
	}
	value, writes := cache.database[key], cache.writes[key]
	cache.lock.Unlock()
	cache.loaded()
	cache.lock.Lock()
	if !cache.counts || cache.writes[key] == writes {
		cache.kept[key] = value
	}
	return &value, nil
}

// record lets the reader's answer from the database wait until the writer has written again.
func record(recorder *regcheck.Recorder, counts bool) {
	loaded, written, done := make(chan bool), make(chan bool), make(chan bool)
	store := &cache{
		database: map[string]int64{},
		kept:     map[string]int64{},
		writes:   map[string]int{},
		counts:   counts,
	}
	store.loaded = func() { loaded <- true; <-written }
	use := func(name string) *regcheck.Client { return recorder.Client(name).On("cache") }
	set := func(value int64) error { return store.set("x", value) }
	get := func() (*int64, error) { return store.get("x") }
	writer := use("thread-1")
	_ = writer.Write("x", set)
	go func() {
		_, _ = use("thread-2").Read("x", get)
		done <- true
	}()
	<-loaded
	_ = writer.Write("x", set)
	written <- true
	<-done
	store.loaded = func() {}
	_, _ = use("thread-3").Read("x", get)
}

func main() { toy.Run("cache", record) }
