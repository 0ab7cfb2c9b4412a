package regcheck

import (
	"bytes"
	"encoding/json"
	"errors"
	"io"
	"sync"
)

// A Recorder writes down what the clients of a store call and get. Its zero value is ready. Goroutines share
// one recorder, and each takes a client of its own.
//
// The values of a register's writes are 1, 2, 3, and so on, so that a read's value tells which write it saw.
// WriteValue and Cas take values of the caller's own, which may repeat.
type Recorder struct {
	Output io.Writer    // gets each line at once, if it isn't nil
	Clock  func() int64 // nanoseconds; if nil, those of the machine's monotonic clock
	Folder string       // where Assert leaves what it found; if empty, regcheck-failures
	Bounds []Bound      // of the search that cas and repeated values need; if empty, the defaults

	// ValuesAfter is what the values of a register's writes come after. Where several processes record one run,
	// give each a number of its own, far from the others.
	ValuesAfter int64

	lock      sync.Mutex
	history   bytes.Buffer
	processes int
	values    map[string]int64 // how many writes each register has
	reads     int              // completed ones, and changes whose answers told what was there
	mistakes  []*Mistake
}

// A Client makes one call after another.
type Client struct {
	recorder *Recorder
	name     string
	node     string
	process  int
	spent    bool // whether the process has a call that isn't ended; true before the first call
	open     bool // whether a call is open right now
}

// Client gives a client for one goroutine. The name is for people: `regkit explain` says it.
func (recorder *Recorder) Client(name string) *Client {
	recorder.expect(name, "client")
	return &Client{recorder: recorder, name: name, spent: true}
}

// On says which node of the store the client calls from now on.
func (client *Client) On(node string) *Client {
	client.recorder.expect(node, "node")
	client.node = node
	return client
}

// expect notes a name that is none. A client and a node need not have one.
func (recorder *Recorder) expect(name, what string) {
	recorder.lock.Lock()
	defer recorder.lock.Unlock()
	if name != "" && !isName(name) {
		recorder.note(noName(name, what))
	}
}

// Write records a write, in which set gives the store the value. What set returns decides how the call ends:
//
//   - nil: the write took effect, and the history has its reply.
//   - an error: nobody knows what the store did. The call stays pending, and the client goes on under a new
//     process number.
//   - an error marked by NoEffect: the call certainly had no effect.
//
// It gives the error of set, or a *Mistake.
func (client *Client) Write(register string, set func(value int64) error) error {
	return client.write(register, nil, set)
}

// WriteValue records a write of a value of the caller's own, which may repeat. It is as Write otherwise.
func (client *Client) WriteValue(register string, value int64, set func(value int64) error) error {
	return client.write(register, &value, set)
}

func (client *Client) write(register string, value *int64, set func(value int64) error) error {
	if err := client.begin(line{Op: "write", Register: register, Value: &value}); err != nil {
		return err
	}
	defer client.leave()
	err := set(*value)
	client.end(line{Register: register}, err)
	return err
}

// Read records a read, in which get asks the store. It gives what get returns, which is nil if the store has
// no value. An error of get ends the call as one of Write does.
func (client *Client) Read(register string, get func() (*int64, error)) (*int64, error) {
	if err := client.begin(line{Op: "read", Register: register}); err != nil {
		return nil, err
	}
	defer client.leave()
	value, err := get()
	client.end(line{Register: register, Value: &value}, err)
	return value, err
}

// Cas records a compare-and-swap: swap asks the store to write to if the register holds from, nil if it has
// no value, and tells whether that took place. It gives what swap returns. An error of swap ends the call as
// one of Write does.
//
// Let swap return false only if the store compared, and said that it found another value. If the store
// refused without comparing, the call had NoEffect.
func (client *Client) Cas(register string, from *int64, to int64, swap func() (bool, error)) (bool, error) {
	return client.change(register, from, &to, false, swap)
}

// History gives the lines so far, which are a history at any moment: what is open is pending.
func (recorder *Recorder) History() []byte {
	recorder.lock.Lock()
	defer recorder.lock.Unlock()
	return append([]byte(nil), recorder.history.Bytes()...)
}

// begin writes the line of a call, and puts the next value into a write that has none.
func (client *Client) begin(call line) error {
	recorder := client.recorder
	recorder.lock.Lock()
	defer recorder.lock.Unlock()
	if !isName(call.Register) {
		return recorder.note(noName(call.Register, "register"))
	}
	if client.open {
		return recorder.note(mistaken(
			"the client has a call open while it calls a %s of %q: take a client for each goroutine",
			call.Op, call.Register))
	}
	if client.spent {
		recorder.processes++
		client.process = recorder.processes
	}
	client.open, client.spent = true, true
	if call.Value != nil && *call.Value == nil {
		value := recorder.next(call.Register)
		*call.Value = &value
	}
	call.Event = "call"
	client.append(client.process, call)
	return nil
}

// end writes how a call ended. After an error that leaves it open, its process number is spent.
func (client *Client) end(reply line, err error) {
	recorder := client.recorder
	recorder.lock.Lock()
	defer recorder.lock.Unlock()
	var failed *noEffect
	var mistake *Mistake
	switch {
	case err == nil:
		reply.Event = "reply"
		if reply.tells() {
			recorder.reads++
		}
	case errors.As(err, &failed):
		reply = line{Event: "fail", Register: reply.Register}
	case errors.As(err, &mistake):
		recorder.note(mistake)
		return
	default:
		return
	}
	client.append(client.process, reply)
	client.spent = false
}

// leave says that the call is over, however its function was left.
func (client *Client) leave() {
	client.recorder.lock.Lock()
	defer client.recorder.lock.Unlock()
	client.open = false
}

// next gives the next value of a register. The caller holds the lock.
func (recorder *Recorder) next(register string) int64 {
	if recorder.values == nil {
		recorder.values = map[string]int64{}
	}
	recorder.values[register]++
	return recorder.ValuesAfter + recorder.values[register]
}

// append adds a line of a process with who and when. The caller holds the lock, so that the times ascend.
func (client *Client) append(process int, event line) {
	recorder := client.recorder
	clock := recorder.Clock
	if clock == nil {
		clock = now
	}
	time := clock()
	event.Process, event.Client, event.Node, event.Time = process, client.name, client.node, &time
	begin := recorder.history.Len()
	lines := json.NewEncoder(&recorder.history)
	lines.SetEscapeHTML(false)
	err := lines.Encode(event)
	if err == nil && recorder.Output != nil {
		_, err = recorder.Output.Write(recorder.history.Bytes()[begin:])
	}
	if err != nil {
		recorder.note(mistaken("the history could not be written: %v", err))
	}
}

// note keeps a mistake, so that it fails the test even if nobody looks at the error. The
// caller holds the lock.
func (recorder *Recorder) note(mistake *Mistake) error {
	recorder.mistakes = append(recorder.mistakes, mistake)
	return mistake
}

// Err gives the first mistake so far, or nil.
func (recorder *Recorder) Err() error {
	recorder.lock.Lock()
	defer recorder.lock.Unlock()
	if len(recorder.mistakes) == 0 {
		return nil
	}
	return recorder.mistakes[0]
}
