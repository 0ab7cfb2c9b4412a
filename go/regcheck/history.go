package regcheck

import (
	"bytes"
	"encoding/json"
	"fmt"
	"sort"
	"unicode/utf8"
)

// History gives the operations in the form of the program regcheck: one event a line, in the order of time.
//
// One operation precedes another exactly if it returned before the other was called. So at one moment the
// calls come before the returns, and a client that calls while it has an open call gets a process of its own
// for that operation.
func History(operations []Operation) ([]byte, error) {
	steps, err := inOrder(operations)
	if err != nil {
		return nil, err
	}
	var history bytes.Buffer
	lines := json.NewEncoder(&history)
	lines.SetEscapeHTML(false)
	processes := newProcesses(operations)
	for _, step := range steps {
		if err := lines.Encode(step.line(operations, processes)); err != nil {
			return nil, err
		}
	}
	return history.Bytes(), nil
}

// A step is the call or the return of the operation at a place.
type step struct {
	time      int64
	isReturn  bool
	operation int
}

func inOrder(operations []Operation) ([]step, error) {
	steps := make([]step, 0, 2*len(operations))
	for place, operation := range operations {
		if wrong := operation.wrong(); wrong != "" {
			return nil, fmt.Errorf("the operation at index %d %s", place, wrong)
		}
		steps = append(steps, step{operation.Call, false, place})
		if operation.Return != Pending {
			steps = append(steps, step{operation.Return, true, place})
		}
	}
	sort.SliceStable(steps, func(a, b int) bool {
		if steps[a].time != steps[b].time {
			return steps[a].time < steps[b].time
		}
		return !steps[a].isReturn && steps[b].isReturn
	})
	return steps, nil
}

// wrong says what of an operation can't be, or nothing.
func (operation Operation) wrong() string {
	cas := operation.Cas
	switch {
	case operation.Return < operation.Call:
		return fmt.Sprintf("returned at %d, before its call at %d", operation.Return, operation.Call)
	case operation.Write && operation.Value == nil:
		return "writes no value"
	case !utf8.ValidString(operation.Register):
		return fmt.Sprintf("has a register that isn't UTF-8: %q", operation.Register)
	case cas == nil:
		return ""
	case operation.Write || operation.Value != nil:
		return "is a cas, and has Write or Value too"
	case operation.Return != Pending && cas.Outcome != TookPlace && cas.Outcome != Missed:
		return "is a cas that returned: say whether it TookPlace or Missed"
	}
	return ""
}

// A line is one event.
type line struct {
	Process  int     `json:"process"`
	Event    string  `json:"event"`
	Op       string  `json:"op,omitempty"`
	Register string  `json:"register,omitempty"`
	Value    **int64 `json:"value,omitempty"` // nil for no value, a pointer to nil for null
	From     **int64 `json:"from,omitempty"`
	Unless   **int64 `json:"unless,omitempty"`
	To       **int64 `json:"to,omitempty"`
	Ok       *bool   `json:"ok,omitempty"`
	Found    *bool   `json:"found,omitempty"`
	Old      **int64 `json:"old,omitempty"`
	Client   string  `json:"client,omitempty"`
	Node     string  `json:"node,omitempty"`
	Time     *int64  `json:"time,omitempty"`
}

// tells says whether a reply tells something of the value that was there.
func (line line) tells() bool {
	return line.Value != nil || line.Ok != nil || line.Found != nil || line.Old != nil
}

func (step step) line(operations []Operation, processes *processes) line {
	operation := &operations[step.operation]
	if step.isReturn {
		reply := operation.reply()
		reply.Process, reply.Event = processes.give(step.operation, operation.ClientId), "reply"
		return reply
	}
	call := operation.call()
	call.Process, call.Event = processes.take(step.operation, operation.ClientId), "call"
	call.Register = operation.Register
	return call
}

// call gives what the line of the call says of the operation.
func (operation *Operation) call() line {
	switch {
	case operation.Cas != nil:
		to := &operation.Cas.To
		return line{Op: "cas", From: &operation.Cas.From, To: &to}
	case operation.Write:
		return line{Op: "write", Value: &operation.Value}
	}
	return line{Op: "read"}
}

// reply gives what the line of the reply says of the operation.
func (operation *Operation) reply() line {
	switch {
	case operation.Cas != nil:
		tookPlace := operation.Cas.Outcome == TookPlace
		return line{Ok: &tookPlace}
	case operation.Write:
		return line{}
	}
	return line{Value: &operation.Value}
}

// processes has the processes of the clients, each with at most one open call.
type processes struct {
	isClient map[int]bool
	next     int
	free     map[int][]int // by client
	of       map[int]int   // by operation
}

func newProcesses(operations []Operation) *processes {
	made := &processes{isClient: map[int]bool{}, free: map[int][]int{}, of: map[int]int{}}
	for _, operation := range operations {
		made.isClient[operation.ClientId] = true
		made.free[operation.ClientId] = []int{operation.ClientId}
	}
	return made
}

// take gives a free process of the client, or a number that no client has.
func (processes *processes) take(operation, client int) int {
	free := processes.free[client]
	if len(free) == 0 {
		for processes.isClient[processes.next] {
			processes.next++
		}
		free = []int{processes.next}
		processes.next++
	}
	processes.of[operation] = free[0]
	processes.free[client] = free[1:]
	return free[0]
}

// give frees the process of an operation, and tells it.
func (processes *processes) give(operation, client int) int {
	process := processes.of[operation]
	processes.free[client] = append([]int{process}, processes.free[client]...)
	return process
}
