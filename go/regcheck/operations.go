package regcheck

import "math"

// An Operation is a read, a write or a cas of a register. Call and Return are moments by one
// clock, in any unit.
//
// An operation that certainly had no effect is none: leave it out.
type Operation struct {
	ClientId int // 0 or more
	Register string
	Write    bool
	Value    *int64 // what a write writes or a read gave; nil if a read found that nobody had written
	Cas      *Cas   // what a cas did, which is then neither a read nor a write; else nil
	Call     int64
	Return   int64 // Pending if the operation never returned
}

// A Cas is a compare-and-swap: it writes To if the register holds From, which may be nil, and
// else changes nothing.
type Cas struct {
	From    *int64
	To      int64
	Outcome Outcome // if it returned
}

// An Outcome says what a cas that returned did.
type Outcome int

const (
	TookPlace Outcome = iota + 1 // it found From and wrote To
	Missed                       // the store compared, and said that it found another value
)

// Pending is the Return of an operation that never returned. A pending write may have taken effect or not,
// and a pending read may have given anything.
const Pending = math.MaxInt64

// Value makes a value for an Operation.
func Value(value int64) *int64 { return &value }

// Check says whether the operations are linearizable. The bounds are those of the search that cas and
// repeated values need.
//
// The error says why there is no answer. The lines of a *Refusal are those of History(operations).
func Check(operations []Operation, bounds ...Bound) (Answer, error) {
	history, err := History(operations)
	if err != nil {
		return Answer{}, err
	}
	return CheckHistory(history, bounds...)
}

// CheckOperations is Check for operations of another type, such as porcupine.Operation; as says what
// each of them is.
func CheckOperations[O any](operations []O, as func(O) Operation, bounds ...Bound) (Answer, error) {
	return Check(convert(operations, as), bounds...)
}

func convert[O any](operations []O, as func(O) Operation) []Operation {
	known := make([]Operation, len(operations))
	for place, operation := range operations {
		known[place] = as(operation)
	}
	return known
}
