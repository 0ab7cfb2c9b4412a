package regcheck

import (
	"fmt"
	"strconv"
	"unicode/utf8"
)

// A Mistake says that a recorder was used in a way that would make its history wrong. The call stays
// pending, or isn't made.
type Mistake struct{ words string }

func (mistake *Mistake) Error() string { return mistake.words }

func mistaken(format string, arguments ...any) *Mistake {
	return &Mistake{fmt.Sprintf(format, arguments...)}
}

const nameBytes = 255

// isName says whether a register can have the name. A text that isn't UTF-8 would be written as another one.
func isName(name string) bool {
	return 1 <= len(name) && len(name) <= nameBytes && utf8.ValidString(name)
}

func noName(name, what string) *Mistake {
	return mistaken("%q is no %s: name it by a text of 1 to %d bytes", name, what, nameBytes)
}

// Number reads the value that a store of texts gave. A text that is no value of a register is a mistake
// that fails the test.
func Number(text string) (*int64, error) {
	number, err := strconv.ParseInt(text, 10, 64)
	if err != nil {
		return nil, mistaken("the store gave %q, but a value is a whole number of 64 bits", text)
	}
	return &number, nil
}

// NoEffect marks the error of a call that certainly had no effect, and never will have: the connection
// was refused, say. Don't say it of a call that timed out: if the store did the write after all, that
// invents a fault.
func NoEffect(err error) error { return &noEffect{err} }

type noEffect struct{ err error }

func (failed *noEffect) Error() string { return failed.err.Error() }

func (failed *noEffect) Unwrap() error { return failed.err }
