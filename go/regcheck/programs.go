package regcheck

import (
	"bytes"
	"errors"
	"fmt"
	"os"
	"os/exec"
	"path/filepath"
	"regexp"
	"strconv"
	"strings"
)

// The exit statuses of regcheck, regsearch and reglevel, and of `regkit explain` and `regkit levels`.
const (
	statusAtomic    = 0
	statusNotAtomic = 1
	statusRefused   = 2
	statusUnknown   = 6
)

// checker gives the path of regcheck: the one in its variable, or that on PATH.
func checker() (string, error) { return program("REGCHECK", "regcheck") }

// regkit gives the path of regkit.
func regkit() (string, error) { return companion("REGKIT", "regkit") }

// program gives the path in the variable, or the program on PATH.
func program(variable, name string) (string, error) {
	if named := os.Getenv(variable); named != "" {
		return named, nil
	}
	if path, err := exec.LookPath(name); err == nil {
		return path, nil
	}
	return "", notFound{fmt.Sprintf("%s was not found: put it on PATH, or set %s to its path", name, variable)}
}

// A notFound says that a program wasn't found.
type notFound struct{ words string }

func (missing notFound) Error() string { return missing.words }

// companion gives the path in the variable, the program beside regcheck, as a release has it,
// or that on PATH.
func companion(variable, name string) (string, error) {
	checker, err := checker()
	beside := filepath.Join(filepath.Dir(checker), name)
	if about, missing := os.Stat(beside); err == nil && missing == nil && about.Mode().IsRegular() &&
		os.Getenv(variable) == "" {
		return beside, nil
	}
	return program(variable, name)
}

// A said is what a program wrote, and how it ended.
type said struct {
	status    int
	output    []byte
	complaint string
}

// failure is the error of a program that ended as it shouldn't.
func (said said) failure(path string) error {
	return fmt.Errorf("%s ended with status %d: %s", path, said.status, said.complaint)
}

// run runs a program to its end.
func run(path string, input []byte, arguments ...string) (said, error) {
	return runIn(nil, path, input, arguments...)
}

// runIn does the same, with more in the program's environment.
func runIn(more []string, path string, input []byte, arguments ...string) (said, error) {
	command := exec.Command(path, arguments...)
	command.Env = append(os.Environ(), more...)
	var output, complaint bytes.Buffer
	command.Stdin, command.Stdout, command.Stderr = bytes.NewReader(input), &output, &complaint
	err := command.Run()
	var ended *exec.ExitError
	if err != nil && !errors.As(err, &ended) {
		return said{}, fmt.Errorf("%s could not be run: %w", path, err)
	}
	words := strings.TrimRight(complaint.String(), "\n")
	return said{command.ProcessState.ExitCode(), output.Bytes(), words}, nil
}

var ofALine = regexp.MustCompile(`^line (\d+): .*?(?: at line (\d+))?$`)

// refusalOf reads what a program said.
func refusalOf(words string) *Refusal {
	refusal := &Refusal{Words: words}
	if found := ofALine.FindStringSubmatch(words); found != nil {
		refusal.Line, _ = strconv.Atoi(found[1])
		refusal.Other, _ = strconv.Atoi(found[2]) // 0 if there is none
	}
	return refusal
}
