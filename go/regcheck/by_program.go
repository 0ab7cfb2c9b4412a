//go:build !cgo || regcheck_program

package regcheck

// checked gives what regcheck says of the history.
func checked(history []byte) (Verdict, []byte, error) {
	path, err := checker()
	if err != nil {
		return Unknown, nil, err
	}
	return judged(path, history)
}

// searched gives what regsearch says of the history.
func searched(history []byte, bounds []Bound) (Verdict, []byte, error) {
	path, err := companion("REGSEARCH", "regsearch")
	if err != nil {
		return Unknown, nil, err
	}
	return judged(path, history, options(bounds)...)
}

// ask asks reglevel, whose report lists each stale read.
func (answer *LevelAnswer) ask() error {
	path, err := companion("REGLEVEL", "reglevel")
	if err != nil {
		return err
	}
	said, err := run(path, answer.History, "--stale", "--require", string(answer.Level))
	if err != nil {
		return err
	}
	switch said.status {
	case statusAtomic, statusNotAtomic:
		answer.Kept, answer.Report, answer.program = said.status == statusAtomic, said.output, path
		return nil
	case statusUnknown:
		return ErrLevelUnknown
	case statusRefused:
		return refusalOf(said.complaint)
	}
	return said.failure(path)
}

func judged(path string, history []byte, words ...string) (Verdict, []byte, error) {
	said, err := run(path, history, words...)
	if err != nil {
		return Unknown, nil, err
	}
	if verdict, known := verdicts[said.status]; known {
		return verdict, said.output, nil
	}
	if said.status == statusRefused {
		return Unknown, nil, refusalOf(said.complaint)
	}
	return Unknown, nil, said.failure(path)
}
