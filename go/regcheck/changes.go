package regcheck

// Delete records a delete, in which remove asks the store. An error of remove ends the call as one of Write
// does. If the store tells whether there was a value, DeleteFound finds more faults.
func (client *Client) Delete(register string, remove func() error) error {
	if err := client.begin(line{Op: "delete", Register: register}); err != nil {
		return err
	}
	defer client.leave()
	err := remove()
	client.end(line{Register: register}, err)
	return err
}

// DeleteFound records a delete, in which remove asks the store, and tells whether there was a value. It gives
// what remove returns.
func (client *Client) DeleteFound(register string, remove func() (bool, error)) (bool, error) {
	if err := client.begin(line{Op: "delete", Register: register}); err != nil {
		return false, err
	}
	defer client.leave()
	found, err := remove()
	client.end(line{Register: register, Found: &found}, err)
	return found, err
}

// Swap records a swap, also called get-and-set: exchange gives the store the value, and returns the one that
// was there, nil if there was none. It gives what exchange returns.
func (client *Client) Swap(
	register string, value int64, exchange func(value int64) (*int64, error),
) (*int64, error) {
	put := &value
	if err := client.begin(line{Op: "swap", Register: register, Value: &put}); err != nil {
		return nil, err
	}
	defer client.leave()
	old, err := exchange(value)
	client.end(line{Register: register, Old: &old}, err)
	return old, err
}

// Create records a put-if-absent: put asks the store to write the value if there is none, and tells whether
// that took place. It gives what put returns.
func (client *Client) Create(
	register string, value int64, put func(value int64) (bool, error),
) (bool, error) {
	return client.change(register, nil, &value, false, func() (bool, error) { return put(value) })
}

// Replace records a put that takes place only where there is a value; put tells whether it did. It gives what
// put returns.
func (client *Client) Replace(
	register string, value int64, put func(value int64) (bool, error),
) (bool, error) {
	return client.change(register, nil, &value, true, func() (bool, error) { return put(value) })
}

// Lock records a lock or a try-lock by an owner: take tells whether the owner got it, and returns false only
// if somebody had it. It gives what take returns.
func (client *Client) Lock(register string, owner int64, take func() (bool, error)) (bool, error) {
	return client.change(register, nil, &owner, false, take)
}

// Unlock records that an owner gives a lock back, or a delete of one value alone: free tells whether the
// owner had it. It gives what free returns.
func (client *Client) Unlock(register string, owner int64, free func() (bool, error)) (bool, error) {
	return client.change(register, &owner, nil, false, free)
}

// Expires says that a value may expire from now on, if it is still there. Call it at the earliest moment:
// when its time is over, less the error of the clocks; for a cache that evicts, before the store is given the
// value.
func (client *Client) Expires(register string, value int64) error {
	recorder := client.recorder
	recorder.lock.Lock()
	defer recorder.lock.Unlock()
	if !isName(register) {
		return recorder.note(noName(register, "register"))
	}
	recorder.processes++
	from, to := &value, (*int64)(nil)
	client.append(recorder.processes, line{Event: "call", Op: "cas", Register: register, From: &from, To: &to})
	return nil
}

// change records a cas of whatever name, and tells whether it took place.
func (client *Client) change(
	register string, asked, to *int64, unless bool, change func() (bool, error),
) (bool, error) {
	call := line{Op: "cas", Register: register, From: &asked, To: &to}
	if unless {
		call.From, call.Unless = nil, &asked
	}
	if err := client.begin(call); err != nil {
		return false, err
	}
	defer client.leave()
	tookPlace, err := change()
	client.end(line{Register: register, Ok: &tookPlace}, err)
	return tookPlace, err
}
