package regcheck

import (
	"syscall"
	"unsafe"
)

const monotonic = 1 // CLOCK_MONOTONIC, which all processes of a machine share

// now gives the nanoseconds of the machine's monotonic clock. The package time has them only since a moment
// of this process, and the histories of several processes are merged by them.
func now() int64 {
	var time syscall.Timespec
	_, _, failed := syscall.Syscall(
		syscall.SYS_CLOCK_GETTIME, monotonic, uintptr(unsafe.Pointer(&time)), 0)
	if failed != 0 {
		panic(failed)
	}
	return time.Nano()
}
