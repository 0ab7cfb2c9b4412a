//! The machine's monotonic clock, which all its processes share: their histories are merged by it.

#[repr(C)]
struct Timespec {
    seconds: i64,
    nanoseconds: i64,
}

const MONOTONIC: i32 = 1;

extern "C" {
    fn clock_gettime(clock: i32, time: *mut Timespec) -> i32;
}

/// Nanoseconds.
pub fn now() -> i64 {
    let mut time = Timespec {
        seconds: 0,
        nanoseconds: 0,
    };
    // SAFETY: the pointer is that of a value that this call alone has borrowed, laid out as the C library of
    // Linux on 64-bit machines has it. With this clock and such a pointer the call can't fail.
    unsafe { clock_gettime(MONOTONIC, &mut time) };
    time.seconds * 1_000_000_000 + time.nanoseconds
}
