//! The time that this thread has run, by Linux's clock for it. Other programs on the same cores do not
//! add to it.

use std::ffi::{c_int, c_long};
use std::time::Duration;

extern "C" {
    fn clock_gettime(clock: c_int, time: *mut Time) -> c_int;
}

const THREAD_CPU_TIME: c_int = 3;

/// The C library's `timespec`.
#[repr(C)]
struct Time {
    seconds: c_long,
    nanoseconds: c_long,
}

/// The time up to now.
pub fn now() -> Duration {
    let mut time = Time {
        seconds: 0,
        nanoseconds: 0,
    };
    // SAFETY: only the time is written.
    let status = unsafe { clock_gettime(THREAD_CPU_TIME, &mut time) };
    assert_eq!(status, 0, "Linux has this clock");
    Duration::new(time.seconds as u64, time.nanoseconds as u32)
}
