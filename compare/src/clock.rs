//! Time that this thread spent on a processor, so that other work on the machine counts less.

use std::time::Duration;

/// The system's `struct timespec` on 64-bit Linux.
#[repr(C)]
struct Time {
    seconds: i64,
    nanoseconds: i64,
}

/// Of the calling thread, on Linux.
const CLOCK_THREAD_CPUTIME_ID: i32 = 3;

unsafe extern "C" {
    unsafe fn clock_gettime(clock: i32, time: *mut Time) -> i32;
}

/// How long this thread has run.
#[must_use]
pub fn now() -> Duration {
    let mut time = Time {
        seconds: 0,
        nanoseconds: 0,
    };
    // SAFETY: the pointer is to a `timespec` of this system, which the call fills.
    let status = unsafe { clock_gettime(CLOCK_THREAD_CPUTIME_ID, &raw mut time) };
    assert_eq!(status, 0, "the system has this clock");
    Duration::new(time.seconds as u64, time.nanoseconds as u32)
}
