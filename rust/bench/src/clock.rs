//! The processor's time of this thread, which other programs on a shared machine don't add to.

use std::time::Duration;

#[repr(C)]
struct Time {
    seconds: i64,
    nanoseconds: i64,
}

const THREAD: i32 = 3;

extern "C" {
    fn clock_gettime(clock: i32, time: *mut Time) -> i32;
}

/// So much time has this thread taken.
pub fn now() -> Duration {
    let mut time = Time { seconds: 0, nanoseconds: 0 };
    // SAFETY: `time` has C's layout on the 64-bit Linux that the port is compiled for, and is written by the call alone.
    let failed = unsafe { clock_gettime(THREAD, &mut time) };
    assert_eq!(failed, 0, "the thread has no clock");
    Duration::new(time.seconds as u64, time.nanoseconds as u32)
}
