//! The processor's time of this thread: what others do on the machine is not in it.

use std::time::Duration;

const THREAD_TIME: i32 = 3;

#[repr(C)]
struct Time {
    seconds: i64,
    nanoseconds: i64,
}

unsafe extern "C" {
    fn clock_gettime(clock: i32, time: *mut Time) -> i32;
}

fn now() -> Duration {
    let mut time = Time { seconds: 0, nanoseconds: 0 };
    // SAFETY: the function only writes the two numbers that it is lent (POSIX, Linux on 64 bits).
    unsafe { clock_gettime(THREAD_TIME, &raw mut time) };
    Duration::new(time.seconds as u64, time.nanoseconds as u32)
}

/// How long this takes, and what it gives.
pub fn timed<T>(work: impl FnOnce() -> T) -> (Duration, T) {
    let begin = now();
    let given = work();
    (now() - begin, given)
}
