//! The system's clocks. A short batch is timed by the monotonic one, the least of many rounds
//! being one without interruption; a long one by the time that this thread has had.

use std::time::Duration;

pub const MONOTONIC: i32 = 1;
pub const THREAD: i32 = 3;

#[repr(C)]
struct TimeSpec {
    seconds: i64,
    nanoseconds: i64,
}

extern "C" {
    fn clock_gettime(clock: i32, time: *mut TimeSpec) -> i32;
}

pub fn now(clock: i32) -> Duration {
    let mut time = TimeSpec { seconds: 0, nanoseconds: 0 };
    // SAFETY: the struct is Linux's timespec on 64-bit machines and is only written to.
    let failed = unsafe { clock_gettime(clock, &mut time) };
    assert_eq!(failed, 0);
    Duration::new(time.seconds as u64, time.nanoseconds as u32)
}
