//! The time that a thread has had a processor, so that what else goes on does not count.

use std::time::Duration;

/// The clock of the calling thread, as Linux numbers it.
const THREAD: i32 = 3;

/// A time as C has it.
#[repr(C)]
#[derive(Default)]
struct Time {
    seconds: i64,
    nanoseconds: i64,
}

extern "C" {
    fn clock_gettime(clock: i32, time: *mut Time) -> i32;
}

/// The processor time of this thread so far.
pub fn now() -> Duration {
    let mut time = Time::default();
    // The time is lent for the call alone.
    let good = unsafe { clock_gettime(THREAD, &mut time) } == 0;
    assert!(good, "there is no clock of a thread");
    Duration::new(time.seconds as u64, time.nanoseconds as u32)
}
