//! The processor time that the calling thread has taken: other programs on the machine do not count.
use std::time::Duration;

#[repr(C)]
struct Timespec {
    seconds: i64,
    nanoseconds: i64,
}

const THREAD_TIME: i32 = 3;

extern "C" {
    fn clock_gettime(clock: i32, time: *mut Timespec) -> i32;
}

pub fn of_this_thread() -> Duration {
    let mut time = Timespec { seconds: 0, nanoseconds: 0 };
    // Linux on a 64-bit machine: the struct has the layout that the C library fills.
    let failed = unsafe { clock_gettime(THREAD_TIME, &mut time) };
    assert_eq!(failed, 0);
    Duration::new(time.seconds as u64, time.nanoseconds as u32)
}
