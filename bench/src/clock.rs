//! The processor time of this thread (Linux): on a busy machine a round of milliseconds is
//! interrupted, and a wall clock would count what others do.

#[repr(C)]
struct Time {
    seconds: i64,
    nanoseconds: i64,
}

const THREAD_PROCESSOR_TIME: i32 = 3;

unsafe extern "C" {
    fn clock_gettime(clock: i32, time: *mut Time) -> i32;
}

pub fn thread_nanoseconds() -> u64 {
    let mut time = Time {
        seconds: 0,
        nanoseconds: 0,
    };
    // SAFETY: the pointer is to a time of the layout that the call fills.
    let status = unsafe { clock_gettime(THREAD_PROCESSOR_TIME, &raw mut time) };
    assert_eq!(status, 0, "the clock of a thread can be read");
    time.seconds as u64 * 1_000_000_000 + time.nanoseconds as u64
}
