//! Processor time, as Linux has it on x86-64: that of waiting, for the processor
//! too, is not counted. What shares a core, its caches and its clock still tells.

use std::time::Duration;

const _: () = assert!(
    cfg!(all(target_os = "linux", target_arch = "x86_64")),
    "the numbers and structs here are those of Linux on x86-64"
);

#[repr(C)]
struct Timespec {
    seconds: i64,
    nanoseconds: i64,
}

#[repr(C)]
#[derive(Clone, Copy)]
struct Timeval {
    seconds: i64,
    microseconds: i64,
}

#[repr(C)]
struct Usage {
    user: Timeval,
    system: Timeval,
    others: [i64; 14],
}

/// CLOCK_THREAD_CPUTIME_ID
const THREAD: i32 = 3;
/// RUSAGE_CHILDREN
const CHILDREN: i32 = -1;

extern "C" {
    fn clock_gettime(clock: i32, time: *mut Timespec) -> i32;
    fn getrusage(who: i32, usage: *mut Usage) -> i32;
}

/// That of this thread so far.
pub fn of_thread() -> Duration {
    let mut time = Timespec {
        seconds: 0,
        nanoseconds: 0,
    };
    // SAFETY: the pointer is that of a live value of the type that is written.
    let failed = unsafe { clock_gettime(THREAD, &mut time) };
    assert_eq!(failed, 0, "there is no clock of the thread");
    Duration::new(time.seconds as u64, time.nanoseconds as u32)
}

/// That of the programs that this one has started and that have ended.
pub fn of_children() -> Duration {
    let none = Timeval {
        seconds: 0,
        microseconds: 0,
    };
    let mut usage = Usage {
        user: none,
        system: none,
        others: [0; 14],
    };
    // SAFETY: the pointer is that of a live value of the type that is written.
    let failed = unsafe { getrusage(CHILDREN, &mut usage) };
    assert_eq!(failed, 0, "there is no count of other programs' time");
    let time = |value: Timeval| {
        Duration::from_secs(value.seconds as u64) + Duration::from_micros(value.microseconds as u64)
    };
    time(usage.user) + time(usage.system)
}
