//! Timing: medians of processor time over repeated runs. Processor time (user and system) is hardly changed by other
//! programs that share the machine.
use std::ffi::{c_int, c_long};
use std::time::Duration;

#[repr(C)]
#[derive(Default)]
struct Time {
    seconds: i64,
    part: c_long,
}

/// What Linux on x86-64 counts of processes that have ended: two times, and numbers that are not used here.
#[repr(C)]
#[derive(Default)]
struct Usage {
    user: Time,
    system: Time,
    rest: [c_long; 14],
}

unsafe extern "C" {
    fn clock_gettime(clock: c_int, time: *mut Time) -> c_int;
    fn getrusage(who: c_int, usage: *mut Usage) -> c_int;
}

const THREAD_CPU_TIME: c_int = 3;
const CHILDREN: c_int = -1;

/// The processor time of this thread.
pub fn own_time() -> Duration {
    let mut time = Time::default();
    // SAFETY: the pointer is to a whole `timespec`.
    let status = unsafe { clock_gettime(THREAD_CPU_TIME, &mut time) };
    assert_eq!(status, 0);
    Duration::new(time.seconds as u64, time.part as u32)
}

/// The processor time of the programs that were started and have ended.
pub fn time_of_programs() -> Duration {
    let mut usage = Usage::default();
    // SAFETY: the pointer is to a whole `rusage`.
    let status = unsafe { getrusage(CHILDREN, &mut usage) };
    assert_eq!(status, 0);
    let all = |time: &Time| {
        Duration::from_secs(time.seconds as u64) + Duration::from_micros(time.part as u64)
    };
    all(&usage.user) + all(&usage.system)
}

/// The middle one of some durations.
pub fn median(mut times: Vec<Duration>) -> Duration {
    times.sort_unstable();
    times[times.len() / 2]
}

/// The median time of a call, after one to warm up, by a clock.
pub fn timed(clock: fn() -> Duration, runs: usize, mut call: impl FnMut()) -> Duration {
    call();
    let times = (0..runs).map(|_| {
        let start = clock();
        call();
        clock() - start
    });
    median(times.collect())
}

/// The median time of a short call, over batches of calls that take about two milliseconds or more each.
pub fn per_call(batches: usize, mut call: impl FnMut()) -> Duration {
    let start = own_time();
    call();
    let once = (own_time() - start).max(Duration::from_nanos(50));
    let calls = (Duration::from_millis(2).as_nanos() / once.as_nanos()).clamp(1, 10_000) as u32;
    timed(own_time, batches, || {
        for _ in 0..calls {
            call();
        }
    }) / calls
}

pub fn micros(time: Duration) -> f64 {
    time.as_secs_f64() * 1e6
}

pub fn millis(time: Duration) -> f64 {
    time.as_secs_f64() * 1e3
}
