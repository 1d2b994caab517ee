//! Processor time, in microseconds: what else the machine does is left out of it.

#[repr(C)]
#[derive(Default)]
struct Time {
    seconds: i64,
    /// Billionths of a second, or millionths in `Usage`.
    parts: i64,
}

#[repr(C)]
#[derive(Default)]
struct Usage {
    user: Time,
    system: Time,
    others: [i64; 14],
}

extern "C" {
    fn clock_gettime(clock: i32, time: *mut Time) -> i32;
    fn getrusage(who: i32, usage: *mut Usage) -> i32;
}

const THIS_THREAD: i32 = 3;
const ENDED_CHILDREN: i32 = -1;

pub fn thread() -> f64 {
    let mut time = Time::default();
    assert_eq!(unsafe { clock_gettime(THIS_THREAD, &mut time) }, 0);
    time.seconds as f64 * 1e6 + time.parts as f64 / 1e3
}

/// Of all processes that this one started and that have ended.
pub fn children() -> f64 {
    let mut usage = Usage::default();
    assert_eq!(unsafe { getrusage(ENDED_CHILDREN, &mut usage) }, 0);
    (usage.user.seconds + usage.system.seconds) as f64 * 1e6 + (usage.user.parts + usage.system.parts) as f64
}

/// Of a process that still runs or was not waited for, up to the last time that the kernel looked (some milliseconds).
pub fn process(id: u32) -> f64 {
    let stat = std::fs::read_to_string(format!("/proc/{id}/schedstat")).expect("a process");
    stat.split(' ').next().and_then(|billionths| billionths.parse::<f64>().ok()).expect("its time") / 1e3
}
