//! Processor time, which other programs on the machine do not add to.
use std::time::Duration;

#[repr(C)]
#[derive(Default)]
struct Seconds {
    whole: i64,
    part: i64,
}

#[repr(C)]
#[derive(Default)]
struct Usage {
    user: Seconds,
    system: Seconds,
    rest: [i64; 14],
}

unsafe extern "C" {
    fn clock_gettime(clock: i32, time: *mut Seconds) -> i32;
    fn getrusage(who: i32, usage: *mut Usage) -> i32;
}

/// That of this thread.
pub fn own() -> Duration {
    let mut time = Seconds::default();
    assert_eq!(unsafe { clock_gettime(3, &mut time) }, 0);
    Duration::new(time.whole as u64, time.part as u32)
}

/// That of all processes that this one has started and that have ended, their start included.
pub fn children() -> Duration {
    let mut usage = Usage::default();
    assert_eq!(unsafe { getrusage(-1, &mut usage) }, 0);
    let micros = |s: Seconds| Duration::from_secs(s.whole as u64) + Duration::from_micros(s.part as u64);
    micros(usage.user) + micros(usage.system)
}
