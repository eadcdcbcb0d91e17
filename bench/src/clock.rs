//! Processor time of the thread, and how fast this machine writes memory.
use std::hint::black_box;

#[repr(C)]
struct Timespec {
    seconds: i64,
    nanoseconds: i64,
}

extern "C" {
    fn clock_gettime(clock: i32, now: *mut Timespec) -> i32;
}

/// Processor time of this thread in microseconds: waiting for other work does not count.
fn now() -> f64 {
    const THREAD_CPUTIME: i32 = 3;
    let mut time = Timespec { seconds: 0, nanoseconds: 0 };
    assert_eq!(unsafe { clock_gettime(THREAD_CPUTIME, &mut time) }, 0);
    time.seconds as f64 * 1e6 + time.nanoseconds as f64 / 1e3
}

/// What the work answers, and the microseconds that it took.
pub fn timed<T>(work: impl FnOnce() -> T) -> (f64, T) {
    let began = now();
    let answer = black_box(work());
    (now() - began, answer)
}

pub fn median(mut times: Vec<f64>) -> f64 {
    times.sort_by(f64::total_cmp);
    times[times.len() / 2]
}

pub const FILLED_GIB: usize = 2;
pub const FILLS: u8 = 9;

/// Bytes a microsecond (that is MB/s) of a plain fill, the median of some; the buffer is far larger than the caches.
pub fn write_bandwidth() -> f64 {
    let mut buffer = vec![u8::MAX; FILLED_GIB << 30];
    let fills = (0..FILLS).map(|byte| timed(|| black_box(&mut buffer).fill(byte)).0).collect();
    buffer.len() as f64 / median(fills)
}
