//! The processor's time that this program and its children have used, so that other programs' turns do not count.

#[repr(C)]
struct Timespec {
    seconds: i64,
    nanoseconds: i64,
}

const CLOCK_PROCESS_CPUTIME_ID: i32 = 2;

unsafe extern "C" {
    fn clock_gettime(clock: i32, time: *mut Timespec) -> i32;
}

fn now() -> f64 {
    let mut time = Timespec {
        seconds: 0,
        nanoseconds: 0,
    };
    // SAFETY: the C library fills the one struct that it is handed.
    let status = unsafe { clock_gettime(CLOCK_PROCESS_CPUTIME_ID, &mut time) };
    assert_eq!(status, 0, "the machine has no clock for this");
    time.seconds as f64 * 1e9 + time.nanoseconds as f64
}

/// How long it takes, in nanoseconds.
pub fn ns(work: impl FnOnce()) -> f64 {
    let start = now();
    work();
    now() - start
}

/// The C library's struct rusage: two times of seconds and microseconds, then fourteen counts.
#[repr(C)]
struct Rusage([i64; 18]);

const RUSAGE_CHILDREN: i32 = -1;

unsafe extern "C" {
    fn getrusage(who: i32, usage: *mut Rusage) -> i32;
}

/// The milliseconds that all children so far have used, in their own code and in the system's.
pub fn children_ms() -> f64 {
    let mut usage = Rusage([0; 18]);
    // SAFETY: the C library fills the one struct that it is handed.
    let status = unsafe { getrusage(RUSAGE_CHILDREN, &mut usage) };
    assert_eq!(status, 0, "the machine does not count this");
    let [user_s, user_us, system_s, system_us, ..] = usage.0;
    (user_s + system_s) as f64 * 1e3 + (user_us + system_us) as f64 / 1e3
}
