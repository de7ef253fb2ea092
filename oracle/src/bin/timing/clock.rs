//! Processor time, which other programs do not lengthen as they do the time of day. Linux, on a machine of 64 bits.

/// Nanoseconds that this thread has run.
pub fn thread() -> f64 {
    #[repr(C)]
    struct Time {
        seconds: i64,
        nanoseconds: i64,
    }
    unsafe extern "C" {
        fn clock_gettime(clock: i32, now: *mut Time) -> i32;
    }
    const THREAD: i32 = 3;
    let mut now = Time { seconds: 0, nanoseconds: 0 };
    // SAFETY: the system fills the struct, whose layout is this.
    assert_eq!(unsafe { clock_gettime(THREAD, &mut now) }, 0);
    now.seconds as f64 * 1e9 + now.nanoseconds as f64
}

/// Nanoseconds that the programs started from here have run, those that have ended.
pub fn children() -> f64 {
    #[repr(C)]
    struct Usage {
        user: [i64; 2],
        system: [i64; 2],
        rest: [i64; 14],
    }
    unsafe extern "C" {
        fn getrusage(who: i32, usage: *mut Usage) -> i32;
    }
    const CHILDREN: i32 = -1;
    let mut used = Usage { user: [0; 2], system: [0; 2], rest: [0; 14] };
    // SAFETY: the system fills the struct, whose layout is this.
    assert_eq!(unsafe { getrusage(CHILDREN, &mut used) }, 0);
    let [user, system] = [used.user, used.system].map(|[seconds, micro]| seconds as f64 * 1e9 + micro as f64 * 1e3);
    user + system
}
