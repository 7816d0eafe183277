//! Processor time of the programs that were started and have ended. On a machine that does other
//! things too it says more than the clock.

use std::time::Duration;

#[repr(C)]
#[derive(Default)]
struct Time {
    seconds: i64,
    microseconds: i64,
}

/// What the C library's getrusage writes on a 64-bit Linux.
#[repr(C)]
#[derive(Default)]
struct Usage {
    user: Time,
    system: Time,
    others: [i64; 14],
}

const ENDED_CHILDREN: i32 = -1;

extern "C" {
    fn getrusage(who: i32, usage: *mut Usage) -> i32;
}

impl Time {
    fn duration(&self) -> Duration {
        Duration::from_micros((self.seconds * 1_000_000 + self.microseconds) as u64)
    }
}

pub fn of_ended_programs() -> Duration {
    let mut usage = Usage::default();
    // The structure has the layout that is asked for, and nothing else refers to it.
    let status = unsafe { getrusage(ENDED_CHILDREN, &mut usage) };
    assert_eq!(status, 0, "getrusage");
    usage.user.duration() + usage.system.duration()
}
