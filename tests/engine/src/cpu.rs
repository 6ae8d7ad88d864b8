//! CPU time of ended child processes. The standard library does not tell it, so the C
//! library is asked, with the layout that Linux gives the answer on 64-bit machines.

use std::io;
use std::time::Duration;

const CHILDREN: i32 = -1;

#[repr(C)]
#[derive(Default)]
struct Usage {
    user: Span,
    system: Span,
    others: [i64; 14],
}

#[repr(C)]
#[derive(Default)]
struct Span {
    seconds: i64,
    microseconds: i64,
}

extern "C" {
    fn getrusage(who: i32, usage: *mut Usage) -> i32;
}

/// User and system time of all children that were waited for.
pub fn of_children() -> Result<Duration, String> {
    let mut usage = Usage::default();
    // The structure is as long as the call expects and lives while it is filled.
    match unsafe { getrusage(CHILDREN, &mut usage) } {
        0 => Ok(usage.user.length() + usage.system.length()),
        _ => Err(io::Error::last_os_error().to_string()),
    }
}

impl Span {
    fn length(&self) -> Duration {
        Duration::from_secs(self.seconds as u64) + Duration::from_micros(self.microseconds as u64)
    }
}
