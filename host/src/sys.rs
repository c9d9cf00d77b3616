//! What the standard library has no call for: waiting for several lines at once, huge pages, and a process's CPU time and memory. Linux.

use std::{
    fs,
    io::{self, ErrorKind},
    os::fd::RawFd,
    time::Duration,
};

#[repr(C)]
struct PollFd {
    fd: i32,
    events: i16,
    revents: i16,
}

#[repr(C)]
struct Timespec {
    seconds: i64,
    nanoseconds: i64,
}

extern "C" {
    fn poll(fds: *mut PollFd, count: u64, timeout: i32) -> i32;
    fn clock_gettime(clock: i32, time: *mut Timespec) -> i32;
    fn madvise(start: *mut u8, len: usize, advice: i32) -> i32;
}

const IN: i16 = 1;
const OUT: i16 = 4;
const CLOCK_PROCESS_CPUTIME_ID: i32 = 2;
const MADV_HUGEPAGE: i32 = 14;
const HUGE_PAGE: usize = 1 << 21;

/// Zeros for a work area, in huge pages as far as they fit: a large session takes its records from all over it (docs/INTEGRATION.md). It is advice: where
/// the system doesn't take it the pages are small ones.
pub fn work_area(len: usize) -> Vec<u8> {
    let mut bytes = vec![0; len];
    let skipped = bytes.as_ptr().align_offset(HUGE_PAGE);
    if let Some(rest) = bytes.get_mut(skipped..) {
        unsafe { madvise(rest.as_mut_ptr(), rest.len() / HUGE_PAGE * HUGE_PAGE, MADV_HUGEPAGE) };
    }
    bytes
}

/// What to wait for, and what came.
#[derive(Clone, Copy)]
pub struct Wait {
    pub fd: RawFd,
    pub read: bool,
    pub write: bool,
}

/// Waits until one of them can be read or written without blocking, at most so long; then `read` and `write` say which. An error or a hang-up
/// counts as both, so that the next read or write reports it.
pub fn wait(waits: &mut [Wait], timeout: Duration) -> io::Result<()> {
    let events = |w: &Wait| if w.read { IN } else { 0 } | if w.write { OUT } else { 0 };
    // poll leaves out what has a negative number
    let fd = |w: &Wait| if w.read || w.write { w.fd } else { -1 };
    let mut fds: Vec<PollFd> = waits.iter().map(|w| PollFd { fd: fd(w), events: events(w), revents: 0 }).collect();
    // Rounded up, so that a wait never ends just before its time.
    let milliseconds = timeout.as_nanos().div_ceil(1_000_000).min(i32::MAX as u128) as i32;
    // Sound: a slice of ours of that many entries, with the layout of struct pollfd.
    let answer = unsafe { poll(fds.as_mut_ptr(), fds.len() as u64, milliseconds) };
    if answer < 0 {
        let error = io::Error::last_os_error();
        if error.kind() != ErrorKind::Interrupted {
            return Err(error);
        }
        fds.iter_mut().for_each(|fd| fd.revents = 0);
    }
    for (wait, fd) in waits.iter_mut().zip(fds) {
        let broken = fd.revents & !(IN | OUT) != 0;
        wait.read &= fd.revents & IN != 0 || broken;
        wait.write &= fd.revents & OUT != 0 || broken;
    }
    Ok(())
}

/// The CPU time of this process so far.
pub fn cpu_time() -> Duration {
    let mut time = Timespec { seconds: 0, nanoseconds: 0 };
    // Sound: writes a struct of ours.
    match unsafe { clock_gettime(CLOCK_PROCESS_CPUTIME_ID, &mut time) } {
        0 => Duration::new(time.seconds as u64, time.nanoseconds as u32),
        _ => Duration::ZERO,
    }
}

/// The most memory that this process had at once, in KiB; 0 if the system does not tell.
pub fn peak_memory() -> u64 {
    let status = fs::read_to_string("/proc/self/status").unwrap_or_default();
    let line = status.lines().find_map(|line| line.strip_prefix("VmHWM:"));
    line.and_then(|line| line.split_whitespace().next()?.parse().ok()).unwrap_or(0)
}
