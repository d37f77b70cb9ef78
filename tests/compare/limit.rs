//! A computation in a child process that has a limit of time: picus may not end on a list that the port answers.

use std::io::{Read, Write};
use std::os::fd::FromRawFd;

extern "C" {
    fn fork() -> i32;
    fn pipe(ends: *mut i32) -> i32;
    fn setitimer(which: i32, new: *const Timer, old: *mut Timer) -> i32;
    fn waitpid(child: i32, status: *mut i32, options: i32) -> i32;
    fn _exit(status: i32) -> !;
}

/// An interval timer: the repeat, then the first time, each in seconds and microseconds.
#[repr(C)]
struct Timer([i64; 4]);

const ITIMER_PROF: i32 = 2;
const SIGPROF: i32 = 27;

pub enum Limited {
    Done(Vec<u8>),
    TooLong,
    Failed,
}

/// What `compute` gives within so many seconds of processor time. A panic in it is `Failed`.
pub fn within(seconds: i64, compute: impl FnOnce() -> Vec<u8>) -> Limited {
    let mut ends = [0; 2];
    assert_eq!(unsafe { pipe(ends.as_mut_ptr()) }, 0);
    let child = unsafe { fork() };
    assert!(child >= 0);
    let (mut from, mut to) = unsafe { (std::fs::File::from_raw_fd(ends[0]), std::fs::File::from_raw_fd(ends[1])) };
    if child == 0 {
        unsafe { setitimer(ITIMER_PROF, &Timer([0, 0, seconds, 0]), std::ptr::null_mut()) };
        let result = std::panic::catch_unwind(std::panic::AssertUnwindSafe(compute));
        let status = match result.map(|value| to.write_all(&value)) {
            Ok(Ok(())) => 0,
            _ => 1,
        };
        unsafe { _exit(status) }
    }
    drop(to);
    let mut bytes = Vec::new();
    let read = from.read_to_end(&mut bytes);
    let mut status = 0;
    unsafe { waitpid(child, &mut status, 0) };
    match read {
        Ok(_) if status == 0 => Limited::Done(bytes),
        _ if status & 0x7f == SIGPROF => Limited::TooLong,
        _ => Limited::Failed,
    }
}
