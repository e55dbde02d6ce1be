//! Memory in pages of its own that can be made read-only, and calls in a child process, which a fault ends.

use std::ffi::{c_int, c_void};

extern "C" {
    fn mmap(
        at: *mut c_void,
        length: usize,
        may: c_int,
        flags: c_int,
        file: c_int,
        offset: i64,
    ) -> *mut c_void;
    fn munmap(at: *mut c_void, length: usize) -> c_int;
    fn mprotect(at: *mut c_void, length: usize, may: c_int) -> c_int;
    fn fork() -> c_int;
    fn waitpid(child: c_int, status: *mut c_int, options: c_int) -> c_int;
    fn signal(number: c_int, handler: extern "C" fn(c_int)) -> usize;
    fn _exit(status: c_int) -> !;
}

const READ: c_int = 1;
const WRITE: c_int = 2;
const PRIVATE_ANONYMOUS: c_int = 0x22;
const SIGBUS: c_int = 7;
const SIGSEGV: c_int = 11;

/// Pages that things are put into.
pub struct Pages {
    at: *mut u8,
    used: usize,
}

/// Room for all that a test puts into one.
const LENGTH: usize = 1 << 16;

impl Pages {
    pub fn new() -> Pages {
        // SAFETY: the kernel chooses the place.
        let at =
            unsafe { mmap(std::ptr::null_mut(), LENGTH, READ | WRITE, PRIVATE_ANONYMOUS, -1, 0) };
        assert_ne!(at as isize, -1, "mmap");
        Pages { at: at.cast(), used: 0 }
    }

    /// Copies values into them, and says where they are.
    pub fn put<T: Copy>(&mut self, values: &[T]) -> *mut T {
        let begin = self.used.next_multiple_of(align_of::<T>());
        self.used = begin + size_of_val(values);
        assert!(self.used <= LENGTH);
        // SAFETY: there is room for them, aligned since pages are.
        unsafe {
            let at = self.at.add(begin).cast::<T>();
            at.copy_from_nonoverlapping(values.as_ptr(), values.len());
            at
        }
    }

    /// From now on who writes in them faults.
    pub fn protect(&self) {
        // SAFETY: the pages are this value's own, and pointers into them are raw.
        assert_eq!(unsafe { mprotect(self.at.cast(), LENGTH, READ) }, 0, "mprotect");
    }
}

impl Drop for Pages {
    fn drop(&mut self) {
        // SAFETY: nobody holds a reference into them.
        unsafe { munmap(self.at.cast(), LENGTH) };
    }
}

/// How a call in a child process ended.
#[derive(Clone, Copy, Debug, PartialEq, Eq)]
pub enum Ended {
    /// With this code.
    Code(u32),
    /// By a fault.
    Fault,
}

/// A status that no code has.
const FAULT: c_int = 255;

extern "C" fn faulted(_: c_int) {
    // SAFETY: ending is allowed here.
    unsafe { _exit(FAULT) }
}

/// Makes a call in a child process, once these pages are read-only there.
pub fn ended(read_only: &[&Pages], call: impl FnOnce() -> u32) -> Ended {
    // SAFETY: the child makes system calls and the call, and ends; it takes no lock that another thread may hold.
    let child = unsafe { fork() };
    assert_ne!(child, -1, "fork");
    if child == 0 {
        // SAFETY: the handler ends the process.
        unsafe {
            signal(SIGBUS, faulted);
            signal(SIGSEGV, faulted);
        }
        read_only.iter().for_each(|pages| pages.protect());
        let code = call();
        // SAFETY: the child ends, and does nothing else.
        unsafe { _exit(c_int::try_from(code).unwrap_or(FAULT - 1).min(FAULT - 1)) };
    }
    let mut status = 0;
    // SAFETY: the status is a number of ours.
    assert_eq!(unsafe { waitpid(child, &mut status, 0) }, child, "waitpid");
    assert_eq!(status & 0x7f, 0, "the child ended by a signal");
    match status >> 8 & 0xff {
        FAULT => Ended::Fault,
        code => Ended::Code(code as u32),
    }
}
