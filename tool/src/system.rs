//! What std has no words for: signals, locks, standard descriptors that were closed when the command began, and a sync of many
//! files.

#![allow(unsafe_code)]

use std::ffi::c_int;
use std::fs::File;
use std::io::{self, ErrorKind};
use std::os::fd::AsRawFd;
use std::sync::atomic::{AtomicBool, AtomicI32, Ordering};

// The numbers of Linux.
const SIGHUP: c_int = 1;
const SIGINT: c_int = 2;
const SIGQUIT: c_int = 3;
const SIGTERM: c_int = 15;
const SIGXCPU: c_int = 24;
const SIGXFSZ: c_int = 25;
const SIG_IGN: usize = 1;
const F_GETFD: c_int = 1;
const LOCK_EX: c_int = 2;
const LOCK_NB: c_int = 4;

extern "C" {
    fn fcntl(descriptor: c_int, command: c_int, ...) -> c_int;
    fn signal(number: c_int, handler: usize) -> usize;
    fn raise(number: c_int) -> c_int;
    fn flock(descriptor: c_int, operation: c_int) -> c_int;
    fn syncfs(descriptor: c_int) -> c_int;
}

/// Who has the lock on a file, when it was asked for.
pub enum Lock {
    Own,
    Another,
    /// The file system has no locks.
    Nobody,
}

/// Asks for the lock on a file, which one has at a time. The kernel frees it when its holder ends, in whatever way.
pub fn lock(file: &File) -> Lock {
    // SAFETY: the descriptor is open as long as the file is lent.
    if unsafe { flock(file.as_raw_fd(), LOCK_EX | LOCK_NB) } == 0 {
        return Lock::Own;
    }
    match io::Error::last_os_error().kind() {
        ErrorKind::WouldBlock | ErrorKind::Interrupted => Lock::Another,
        _ => Lock::Nobody,
    }
}

/// Whether standard input and standard output were closed. Before `main` std opens /dev/null in their place, which
/// takes and gives anything; so this is asked earlier, as the program is loaded.
static CLOSED: [AtomicBool; 2] = [AtomicBool::new(false), AtomicBool::new(false)];

#[used]
#[link_section = ".init_array"]
static BEFORE_MAIN: extern "C" fn() = note_closed;

extern "C" fn note_closed() {
    for (descriptor, closed) in CLOSED.iter().enumerate() {
        // SAFETY: F_GETFD takes no argument and changes nothing.
        closed.store(unsafe { fcntl(descriptor as c_int, F_GETFD) } < 0, Ordering::SeqCst);
    }
}

pub fn input_was_closed() -> bool {
    CLOSED[0].load(Ordering::SeqCst)
}

pub fn output_was_closed() -> bool {
    CLOSED[1].load(Ordering::SeqCst)
}

/// Zero bytes that are only addresses; a page takes memory once it is written to.
#[cfg(test)]
pub fn zeros(length: usize) -> &'static mut [u8] {
    extern "C" {
        fn mmap(at: *mut u8, length: usize, access: c_int, flags: c_int, file: c_int, offset: i64) -> *mut u8;
    }
    const READ_WRITE: c_int = 3;
    const PRIVATE_ANONYMOUS_NORESERVE: c_int = 0x4022;
    // SAFETY: a new mapping, of just that length; it lasts as long as the process.
    unsafe {
        let at = mmap(std::ptr::null_mut(), length, READ_WRITE, PRIVATE_ANONYMOUS_NORESERVE, -1, 0);
        assert_ne!(at as isize, -1, "{length} bytes of addresses: is the address space limited?");
        std::slice::from_raw_parts_mut(at, length)
    }
}

/// A write past the limit of file sizes is an error that can be told, and not the end of the command.
pub fn tell_of_long_files() {
    // SAFETY: ignoring a signal runs no code of ours.
    unsafe { signal(SIGXFSZ, SIG_IGN) };
}

/// Syncs the file system in which a file or a folder lies: many new files at once.
pub fn sync_around(file: &File) -> io::Result<()> {
    // SAFETY: the descriptor is open as long as `file` is.
    match unsafe { syncfs(file.as_raw_fd()) } {
        0 => Ok(()),
        _ => Err(io::Error::last_os_error()),
    }
}

/// The last signal that was held back; 0 is none.
static ARRIVED: AtomicI32 = AtomicI32::new(0);

extern "C" fn note_signal(number: c_int) {
    ARRIVED.store(number, Ordering::SeqCst);
}

/// Holds back the signals that would end the command, while there is something to clear away. When it goes, a signal
/// that arrived ends the command as it would have done.
pub struct Held {
    before: Vec<(c_int, usize)>,
}

pub fn hold() -> Held {
    let mut before = Vec::new();
    for number in [SIGHUP, SIGINT, SIGQUIT, SIGTERM, SIGXCPU] {
        // SAFETY: the handler stores to an atomic and does nothing else.
        let was = unsafe { signal(number, note_signal as extern "C" fn(c_int) as usize) };
        if was == SIG_IGN {
            // Ignored before (nohup), so still ignored.
            // SAFETY: as above.
            unsafe { signal(number, SIG_IGN) };
        } else {
            before.push((number, was));
        }
    }
    Held { before }
}

impl Held {
    pub fn arrived(&self) -> bool {
        ARRIVED.load(Ordering::SeqCst) != 0
    }
}

impl Drop for Held {
    fn drop(&mut self) {
        for &(number, was) in &self.before {
            // SAFETY: `was` is what `signal` gave for this number.
            unsafe { signal(number, was) };
        }
        match ARRIVED.swap(0, Ordering::SeqCst) {
            0 => {}
            number => {
                // SAFETY: the signal's own meaning is in force again.
                unsafe { raise(number) };
            }
        }
    }
}
