//! One cell of 4 GiB beside memcpy of as many bytes. Values are zero pages, and outputs lie in memory that repeats: 2 MiB that are mapped again
//! and again, so that both sides copy between the same few pages. What differs is what a call does beside copying.

use crate::archive::{Archive, c_kind};
use crate::{best, figure, timed};
use std::ffi::{c_char, c_int, c_void};
use std::hint::black_box;

unsafe extern "C" {
    fn mmap(at: *mut c_void, length: usize, access: c_int, flags: c_int, file: c_int, offset: i64) -> *mut c_void;
    fn memfd_create(name: *const c_char, flags: u32) -> c_int;
    fn ftruncate(file: c_int, length: i64) -> c_int;
}

const STRETCH: usize = 1 << 21;
const READ: c_int = 1;
const READ_WRITE: c_int = 3;
const SHARED: c_int = 1;
const FIXED: c_int = 0x10;
const PRIVATE_ANONYMOUS_NORESERVE: c_int = 0x4022;

unsafe fn mapped(at: *mut u8, length: usize, access: c_int, flags: c_int, file: c_int, offset: usize) -> *mut u8 {
    let at = unsafe { mmap(at.cast(), length, access, flags, file, offset as i64) };
    assert_ne!(at as isize, -1, "no {length} bytes of addresses");
    at.cast()
}

fn zeros(length: usize) -> *const u8 {
    unsafe { mapped(std::ptr::null_mut(), length, READ, PRIVATE_ANONYMOUS_NORESERVE, -1, 0) }
}

/// The first stretch is its own, so that what is stored there can be read.
fn folded(length: usize) -> *mut u8 {
    let count = length.div_ceil(STRETCH);
    unsafe {
        let at = mapped(std::ptr::null_mut(), count * STRETCH, READ, PRIVATE_ANONYMOUS_NORESERVE, -1, 0);
        let file = memfd_create(c"bench".as_ptr(), 0);
        assert_eq!(ftruncate(file, 2 * STRETCH as i64), 0);
        for i in 0..count {
            mapped(at.add(i * STRETCH), STRETCH, READ_WRITE, SHARED | FIXED, file, STRETCH * usize::from(i > 0));
        }
        at
    }
}

pub fn rows(a: &Archive, rounds: u32) {
    println!("\nOne long cell beside memcpy, in memory that repeats. Ratio: memcpy's time over ours.\n");
    println!("| call | bytes | memcpy, s | ours, s | ratio |\n|---|---|---|---|---|");
    for (width, bytes) in [(4, u32::MAX as usize), (8, 1 << 32)] {
        let (kind, head, one, whole) = ([0, 1, width, 0, 0], 8 + 2 * width as usize, [1], [0, 1]);
        let (values, stored, back) = (zeros(bytes), folded(bytes + head), folded(bytes));
        let (mut offsets, mut lengths) = ([0, bytes as u64], [0; 3]);
        let none = std::ptr::null();
        for call in ["encode", "decode", "partial_decode"] {
            let ours = timed(|| {
                let answer = unsafe {
                    match call {
                        "encode" => (a.encode)(
                            c_kind(&kind),
                            one.as_ptr(),
                            1,
                            none,
                            0,
                            values,
                            bytes,
                            [0, bytes as u64].as_ptr(),
                            2,
                            stored,
                            bytes + head,
                            lengths.as_mut_ptr(),
                        ),
                        "decode" => (a.decode)(
                            c_kind(&kind),
                            one.as_ptr(),
                            1,
                            stored,
                            bytes + head,
                            std::ptr::null_mut(),
                            0,
                            back,
                            bytes,
                            offsets.as_mut_ptr(),
                            2,
                            lengths.as_mut_ptr(),
                        ),
                        _ => (a.partial_decode)(
                            width,
                            0,
                            one.as_ptr(),
                            1,
                            whole.as_ptr(),
                            2,
                            stored,
                            bytes + head,
                            back,
                            bytes,
                            offsets.as_mut_ptr(),
                            2,
                            lengths.as_mut_ptr(),
                        ),
                    }
                };
                assert_eq!(answer, 0);
            });
            let (from, to) = match call {
                "encode" => (values, unsafe { stored.add(head) }),
                _ => (unsafe { stored.add(head) }.cast_const(), back),
            };
            let memcpy = timed(|| unsafe { std::ptr::copy_nonoverlapping(black_box(from), black_box(to), bytes) });
            let times = best(&mut [ours, memcpy], rounds);
            let seconds = |n: f64| figure(n / 1e9);
            println!(
                "| {call} d0 R({width}, start), one cell | {bytes} | {} | {} | {:.2} |",
                seconds(times[1]),
                seconds(times[0]),
                times[1] / times[0]
            );
        }
    }
}
