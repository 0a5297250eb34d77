//! Arrays of up to 8,589,934,592 value bytes, and one more, over pages that are only addresses: nothing here copies long values, so they
//! take no memory. What is copied, written and read is in tests/c/long.c.

use durpaxeta::*;
use std::ffi::{c_int, c_void};

const MOST: usize = MAX_VALUE_BYTES as usize;
/// What a field of 4 bytes holds, and one more.
const FIELD: usize = u32::MAX as usize;

/// Zero bytes. Pages that nobody writes to take no memory; those that are written are real.
struct Zeros(&'static mut [u8]);

impl Zeros {
    fn new(length: usize) -> Zeros {
        extern "C" {
            fn mmap(
                at: *mut c_void,
                length: usize,
                access: c_int,
                flags: c_int,
                file: c_int,
                offset: i64,
            ) -> *mut c_void;
        }
        const READ_WRITE: c_int = 3;
        const PRIVATE_ANONYMOUS_NORESERVE: c_int = 0x4022;
        // SAFETY: a new mapping, of just that length; it lasts as long as the process.
        unsafe {
            let at = mmap(std::ptr::null_mut(), length, READ_WRITE, PRIVATE_ANONYMOUS_NORESERVE, -1, 0);
            assert_ne!(at as isize, -1, "{length} bytes of addresses: is the address space limited?");
            Zeros(std::slice::from_raw_parts_mut(at.cast(), length))
        }
    }

    fn put(&mut self, at: usize, bytes: &[u8]) {
        self.0[at..at + bytes.len()].copy_from_slice(bytes);
    }
}

fn ragged(depth: u64, width: Width) -> Kind {
    Kind::ragged(depth, width, Place::Start)
}

/// An array over zeros.
fn over<'a>(kind: Kind, shape: &'a [u64], masks: &'a [u8], zeros: &'a Zeros, offsets: &'a [u64]) -> ArrayRef<'a> {
    let length = offsets.last().map_or(0, |&last| last as usize);
    ArrayRef { kind, shape, masks, values: &zeros.0[..length], offsets }
}

/// What a writing answers that has no room: 6 where nothing else is due.
fn written(array: ArrayRef<'_>) -> Refusal {
    encode_into(array, &mut []).unwrap_err()
}

fn written_older(array: ArrayRef<'_>) -> Refusal {
    encode_interleaved_into(array, &mut []).unwrap_err()
}

#[test]
fn writing() {
    let zeros = Zeros::new(MOST + 1);
    let one = |width, length: usize| written(over(ragged(0, width), &[1], &[], &zeros, &[0, length as u64]));
    assert_eq!(one(Width::Eight, MOST), Refusal::Output);
    assert_eq!(one(Width::Eight, MOST + 1), Refusal::Size);
    assert_eq!(one(Width::Four, FIELD), Refusal::Output);
    assert_eq!(one(Width::Four, FIELD + 1), Refusal::Field);
    assert_eq!(one(Width::Four, MOST), Refusal::Field);
    assert_eq!(one(Width::Four, MOST + 1), Refusal::Size);
    // Owned results, too: where a call is refused nothing long is lent.
    let kind = ragged(0, Width::Eight);
    assert_eq!(encode(over(kind, &[1], &[], &zeros, &[0, MOST as u64 + 1])), Err(Refusal::Size));
    assert_eq!(encode_interleaved(over(kind, &[1], &[], &zeros, &[0, MOST as u64 + 1])), Err(Refusal::Size));

    // By what is written.
    let kind = ragged(1, Width::Four);
    let offsets = [0, FIELD as u64 + 1, FIELD as u64 + 6];
    let mut out = [9; 64];
    let last = encode_into(over(kind, &[2], &[0, 1], &zeros, &offsets), &mut out).unwrap();
    assert_eq!(last.len(), 16 + 2 + 8 + 8 + 5);
    assert_eq!(last[16 + 2..], [8, 0, 0, 0, 0, 0, 0, 0, 0, 0, 0, 0, 5, 0, 0, 0, 0, 0, 0, 0, 0]);
    assert_eq!(encode_into(over(kind, &[2], &[0, 0], &zeros, &offsets), &mut out).map(<[u8]>::len), Ok(18));
    assert_eq!(written(over(kind, &[2], &[1, 1], &zeros, &offsets)), Refusal::Field);
    assert_eq!(written(over(kind, &[2], &[1, 2], &zeros, &offsets)), Refusal::Content);
    assert_eq!(written(over(kind.packed(), &[2], &[1, 0], &zeros, &offsets)), Refusal::Field);
    assert_eq!(written(over(ragged(1, Width::Eight), &[2], &[1, 1], &zeros, &offsets)), Refusal::Output);
}

#[test]
fn writing_the_older_form() {
    let zeros = Zeros::new(MOST + 1);
    for width in [Width::Four, Width::Eight] {
        let kind = ragged(0, width);
        let one = |length: usize| written_older(over(kind, &[1], &[], &zeros, &[0, length as u64]));
        assert_eq!(one(FIELD), Refusal::Output);
        assert_eq!(one(FIELD + 1), Refusal::Field);
        assert_eq!(one(MOST), Refusal::Field);
        assert_eq!(one(MOST + 1), Refusal::Size);
        // By the cell, and not by the sum.
        let (field, two) = (FIELD as u64, |first| [0, first, 2 * FIELD as u64]);
        assert_eq!(written_older(over(kind, &[2], &[], &zeros, &two(field))), Refusal::Output);
        assert_eq!(written_older(over(kind, &[2], &[], &zeros, &two(field + 1))), Refusal::Field);
        assert_eq!(written_older(over(kind, &[2], &[], &zeros, &two(field - 1))), Refusal::Field);
    }
}

#[test]
fn reading() {
    let (kind, head) = (ragged(0, Width::Eight), 8 + 8 * 3);
    let mut stored = Zeros::new(head + MOST + 1);
    stored.put(0, &24u64.to_le_bytes());
    for (length, due) in [(MOST, Ok(())), (MOST + 1, Err(Refusal::Size))] {
        // Of two cells the second has three bytes.
        stored.put(16, &(length as u64 - 3).to_le_bytes());
        stored.put(24, &(length as u64).to_le_bytes());
        let bytes = &stored.0[..head + length];
        let last = Subset::new(&[1], &[1]).unwrap();
        let part = partial_decode(Width::Eight, Place::Start, &[2], &last, bytes);
        assert_eq!(part.map(|part| assert_eq!((part.values, part.offsets), (vec![0; 3], vec![0, 3]))), due);
        let nothing = Lent { masks: &mut [], values: &mut [], offsets: &mut [] };
        let refusal = decode_into(kind, &[2], bytes, nothing).unwrap_err();
        assert_eq!(refusal, due.err().unwrap_or(Refusal::Output));
    }
    // Three cells of the older form; two are never too many.
    let mut older = Zeros::new(4 + 3 * (4 + FIELD));
    for cell in 0..3 {
        older.put(4 + cell * (4 + FIELD), &u32::MAX.to_le_bytes());
    }
    older.put(0, &3u32.to_le_bytes());
    assert_eq!(decode_interleaved(3, &older.0[..]), Err(Refusal::Size));
    assert_eq!(decode_interleaved(3, &older.0[..4 + 3 * (4 + FIELD) - 1]), Err(Refusal::PastEnd));
}

#[test]
fn cells_behind_long_ones() {
    let zeros = Zeros::new(MOST + 1);
    for (length, due) in [(MOST, Ok(())), (MOST + 1, Err(Refusal::Size))] {
        let offsets = [0, length as u64 - 3, length as u64];
        let array = over(ragged(1, Width::Eight), &[2], &[1, 1], &zeros, &offsets);
        let short = |cut: Result<Array, Refusal>, offsets: &[u64]| {
            assert_eq!(cut.map(|cut| assert_eq!((cut.values, &cut.offsets[..]), (vec![0; 3], offsets))), due);
        };
        short(extract(array, &Subset::new(&[1], &[1]).unwrap()), &[0, 3]);
        short(guest_read(array, &Rights::new(&[false, true])), &[0, 0, 3]);
        // 17 and 4 of the plane come before 5.
        assert_eq!(guest_read(array, &Rights::new(&[true])), Err(Refusal::Content));
        assert_eq!(
            guest_read(ArrayRef { masks: &[], kind: ragged(0, Width::Eight), ..array }, &Rights::new(&[])),
            Err(Refusal::NoMasks)
        );
    }
}

/// A working table's store has a limit of its own: hidden bytes are not put there.
#[test]
fn a_store_keeps_its_limit() {
    let zeros = Zeros::new(MOST + 1);
    let store = MAX_STORE as usize;
    let hidden = over(ragged(1, Width::Eight), &[1], &[0], &zeros, &[0, MAX_VALUE_BYTES]);
    assert_eq!(Table::make(hidden, 0).unwrap().store, []);
    let longer = [0, MAX_STORE + 1];
    let seen = over(ragged(0, Width::Eight), &[1], &[], &zeros, &longer);
    assert_eq!(Table::make(seen, store), Err(Refusal::Output));
    assert_eq!(Table::make(seen, store + 1), Err(Refusal::Size));
    let over = [0, MAX_VALUE_BYTES + 1];
    assert_eq!(Table::make(ArrayRef { values: &zeros.0[..], offsets: &over, ..hidden }, 0), Err(Refusal::Size));
}
