//! Long arrays: up to 8,589,934,592 value bytes and one more, and around the 4,294,967,295 that a field of 4 bytes holds. Their values are zero
//! pages that are only addresses, and no result is long, so that all of it takes next to no memory: what is written and read at these lengths in
//! whole is in tests/c/long.c.

use crate::archive::c_kind;
use crate::cases::{fixed, ragged};
use crate::request::Results;
use crate::rust::BUILDS;
use crate::tables::STORE;
use crate::{Compare, say};
use judge::{Array, Live, MAX_FIELD, MAX_VALUE_BYTES, Refusal, Value, fits, length_of};
use std::ffi::{c_int, c_void};

/// Elements of an output that is lent; all results fit.
const ROOM: usize = 96;
const PATTERN: u8 = 0xA5;

/// Zero bytes; a page takes memory once it is written to.
struct Zeros(&'static mut [u8]);
impl Zeros {
    fn new(length: usize) -> Zeros {
        unsafe extern "C" {
            fn mmap(at: *mut c_void, length: usize, access: c_int, flags: c_int, file: c_int, offset: i64) -> *mut c_void;
        }
        const READ_WRITE: c_int = 3;
        const PRIVATE_ANONYMOUS_NORESERVE: c_int = 0x4022;
        unsafe {
            let at = mmap(std::ptr::null_mut(), length, READ_WRITE, PRIVATE_ANONYMOUS_NORESERVE, -1, 0);
            assert!(at as isize != -1, "no {length} bytes of addresses");
            Zeros(std::slice::from_raw_parts_mut(at.cast(), length))
        }
    }
    fn put(&mut self, at: u64, bytes: &[u8]) {
        self.0[at as usize..][..bytes.len()].copy_from_slice(bytes);
    }
}

/// An array over zeros: as many values as the last offset says.
#[derive(Clone, Copy)]
struct Long<'a> {
    kind: [u64; 5],
    shape: &'a [u64],
    masks: &'a [u8],
    offsets: &'a [u64],
}

fn over<'a>(kind: [u64; 5], shape: &'a [u64], masks: &'a [u8], offsets: &'a [u64]) -> Long<'a> {
    Long { kind, shape, masks, offsets }
}

/// What a call gives: masks, values and offsets, or written bytes.
type Judged = Result<Results, Refusal>;
fn of_array(array: Result<Array, Refusal>) -> Judged {
    array.map(Results::from)
}
/// Of written bytes that do not fit the length alone matters: they are not put together.
fn of_pieces(pieces: Result<Vec<Value<'_>>, Refusal>) -> Judged {
    let pieces = pieces?;
    fits(&[length_of(&pieces)], &[ROOM])?;
    Ok(Results { values: pieces.concat(), ..Results::default() })
}

/// Lent outputs, and the lengths that are named.
struct Outputs {
    masks: [u8; ROOM],
    values: [u8; ROOM],
    offsets: [u64; ROOM],
    named: [u64; 3],
}
impl Outputs {
    /// Whether these results stand at the front, and all beyond them is as it was.
    fn are(&self, r: &Results) -> bool {
        fn is<T: Copy + PartialEq>(out: &[T], front: &[T], kept: T) -> bool {
            out.starts_with(front) && out[front.len()..].iter().all(|&one| one == kept)
        }
        is(&self.masks, &r.masks, PATTERN)
            && is(&self.values, &r.values, PATTERN)
            && is(&self.offsets, &r.offsets, u64::from(PATTERN))
    }
}

const ENCODE: usize = 0;
const DECODE: usize = 1;
const DECODE_INTERLEAVED: usize = 2;
const EXTRACT: usize = 3;
const MERGE: usize = 4;
const PARTIAL_DECODE: usize = 5;
const ENCODE_INTERLEAVED: usize = 8;
const TABLE_MAKE: usize = 10;
const GUEST_READ: usize = 15;
const MIGRATE_STEP: usize = 18;
const MIGRATE_EXTRACT: usize = 19;

impl Compare {
    /// The archive's call with outputs of ROOM elements, and with none, held to the judge: answer, lengths and outputs. `named`: what success names.
    fn held(
        &mut self,
        call: usize,
        what: &str,
        judged: &Judged,
        named: impl Fn(&Results) -> Vec<u64>,
        asked: impl Fn(&mut Outputs, usize) -> u32,
    ) {
        self.counts.long += 1;
        for room in [ROOM, 0] {
            let kept = u64::from(PATTERN);
            let mut out = Outputs { masks: [PATTERN; ROOM], values: [PATTERN; ROOM], offsets: [kept; ROOM], named: [kept; 3] };
            let expected = match judged {
                Ok(r) => fits(&[r.masks.len(), r.values.len(), r.offsets.len()], &[room; 3]).map(|()| r.clone()),
                Err(refusal) => Err(*refusal),
            };
            let answer = asked(&mut out, room);
            self.called(call, answer);
            let mut wanted = expected.as_ref().map_or(vec![], &named);
            wanted.resize(3, kept);
            let due = expected.as_ref().err().copied().unwrap_or(0);
            let given = expected.unwrap_or_default();
            if answer != due {
                self.differ_in(0, call, &format!("answer {answer}, not {due}, with outputs of {room}"), what);
            } else if !out.are(&given) || out.named != wanted[..] {
                self.differ_in(0, call, &format!("answer {answer}, but other outputs or lengths, with outputs of {room}"), what);
            }
        }
    }

    /// A writing, in both forms; and what the Rust makes of it where it copies no long value.
    fn writes(&mut self, zeros: &Zeros, a: Long) {
        let values = &zeros.0[..a.offsets[a.offsets.len() - 1] as usize];
        let what = format!("kind {:?}, masks {:?}, offsets {:?}", a.kind, a.masks, a.offsets);
        let archive = self.guarded.archive;
        for (call, function, judged) in [
            (ENCODE, archive.encode, judge::encode(a.kind, a.shape, a.masks, values, a.offsets)),
            (
                ENCODE_INTERLEAVED,
                archive.encode_interleaved,
                judge::encode_interleaved(a.kind, a.shape, a.masks, values, a.offsets),
            ),
        ] {
            let judged = of_pieces(judged);
            self.held(
                call,
                &what,
                &judged,
                |r| vec![r.values.len() as u64],
                |out, room| unsafe {
                    let (shape, masks, offsets) = (a.shape, a.masks, a.offsets);
                    function(
                        c_kind(&a.kind),
                        shape.as_ptr(),
                        shape.len(),
                        masks.as_ptr(),
                        masks.len(),
                        values.as_ptr(),
                        values.len(),
                        offsets.as_ptr(),
                        offsets.len(),
                        out.values.as_mut_ptr(),
                        room,
                        out.named.as_mut_ptr(),
                    )
                },
            );
            // The Rust has no packed masks, and of each level it copies what is set, before it looks at a level below, or at offsets.
            let asked = match judged {
                Ok(_) => a.kind[0] <= 1 && a.kind[4] == 0,
                Err(refusal) => refusal == 20 && a.kind[0] == 0,
            };
            if call == ENCODE && asked {
                self.written_by_the_rust(&what, a, values, &judged);
            }
        }
    }

    /// 20 goes with the error that the Rust has for it, and a writing with the same bytes.
    fn written_by_the_rust(&mut self, what: &str, a: Long, values: &[u8], judged: &Judged) {
        self.counts.compared[0] += 1;
        for (at, build) in BUILDS.iter().enumerate() {
            let rust = build.written([a.kind[0], a.kind[1], a.kind[2], a.kind[3]], a.shape, a.masks, values, a.offsets);
            let agrees = match (judged, &rust) {
                (Ok(ours), Ok(theirs)) => ours.values == *theirs,
                (Err(_), Err(error)) => error.contains("index offsets are too large for a uint32 index_data_type"),
                _ => false,
            };
            if let (Err(refusal), Err(_)) = (judged, &rust) {
                self.counts.refused[at][*refusal as usize][0] += 1;
            }
            if !agrees {
                let short = rust.as_ref().map_or_else(|error| error.clone(), |bytes| format!("{} bytes", bytes.len()));
                self.differ_in(2, ENCODE, &format!("{}; the Rust ({}): {short}", say(judged), build.name), what);
            }
        }
    }

    /// Cells of an array: by a subset, a list of subsets, or a rights plane.
    fn takes(&mut self, zeros: &Zeros, call: usize, a: Long, numbers: &[u64], rights: &[u8], length: u64) {
        let values = &zeros.0[..length as usize];
        let archive = self.guarded.archive;
        let (shape, masks, offsets) = (a.shape, a.masks, a.offsets);
        let judged = of_array(match call {
            EXTRACT => judge::extract(a.kind, shape, numbers, masks, values, offsets),
            MERGE => judge::merge(a.kind, shape, numbers, masks, values, offsets),
            _ => judge::guest_read(a.kind, shape, rights, masks, values, offsets),
        });
        let what = format!("kind {:?}, by {numbers:?} {rights:?}, masks {masks:?}, offsets {offsets:?}, {length} bytes", a.kind);
        let named = |r: &Results| vec![r.masks.len() as u64, r.values.len() as u64, r.offsets.len() as u64];
        self.held(call, &what, &judged, named, |out, room| unsafe {
            let (kind, m, v, o, n) = (c_kind(&a.kind), &mut out.masks, &mut out.values, &mut out.offsets, &mut out.named);
            let (m, v, o, n) = (m.as_mut_ptr(), v.as_mut_ptr(), o.as_mut_ptr(), n.as_mut_ptr());
            let (mp, ml, vp, vl, op, ol) =
                (masks.as_ptr(), masks.len(), values.as_ptr(), values.len(), offsets.as_ptr(), offsets.len());
            let (sp, sl, np, nl) = (shape.as_ptr(), shape.len(), numbers.as_ptr(), numbers.len());
            match call {
                EXTRACT => (archive.extract)(kind, sp, sl, np, nl, mp, ml, vp, vl, op, ol, m, room, v, room, o, room, n),
                MERGE => (archive.merge)(kind, sp, sl, np, nl, mp, ml, vp, vl, op, ol, m, room, v, room, o, room, n),
                _ => {
                    let (rp, rl) = (rights.as_ptr(), rights.len());
                    (archive.guest_read)(kind, sp, sl, rp, rl, mp, ml, vp, vl, op, ol, m, room, v, room, o, room, n)
                }
            }
        });
    }

    /// Stored bytes of ragged values at depth 0 and, where a subset is given, of its cells.
    fn reads(&mut self, kind: [u64; 5], shape: &[u64], subset: Option<&[u64]>, bytes: &[u8]) {
        let archive = self.guarded.archive;
        let what = format!("kind {kind:?}, subset {subset:?}, {} bytes", bytes.len());
        let Some(subset) = subset else {
            let judged = of_array(judge::decode(kind, shape, bytes));
            let named = |r: &Results| vec![r.masks.len() as u64, r.values.len() as u64, r.offsets.len() as u64];
            return self.held(DECODE, &what, &judged, named, |out, room| unsafe {
                let (m, v, o) = (out.masks.as_mut_ptr(), out.values.as_mut_ptr(), out.offsets.as_mut_ptr());
                let (sp, sl, bp, bl) = (shape.as_ptr(), shape.len(), bytes.as_ptr(), bytes.len());
                (archive.decode)(c_kind(&kind), sp, sl, bp, bl, m, room, v, room, o, room, out.named.as_mut_ptr())
            });
        };
        let judged = of_array(judge::partial_decode(kind[2], kind[3], shape, subset, bytes));
        let named = |r: &Results| vec![r.values.len() as u64, r.offsets.len() as u64];
        self.held(PARTIAL_DECODE, &what, &judged, named, |out, room| unsafe {
            let (v, o) = (out.values.as_mut_ptr(), out.offsets.as_mut_ptr());
            let (sp, sl, np, nl) = (shape.as_ptr(), shape.len(), subset.as_ptr(), subset.len());
            let (bp, bl) = (bytes.as_ptr(), bytes.len());
            (archive.partial_decode)(kind[2], kind[3], sp, sl, np, nl, bp, bl, v, room, o, room, out.named.as_mut_ptr())
        });
    }

    fn reads_older(&mut self, cells: u64, bytes: &[u8]) {
        let archive = self.guarded.archive;
        let judged = of_array(judge::decode_interleaved(cells, bytes));
        let named = |r: &Results| vec![r.values.len() as u64, r.offsets.len() as u64];
        self.held(DECODE_INTERLEAVED, &format!("{cells} cells, {} bytes", bytes.len()), &judged, named, |out, room| unsafe {
            let (v, o) = (out.values.as_mut_ptr(), out.offsets.as_mut_ptr());
            (archive.decode_interleaved)(cells, bytes.as_ptr(), bytes.len(), v, room, o, room, out.named.as_mut_ptr())
        });
    }

    /// A live table over long strings: a cut, and a step that is refused or has none left, so that the area is not written.
    fn migrates(&mut self, t: Live<'_>, subset: &[u64]) {
        let archive = self.guarded.archive;
        let what = format!(
            "subsets {:?}, subset {subset:?}, old lengths {:?}, {} moved, of lengths {:?}",
            t.subsets, t.old_lengths, t.moved, t.moved_lengths
        );
        let (sp, sl, lp, ll) = (t.shape.as_ptr(), t.shape.len(), t.subsets.as_ptr(), t.subsets.len());
        let (op, ol, bp, bl) = (t.old_lengths.as_ptr(), t.old_lengths.len(), t.old.as_ptr(), t.old.len());
        let judged = of_array(judge::migrate_extract(&t, subset));
        let named = |r: &Results| vec![r.values.len() as u64, r.offsets.len() as u64];
        self.held(MIGRATE_EXTRACT, &what, &judged, named, |out, room| unsafe {
            let (v, o, n) = (out.values.as_mut_ptr(), out.offsets.as_mut_ptr(), out.named.as_mut_ptr());
            let (mp, ml, ap, al) = (t.moved_lengths.as_ptr(), t.moved_lengths.len(), t.area.as_ptr(), t.area.len());
            let (np, nl) = (subset.as_ptr(), subset.len());
            (archive.migrate_extract)(sp, sl, lp, ll, np, nl, op, ol, bp, bl, t.moved, mp, ml, ap, al, v, room, o, room, n)
        });
        let judged = judge::migrate_step(&t).map(|step| {
            assert!(step.is_none(), "a long string would be entered");
            Results::default()
        });
        self.held(
            MIGRATE_STEP,
            &what,
            &judged,
            |_| vec![0, t.moved],
            |out, _| unsafe {
                let mut lengths = t.moved_lengths.to_vec();
                let (mp, ml, ap, al) = (lengths.as_mut_ptr(), lengths.len(), t.area.as_ptr().cast_mut(), t.area.len());
                let n = out.named.as_mut_ptr();
                let answer = (archive.migrate_step)(sp, sl, lp, ll, op, ol, bp, bl, t.moved, mp, ml, ap, al, n);
                if lengths == t.moved_lengths { answer } else { u32::MAX }
            },
        );
    }

    /// A working table of one cell, in a store of so many bytes: its answer alone.
    fn makes(&mut self, zeros: &Zeros, a: Long, store: usize) {
        let values = &zeros.0[..a.offsets[1] as usize];
        let (archive, mut starts, mut lengths, mut named) = (self.guarded.archive, [7], [7], [7; 4]);
        let mut lent = vec![PATTERN; store];
        let due = match judge::table_make(a.kind, 1, a.masks, values, a.offsets, store as u64) {
            Ok(_) => 0,
            Err(refusal) => refusal,
        };
        let mut masks = [PATTERN; ROOM];
        let answer = unsafe {
            let (mp, ml, vp, vl) = (a.masks.as_ptr(), a.masks.len(), values.as_ptr(), values.len());
            let (m, s, l, n) = (masks.as_mut_ptr(), starts.as_mut_ptr(), lengths.as_mut_ptr(), named.as_mut_ptr());
            (archive.table_make)(
                c_kind(&a.kind),
                1,
                mp,
                ml,
                vp,
                vl,
                a.offsets.as_ptr(),
                2,
                m,
                ROOM,
                s,
                1,
                l,
                1,
                lent.as_mut_ptr(),
                store,
                n,
            )
        };
        self.called(TABLE_MAKE, answer);
        self.counts.long += 1;
        let kept = named == [7; 4] && starts == [7] && lengths == [7] && lent.iter().all(|&byte| byte == PATTERN);
        if answer != due || answer != 0 && !kept {
            let what = format!("kind {:?}, masks {:?}, offsets {:?}, a store of {store}", a.kind, a.masks, a.offsets);
            self.differ_in(0, TABLE_MAKE, &format!("answer {answer}, not {due}, or outputs that changed"), &what);
        }
    }

    /// All of them.
    pub fn long_arrays(&mut self) {
        const MOST: u64 = MAX_VALUE_BYTES;
        const FIELD: u64 = MAX_FIELD;
        let zeros = &Zeros::new(MOST as usize + 9);
        for (width, place) in [(4, 0), (4, 1), (8, 0), (8, 1)] {
            for length in [FIELD - 1, FIELD, FIELD + 1, FIELD + 2, MOST, MOST + 1] {
                self.writes(zeros, over(ragged(0, width, place), &[1], &[], &[0, length]));
                for mask in [0, 1, 2] {
                    self.writes(zeros, over(ragged(1, width, place), &[1], &[mask], &[0, length]));
                }
                // the first cell short, or the last; by what is given and by what is left
                for offsets in [
                    [0, length, length + 5],
                    [0, 5, length],
                    [0, FIELD.min(length), length],
                    [0, FIELD + 1, length.max(FIELD + 1)],
                ] {
                    self.writes(zeros, over(ragged(0, width, place), &[2], &[], &offsets));
                    for masks in [[0, 0], [0, 1], [1, 0], [1, 1]] {
                        self.writes(zeros, over(ragged(1, width, place), &[2], &masks, &offsets));
                        let inner = [1, 1, masks[0], masks[1]];
                        for form in [0, 1] {
                            self.writes(zeros, over([2, 1, width, place, form], &[2], &inner, &offsets));
                        }
                    }
                }
            }
            // 4 before 20
            self.writes(zeros, over(ragged(0, width, place), &[1], &[], &[1, FIELD + 1]));
            self.writes(zeros, over(ragged(0, width, place), &[2], &[], &[0, FIELD + 2, FIELD + 1]));
        }
        // two cells of the longest that a field says, and one of them longer
        for first in [FIELD - 1, FIELD, FIELD + 1] {
            self.writes(zeros, over(ragged(0, 8, 0), &[2], &[], &[0, first, 2 * FIELD]));
        }

        for length in [MOST, MOST + 1] {
            let kind = ragged(1, 8, 0);
            let (offsets, late) = ([0, length - 3, length], [1, length - 3, length]);
            for masks in [[1, 1], [0, 1], [1, 2]] {
                for subset in [[1, 1], [1, 0], [1, 2]] {
                    self.takes(zeros, EXTRACT, over(kind, &[2], &masks, &offsets), &subset, &[], length);
                }
                for rights in [[0, 1], [0, 0], [0, 2]] {
                    self.takes(zeros, GUEST_READ, over(kind, &[2], &masks, &offsets), &[], &rights, length);
                }
            }
            self.takes(zeros, EXTRACT, over(kind, &[2], &[1, 1], &late), &[1, 1], &[], length);
            self.takes(zeros, EXTRACT, over(kind, &[2], &[1, 1], &offsets), &[1, 1], &[], length - 1);
            self.takes(zeros, GUEST_READ, over(ragged(0, 8, 0), &[2], &[], &offsets), &[], &[0, 1], length);
            self.takes(zeros, GUEST_READ, over(kind, &[2], &[1, 1], &offsets), &[], &[0], length);
            // 5 goes by the sum of all chunks, also where one is missed or held twice
            let (half, other) = (MOST / 2, length - MOST / 2);
            for subsets in [[0, 1, 0, 1], [1, 1, 1, 1]] {
                for second in [0, 1] {
                    let offsets = [0, half, second, other];
                    self.takes(zeros, MERGE, over(ragged(0, 8, 0), &[2], &[], &offsets), &subsets, &[], length);
                }
                self.takes(zeros, MERGE, over(kind, &[2], &[1, 2], &[0, half, 0, other]), &subsets, &[], length);
            }
            self.takes(zeros, MERGE, over(ragged(0, 8, 0), &[2], &[], &[0, length]), &[0, 1], &[], length);
            self.takes(zeros, MERGE, over(ragged(0, 8, 0), &[1], &[], &[0, length]), &[0, 2], &[], length);
            self.takes(zeros, MERGE, over(fixed(0, 64, 0), &[2], &[], &[]), &[0, 2], &[], length);

            for (mask, store) in [(0, 0), (2, 0), (0, STORE), (0, STORE + 1)] {
                self.makes(zeros, over(kind, &[1], &[mask], &[0, length]), store);
            }
        }
        // over the store's limit, and under that of arrays: 6, and no longer 5
        for store in [STORE, STORE + 1] {
            self.makes(zeros, over(ragged(1, 8, 0), &[1], &[1], &[0, STORE as u64 + 1]), store);
        }

        // a string of two cells of which the second has three bytes: the limit, one more, and what comes before 5
        let mut string = Zeros::new(MOST as usize + 64);
        for end in [false, true] {
            let kind = ragged(0, 8, u64::from(end));
            for (first, last) in [(0, MOST), (0, MOST + 1), (1, MOST + 1)] {
                let (index, length) = if end { (last, last + 24) } else { (8, 0) };
                string.put(length, &24u64.to_le_bytes());
                string.put(index, &[first, last - 3, last].map(u64::to_le_bytes).concat());
                let bytes = &string.0[..(last + 32) as usize];
                for subset in [[1, 1], [2, 0], [1, 2]] {
                    self.reads(kind, &[2], Some(&subset), bytes);
                }
                if last > MOST {
                    self.reads(kind, &[2], None, bytes);
                }
                string.put(index, &[0; 24]);
                string.put(length, &[0; 8]);
            }
        }

        // three cells of the older form can be too long together, two cannot
        let mut older = Zeros::new(4 + 3 * (4 + FIELD as usize));
        for cell in 0..3 {
            older.put(4 + cell * (4 + FIELD), &u32::MAX.to_le_bytes());
        }
        for (count, cells, short) in [(3, 3, 0), (2, 3, 0), (3, 2, 0), (3, 3, 1)] {
            older.put(0, &(count as u32).to_le_bytes());
            let bytes = &older.0[..older.0.len() - short];
            self.reads_older(cells, bytes);
        }
        // one byte more than the limit
        let third = 4 + 2 * (4 + FIELD);
        older.put(third, &3u32.to_le_bytes());
        self.reads_older(3, &older.0[..third as usize + 4 + 3]);
        self.long_tables(&older, &mut string);
        self.stop_if_asked();
    }

    /// Live tables: a chunk around the limit, old and moved, alone and beside one that cannot be read; and a cut around it of chunks that are shorter.
    fn long_tables(&mut self, older: &Zeros, area: &mut Zeros) {
        const MOST: u64 = MAX_VALUE_BYTES;
        let shape = &[4][..];
        let third = 4 + 2 * (4 + MAX_FIELD) + 4 + 3;
        let short = [&1u32.to_le_bytes()[..], &[0; 4]].concat();
        // as the old string of three cells is left: their sum is one byte more than the limit. The other chunk before it, and behind
        for (subsets, old_lengths) in [([0, 3, 3, 1], [third, 8]), ([3, 1, 0, 3], [0, third])] {
            let old = &older.0[..(old_lengths[0] + old_lengths[1]) as usize];
            let t =
                Live { shape, subsets: &subsets, old_lengths: &old_lengths, old, moved: 0, moved_lengths: &[0; 2], area: &[] };
            [[0, 4], [3, 1], [0, 0], [4, 1]].iter().for_each(|subset| self.migrates(t, subset));
        }
        let old = &older.0[..third as usize];
        for (moved_lengths, moved) in [(&[0][..], 0), (&[0], 1), (&[], 0)] {
            let t = Live { shape: &[3], subsets: &[0, 3], old_lengths: &[third], old, moved, moved_lengths, area: &[] };
            self.migrates(t, &[0, 1]);
            self.migrates(Live { subsets: &[0, 2], ..t }, &[0, 1]);
        }
        // moved: three bytes behind as many as the limit, or one more; 5 is of a chunk, or of the cut alone
        for (cell, second) in [(MOST, 3), (MOST + 1, 3), (MOST, 0), (MOST - 3, 3), (MOST - 2, 3)] {
            let strings = [24 + cell, 24 + second];
            let tail = [&16u64.to_le_bytes()[..], &[0; 8], &second.to_le_bytes(), &[7; 3][..second as usize]].concat();
            area.put(0, &[&16u64.to_le_bytes()[..], &[0; 8], &cell.to_le_bytes()].concat());
            area.put(strings[0], &tail);
            let moved = &area.0[..(strings[0] + strings[1]) as usize];
            let (subsets, old_lengths) = ([0, 1, 1, 1], [0, short.len() as u64]);
            let t = Live {
                shape: &[2],
                subsets: &subsets,
                old_lengths: &[0; 2],
                old: &[],
                moved: 2,
                moved_lengths: &strings,
                area: moved,
            };
            let last = Live { old_lengths: &old_lengths, old: &short, moved: 1, area: &moved[..strings[0] as usize], ..t };
            for subset in [[1, 1], [1, 0], [0, 3]] {
                self.migrates(t, &subset);
                self.migrates(last, &subset);
                self.migrates(Live { old: &short[..7], old_lengths: &[0, 7], ..last }, &subset);
            }
            if cell + second > MOST {
                self.migrates(t, &[0, 2]);
            }
            area.put(strings[0], &vec![0; tail.len()]);
        }
    }
}
