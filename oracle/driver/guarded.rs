//! The archive's calls under guard: each input ends at a page that must not be read, each lent output has guard bytes on both sides and
//! a pattern inside, so that every byte afterwards is accounted for.

use crate::archive::{Archive, DecodeCall, DpxKind, EncodeCall, c_kind};
use crate::request::{Outcome, Request, Request::*, Results};
use std::ffi::{CStr, c_char, c_int, c_void};

unsafe extern "C" {
    fn mmap(at: *mut c_void, length: usize, prot: c_int, flags: c_int, fd: c_int, offset: i64) -> *mut c_void;
    fn mprotect(at: *mut c_void, length: usize, prot: c_int) -> c_int;
}

// ---------------------------------------------------------------- inputs that end at a forbidden page

const PAGE: usize = 4096;
pub struct Edge {
    end: *mut u8,
    room: usize,
}
impl Edge {
    fn new(room: usize) -> Edge {
        const READ_WRITE: c_int = 3;
        const NONE: c_int = 0;
        const PRIVATE_ANONYMOUS: c_int = 0x22;
        let room = room.div_ceil(PAGE) * PAGE;
        unsafe {
            let at = mmap(std::ptr::null_mut(), room + PAGE, READ_WRITE, PRIVATE_ANONYMOUS, -1, 0);
            assert!(at as isize != -1, "no memory");
            let end = (at as *mut u8).add(room);
            assert_eq!(mprotect(end.cast(), PAGE, NONE), 0);
            Edge { end, room }
        }
    }
    /// A copy that ends at the forbidden page. An empty one is NULL.
    fn put<T: Copy>(&mut self, list: &[T]) -> *const T {
        let length = size_of_val(list);
        if length == 0 {
            return std::ptr::null();
        }
        if length > self.room {
            *self = Edge::new(2 * length);
        }
        unsafe {
            let at = self.end.sub(length).cast::<T>();
            std::ptr::copy_nonoverlapping(list.as_ptr(), at, list.len());
            at
        }
    }
    fn holds<T: PartialEq>(&self, list: &[T]) -> bool {
        let length = size_of_val(list);
        length == 0 || unsafe { std::slice::from_raw_parts(self.end.sub(length).cast::<T>(), list.len()) == list }
    }
}

// ---------------------------------------------------------------- lent outputs

const GUARD: usize = 64;
/// A lent output between guards. The pattern differs from call to call.
struct Lent<T> {
    all: Vec<T>,
    count: usize,
    key: u64,
}
trait Pattern: Copy + PartialEq {
    fn at(key: u64, i: usize) -> Self;
}
impl Pattern for u8 {
    fn at(key: u64, i: usize) -> u8 {
        (key as u8) ^ (i as u8).wrapping_mul(29) ^ (i >> 8) as u8
    }
}
impl Pattern for u64 {
    fn at(key: u64, i: usize) -> u64 {
        key ^ (i as u64).wrapping_mul(0x9E37_79B9_7F4A_7C15)
    }
}
impl<T: Pattern> Lent<T> {
    fn new() -> Self {
        Lent { all: vec![], count: 0, key: 0 }
    }
    fn lend(&mut self, count: usize, key: u64) -> *mut T {
        (self.count, self.key) = (count, key);
        self.all.clear();
        self.all.extend((0..count + 2 * GUARD).map(|i| T::at(key, i)));
        // An empty output is NULL every other time.
        if count == 0 && key.is_multiple_of(2) { std::ptr::null_mut() } else { unsafe { self.all.as_mut_ptr().add(GUARD) } }
    }
    /// What is lent in place holds this list before the call.
    fn hold(&mut self, list: &[T]) {
        self.all[GUARD..GUARD + list.len()].copy_from_slice(list);
    }
    fn inside(&self) -> &[T] {
        &self.all[GUARD..GUARD + self.count]
    }
    /// All that was lent, and the guards.
    fn whole(&self) -> Vec<T> {
        self.all.clone()
    }
    /// The result at the front, the pattern everywhere else.
    fn is(&self, result: &[T]) -> bool {
        result.len() <= self.count
            && self.inside()[..result.len()] == *result
            && (0..GUARD).chain(GUARD + result.len()..self.all.len()).all(|i| self.all[i] == T::at(self.key, i))
    }
}

// ---------------------------------------------------------------- read and written again, in C

const DIFFERENT: u32 = u32::MAX;
#[link(name = "again", kind = "static")]
unsafe extern "C" {
    /// ../again/again.h
    fn again(
        decode: DecodeCall,
        encode: EncodeCall,
        kind: DpxKind,
        shape: *const u64,
        shape_len: usize,
        bytes: *const u8,
        bytes_len: usize,
        what: *mut *const c_char,
    ) -> u32;
}

/// The archive's calls under guard.
pub struct Guarded {
    pub archive: Archive,
    numbers: [Edge; 5],
    bytes: [Edge; 4],
    masks: Lent<u8>,
    values: Lent<u8>,
    offsets: Lent<u64>,
    cell_lengths: Lent<u64>,
    lengths: Lent<u64>,
    key: u64,
    pub calls: u64,
}

impl Guarded {
    pub fn new(archive: Archive) -> Guarded {
        let edge = || Edge::new(1 << 20);
        Guarded {
            archive,
            numbers: [edge(), edge(), edge(), edge(), edge()],
            bytes: [edge(), edge(), edge(), edge()],
            masks: Lent::new(),
            values: Lent::new(),
            offsets: Lent::new(),
            cell_lengths: Lent::new(),
            lengths: Lent::new(),
            key: 0,
            calls: 0,
        }
    }

    /// One call with outputs of these lengths. What is lent in place has its own.
    pub fn call(&mut self, request: &Request, lent: [usize; 4]) -> u32 {
        self.calls += 1;
        self.key = self.key.wrapping_add(0x9E37_79B9_7F4A_7C15);
        let key = self.key ^ (self.key >> 29);
        let named = request.named(&Results::default()).len();
        let m = self.masks.lend(lent[0], key);
        let v = self.values.lend(lent[1], key >> 8);
        let o = self.offsets.lend(lent[2], key >> 3);
        let l = self.cell_lengths.lend(lent[3], key >> 5);
        let n = self.lengths.lend(named, key >> 1);
        if let Some(before) = request.in_place() {
            self.masks.hold(&before.masks);
            self.values.hold(&before.values);
            self.offsets.hold(&before.offsets);
            self.cell_lengths.hold(&before.lengths);
        }
        let [n1, n2, n3, n4, n5] = &mut self.numbers;
        let [b1, b2, b3, b4] = &mut self.bytes;
        let a = &self.archive;
        unsafe {
            match request {
                Encode { kind, shape, masks, values, offsets } | EncodeInterleaved { kind, shape, masks, values, offsets } => {
                    let call = if let Encode { .. } = request { a.encode } else { a.encode_interleaved };
                    call(
                        c_kind(kind),
                        n1.put(shape),
                        shape.len(),
                        b1.put(masks),
                        masks.len(),
                        b2.put(values),
                        values.len(),
                        n3.put(offsets),
                        offsets.len(),
                        v,
                        lent[1],
                        n,
                    )
                }
                Decode { kind, shape, bytes } => (a.decode)(
                    c_kind(kind),
                    n1.put(shape),
                    shape.len(),
                    b1.put(bytes),
                    bytes.len(),
                    m,
                    lent[0],
                    v,
                    lent[1],
                    o,
                    lent[2],
                    n,
                ),
                DecodeInterleaved { cells, bytes } => {
                    (a.decode_interleaved)(*cells, b1.put(bytes), bytes.len(), v, lent[1], o, lent[2], n)
                }
                Extract { kind, shape, subset, masks, values, offsets }
                | Merge { kind, shape, subsets: subset, masks, values, offsets } => {
                    let call = if let Extract { .. } = request { a.extract } else { a.merge };
                    call(
                        c_kind(kind),
                        n1.put(shape),
                        shape.len(),
                        n2.put(subset),
                        subset.len(),
                        b1.put(masks),
                        masks.len(),
                        b2.put(values),
                        values.len(),
                        n3.put(offsets),
                        offsets.len(),
                        m,
                        lent[0],
                        v,
                        lent[1],
                        o,
                        lent[2],
                        n,
                    )
                }
                PartialDecode { width, place, shape, subset, bytes } => (a.partial_decode)(
                    *width,
                    *place,
                    n1.put(shape),
                    shape.len(),
                    n2.put(subset),
                    subset.len(),
                    b1.put(bytes),
                    bytes.len(),
                    v,
                    lent[1],
                    o,
                    lent[2],
                    n,
                ),
                ReverseEndianness { size, bytes } => (a.reverse_endianness)(*size, v, bytes.len(), n),
                SubsetCells { shape, subset } => {
                    (a.subset_cells)(n1.put(shape), shape.len(), n2.put(subset), subset.len(), o, lent[2], n)
                }
                Generate { kind, shape, start } => {
                    (a.generate)(c_kind(kind), n1.put(shape), shape.len(), *start, m, lent[0], v, lent[1], o, lent[2], n)
                }
                MigrateStep { live: t } => (a.migrate_step)(
                    n1.put(&t.shape),
                    t.shape.len(),
                    n2.put(&t.subsets),
                    t.subsets.len(),
                    n3.put(&t.old_lengths),
                    t.old_lengths.len(),
                    b1.put(&t.old),
                    t.old.len(),
                    t.moved,
                    l,
                    lent[3],
                    v,
                    lent[1],
                    n,
                ),
                MigrateExtract { live: t, subset } => (a.migrate_extract)(
                    n1.put(&t.shape),
                    t.shape.len(),
                    n2.put(&t.subsets),
                    t.subsets.len(),
                    n4.put(subset),
                    subset.len(),
                    n3.put(&t.old_lengths),
                    t.old_lengths.len(),
                    b1.put(&t.old),
                    t.old.len(),
                    t.moved,
                    n5.put(&t.moved_lengths),
                    t.moved_lengths.len(),
                    b2.put(&t.area),
                    t.area.len(),
                    v,
                    lent[1],
                    o,
                    lent[2],
                    n,
                ),
                Arrangement { depth, cells, number } => {
                    (a.arrangement)(*depth, *cells, *number, m, lent[0], v, lent[1], o, lent[2], n)
                }
                TableMake { kind, cells, masks, values, offsets, .. } => (a.table_make)(
                    c_kind(kind),
                    *cells,
                    b1.put(masks),
                    masks.len(),
                    b2.put(values),
                    values.len(),
                    n1.put(offsets),
                    offsets.len(),
                    m,
                    lent[0],
                    o,
                    lent[2],
                    l,
                    lent[3],
                    v,
                    lent[1],
                    n,
                ),
                TableRead { kind, cells, table: t } => (a.table_read)(
                    c_kind(kind),
                    *cells,
                    b1.put(&t.masks),
                    t.masks.len(),
                    n1.put(&t.starts),
                    t.starts.len(),
                    n2.put(&t.lengths),
                    t.lengths.len(),
                    b2.put(&t.store),
                    t.store.len(),
                    m,
                    lent[0],
                    v,
                    lent[1],
                    o,
                    lent[2],
                    n,
                ),
                TableSet { kind, cells, cell, cell_masks, value, .. } => (a.table_set)(
                    c_kind(kind),
                    *cells,
                    m,
                    lent[0],
                    o,
                    lent[2],
                    l,
                    lent[3],
                    v,
                    lent[1],
                    *cell,
                    b1.put(cell_masks),
                    cell_masks.len(),
                    b2.put(value),
                    value.len(),
                ),
                TablePack { kind, cells, table: t, most } => (a.table_pack)(
                    c_kind(kind),
                    *cells,
                    b1.put(&t.masks),
                    t.masks.len(),
                    o,
                    lent[2],
                    n2.put(&t.lengths),
                    t.lengths.len(),
                    v,
                    lent[1],
                    *most,
                    n,
                ),
                TablePreview { kind, cells, table: t, cell, cell_masks, value } => (a.table_preview)(
                    c_kind(kind),
                    *cells,
                    b1.put(&t.masks),
                    t.masks.len(),
                    n1.put(&t.starts),
                    t.starts.len(),
                    n2.put(&t.lengths),
                    t.lengths.len(),
                    b2.put(&t.store),
                    t.store.len(),
                    *cell,
                    b3.put(cell_masks),
                    cell_masks.len(),
                    b4.put(value),
                    value.len(),
                    n,
                ),
                GuestRead { kind, shape, rights, masks, values, offsets } => (a.guest_read)(
                    c_kind(kind),
                    n1.put(shape),
                    shape.len(),
                    b3.put(rights),
                    rights.len(),
                    b1.put(masks),
                    masks.len(),
                    b2.put(values),
                    values.len(),
                    n3.put(offsets),
                    offsets.len(),
                    m,
                    lent[0],
                    v,
                    lent[1],
                    o,
                    lent[2],
                    n,
                ),
                GuestEdit { kind, cells, rights, cell, cell_masks, value, .. } => (a.guest_edit)(
                    c_kind(kind),
                    *cells,
                    b3.put(rights),
                    rights.len(),
                    m,
                    lent[0],
                    o,
                    lent[2],
                    l,
                    lent[3],
                    v,
                    lent[1],
                    *cell,
                    b1.put(cell_masks),
                    cell_masks.len(),
                    b2.put(value),
                    value.len(),
                ),
            }
        }
    }

    /// Whether two calls with outputs of these lengths and of the same bytes answer alike and leave the same behind, guards included.
    pub fn alike(&mut self, one: &Request, other: &Request, lent: [usize; 4]) -> bool {
        let key = self.key;
        let left = [one, other].map(|request| {
            self.key = key;
            let answer = self.call(request, lent);
            let bytes = [self.masks.whole(), self.values.whole()];
            (answer, bytes, [self.offsets.whole(), self.cell_lengths.whole(), self.lengths.whole()])
        });
        left[0] == left[1]
    }

    /// A stored string read and written again: 0 where it came back the same, the number of its refusal, or what is wrong.
    pub fn again(&mut self, kind: &[u64; 5], shape: &[u64], bytes: &[u8]) -> Result<u32, &'static str> {
        let [n1, ..] = &mut self.numbers;
        let [b1, ..] = &mut self.bytes;
        let mut what = c"".as_ptr();
        let a = &self.archive;
        let answer =
            unsafe { again(a.decode, a.encode, c_kind(kind), n1.put(shape), shape.len(), b1.put(bytes), bytes.len(), &mut what) };
        match answer {
            DIFFERENT => Err(unsafe { CStr::from_ptr(what) }.to_str().unwrap()),
            _ if !n1.holds(shape) || !b1.holds(bytes) => Err("an input was changed"),
            answer => Ok(answer),
        }
    }

    /// What is wrong with the buffers after the last call, which should have ended as `expected`.
    pub fn fault(&self, request: &Request, expected: &Outcome) -> Option<&'static str> {
        let before = request.in_place().unwrap_or_default();
        let r = expected.as_ref().unwrap_or(&before);
        if !self.masks.is(&r.masks) {
            return Some("masks output");
        }
        if !self.values.is(&r.values) {
            return Some("values output, store or area");
        }
        if !self.offsets.is(&r.offsets) {
            return Some("offsets or starts output");
        }
        if !self.cell_lengths.is(&r.lengths) {
            return Some("lengths of cells or chunks");
        }
        let lengths = if expected.is_ok() { request.named(r) } else { vec![] };
        if !self.lengths.is(&lengths) {
            return Some("lengths");
        }
        let [n1, n2, n3, n4, n5] = &self.numbers;
        let [b1, b2, b3, b4] = &self.bytes;
        let kept = match request {
            Encode { shape, masks, values, offsets, .. } | EncodeInterleaved { shape, masks, values, offsets, .. } => {
                n1.holds(shape) && b1.holds(masks) && b2.holds(values) && n3.holds(offsets)
            }
            Decode { shape, bytes, .. } => n1.holds(shape) && b1.holds(bytes),
            DecodeInterleaved { bytes, .. } => b1.holds(bytes),
            Extract { shape, subset, masks, values, offsets, .. }
            | Merge { shape, subsets: subset, masks, values, offsets, .. } => {
                n1.holds(shape) && n2.holds(subset) && b1.holds(masks) && b2.holds(values) && n3.holds(offsets)
            }
            PartialDecode { shape, subset, bytes, .. } => n1.holds(shape) && n2.holds(subset) && b1.holds(bytes),
            ReverseEndianness { .. } | Arrangement { .. } => true,
            SubsetCells { shape, subset } => n1.holds(shape) && n2.holds(subset),
            Generate { shape, .. } => n1.holds(shape),
            TableMake { masks, values, offsets, .. } => b1.holds(masks) && b2.holds(values) && n1.holds(offsets),
            TableRead { table: t, .. } => b1.holds(&t.masks) && n1.holds(&t.starts) && n2.holds(&t.lengths) && b2.holds(&t.store),
            TablePreview { table: t, cell_masks, value, .. } => {
                let table = b1.holds(&t.masks) && n1.holds(&t.starts) && n2.holds(&t.lengths) && b2.holds(&t.store);
                table && b3.holds(cell_masks) && b4.holds(value)
            }
            TableSet { cell_masks, value, .. } => b1.holds(cell_masks) && b2.holds(value),
            GuestRead { shape, rights, masks, values, offsets, .. } => {
                n1.holds(shape) && b3.holds(rights) && b1.holds(masks) && b2.holds(values) && n3.holds(offsets)
            }
            GuestEdit { rights, cell_masks, value, .. } => b3.holds(rights) && b1.holds(cell_masks) && b2.holds(value),
            TablePack { table: t, .. } => b1.holds(&t.masks) && n2.holds(&t.lengths),
            MigrateStep { live: t } => n1.holds(&t.shape) && n2.holds(&t.subsets) && n3.holds(&t.old_lengths) && b1.holds(&t.old),
            MigrateExtract { live: t, subset } => {
                let old = n1.holds(&t.shape) && n2.holds(&t.subsets) && n3.holds(&t.old_lengths) && b1.holds(&t.old);
                old && n4.holds(subset) && n5.holds(&t.moved_lengths) && b2.holds(&t.area)
            }
        };
        if kept { None } else { Some("an input was changed") }
    }

    /// The results as the archive names and writes them. `None` where a named length is beyond its output. Of a table: all that was lent.
    pub fn results(&self, request: &Request) -> Option<Results> {
        let named = self.lengths.inside();
        let mut r = Results::default();
        if request.in_place().is_some() {
            r.whole = named.first().copied().unwrap_or(0);
            r.second = named.get(1).copied().unwrap_or(0);
            r.masks = self.masks.inside().to_vec();
            r.values = self.values.inside().to_vec();
            r.offsets = self.offsets.inside().to_vec();
            r.lengths = self.cell_lengths.inside().to_vec();
            return Some(r);
        }
        if let TablePreview { .. } = request {
            (r.whole, r.second) = (named[0], named[1]);
            return Some(r);
        }
        if let TableMake { .. } = request {
            r.masks = self.masks.inside().get(..named[0] as usize)?.to_vec();
            r.offsets = self.offsets.inside().get(..named[1] as usize)?.to_vec();
            r.lengths = self.cell_lengths.inside().get(..named[2] as usize)?.to_vec();
            r.values = self.values.inside().get(..named[3] as usize)?.to_vec();
            return Some(r);
        }
        let mut at = 0;
        let slots = request.slots();
        let mut length = |slot: usize| {
            let length = if slots[slot] { named[at] as usize } else { 0 };
            at += usize::from(slots[slot]);
            length
        };
        r.masks = self.masks.inside().get(..length(0))?.to_vec();
        r.values = self.values.inside().get(..length(1))?.to_vec();
        r.offsets = self.offsets.inside().get(..length(2))?.to_vec();
        Some(r)
    }
}
