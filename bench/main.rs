//! The archive's and the Rust's times, in one process: the two by turns, the best of many rounds each.
//!
//!   bench OBJECT [ROUNDS [FILE [ONLY]]]     FILE: every row with its times; ONLY: the rows of the interleaved form, generate, table, guest or
//!                                           arrangement, live or long alone
//!
//! Both get the same inputs, borrowed. The archive writes to lent outputs, reused from call to call. The Rust allocates: its results, and
//! inside encode and decode a part of the array for each level, the index and the data; giving that memory back is in its time. Where it
//! hands back what it borrowed (plain values, little order, depth 0), its result is copied to a reused buffer, so that both leave it in the
//! caller's memory. Kinds, shapes and chunk lists are built before the clock starts. The Rust is built with opt-level 3 over the stand-in chain,
//! which does less than the listed one.
//! Packed masks, which the Rust does not have, are timed against masks of bytes, both ours. encode_interleaved and generate, which it does not have either,
//! are timed against a plain Rust loop with reused buffers (bounds.rs), the former by the same C signature and into the same memory, and also against that
//! loop behind the same checks; working tables, guests' calls, arrangements and live tables against loops with the same checks (tables.rs, guests.rs,
//! arrangements.rs, live.rs).

#[path = "../oracle/driver/archive.rs"]
#[allow(dead_code)]
mod archive;
mod arrangements;
mod bounds;
mod guests;
mod inputs;
mod live;
mod long;
#[path = "../oracle/driver/rng.rs"]
#[allow(dead_code)]
mod rng;
mod tables;

use archive::{Archive, c_kind};
use bounds::Writer;
use inputs::*;
use rng::Rng;
use standin_release::{ArrayBytes, CodecOptions, FillValue, door};
use std::borrow::Cow;
use std::cell::RefCell;
use std::hint::black_box;
use std::time::{Duration, Instant};

// ---------------------------------------------------------------- lent outputs, and the archive's calls

struct Lent {
    masks: Vec<u8>,
    values: Vec<u8>,
    offsets: Vec<u64>,
    lengths: [u64; 3],
}
impl Lent {
    fn new() -> Lent {
        Lent { masks: vec![0; 4 * 65_536], values: vec![0; 20_000_000], offsets: vec![0; 65_537], lengths: [0; 3] }
    }
}

#[derive(Clone, Copy)]
enum Call<'a> {
    Encode(&'a Input),
    Decode(&'a Input, &'a [u8]),
    Interleaved(u64, &'a [u8]),
    Extract(&'a Input, &'a [u64]),
    Merge(&'a Input),
    Partial(&'a Input, &'a [u64], &'a [u8]),
    Reverse(u64, usize),
    Cells(&'a [u64], &'a [u64]),
    Older(&'a Input),
    /// Kind and shape, and how many value bytes are lent.
    Load(&'a [u64; 5], &'a [u64], usize),
    /// What a rights plane shows, and how many value bytes are lent.
    Seen(&'a Input, &'a [u8], usize),
    /// Depth, cells and number.
    Arranged([u64; 3]),
    Memcpy(&'a [u8]),
}
use Call::*;
const CALLS: [&str; 7] = ["encode", "decode", "decode_interleaved", "extract", "merge", "partial_decode", "reverse_endianness"];
const OLDER: &str = "encode_interleaved";
const LOAD: &str = "generate";
const TABLE: [&str; 5] = ["table_make", "table_read", "table_set", "table_pack", "table_preview"];
const GUEST: [&str; 2] = ["guest_read", "guest_edit"];
const ARRANGED: &str = "arrangement";
const LIVE: [&str; 2] = ["migrate_step", "migrate_extract"];
const START: u32 = 7;
impl Call<'_> {
    fn name(&self) -> &'static str {
        match self {
            Encode(..) => CALLS[0],
            Decode(..) => CALLS[1],
            Interleaved(..) => CALLS[2],
            Extract(..) => CALLS[3],
            Merge(..) => CALLS[4],
            Partial(..) => CALLS[5],
            Reverse(..) => CALLS[6],
            Older(..) => OLDER,
            Load(..) => LOAD,
            Seen(..) => GUEST[0],
            Arranged(..) => ARRANGED,
            Memcpy(..) | Cells(..) => "",
        }
    }
}

/// Inlined, so that where the call is known no time goes into finding out which it is.
#[inline(always)]
fn ours(a: &Archive, call: Call, l: &mut Lent) {
    let (m, v, o) = (l.masks.as_mut_ptr(), l.values.as_mut_ptr(), l.offsets.as_mut_ptr());
    let (ml, vl, ol) = (l.masks.len(), l.values.len(), l.offsets.len());
    let n = l.lengths.as_mut_ptr();
    let answer = unsafe {
        match call {
            #[rustfmt::skip]
            Encode(i) => (a.encode)(
                c_kind(&i.kind), i.shape.as_ptr(), i.shape.len(), i.masks.as_ptr(), i.masks.len(),
                i.values.as_ptr(), i.values.len(), i.offsets.as_ptr(), i.offsets.len(), v, vl, n,
            ),
            #[rustfmt::skip]
            Older(i) => (a.encode_interleaved)(
                c_kind(&i.kind), i.shape.as_ptr(), i.shape.len(), i.masks.as_ptr(), i.masks.len(),
                i.values.as_ptr(), i.values.len(), i.offsets.as_ptr(), i.offsets.len(), v, vl, n,
            ),
            #[rustfmt::skip]
            Decode(i, s) => (a.decode)(
                c_kind(&i.kind), i.shape.as_ptr(), i.shape.len(), s.as_ptr(), s.len(), m, ml, v, vl, o, ol, n,
            ),
            Interleaved(cells, s) => (a.decode_interleaved)(cells, s.as_ptr(), s.len(), v, vl, o, ol, n),
            #[rustfmt::skip]
            Extract(i, q) => (a.extract)(
                c_kind(&i.kind), i.shape.as_ptr(), i.shape.len(), q.as_ptr(), q.len(), i.masks.as_ptr(), i.masks.len(),
                i.values.as_ptr(), i.values.len(), i.offsets.as_ptr(), i.offsets.len(), m, ml, v, vl, o, ol, n,
            ),
            #[rustfmt::skip]
            Merge(i) => (a.merge)(
                c_kind(&i.kind), i.shape.as_ptr(), i.shape.len(), i.subsets.as_ptr(), i.subsets.len(), i.masks.as_ptr(), i.masks.len(),
                i.values.as_ptr(), i.values.len(), i.offsets.as_ptr(), i.offsets.len(), m, ml, v, vl, o, ol, n,
            ),
            #[rustfmt::skip]
            Partial(i, q, s) => (a.partial_decode)(
                i.kind[2], i.kind[3], i.shape.as_ptr(), i.shape.len(), q.as_ptr(), q.len(), s.as_ptr(), s.len(), v, vl, o, ol, n,
            ),
            Reverse(size, length) => (a.reverse_endianness)(size, v, length, n),
            Cells(shape, q) => (a.subset_cells)(shape.as_ptr(), shape.len(), q.as_ptr(), q.len(), o, ol, n),
            Load(kind, shape, room) => (a.generate)(c_kind(kind), shape.as_ptr(), shape.len(), START, m, ml, v, room, o, ol, n),
            #[rustfmt::skip]
            Seen(i, rights, room) => (a.guest_read)(
                c_kind(&i.kind), i.shape.as_ptr(), i.shape.len(), rights.as_ptr(), rights.len(), i.masks.as_ptr(), i.masks.len(),
                i.values.as_ptr(), i.values.len(), i.offsets.as_ptr(), i.offsets.len(), m, ml, v, room, o, ol, n,
            ),
            Arranged([depth, cells, number]) => (a.arrangement)(depth, cells, number, m, ml, v, vl, o, ol, n),
            Memcpy(s) => {
                l.values[..s.len()].copy_from_slice(black_box(s));
                0
            }
        }
    };
    assert_eq!(answer, 0);
    black_box(l);
}

// ---------------------------------------------------------------- the clock

/// A timed batch: so many calls, and the time they took.
type Timed<'a> = Box<dyn FnMut(u32) -> Duration + 'a>;

fn timed<'a>(mut once: impl FnMut() + 'a) -> Timed<'a> {
    Box::new(move |times| {
        let clock = Instant::now();
        for _ in 0..times {
            once();
        }
        clock.elapsed()
    })
}
/// Best nanoseconds a call of each, by turns.
fn best(sides: &mut [Timed], rounds: u32) -> Vec<f64> {
    const BATCH: f64 = 200_000.0; // nanoseconds
    const LONG: f64 = 1e9;
    let mut turn = 0.0;
    let times: Vec<u32> = sides
        .iter_mut()
        .map(|side| {
            side(1);
            let once = side(3).as_nanos() as f64 / 3.0;
            let times = (BATCH / once.max(1.0)).clamp(1.0, 20_000.0) as u32;
            turn += once * f64::from(times);
            times
        })
        .collect();
    let mut best = vec![f64::MAX; sides.len()];
    // A long call fills its batch alone: it gets up to four times the rounds, as many as a second holds.
    let rounds = if times.contains(&1) { rounds.max((LONG / turn) as u32).min(4 * rounds) } else { rounds };
    for _ in 0..rounds {
        for (at, side) in sides.iter_mut().enumerate() {
            let now = side(times[at]).as_nanos() as f64 / f64::from(times[at]);
            best[at] = best[at].min(now);
        }
    }
    best
}

/// What keeps a row from getting better: it is one copy of these bytes, or every length of this older form before the first store.
enum Bound<'a> {
    Copy(&'a [u8]),
    Walks(&'a [u8]),
}
impl Bound<'_> {
    /// Ours may take so much of its bound's time, in two digits as printed.
    fn slack(&self) -> f64 {
        match self {
            Bound::Copy(_) => 1.05,
            Bound::Walks(_) => 1.10,
        }
    }
}
/// A row under 1.0 beside its bound: ours and the bound by turns, nanoseconds, and what else was measured.
struct Held {
    ours: f64,
    bound: f64,
    slack: f64,
    loops: String,
}

/// One row: what was called with, the column it stands in, and nanoseconds a call of the other side (the Rust; beside packed masks our masks of
/// bytes) and of ours. Rows below masks have a table of their own.
struct Row {
    call: &'static str,
    below: bool,
    kind: String,
    what: String,
    column: String,
    other: f64,
    ours: f64,
    held: Option<Held>,
}
impl Row {
    fn ratio(&self) -> f64 {
        self.other / self.ours
    }
    /// Whether its bound keeps it under 1.0.
    fn at_bound(&self) -> bool {
        self.held.as_ref().is_some_and(|held| (100.0 * held.ours / held.bound).round() <= (100.0 * held.slack).round())
    }
}

struct Bench {
    archive: Archive,
    rounds: u32,
    rows: Vec<Row>,
    /// Packed masks beside masks of bytes.
    packed: Vec<Row>,
    /// encode_interleaved beside a plain loop, which stands where other rows have the Rust.
    older: Vec<Row>,
    /// The same beside that loop behind our checks.
    checked: Vec<Row>,
    /// generate beside a plain loop that makes the load in one run: as we do, and where we need two.
    loads: [Vec<Row>; 2],
    /// The calls on working tables beside plain loops.
    tables: Vec<Row>,
    /// Guests' calls beside plain loops.
    guests: Vec<Row>,
    /// Arrangements beside a plain loop.
    arranged: Vec<Row>,
    /// The calls on live tables beside plain loops.
    live: Vec<Row>,
}

fn keep<T>(result: T) {
    drop(black_box(result));
}

impl Bench {
    fn new(archive: Archive, rounds: u32) -> Bench {
        let (rows, packed, older, checked) = (vec![], vec![], vec![], vec![]);
        let (loads, tables, guests, arranged, live) = ([vec![], vec![]], vec![], vec![], vec![], vec![]);
        Bench { archive, rounds, rows, packed, older, checked, loads, tables, guests, arranged, live }
    }

    fn ours<'a>(&self, call: Call<'a>) -> Timed<'a> {
        let (a, mut l) = (self.archive, Lent::new());
        match call {
            Encode(i) => timed(move || ours(&a, Encode(i), &mut l)),
            Decode(i, s) => timed(move || ours(&a, Decode(i, s), &mut l)),
            Interleaved(cells, s) => timed(move || ours(&a, Interleaved(cells, s), &mut l)),
            Extract(i, q) => timed(move || ours(&a, Extract(i, q), &mut l)),
            Merge(i) => timed(move || ours(&a, Merge(i), &mut l)),
            Partial(i, q, s) => timed(move || ours(&a, Partial(i, q, s), &mut l)),
            Reverse(size, length) => timed(move || ours(&a, Reverse(size, length), &mut l)),
            Cells(shape, q) => timed(move || ours(&a, Cells(shape, q), &mut l)),
            Older(i) => timed(move || ours(&a, Older(i), &mut l)),
            Load(kind, shape, room) => timed(move || ours(&a, Load(kind, shape, room), &mut l)),
            Seen(i, rights, room) => timed(move || ours(&a, Seen(i, rights, room), &mut l)),
            Arranged(numbers) => timed(move || ours(&a, Arranged(black_box(numbers)), &mut l)),
            Memcpy(s) => timed(move || ours(&a, Memcpy(s), &mut l)),
        }
    }

    /// Ours and another, by turns. Where a buffer lies, or what else the machine does, can cost more than the call: while ours takes more than
    /// `limit` of the other's time, both are tried again a little later, ours with outputs elsewhere, up to eleven times, and the best of each counts.
    /// Not where it takes more than `hopeless` of it: no noise explains that; nor where one round is asked for, to see that all runs.
    fn turns(&self, call: Call, other: Timed, limit: f64, hopeless: f64) -> [f64; 2] {
        self.turns_of(|| self.ours(call), other, limit, hopeless)
    }
    fn turns_of<'a>(&self, mine: impl Fn() -> Timed<'a>, mut other: Timed, limit: f64, hopeless: f64) -> [f64; 2] {
        self.tries(|| best(&mut [mine(), Box::new(&mut other)], self.rounds), limit, hopeless)
    }
    fn tries(&self, mut once: impl FnMut() -> Vec<f64>, limit: f64, hopeless: f64) -> [f64; 2] {
        let mut elsewhere = vec![];
        let mut times = [f64::MAX; 2];
        let again = |[ours, other]: [f64; 2]| self.rounds > 1 && ours > limit * other && ours <= hopeless * other;
        while elsewhere.is_empty() || again(times) && elsewhere.len() < 12 {
            if !elsewhere.is_empty() {
                std::thread::sleep(Duration::from_millis(500));
            }
            let now = once();
            times = [times[0].min(now[0]), times[1].min(now[1])];
            elsewhere.push(Lent::new());
        }
        times
    }

    /// Both sides give the same, then the clock.
    fn row(&mut self, name: [String; 3], call: Call, rust: Timed, same: (Vec<u8>, Vec<u8>, Vec<u64>)) {
        let mut lent = Lent::new();
        if let Reverse(_, length) = call {
            lent.values[..length].copy_from_slice(&Rng(3).bytes(length));
        }
        ours(&self.archive, call, &mut lent);
        let (m, v, o) = (&lent.masks[..same.0.len()], &lent.values[..same.1.len()], &lent.offsets[..same.2.len()]);
        let [kind, what, column] = name;
        let call_name = call.name();
        assert!((m, v, o) == (&same.0[..], &same.1[..], &same.2[..]), "not the same: {call_name} {kind} {what} {column}");
        let [ours, rust] = self.turns(call, rust, 1.0, f64::MAX);
        let below = matches!(call, Encode(i) | Decode(i, _) if i.kind[0] > 0);
        let bound = match call {
            Encode(i) | Decode(i, _) if i.kind[..2] == [0, 0] && i.kind[3] == 0 => Some(Bound::Copy(&i.values)),
            Interleaved(_, stored) if what == Values::Long.name() => Some(Bound::Walks(stored)),
            _ => None,
        };
        let held = bound.filter(|_| ours > rust).map(|bound| self.held(call, bound));
        self.rows.push(Row { call: call_name, below, kind, what, column, other: rust, ours, held });
    }

    /// Our checks alone: the values' output is too short, which is seen last.
    fn checks<'a>(&self, call: Call<'a>) -> Timed<'a> {
        let (a, mut l) = (self.archive, Lent::new());
        timed(move || {
            let (m, v, o) = (l.masks.as_mut_ptr(), l.values.as_mut_ptr(), l.offsets.as_mut_ptr());
            let (ml, ol, n) = (l.masks.len(), l.offsets.len(), l.lengths.as_mut_ptr());
            let answer = unsafe {
                match call {
                    #[rustfmt::skip]
                    Encode(i) => (a.encode)(
                        c_kind(&i.kind), i.shape.as_ptr(), i.shape.len(), i.masks.as_ptr(), i.masks.len(),
                        i.values.as_ptr(), i.values.len(), i.offsets.as_ptr(), i.offsets.len(), v, 0, n,
                    ),
                    #[rustfmt::skip]
                    Decode(i, s) => (a.decode)(
                        c_kind(&i.kind), i.shape.as_ptr(), i.shape.len(), s.as_ptr(), s.len(), m, ml, v, 0, o, ol, n,
                    ),
                    Interleaved(cells, s) => (a.decode_interleaved)(cells, s.as_ptr(), s.len(), v, 0, o, ol, n),
                    _ => unreachable!(),
                }
            };
            assert_eq!(answer, 6);
            black_box(&mut l);
        })
    }

    fn held(&self, call: Call, bound: Bound) -> Held {
        let slack = bound.slack();
        match bound {
            Bound::Copy(from) => {
                let mut to = Lent::new().values;
                let memcpy = timed(|| {
                    to[..from.len()].copy_from_slice(black_box(from));
                    black_box(&mut to);
                });
                let [ours, memcpy] = self.turns(call, memcpy, slack, f64::MAX);
                let checks = best(&mut [self.checks(call)], self.rounds)[0];
                let loops =
                    format!("memcpy of {} bytes {}, our checks alone {}", from.len(), nanoseconds(memcpy), nanoseconds(checks));
                Held { ours, bound: memcpy + checks, slack, loops }
            }
            Bound::Walks(stored) => {
                let side = |walk: fn(&[u8], &mut [u8], &mut [u64]) -> usize| {
                    let mut lent = Lent::new();
                    timed(move || {
                        walk(black_box(stored), &mut lent.values, &mut lent.offsets);
                        black_box(&mut lent);
                    })
                };
                let [ours, bound] = self.turns(call, side(bounds::two_walks), slack, f64::MAX);
                let others = best(&mut [side(bounds::one_walk), self.checks(call)], self.rounds);
                let [one, two, checks] = [others[0], bound, others[1]].map(nanoseconds);
                let loops = format!("all lengths before the first store {two}, one walk {one}, our checks alone {checks}");
                Held { ours, bound, slack, loops }
            }
        }
    }

    fn encode_and_decode(&mut self, i: &Input, what: &str) {
        let k = door::kind(four(&i.kind));
        let shape = door::sides(&i.shape);
        let fill = FillValue::new(vec![]);
        let stored = door::encode(four(&i.kind), &i.shape, &i.masks, &i.values, &i.offsets).unwrap();
        let name = || [kind_name(&i.kind), what.to_string(), format!("d{} {}", i.kind[0], cells_of(&i.shape))];
        let mut reused = vec![0; stored.len()];
        let rust = timed(|| {
            let array = door::array(k.ragged, k.depth, &i.masks, &i.values, &i.offsets);
            let bytes = k.chain.encode(black_box(array), &shape, &k.data_type, &fill, &CodecOptions).unwrap();
            if let Cow::Borrowed(bytes) = bytes {
                reused.copy_from_slice(bytes);
                black_box(&mut reused);
            }
            keep(bytes);
        });
        self.row(name(), Encode(i), rust, (vec![], stored.clone(), vec![]));
        let back = door::decode(four(&i.kind), &i.shape, &stored).unwrap();
        let mut reused = vec![0; i.values.len()];
        let rust = timed(|| {
            let bytes = Cow::Borrowed(black_box(&stored[..]));
            let array = k.chain.decode(bytes, &shape, &k.data_type, &fill, &CodecOptions).unwrap();
            if let ArrayBytes::Fixed(Cow::Borrowed(values)) = &array {
                reused.copy_from_slice(values);
                black_box(&mut reused);
            }
            keep(array);
        });
        self.row(name(), Decode(i, &stored), rust, back);
    }

    /// What we store of an array.
    fn stored(&self, i: &Input) -> Vec<u8> {
        let mut lent = Lent::new();
        ours(&self.archive, Encode(i), &mut lent);
        lent.values[..lent.lengths[0] as usize].to_vec()
    }

    /// Packed masks and masks of bytes read as the same array, then the clock.
    fn packed_row(&mut self, packed: Call, bytes: Call, i: &Input, what: &str) {
        if let Decode(..) = packed {
            let read = [packed, bytes].map(|call| {
                let mut lent = Lent::new();
                ours(&self.archive, call, &mut lent);
                let [m, v, o] = lent.lengths.map(|n| n as usize);
                (lent.masks[..m].to_vec(), lent.values[..v].to_vec(), lent.offsets[..o].to_vec())
            });
            assert!(read[0] == read[1], "packed masks read otherwise: {} {what}", kind_name(&i.kind));
        }
        let [ours, other] = self.turns(packed, self.ours(bytes), 1.0, 1.05);
        let column = format!("d{} {}", i.kind[0], cells_of(&i.shape));
        let (kind, what) = (kind_name(&i.kind), what.to_string());
        self.packed.push(Row { call: packed.name(), below: true, kind, what, column, other, ours, held: None });
    }

    fn packed_and_bytes(&mut self, i: &Input, what: &str) {
        let bits = packed(i);
        self.packed_row(Encode(&bits), Encode(i), i, what);
        let stored = [self.stored(&bits), self.stored(i)];
        self.packed_row(Decode(&bits, &stored[0]), Decode(i, &stored[1]), i, what);
    }

    /// The loops write the same, then the clock. Where both are tried again, both write elsewhere.
    fn older_row(&mut self, i: &Input, what: &str) {
        let buffer = || Vec::with_capacity(20_000_000);
        let mine = Writer::Ours(self.archive.encode_interleaved);
        let [written, plain, checked] = [mine, Writer::Plain, Writer::Checked].map(|writer| {
            let mut out = buffer();
            writer.write(i, &mut out, 1);
            out
        });
        assert!(written == plain && written == checked, "not the same: {OLDER} {what}");
        let row = |other: Writer| {
            let once = || {
                let out = &RefCell::new(buffer());
                let side = |writer: Writer| -> Timed { Box::new(move |times| writer.write(i, &mut out.borrow_mut(), times)) };
                best(&mut [side(mine), side(other)], self.rounds)
            };
            let [ours, other] = self.tries(once, 1.0, f64::MAX);
            let (kind, what, column) = (String::new(), what.to_string(), cells_of(&i.shape).to_string());
            Row { call: OLDER, below: false, kind, what, column, other, ours, held: None }
        };
        let (plain, checked) = (row(Writer::Plain), row(Writer::Checked));
        self.older.push(plain);
        self.checked.push(checked);
    }

    /// The loop makes the same, then the clock. One run is enough where the output holds any load.
    fn load_row(&mut self, kind: [u64; 5], cells: usize, exact: bool) {
        let shape = square(cells);
        let mut reused = bounds::Load::default();
        bounds::make_load(&kind, &shape, START, &mut reused).unwrap();
        let bytes = reused.values.len();
        let room = if exact || kind[1] == 0 { bytes } else { 8 * cells };
        let mut lent = Lent::new();
        ours(&self.archive, Load(&kind, &shape, room), &mut lent);
        let bounds::Load { masks, values, offsets } = &reused;
        let same = (&lent.masks[..masks.len()], &lent.values[..bytes], &lent.offsets[..offsets.len()]);
        assert!(same == (&masks[..], &values[..], &offsets[..]), "not the same: {LOAD} {}", kind_name(&kind));
        let plain = timed(|| {
            bounds::make_load(black_box(&kind), &shape, black_box(START), &mut reused).unwrap();
            black_box(&mut reused);
        });
        let (limit, what) =
            if exact { (2.0, "output of just the load") } else { (1.0, ["", "8 bytes a cell"][kind[1] as usize]) };
        let [ours, other] = self.turns(Load(&kind, &shape, room), plain, limit, f64::MAX);
        let (name, what, column) = (format!("d{} {}", kind[0], kind_name(&kind)), what.to_string(), cells.to_string());
        let row = Row { call: LOAD, below: false, kind: name, what, column, other, ours, held: None };
        self.loads[usize::from(exact)].push(row);
    }

    /// The loop shows the same, then the clock. With room for the whole array what is shown needs no counting; with just the room for it, it does.
    fn guest_row(&mut self, i: &Input, rights: &[u8], exact: bool, what: String) {
        let room = |lengths: [usize; 3]| {
            let [masks, values, offsets] = lengths;
            tables::Read { masks: vec![0; masks], values: vec![0; values], offsets: vec![0; offsets] }
        };
        let mut plain = room([i.masks.len(), i.values.len(), i.offsets.len()]);
        let [masks, values, offsets] = guests::read(i, rights, &mut plain).unwrap();
        let bytes = if exact { values } else { i.values.len() };
        let mut lent = Lent::new();
        ours(&self.archive, Seen(i, rights, bytes), &mut lent);
        let same = (&lent.masks[..masks], &lent.values[..values], &lent.offsets[..offsets], lent.lengths.map(|n| n as usize));
        let due = (&plain.masks[..], &plain.values[..values], &plain.offsets[..], [masks, values, offsets]);
        assert!(same == due, "not the same: {} {} {what}", GUEST[0], kind_name(&i.kind));
        let mut reused = room([masks, bytes, offsets]);
        let other = timed(|| {
            guests::read(black_box(i), rights, &mut reused).unwrap();
            black_box(&mut reused);
        });
        let [ours, other] = self.turns(Seen(i, rights, bytes), other, 1.0, 2.0);
        let kind = format!("d{} {}", i.kind[0], kind_name(&i.kind));
        let column = cells_of(&i.shape).to_string();
        self.guests.push(Row { call: GUEST[0], below: true, kind, what, column, other, ours, held: None });
    }

    /// The loop makes the same, then the clock.
    fn arranged_row(&mut self, numbers: [u64; 3], what: &str, mut reused: tables::Read) {
        let [depth, cells, number] = numbers;
        let [masks, values, offsets] = arrangements::make(depth, cells, number, &mut reused).unwrap();
        let mut lent = Lent::new();
        ours(&self.archive, Arranged(numbers), &mut lent);
        let same = (&lent.masks[..masks], &lent.values[..values], &lent.offsets[..offsets], lent.lengths.map(|n| n as usize));
        let due = (&reused.masks[..masks], &reused.values[..values], &reused.offsets[..offsets], [masks, values, offsets]);
        assert!(same == due, "not the same: {ARRANGED} {numbers:?}");
        let other = timed(|| {
            let [depth, cells, number] = black_box(numbers);
            keep(arrangements::make(depth, cells, number, &mut reused));
            black_box(&mut reused);
        });
        let [ours, other] = self.turns(Arranged(numbers), other, 1.0, 2.0);
        let (kind, what, column) = (format!("d{depth}"), what.to_string(), cells.to_string());
        self.arranged.push(Row { call: ARRANGED, below: depth > 0, kind, what, column, other, ours, held: None });
    }

    fn interleaved(&mut self, cells: usize, values: Values) {
        let stored = interleaved(cells, values);
        let same = door::decode_interleaved(cells as u64, &stored).unwrap();
        let bytes = Cow::Borrowed(&stored[..]);
        let rust = timed(|| keep(door::interleaved(cells, black_box(&bytes))));
        let name = [String::new(), values.name().to_string(), cells.to_string()];
        self.row(name, Interleaved(cells as u64, &stored), rust, same);
    }

    fn extract(&mut self, i: &Input, numbers: &[u64], what: &str, column: &str) {
        let same = door::extract(&i.shape, numbers, &i.values, &i.offsets).unwrap();
        let (subset, shape) = (door::subset(numbers), door::sides(&i.shape));
        let rust = timed(|| keep(door::extracted(black_box(&i.values), &i.offsets, &subset, &shape)));
        let name = [kind_name(&i.kind), what.to_string(), column.to_string()];
        self.row(name, Extract(i, numbers), rust, same);
    }

    fn partial_decode(&mut self, i: &Input, numbers: &[u64], what: &str, column: &str) {
        let stored = door::encode(four(&i.kind), &i.shape, &[], &i.values, &i.offsets).unwrap();
        let same = door::partial_decode(i.kind[2], i.kind[3], &i.shape, numbers, &stored).unwrap();
        let decoder = door::partial_decoder(i.kind[2], i.kind[3], &i.shape, &stored);
        let subset = door::subset(numbers);
        let rust = timed(|| keep(decoder.partial_decode(black_box(&subset), &CodecOptions).unwrap()));
        let name = [kind_name(&i.kind), what.to_string(), column.to_string()];
        self.row(name, Partial(i, numbers, &stored), rust, same);
    }

    fn merge(&mut self, i: &Input, what: &str) {
        let (depth, subsets) = (i.kind[0] as usize, i.subsets.len() / 4);
        let same = door::merge(i.kind[0], &i.shape, &i.subsets, &i.masks, &i.values, &i.offsets).unwrap();
        let list = || door::list(depth, door::chunks(depth, 2, &i.subsets, &i.masks, &i.values, &i.offsets));
        let rust: Timed = Box::new(|times| {
            // the merge takes the lists away, so they are built first
            let lists: Vec<door::List> = (0..times).map(|_| list()).collect();
            let clock = Instant::now();
            for list in lists {
                keep(door::merged(depth, &i.shape, black_box(list)).unwrap());
            }
            clock.elapsed()
        });
        let kind = format!("d{depth} {}", kind_name(&i.kind));
        let name = [kind, what.to_string(), format!("{} in {subsets}", cells_of(&i.shape))];
        self.row(name, Merge(i), rust, same);
    }

    fn reverse(&mut self, size: u64, length: usize, column: String) {
        let same = door::reverse_endianness(size, &Rng(3).bytes(length)).unwrap();
        let mut bytes = vec![0; length];
        let rust = timed(|| {
            door::reverse(size, black_box(&mut bytes));
        });
        let name = [format!("size {size}"), String::new(), column];
        self.row(name, Reverse(size, length), rust, (vec![], same, vec![]));
    }

    // ---------------------------------------------------------------- ours alone

    fn to_memcpy(&mut self, name: &str, call: Call, bytes: &[u8]) -> f64 {
        let times = best(&mut [self.ours(call), self.ours(Memcpy(bytes))], self.rounds);
        let ratio = times[1] / times[0];
        println!("| {name} | {} | {} | {} | {ratio:.2} |", bytes.len(), nanoseconds(times[1]), nanoseconds(times[0]));
        ratio
    }

    fn per(&mut self, call: Call, count: usize) -> f64 {
        best(&mut [self.ours(call)], self.rounds)[0] / count as f64
    }
}

const CELLS: [usize; 4] = [1, 64, 4096, 65_536];
const SIZES: [u64; 6] = [1, 2, 4, 8, 16, 64];

fn rows(b: &mut Bench) {
    let fixed_kinds = || SIZES.into_iter().flat_map(|size| [(size, 0), (size, 1)]);
    let ragged_kinds = [(4, 0), (4, 1), (8, 0), (8, 1)];
    for (size, order) in fixed_kinds() {
        for cells in CELLS {
            b.encode_and_decode(&input(fixed(0, size, order), square(cells), Mask::Full, Values::Short), "");
        }
    }
    for (width, place) in ragged_kinds {
        for values in VALUES {
            for cells in CELLS {
                b.encode_and_decode(&input(ragged(0, width, place), square(cells), Mask::Full, values), values.name());
            }
        }
    }
    let mut below = |kind: fn(u64, u64, u64) -> [u64; 5], (size, order), mask: Mask, values: Values, what: &str| {
        for depth in 1..=4 {
            for cells in CELLS {
                b.encode_and_decode(&input(kind(depth, size, order), square(cells), mask, values), what);
            }
        }
    };
    for (size, order) in fixed_kinds() {
        for mask in MASKS {
            if mask == Mask::Half || order == 0 && [1, 8, 64].contains(&size) {
                below(fixed, (size, order), mask, Values::Short, mask.name());
            }
        }
    }
    for kind in [(4, 1), (8, 0)] {
        for mask in MASKS {
            for values in VALUES {
                if mask == Mask::Half || values == Values::Short {
                    below(ragged, kind, mask, values, &format!("{}, {}", mask.name(), values.name()));
                }
            }
        }
    }
    interleaved_rows(b);
    for (width, place) in ragged_kinds {
        for values in VALUES {
            let arrays = CELLS.map(|cells| input(ragged(0, width, place), square(cells), Mask::Full, values));
            // what is stored how does not matter to extract
            for i in &arrays {
                let (whole, column) = ([0, 0, i.shape[0], i.shape[1]], cells_of(&i.shape).to_string());
                if (width, place) == (8, 0) {
                    b.extract(i, &whole, values.name(), &column);
                }
                b.partial_decode(i, &whole, values.name(), &column);
            }
            for i in &arrays[1..] {
                let (part, column) = (quarter(&i.shape), format!("quarter of {}", cells_of(&i.shape)));
                if (width, place) == (8, 0) {
                    b.extract(i, &part, values.name(), &column);
                }
                b.partial_decode(i, &part, values.name(), &column);
            }
        }
    }
    let mut merge = |depth, mask: Mask, values: Values, lists: &[(usize, usize)]| {
        for (cells, count) in lists {
            let masks = if depth > 0 { format!("{}, ", mask.name()) } else { String::new() };
            b.merge(&chunk_list(depth, *cells, *count, mask, values), &format!("{masks}{}", values.name()));
        }
    };
    const LISTS: [(usize, usize); 7] = [(64, 1), (64, 64), (4096, 1), (4096, 64), (65_536, 1), (65_536, 64), (65_536, 65_536)];
    for depth in 0..=4 {
        merge(depth, Mask::Half, Values::Short, &LISTS);
    }
    for mask in [Mask::Empty, Mask::Full, Mask::Clustered] {
        merge(1, mask, Values::Short, &LISTS[4..]);
    }
    for depth in [0, 1] {
        for values in [Values::Long, Values::Empty] {
            merge(depth, Mask::Half, values, &LISTS[4..]);
        }
    }
    for cells in CELLS {
        for size in SIZES {
            b.reverse(size, size as usize * cells, cells.to_string());
        }
    }
    for length in [64, 32_768, 4_194_304] {
        for size in SIZES {
            // some are there already
            if !CELLS.contains(&(length / size as usize)) {
                b.reverse(size, length, format!("{length} bytes"));
            }
        }
    }
}
fn interleaved_rows(b: &mut Bench) {
    for cells in CELLS {
        for values in VALUES {
            b.interleaved(cells, values);
        }
    }
}
/// Masks of one bit a cell, at each depth.
fn packed_rows(b: &mut Bench) {
    let mut below = |kind: fn(u64, u64, u64) -> [u64; 5], (size, order), mask: Mask, what: &str| {
        for depth in 1..=4 {
            for cells in [4096, 65_536] {
                b.packed_and_bytes(&input(kind(depth, size, order), square(cells), mask, Values::Short), what);
            }
        }
    };
    for mask in [Mask::Half, Mask::Full, Mask::Clustered, Mask::Sparse, Mask::Empty] {
        for size in SIZES {
            below(fixed, (size, 0), mask, mask.name());
        }
        below(fixed, (8, 1), mask, mask.name());
        for kind in [(4, 1), (8, 0)] {
            below(ragged, kind, mask, mask.name());
        }
    }
}
/// The older form written: values as elsewhere, and of other lengths.
fn older_rows(b: &mut Bench) {
    for cells in CELLS {
        for values in VALUES {
            b.older_row(&input(ragged(0, 8, 0), square(cells), Mask::Full, values), values.name());
        }
        for most in [16, 40, 64, 250] {
            b.older_row(&of_lengths(cells, |rng| rng.below(most + 1) as u64), &format!("0 to {most} bytes"));
        }
        b.older_row(&of_lengths(cells, |rng| if rng.once_in(2) { 0 } else { 5 }), "half of them empty");
        if cells <= 4096 {
            b.older_row(&of_lengths(cells, |_| 1000), "1000 bytes");
            b.older_row(&of_lengths(cells, |_| 4096), "4096 bytes");
        }
    }
}
/// Loads at depth 0 and 4; ragged ones into outputs that hold any load, and into outputs of just this one.
fn load_rows(b: &mut Bench) {
    for depth in [0, 4] {
        for cells in &CELLS[1..] {
            for size in [1, 8, 64] {
                b.load_row(fixed(depth, size, 0), *cells, false);
            }
            for exact in [false, true] {
                b.load_row(ragged(depth, 4, 0), *cells, exact);
            }
        }
    }
}
/// The five calls on tables of 0 to 8 bytes a cell. What a call changes is put back after each, on both sides alike, within the time: of a setting two
/// numbers, of a packing, and of a setting that packs beforehand, the starts and the store.
fn table_rows(b: &mut Bench) {
    for depth in [0, 2] {
        for cells in [64, 4_096, 65_536] {
            for state in tables::State::ALL {
                table_cases(b, depth, cells, state);
            }
        }
    }
}
fn table_cases(b: &mut Bench, depth: usize, cells: usize, state: tables::State) {
    let kind = ragged(depth as u64, 8, 0);
    let table = tables::table(depth, cells, state);
    let column = cells.to_string();
    let mut row = |call: &'static str, what: &str, sides: [f64; 2]| {
        let (kind, what) = (format!("d{depth} {}", state.name()), what.to_string());
        b.tables.push(Row {
            call,
            below: false,
            kind,
            what,
            column: column.clone(),
            other: sides[1],
            ours: sides[0],
            held: None,
        });
    };
    let a = b.archive;
    let timer = Bench::new(a, b.rounds);
    let (k, n) = (c_kind(&kind), cells as u64);
    let order = || Vec::with_capacity(cells);

    // read out, and from the first table the array that it gives made again
    let mut plain =
        tables::Read { masks: vec![0; depth * cells], values: vec![0; table.store.len()], offsets: vec![0; cells + 1] };
    tables::read(&kind, cells, &table, &mut order(), &mut plain).unwrap();
    let reading = |t: &tables::Table, out: &mut tables::Read| unsafe {
        let mut lengths = [0; 3];
        #[rustfmt::skip]
        let answer = (a.table_read)(
            k, n, t.masks.as_ptr(), t.masks.len(), t.starts.as_ptr(), cells, t.lengths.as_ptr(), cells, t.store.as_ptr(), t.store.len(),
            out.masks.as_mut_ptr(), out.masks.len(), out.values.as_mut_ptr(), out.values.len(), out.offsets.as_mut_ptr(), out.offsets.len(),
            lengths.as_mut_ptr(),
        );
        assert_eq!(answer, 0);
        black_box(out);
    };
    let room = || tables::Read { masks: vec![0; depth * cells], values: vec![0; table.store.len()], offsets: vec![0; cells + 1] };
    let (mut mine, from) = (room(), &table);
    reading(from, &mut mine);
    assert!(mine == plain, "not the same: table_read");
    let bytes = plain.offsets[cells] as usize;
    let array = (plain.masks.clone(), plain.values[..bytes].to_vec(), plain.offsets.clone());
    let mut o = order();
    let other = timed(|| {
        tables::read(black_box(&kind), cells, &table, &mut o, &mut plain).unwrap();
        black_box(&mut plain);
    });
    let sides = timer.turns_of(
        || {
            let mut out = room();
            timed(move || reading(from, &mut out))
        },
        other,
        1.0,
        2.0,
    );
    row(TABLE[1], "", sides);

    if state == tables::State::Fresh {
        let making = |out: &mut tables::Table| unsafe {
            let mut lengths = [0; 4];
            #[rustfmt::skip]
            let answer = (a.table_make)(
                k, n, array.0.as_ptr(), array.0.len(), array.1.as_ptr(), bytes, array.2.as_ptr(), cells + 1, out.masks.as_mut_ptr(), out.masks.len(),
                out.starts.as_mut_ptr(), cells, out.lengths.as_mut_ptr(), cells, out.store.as_mut_ptr(), out.store.len(), lengths.as_mut_ptr(),
            );
            assert_eq!(answer, 0);
            black_box(out);
        };
        let (mut mine, mut plain) = (table.clone(), table.clone());
        making(&mut mine);
        tables::make(&kind, cells, &array.0, &array.1, &array.2, &mut plain).unwrap();
        assert!(mine == plain && mine.starts == table.starts, "not the same: table_make");
        let other = timed(|| {
            tables::make(black_box(&kind), cells, &array.0, &array.1, &array.2, &mut plain).unwrap();
            black_box(&mut plain);
        });
        let sides = timer.turns_of(
            || {
                let mut out = table.clone();
                timed(move || making(&mut out))
            },
            other,
            1.0,
            2.0,
        );
        row(TABLE[0], "", sides);
    }

    // a cell in the middle, set to a value of 8 bytes: behind the others; and, in a store with just the room, after packing
    let cell = (cells / 2..cells).find(|&cell| table.lengths[cell] > 0).unwrap();
    let (masks, value) = (vec![1; depth], [7; 8]);
    let tight = without_room(&table);
    for (before, what) in [(&table, "room behind"), (&tight, "packs beforehand")] {
        if what == "packs beforehand" && state == tables::State::Fresh {
            continue; // it has no gaps
        }
        row(TABLE[2], what, setting_sides(&timer, &kind, before, cell, None));

        let previewing = || unsafe {
            let (t, mut lengths) = (before, [0; 2]);
            #[rustfmt::skip]
            let answer = (a.table_preview)(
                k, n, t.masks.as_ptr(), t.masks.len(), t.starts.as_ptr(), cells, t.lengths.as_ptr(), cells, t.store.as_ptr(), t.store.len(),
                cell as u64, masks.as_ptr(), depth, value.as_ptr(), 8, lengths.as_mut_ptr(),
            );
            assert_eq!(answer, 0);
            lengths
        };
        let foreseen = tables::preview(&kind, before, cell, &masks, &value, &mut order());
        assert!(foreseen == Ok(previewing()), "not the same: table_preview");
        let mut o = order();
        let other = timed(|| {
            black_box(tables::preview(black_box(&kind), before, cell, &masks, &value, &mut o).unwrap());
        });
        let sides = timer.turns_of(
            || {
                timed(|| {
                    black_box(previewing());
                })
            },
            other,
            1.0,
            2.0,
        );
        row(TABLE[4], what, sides);
    }

    let packing = |t: &mut tables::Table| unsafe {
        let mut lengths = [0; 1];
        #[rustfmt::skip]
        let answer = (a.table_pack)(
            k, n, t.masks.as_ptr(), t.masks.len(), t.starts.as_mut_ptr(), cells, t.lengths.as_ptr(), cells, t.store.as_mut_ptr(), t.store.len(),
            256, lengths.as_mut_ptr(),
        );
        assert_eq!(answer, 0);
        lengths[0] as usize
    };
    let (mut mine, mut plain) = (table.clone(), table.clone());
    let moved = packing(&mut mine);
    assert!(tables::pack(&kind, cells, &mut plain, 256, &mut order()) == Ok(moved) && mine == plain, "not the same: table_pack");
    let back = |t: &mut tables::Table| {
        if moved > 0 {
            t.starts.copy_from_slice(&table.starts);
            t.store.copy_from_slice(&table.store);
        }
        black_box(t);
    };
    back(&mut plain);
    let mut o = order();
    let other = timed(|| {
        tables::pack(black_box(&kind), cells, &mut plain, 256, &mut o).unwrap();
        back(&mut plain);
    });
    let sides = timer.turns_of(
        || {
            let mut t = table.clone();
            timed(move || {
                packing(&mut t);
                back(&mut t);
            })
        },
        other,
        1.0,
        2.0,
    );
    row(TABLE[3], "at most 256 cells", sides);
}

/// The same table in a store that ends with its highest-lying cell.
fn without_room(table: &tables::Table) -> tables::Table {
    let mut tight = table.clone();
    tight.store.truncate(table.store.len() - 16);
    tight
}
/// A cell set to a value of 8 bytes, by the table's owner or by a guest with these rights, who may be refused; ours and the loop. What it changes is put back
/// after each.
fn setting_sides(b: &Bench, kind: &[u64; 5], before: &tables::Table, cell: usize, rights: Option<&[u8]>) -> [f64; 2] {
    let (a, k, depth, cells) = (b.archive, c_kind(kind), kind[0] as usize, before.starts.len());
    let (masks, value, n, c) = (vec![1; depth], [7; 8], before.starts.len() as u64, cell as u64);
    let setting = |t: &mut tables::Table| unsafe {
        let (ms, ss, ls, st) = (t.masks.as_mut_ptr(), t.starts.as_mut_ptr(), t.lengths.as_mut_ptr(), t.store.as_mut_ptr());
        let (ml, sl) = (t.masks.len(), t.store.len());
        #[rustfmt::skip]
        let answer = match rights {
            None => (a.table_set)(k, n, ms, ml, ss, cells, ls, cells, st, sl, c, masks.as_ptr(), depth, value.as_ptr(), 8),
            Some(r) => (a.guest_edit)(
                k, n, r.as_ptr(), r.len(), ms, ml, ss, cells, ls, cells, st, sl, c, masks.as_ptr(), depth, value.as_ptr(), 8,
            ),
        };
        answer
    };
    let plainly = |t: &mut tables::Table, order: &mut Vec<u32>| {
        tables::set(black_box(kind), rights, t, cell, &masks, &value, order).err().unwrap_or(0)
    };
    let mut order = Vec::with_capacity(cells);
    let (mut mine, mut plain) = (before.clone(), before.clone());
    let answer = setting(&mut mine);
    assert!(answer == plainly(&mut plain, &mut order) && mine == plain, "not the same: a setting");
    let moved = (0..cells).any(|other| other != cell && mine.starts[other] != before.starts[other]);
    let back = |t: &mut tables::Table| {
        if moved {
            t.starts.copy_from_slice(&before.starts);
            t.store.copy_from_slice(&before.store);
        }
        (t.starts[cell], t.lengths[cell]) = (before.starts[cell], before.lengths[cell]);
        black_box(t);
    };
    back(&mut plain);
    let other = timed(|| {
        assert_eq!(plainly(&mut plain, &mut order), answer);
        back(&mut plain);
    });
    b.turns_of(
        || {
            let mut t = before.clone();
            timed(move || {
                assert_eq!(setting(&mut t), answer);
                back(&mut t);
            })
        },
        other,
        1.0,
        2.0,
    )
}

/// What a guest reads of arrays with masks half set and all set, where its plane shows none, half and all; and settings of a shown and of a hidden cell.
fn guest_rows(b: &mut Bench) {
    let sizes = [1, 2, 3, 4, 8, 12, 16, 32, 48, 64].map(|size| (fixed(1, size, 0), Values::Short));
    let lists = VALUES.map(|values| (ragged(1, 8, 0), values));
    for (kind, values) in sizes.into_iter().chain(lists) {
        for depth in [1, 2, 4] {
            for cells in &CELLS[1..] {
                for mask in [Mask::Full, Mask::Half] {
                    let i = input([depth, kind[1], kind[2], kind[3], 0], square(*cells), mask, values);
                    for shown in [Mask::Empty, Mask::Half, Mask::Full] {
                        let rights = shown.plane(&mut Rng(12), *cells);
                        let mut what = format!("{} shown, {}", ["none", "all", "half"][shown as usize], mask.name());
                        if kind[1] == 1 {
                            what += &format!(", {}", values.name());
                            b.guest_row(&i, &rights, true, format!("{what}, just the room"));
                        }
                        b.guest_row(&i, &rights, false, what);
                    }
                }
            }
        }
    }
    for depth in [1, 2, 4] {
        for cells in &CELLS[1..] {
            for state in tables::State::ALL {
                let (kind, table) = (ragged(depth, 8, 0), tables::table(depth as usize, *cells, state));
                let cell = (cells / 2..*cells).find(|&cell| table.lengths[cell] > 0).unwrap();
                let mut rights = Mask::Half.plane(&mut Rng(12), *cells);
                let tight = without_room(&table);
                for (before, what) in [(&table, "room behind"), (&tight, "packs beforehand"), (&table, "a hidden cell")] {
                    if what == "packs beforehand" && state == tables::State::Fresh {
                        continue; // it has no gaps
                    }
                    rights[cell] = u8::from(what != "a hidden cell");
                    let [ours, other] = setting_sides(&Bench::new(b.archive, b.rounds), &kind, before, cell, Some(&rights));
                    let (kind, what, column) = (format!("d{depth} {}", state.name()), what.to_string(), cells.to_string());
                    b.guests.push(Row { call: GUEST[1], below: true, kind, what, column, other, ours, held: None });
                }
            }
        }
    }
}

/// In the middle of two sides.
/// Single arrangements of the fewest and the most cells, the first, one in the middle and the last; and every number of the largest set, one call after the other.
fn arranged_rows(b: &mut Bench) {
    let room = || tables::Read { masks: vec![9; 8], values: vec![9; 12], offsets: vec![9; 5] };
    for depth in 0..=2_u64 {
        for cells in [1, 4] {
            let count = (depth + 4).pow(cells as u32);
            for (what, number) in [("the first", 0), ("in the middle", count / 2), ("the last", count - 1)] {
                b.arranged_row([depth, cells, number], what, room());
            }
        }
    }
    let (a, all) = (b.archive, 0..1_296);
    let mine = || {
        let (mut l, all) = (Lent::new(), all.clone());
        timed(move || all.clone().for_each(|number| ours(&a, Arranged([2, 4, number]), &mut l)))
    };
    let mut reused = room();
    let other = timed(|| {
        for number in all.clone() {
            keep(arrangements::make(2, 4, number, &mut reused));
        }
    });
    let [ours, other] = b.turns_of(mine, other, 1.0, 2.0);
    let (kind, what, column) = ("d2".to_string(), "all 1,296 numbers".to_string(), "4".to_string());
    b.arranged.push(Row { call: ARRANGED, below: true, kind, what, column, other, ours, held: None });
}

fn our_step(a: &Archive, t: &mut live::Live) -> [u64; 2] {
    let mut named = [0; 2];
    #[rustfmt::skip]
    let answer = unsafe {
        (a.migrate_step)(
            t.shape.as_ptr(), 2, t.subsets.as_ptr(), t.subsets.len(), t.old_lengths.as_ptr(), t.old_lengths.len(), t.old.as_ptr(), t.old.len(),
            t.moved, t.moved_lengths.as_mut_ptr(), t.moved_lengths.len(), t.area.as_mut_ptr(), t.area.len(), named.as_mut_ptr(),
        )
    };
    assert_eq!(answer, 0);
    named
}
fn our_cut(a: &Archive, t: &live::Live, subset: &[u64], l: &mut Lent) {
    #[rustfmt::skip]
    let answer = unsafe {
        (a.migrate_extract)(
            t.shape.as_ptr(), 2, t.subsets.as_ptr(), t.subsets.len(), subset.as_ptr(), subset.len(), t.old_lengths.as_ptr(), t.old_lengths.len(),
            t.old.as_ptr(), t.old.len(), t.moved, t.moved_lengths.as_ptr(), t.moved_lengths.len(), t.area.as_ptr(), t.area.len(),
            l.values.as_mut_ptr(), l.values.len(), l.offsets.as_mut_ptr(), l.offsets.len(), l.lengths.as_mut_ptr(),
        )
    };
    assert_eq!(answer, 0);
    black_box(l);
}

/// 65,536 cells in 1, 16, 256 and 65,536 chunks: a step with none moved and with half of them, and cuts before, between and behind the steps.
fn live_rows(b: &mut Bench) {
    let a = b.archive;
    for side in [256, 64, 16, 1] {
        let mut t = live::table(side);
        let chunks = t.old_lengths.len() as u64;
        let column = chunks.to_string();
        let mut stages = vec![(0, "none moved"), (chunks / 2, "half moved"), (chunks, "all moved")];
        stages.retain(|&(moved, what)| chunks > 1 || moved != 0 || what == "none moved");
        for (moved, when) in stages {
            while t.moved < moved {
                // unchecked: what the calls would read again at each step
                t = live::moved(t);
            }
            if moved < chunks {
                let (mut mine, mut plain) = (t.clone(), t.clone());
                let named = our_step(&a, &mut mine);
                assert_eq!(Ok(named), live::step(&mut plain, &mut live::Work::default()));
                assert!(mine.area == plain.area && mine.moved_lengths == plain.moved_lengths, "not the same: {}", LIVE[0]);
                let mut work = live::Work::default();
                let other = timed(|| {
                    keep(live::step(black_box(&mut plain), &mut work));
                });
                let mine = || {
                    let mut t = t.clone();
                    timed(move || keep(our_step(&a, black_box(&mut t))))
                };
                let [ours, other] = b.turns_of(mine, other, 1.0, 2.0);
                let (kind, what, column) = (String::new(), when.to_string(), column.clone());
                b.live.push(Row { call: LIVE[0], below: true, kind, what, column, other, ours, held: None });
            }
            for (subset, part) in
                [([0, 0, 256, 256], "all cells"), ([64, 64, 128, 128], "a quarter"), ([100, 100, 1, 1], "one cell")]
            {
                let room = || tables::Read { masks: vec![], values: vec![0; 16 * 65_536], offsets: vec![0; 65_537] };
                let (mut reused, mut work, mut lent) = (room(), live::Work::default(), Lent::new());
                let [values, offsets] = live::cut(&t, &subset, &mut work, &mut reused).unwrap();
                our_cut(&a, &t, &subset, &mut lent);
                let same =
                    (&lent.values[..values], &lent.offsets[..offsets], [lent.lengths[0] as usize, lent.lengths[1] as usize]);
                assert!(
                    same == (&reused.values[..values], &reused.offsets[..offsets], [values, offsets]),
                    "not the same: {}",
                    LIVE[1]
                );
                let other = timed(|| {
                    keep(live::cut(black_box(&t), &subset, &mut work, &mut reused));
                    black_box(&mut reused);
                });
                let mine = || {
                    let mut lent = Lent::new();
                    let t = &t;
                    timed(move || our_cut(&a, black_box(t), &subset, &mut lent))
                };
                let [ours, other] = b.turns_of(mine, other, 1.0, 2.0);
                let (kind, what, column) = (part.to_string(), when.to_string(), column.clone());
                b.live.push(Row { call: LIVE[1], below: true, kind, what, column, other, ours, held: None });
            }
        }
    }
}

fn quarter(shape: &[u64]) -> [u64; 4] {
    [shape[0] / 4, shape[1] / 4, shape[0] / 2, shape[1] / 2]
}

/// Large copies beside memcpy; the ratios.
fn copies(b: &mut Bench) -> Vec<f64> {
    let plain = input(fixed(0, 64, 0), vec![65_536], Mask::Full, Values::Short);
    let masked = input(fixed(1, 64, 0), vec![65_536], Mask::Full, Values::Short);
    let masked_stored = door::encode(four(&masked.kind), &masked.shape, &masked.masks, &masked.values, &[]).unwrap();
    let one = one_long();
    let one_stored = door::encode(four(&one.kind), &one.shape, &[], &one.values, &one.offsets).unwrap();
    let mut listed = input(fixed(0, 64, 0), vec![65_536], Mask::Full, Values::Short);
    listed.subsets = vec![0, 65_536];
    copies_head();
    let mut ratios = vec![
        b.to_memcpy("encode d0 F(64, little)", Encode(&plain), &plain.values),
        b.to_memcpy("decode d0 F(64, little)", Decode(&plain, &plain.values), &plain.values),
        b.to_memcpy("extract d0 F(64, little), all cells", Extract(&plain, &[0, 65_536]), &plain.values),
        b.to_memcpy("merge d0 F(64, little), one subset", Merge(&listed), &listed.values),
        b.to_memcpy("encode d1 F(64, little), full mask", Encode(&masked), &masked.values),
        b.to_memcpy("decode d1 F(64, little), full mask", Decode(&masked, &masked_stored), &masked.values),
        b.to_memcpy("encode d0 R(8, start), one cell", Encode(&one), &one.values),
        b.to_memcpy("decode d0 R(8, start), one cell", Decode(&one, &one_stored), &one.values),
        b.to_memcpy("partial_decode R(8, start), one cell", Partial(&one, &[0, 1], &one_stored), &one.values),
    ];
    ratios.extend(older_copies(b));
    ratios
}
/// One cell of all the bytes that there may be.
fn one_long() -> Input {
    let mut one = input(ragged(0, 8, 0), vec![1], Mask::Full, Values::Empty);
    one.values = Rng(1).bytes(16_777_216);
    one.offsets = vec![0, 16_777_216];
    one
}
fn copies_head() {
    println!("\nLarge plain copies against memcpy of the same number of value bytes. Ratio: memcpy's time over ours.\n");
    println!("| call | bytes | memcpy, ns | ours, ns | ratio |\n|---|---|---|---|---|");
}
fn older_copies(b: &mut Bench) -> Vec<f64> {
    let mut ratios = vec![];
    for (what, i) in [
        ("one cell", one_long()),
        ("cells of 4096 bytes", of_lengths(4096, |_| 4096)),
        ("cells of 1000 bytes", of_lengths(4096, |_| 1000)),
    ] {
        ratios.push(b.to_memcpy(&format!("{OLDER}, {what}"), Older(&i), &i.values));
    }
    ratios
}

// ---------------------------------------------------------------- how our cost grows

/// Nanoseconds a cell: a line for each call and kind.
struct Growth {
    columns: Vec<usize>,
    lines: Vec<(&'static str, String, Vec<f64>)>,
}
impl Growth {
    fn add(&mut self, call: &'static str, kind: String, cost: f64) {
        match self.lines.iter_mut().find(|line| (line.0, &line.1) == (call, &kind)) {
            Some(line) => line.2.push(cost),
            None => self.lines.push((call, kind, vec![cost])),
        }
    }
    fn print(&self, unit: &str) {
        let columns: Vec<String> = self.columns.iter().map(usize::to_string).collect();
        println!("| {unit} | {} |\n|---|{}", columns.join(" | "), "---|".repeat(columns.len()));
        for (call, kind, costs) in &self.lines {
            println!("| {call} {kind} | {} |", costs.iter().map(|cost| figure(*cost)).collect::<Vec<_>>().join(" | "));
        }
    }
    /// For each call the greatest step from a column to the next.
    fn steps(&self, unit: &str) {
        let mut calls: Vec<&str> = self.lines.iter().map(|line| line.0).collect();
        calls.dedup();
        for call in calls {
            let mut most = (0.0, String::new());
            for (_, kind, costs) in self.lines.iter().filter(|line| line.0 == call) {
                for (at, pair) in costs.windows(2).enumerate() {
                    if pair[1] / pair[0] > most.0 {
                        let place = format!("from {} to {} {unit}, {kind}", self.columns[at], self.columns[at + 1]);
                        most = (pair[1] / pair[0], place);
                    }
                }
            }
            println!("- {call}: at most {:.2} {}", most.0, most.1);
        }
    }
}

fn growth(b: &mut Bench) {
    let mut g = Growth { columns: vec![1024, 4096, 16_384, 65_536], lines: vec![] };
    let counts = g.columns.clone();
    let inputs = |kind| counts.iter().map(move |cells| (input(kind, square(*cells), Mask::Half, Values::Short), *cells));
    let kinds = |depth| [fixed(depth, 8, 0), ragged(depth, 8, 0)];
    let named = |kind: &[u64; 5]| format!("d{} {}", kind[0], kind_name(kind));
    for kind in (0..=4).flat_map(kinds) {
        for (i, cells) in inputs(kind) {
            g.add(CALLS[0], named(&kind), b.per(Encode(&i), cells));
        }
    }
    for kind in (0..=4).flat_map(kinds) {
        for (i, cells) in inputs(kind) {
            let stored = door::encode(four(&kind), &i.shape, &i.masks, &i.values, &i.offsets).unwrap();
            g.add(CALLS[1], named(&kind), b.per(Decode(&i, &stored), cells));
        }
    }
    for values in VALUES {
        for cells in &counts {
            let stored = interleaved(*cells, values);
            g.add(CALLS[2], values.name().to_string(), b.per(Interleaved(*cells as u64, &stored), *cells));
        }
    }
    for values in VALUES {
        for cells in &counts {
            let i = input(ragged(0, 8, 0), square(*cells), Mask::Full, values);
            g.add(OLDER, values.name().to_string(), b.per(Older(&i), *cells));
        }
    }
    for kind in (0..=4).flat_map(kinds) {
        for cells in &counts {
            let room = if kind[1] == 0 { kind[2] as usize * cells } else { 8 * cells };
            g.add(LOAD, named(&kind), b.per(Load(&kind, &square(*cells), room), *cells));
        }
    }
    for kind in (0..=4).flat_map(kinds) {
        for (i, cells) in inputs(kind) {
            g.add(CALLS[3], named(&kind), b.per(Extract(&i, &quarter(&i.shape)), cells / 4));
        }
    }
    for depth in 0..=4 {
        for cells in &counts {
            let i = chunk_list(depth, *cells, cells / 16, Mask::Half, Values::Short);
            g.add(CALLS[4], named(&i.kind), b.per(Merge(&i), *cells));
        }
    }
    for kind in [ragged(0, 4, 1), ragged(0, 8, 0)] {
        for (i, cells) in inputs(kind) {
            let stored = door::encode(four(&kind), &i.shape, &[], &i.values, &i.offsets).unwrap();
            g.add(CALLS[5], named(&kind), b.per(Partial(&i, &quarter(&i.shape), &stored), cells / 4));
        }
    }
    // of size 1 nothing is done
    for size in &SIZES[1..] {
        for cells in &counts {
            g.add(CALLS[6], format!("size {size}"), b.per(Reverse(*size, *size as usize * cells), *cells));
        }
    }
    for cells in &counts {
        let shape = square(*cells);
        g.add("subset_cells", "all".to_string(), b.per(Cells(&shape, &[0, 0, shape[0], shape[1]]), *cells));
    }
    println!(
        "\nHow our cost grows: nanoseconds a cell. Half masks; short values but in the interleaved form; extract and partial_decode of a quarter"
    );
    println!("of the cells, a cell of that quarter; merge of subsets of 16 cells.\n");
    g.print("cells");
    println!("\nThe greatest step of a cell's cost from a column to the next, of four times the cells:\n");
    g.steps("cells");

    println!("\nBy depth, 65536 cells, nanoseconds a cell:\n");
    println!("| depth | 0 | 1 | 2 | 3 | 4 |\n|---|---|---|---|---|---|");
    for call in [CALLS[0], CALLS[1], CALLS[3], CALLS[4]] {
        for kind in kinds(0).iter().map(kind_name) {
            let deep = g.lines.iter().filter(|line| line.0 == call && line.1.ends_with(&kind));
            let costs: Vec<String> = deep.map(|line| figure(line.2[3])).collect();
            if !costs.is_empty() {
                println!("| {call} {kind} | {} |", costs.join(" | "));
            }
        }
    }

    let mut g = Growth { columns: vec![1, 16, 64, 256, 1024, 4096, 16_384, 65_536], lines: vec![] };
    for depth in 0..=4 {
        for count in g.columns.clone() {
            let i = chunk_list(depth, 65_536, count, Mask::Half, Values::Short);
            g.add(CALLS[4], named(&i.kind), b.per(Merge(&i), 65_536));
        }
    }
    println!("\nmerge of 65536 cells by subsets, nanoseconds a cell:\n");
    g.print("subsets");
    println!("\nThe greatest step, of four times the subsets (first 16):\n");
    g.steps("subsets");
}

// ---------------------------------------------------------------- what is printed

fn nanoseconds(n: f64) -> String {
    if n < 100.0 { format!("{n:.1}") } else { format!("{n:.0}") }
}
fn figure(n: f64) -> String {
    if n < 0.1 {
        format!("{n:.3}")
    } else if n < 10.0 {
        format!("{n:.2}")
    } else {
        format!("{n:.1}")
    }
}
fn mean(list: &[f64]) -> f64 {
    (list.iter().map(|r| r.ln()).sum::<f64>() / list.len() as f64).exp()
}
fn least(list: &[f64]) -> f64 {
    list.iter().copied().fold(f64::MAX, f64::min)
}
fn whole(row: &Row) -> String {
    let Row { call, kind, what, column, other, ours, .. } = row;
    format!("| {call} | {kind} | {what} | {column} | {} | {} | {:.2} |", nanoseconds(*other), nanoseconds(*ours), row.ratio())
}

/// Ratios by kind and column.
fn table(rows: &[&Row]) {
    let mut columns: Vec<&str> = vec![];
    let mut lines: Vec<(&str, &str)> = vec![];
    for row in rows {
        if !columns.contains(&&row.column[..]) {
            columns.push(&row.column);
        }
        if !lines.contains(&(&row.kind[..], &row.what[..])) {
            lines.push((&row.kind, &row.what));
        }
    }
    println!("| kind | with | {} |\n|---|---|{}", columns.join(" | "), "---|".repeat(columns.len()));
    for (kind, what) in lines {
        let cells = columns.iter().map(|column| {
            let row = rows.iter().find(|row| (&row.kind[..], &row.what[..], &row.column[..]) == (kind, what, *column));
            row.map_or(String::new(), |row| figure(row.ratio()))
        });
        println!("| {kind} | {what} | {} |", cells.collect::<Vec<_>>().join(" | "));
    }
}

/// A table of ratios for each call; for those below masks one more.
fn ratios(rows: &[Row]) {
    println!("Ratio: the Rust's time over ours.");
    for (call, below) in CALLS.into_iter().flat_map(|call| [(call, false), (call, true)]) {
        let rows: Vec<&Row> = rows.iter().filter(|row| (row.call, row.below) == (call, below)).collect();
        if rows.is_empty() {
            continue;
        }
        let head = match call {
            "encode" | "decode" => "by depth and cells",
            "extract" => {
                "by cells (the Rust has a body for ragged values of depth 0 only: fixed kinds and masks have no counterpart)"
            }
            "merge" => "by cells and subsets (the Rust has a body for ragged values only: fixed kinds have no counterpart)",
            "reverse_endianness" => "by cells, and by bytes where no column of cells has as many",
            _ => "by cells",
        };
        println!("\n`{call}`{}, {head}:\n", if below { " below masks" } else { "" });
        table(&rows);
    }
}

/// Packed masks: a table of ratios for each call, the worst row, and each that is slower than the byte form's.
fn packed_ratios(rows: &[Row]) {
    println!("\nPacked masks. Ratio: the byte form's time over the packed form's, both ours.");
    for call in [CALLS[0], CALLS[1]] {
        println!("\n`{call}` with packed masks, by depth and cells:\n");
        table(&rows.iter().filter(|row| row.call == call).collect::<Vec<_>>());
    }
    println!("\nThe worst row of each, then all under 1.0:\n");
    println!("| call | kind | with | at | bytes, ns | packed, ns | ratio |\n|---|---|---|---|---|---|---|");
    for call in [CALLS[0], CALLS[1]] {
        let worst = rows.iter().filter(|row| row.call == call).min_by(|a, b| a.ratio().total_cmp(&b.ratio()));
        worst.iter().for_each(|row| println!("{}", whole(row)));
    }
    rows.iter().filter(|row| row.ratio() < 1.0).for_each(|row| println!("{}", whole(row)));
}

/// Rows under 1.0, and beside their bounds those that have one.
fn under_one(rows: &[Row]) -> Vec<&Row> {
    let under: Vec<&Row> = rows.iter().filter(|row| row.ratio() < 1.0).collect();
    if !under.is_empty() {
        println!("\nRows under 1.0:\n\n| call | kind | with | at | Rust, ns | ours, ns | ratio |\n|---|---|---|---|---|---|---|");
        under.iter().for_each(|row| println!("{}", whole(row)));
        println!(
            "\nThose that have a bound (BENCHMARKS.md), ours and the bound by turns, over the C library's memcpy both, nanoseconds:\n"
        );
        println!("| row | ours | the bound | ours over it | of at most |\n|---|---|---|---|---|");
        for row in &under {
            if let Some(Held { ours, bound, slack, loops }) = &row.held {
                let Row { call, kind, what, column, .. } = row;
                let name = [call, &kind[..], &what[..], &column[..]].into_iter().filter(|s| !s.is_empty()).collect::<Vec<_>>();
                println!("| {} | {} | {loops} | {:.2} | {slack:.2} |", name.join(" "), nanoseconds(*ours), ours / bound);
            }
        }
    }
    under
}

fn said(met: bool) -> &'static str {
    if met { "met" } else { "not met" }
}

/// encode_interleaved: a table of ratios for each of the two loops.
fn older_tables(b: &mut Bench) {
    older_rows(b);
    for (rows, behind) in [(&b.older, ""), (&b.checked, ", behind the same checks,")] {
        println!("\n`{OLDER}`, by cells. Ratio: the time of a plain Rust loop with a reused buffer{behind} over ours.\n");
        table(&rows.iter().collect::<Vec<_>>());
    }
}
fn older_said(b: &Bench) {
    for (rows, behind) in [(&b.older, ""), (&b.checked, " behind the same checks")] {
        let ratios: Vec<f64> = rows.iter().map(Row::ratio).collect();
        let slower = ratios.iter().filter(|ratio| **ratio < 1.0).count();
        let (mean, least, met) = (mean(&ratios), least(&ratios), said(slower == 0));
        println!(
            "{OLDER} no slower than a plain loop{behind}: {met} ({} rows, geometric mean {mean:.2}, {slower} under 1.0, least {least:.2})",
            ratios.len()
        );
    }
}

fn load_tables(b: &mut Bench) {
    load_rows(b);
    println!("\n`{LOAD}`, by cells. Ratio: the time of a plain Rust loop, one run with reused buffers, over ours.\n");
    table(&b.loads.iter().flatten().collect::<Vec<_>>());
}
fn loads_said(b: &Bench) {
    for (rows, wanted, what) in [(&b.loads[0], 1.0, "where one run is enough"), (&b.loads[1], 0.5, "where two runs are needed")] {
        let list: Vec<f64> = rows.iter().map(Row::ratio).collect();
        println!(
            "{LOAD} at {wanted:.1} of a plain loop or more {what}: {} ({} rows, geometric mean {:.2}, least {:.2})",
            said(least(&list) >= wanted),
            list.len(),
            mean(&list),
            least(&list)
        );
    }
}

fn table_tables(b: &mut Bench) {
    table_rows(b);
    for call in TABLE {
        println!(
            "\n`{call}`, by cells. Ratio: the time of a plain Rust loop with reused buffers and the same checks over ours.\n"
        );
        table(&b.tables.iter().filter(|row| row.call == call).collect::<Vec<_>>());
    }
}
fn tables_said(rows: &[Row], calls: &[&str]) {
    for &call in calls {
        let list: Vec<f64> = rows.iter().filter(|row| row.call == call).map(Row::ratio).collect();
        println!(
            "{call} no slower than a plain loop: {} ({} rows, geometric mean {:.2}, {} under 1.0, least {:.2})",
            said(least(&list) >= 1.0),
            list.len(),
            mean(&list),
            list.iter().filter(|ratio| **ratio < 1.0).count(),
            least(&list)
        );
    }
}

fn guest_tables(b: &mut Bench) {
    guest_rows(b);
    for call in GUEST {
        println!(
            "\n`{call}`, by cells. Ratio: the time of a plain Rust loop with reused buffers and the same checks over ours.\n"
        );
        table(&b.guests.iter().filter(|row| row.call == call).collect::<Vec<_>>());
    }
}

fn arranged_tables(b: &mut Bench) {
    arranged_rows(b);
    println!(
        "\n`{ARRANGED}`, by cells. Ratio: the time of a plain Rust loop with reused buffers and the same checks over ours.\n"
    );
    table(&b.arranged.iter().collect::<Vec<_>>());
}

fn live_tables(b: &mut Bench) {
    live_rows(b);
    for call in LIVE {
        println!(
            "\n`{call}`, by chunks. Ratio: the time of a plain Rust loop with reused buffers and the same checks over ours.\n"
        );
        table(&b.live.iter().filter(|row| row.call == call).collect::<Vec<_>>());
    }
}

fn main() {
    let args: Vec<String> = std::env::args().skip(1).collect();
    let archive = Archive::load(&args[0]).unwrap();
    let rounds = args.get(1).map_or(25, |n| n.parse().unwrap());
    let mut b = Bench::new(archive, rounds);
    let only = args.get(3).map_or("", |only| &only[..]);
    if only == "generate" {
        load_tables(&mut b);
        return loads_said(&b);
    }
    if only == "long" {
        return long::rows(&b.archive, rounds);
    }
    if only == "table" {
        table_tables(&mut b);
        return tables_said(&b.tables, &TABLE);
    }
    if only == "guest" {
        guest_tables(&mut b);
        println!("\nRows under 1.0:\n\n| call | kind | with | at | loop, ns | ours, ns | ratio |\n|---|---|---|---|---|---|---|");
        b.guests.iter().filter(|row| row.ratio() < 1.0).for_each(|row| println!("{}", whole(row)));
        println!();
        return tables_said(&b.guests, &GUEST);
    }
    if only == "arrangement" {
        arranged_tables(&mut b);
        println!("\n| call | depth | with | cells | loop, ns | ours, ns | ratio |\n|---|---|---|---|---|---|---|");
        b.arranged.iter().for_each(|row| println!("{}", whole(row)));
        println!();
        return tables_said(&b.arranged, &[ARRANGED]);
    }
    if only == "live" {
        live_tables(&mut b);
        println!("\n| call | of | with | chunks | loop, ns | ours, ns | ratio |\n|---|---|---|---|---|---|---|");
        b.live.iter().for_each(|row| println!("{}", whole(row)));
        println!();
        return tables_said(&b.live, &LIVE);
    }
    if only == "interleaved" {
        interleaved_rows(&mut b);
        ratios(&b.rows);
        older_tables(&mut b);
        copies_head();
        older_copies(&mut b);
        println!();
        under_one(&b.rows);
        older_said(&b);
        return;
    }
    rows(&mut b);
    ratios(&b.rows);
    packed_rows(&mut b);
    packed_ratios(&b.packed);
    older_tables(&mut b);
    load_tables(&mut b);
    table_tables(&mut b);
    guest_tables(&mut b);
    arranged_tables(&mut b);
    live_tables(&mut b);
    let copies = copies(&mut b);
    growth(&mut b);

    let all: Vec<f64> = b.rows.iter().map(Row::ratio).collect();
    println!("\nBy call:\n\n| call | rows | geometric mean | least | rows under 1.0 |\n|---|---|---|---|---|");
    for call in CALLS {
        let list: Vec<f64> = b.rows.iter().filter(|row| row.call == call).map(Row::ratio).collect();
        let under = list.iter().filter(|r| **r < 1.0).count();
        println!("| {call} | {} | {:.2} | {:.2} | {under} |", list.len(), mean(&list), least(&list));
    }
    let under = under_one(&b.rows);
    let beyond = under.iter().filter(|row| !row.at_bound()).count();
    println!("\n{} rows, geometric mean {:.2}, best of {rounds} rounds", all.len(), mean(&all));
    println!("no row under 1.0 but at its bound: {} ({} under, {beyond} of them not so)", said(beyond == 0), under.len());
    println!("geometric mean 2.0 or more: {}", said(mean(&all) >= 2.0));
    let bits: Vec<f64> = b.packed.iter().map(Row::ratio).collect();
    let slower = bits.iter().filter(|ratio| **ratio < 1.0).count();
    println!(
        "packed masks no slower than masks of bytes: {} ({} rows, geometric mean {:.2}, {slower} under 1.0, least {:.2})",
        said(slower == 0),
        bits.len(),
        mean(&bits),
        least(&bits)
    );
    older_said(&b);
    loads_said(&b);
    tables_said(&b.tables, &TABLE);
    tables_said(&b.guests, &GUEST);
    tables_said(&b.arranged, &[ARRANGED]);
    tables_said(&b.live, &LIVE);
    println!("large plain copies at 0.7 of memcpy or more: {} (least {:.2})", said(least(&copies) >= 0.7), least(&copies));
    if let Some(file) = args.get(2) {
        let lines: Vec<String> = b
            .rows
            .iter()
            .map(whole)
            .chain(b.packed.iter().map(|row| whole(row) + " packed, against bytes |"))
            .chain(b.older.iter().map(whole))
            .chain(b.checked.iter().map(|row| whole(row) + " behind the same checks |"))
            .chain(b.loads.iter().flatten().map(whole))
            .chain(b.tables.iter().map(whole))
            .chain(b.guests.iter().map(whole))
            .chain(b.arranged.iter().map(whole))
            .chain(b.live.iter().map(whole))
            .collect();
        std::fs::write(file, lines.join("\n") + "\n").unwrap();
    }
}
