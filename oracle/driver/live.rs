//! Live tables: small ones in all ways, each number around its limits, chunks in any order with tails and damage, and tables that are moved step by
//! step. Beside a table whose chunks can be read a migration by the archive alone: cuts before, between and after its steps are one, and the chunks,
//! each read by the call for its string and all of them merged, are the table.

use crate::cases::{
    Content, NUMBERS, Sink, a_number, any_shape, cells_of, content, damaged, damaged_numbers, each_damage, inside, lists, merge,
    packed, partition, ragged,
};
use crate::request::Request::{self, *};
use crate::request::{LiveTable, Outcome, Results};
use crate::rng::Rng;
use crate::{Compare, in_domain, rooms};
use std::fmt;

/// Of moved chunks.
const MOVED: [u64; 5] = [0, 1, 8, 0, 0];

/// A subset, and what its cells hold.
type Chunk = (Vec<u64>, Content);

fn step(live: &LiveTable) -> Request {
    MigrateStep { live: live.clone() }
}
fn cut(live: &LiveTable, subset: &[u64]) -> Request {
    MigrateExtract { live: live.clone(), subset: subset.to_vec() }
}

// ---------------------------------------------------------------- tables

/// The two strings of a chunk: as it was, and as it is once it is moved.
fn strings(lengths: &[u64], c: &Content) -> [Vec<u8>; 2] {
    let written = |pieces: Result<Vec<judge::Value<'_>>, u32>| pieces.unwrap().concat();
    let (values, offsets) = (&c.values, &c.offsets);
    [
        written(judge::encode_interleaved(MOVED, lengths, &[], values, offsets)),
        written(judge::encode(MOVED, lengths, &[], values, offsets)),
    ]
}

/// Chunks with their contents, of which so many are moved. Where it is asked for, old strings have bytes behind their cells; the entries behind the
/// number moved, and what there is of the area behind the strings, are anything.
fn table(rng: &mut Rng, shape: &[u64], chunks: &[Chunk], moved: usize, tails: bool) -> LiveTable {
    let mut t = LiveTable { shape: shape.to_vec(), moved: moved as u64, ..LiveTable::default() };
    for (at, (subset, c)) in chunks.iter().enumerate() {
        let [mut old, new] = strings(&subset[shape.len()..], c);
        if tails && rng.once_in(3) {
            let length = 1 + rng.below(9);
            old.extend(rng.bytes(length));
        }
        t.subsets.extend(subset);
        t.old_lengths.push(old.len() as u64);
        t.old.extend(old);
        if at < moved {
            t.moved_lengths.push(new.len() as u64);
            t.area.extend(new);
        } else {
            t.moved_lengths.push(a_number(rng));
        }
    }
    t
}

/// The bytes that the moved strings take, and those that the next chunk takes.
fn moved_bytes(t: &LiveTable) -> usize {
    t.moved_lengths[..t.moved as usize].iter().sum::<u64>() as usize
}
fn room_for_next(t: &LiveTable, chunks: &[Chunk]) -> usize {
    let next = chunks.get(t.moved as usize);
    next.map_or(0, |(subset, c)| strings(&subset[t.shape.len()..], c)[1].len())
}

/// With an area of this length, whose first bytes are the moved strings.
fn with_area(rng: &mut Rng, t: &LiveTable, length: usize) -> LiveTable {
    let mut t = t.clone();
    t.area.truncate(moved_bytes(&t));
    while t.area.len() < length {
        t.area.push(rng.byte());
    }
    t
}

fn chunks_of(rng: &mut Rng, shape: &[u64], subsets: Vec<Vec<u64>>) -> Vec<Chunk> {
    let mut chunk = |subset: Vec<u64>| {
        let c = content(rng, MOVED, cells_of(&subset[shape.len()..]));
        (subset, c)
    };
    subsets.into_iter().map(&mut chunk).collect()
}

/// Each subset of a shape, those of no cells too.
fn every_subset(shape: &[u64]) -> Vec<Vec<u64>> {
    let most = shape.iter().max().unwrap() + 1;
    let fit = |subset: &Vec<u64>| (0..shape.len()).all(|i| subset[i] + subset[shape.len() + i] <= shape[i]);
    lists(most, 2 * shape.len()).into_iter().filter(fit).collect()
}

// ---------------------------------------------------------------- requests

/// All lists of up to three subsets that hold a cell.
fn few_chunks(shape: &[u64]) -> Vec<Vec<Vec<u64>>> {
    let chunks: Vec<Vec<u64>> = every_subset(shape).into_iter().filter(|s| cells_of(&s[shape.len()..]) > 0).collect();
    let some = |count| lists(chunks.len() as u64, count).into_iter();
    (1..=3).flat_map(some).map(|list| list.iter().map(|&i| chunks[i as usize].clone()).collect()).collect()
}
/// Whether they hold each cell of the shape once.
fn covers(shape: &[u64], list: &[Vec<u64>]) -> bool {
    let mut held = vec![0; cells_of(shape)];
    list.iter().for_each(|s| judge::subset_cells(shape, s).unwrap().iter().for_each(|&cell| held[cell as usize] += 1));
    held.iter().all(|&times| times == 1)
}

/// Lists of subsets that do not cover the shape, with strings for all of them; one of which cannot be read, now and then.
pub fn uncovered(sink: &mut dyn Sink, rng: &mut Rng) {
    for shape in [vec![1], vec![2], vec![3], vec![2, 2]] {
        for subsets in few_chunks(&shape).into_iter().filter(|list| !covers(&shape, list)) {
            let chunks = chunks_of(rng, &shape, subsets);
            let moved = rng.below(chunks.len() + 1);
            let t = table(rng, &shape, &chunks, moved, true);
            sink.ask(step(&t));
            sink.ask(cut(&t, &inside(rng, &shape)));
            sink.ask(cut(&faulty(rng, &t), &inside(rng, &shape)));
        }
    }
}

/// The table with another string for a chunk.
fn with_string(t: &LiveTable, at: usize, string: &[u8]) -> LiveTable {
    let mut t = t.clone();
    let (lengths, bytes) =
        if (at as u64) < t.moved { (&mut t.moved_lengths, &mut t.area) } else { (&mut t.old_lengths, &mut t.old) };
    let start = lengths[..at].iter().sum::<u64>() as usize;
    bytes.splice(start..start + lengths[at] as usize, string.iter().copied());
    lengths[at] = string.len() as u64;
    t
}
fn string_of(t: &LiveTable, at: usize) -> &[u8] {
    let (lengths, bytes) = if (at as u64) < t.moved { (&t.moved_lengths, &t.area) } else { (&t.old_lengths, &t.old) };
    let start = lengths[..at].iter().sum::<u64>() as usize;
    &bytes[start..start + lengths[at] as usize]
}

/// Of two cells: refused with 7, 9 and 11, or with 7, 8 and 10.
fn refused(moved: bool) -> [Vec<u8>; 3] {
    if moved {
        [vec![], vec![0; 8], [&[24_u64, 1, 1, 1].map(u64::to_le_bytes).concat()[..], &[0]].concat()]
    } else {
        [vec![], vec![3; 12], [2_u32, 1, 0].map(u32::to_le_bytes).concat()]
    }
}

/// Each byte of each string changed, each string cut and made longer: with a cut of the chunk, of the other one, and of no cell. Two strings at once, each
/// refused in its ways: the chunks' order is not that of their cells.
pub fn damages(sink: &mut dyn Sink, rng: &mut Rng) {
    let shape = vec![4];
    for moved in 0..=2 {
        let chunks = [(vec![2, 2], [1, 0]), (vec![0, 2], [0, 2])].map(|(subset, lengths): (Vec<u64>, [u64; 2])| {
            let offsets = vec![0, lengths[0], lengths[0] + lengths[1]];
            (subset, Content { masks: vec![], values: rng.bytes(offsets[2] as usize), offsets })
        });
        let t = table(rng, &shape, &chunks, moved, false);
        let mut wrong = vec![];
        for at in 0..2 {
            wrong.extend(each_damage(string_of(&t, at)).iter().map(|string| with_string(&t, at, string)));
        }
        for one in refused(moved > 0) {
            for other in refused(moved > 1) {
                wrong.push(with_string(&with_string(&t, 0, &one), 1, &other));
            }
        }
        for wrong in wrong {
            [[2, 2], [0, 2], [1, 0]].iter().for_each(|subset| sink.ask(cut(&wrong, subset)));
            let room = wrong.area.len() + 64;
            sink.ask(step(&with_area(rng, &wrong, room)));
        }
    }
}

/// All tables of up to three chunks and few bytes, at each number moved: a step in an area that has just the room, a byte less and more, and cuts of
/// every subset.
pub fn exhaustive(sink: &mut dyn Sink, rng: &mut Rng) {
    for (shape, bytes) in [(vec![1], 3), (vec![2], 3), (vec![3], 3), (vec![1, 2], 3), (vec![2, 1], 2), (vec![2, 2], 2)] {
        let cells = cells_of(&shape);
        for subsets in few_chunks(&shape).into_iter().filter(|list| covers(&shape, list)) {
            for lengths in lists(bytes, cells) {
                let chunks: Vec<Chunk> = subsets
                    .iter()
                    .map(|subset| {
                        let own = judge::subset_cells(&shape, subset).unwrap();
                        let mut c = Content { masks: vec![], values: vec![], offsets: vec![0] };
                        for cell in own {
                            c.values.extend((0..lengths[cell as usize]).map(|i| (16 * cell + i + 1) as u8));
                            c.offsets.push(c.values.len() as u64);
                        }
                        (subset.clone(), c)
                    })
                    .collect();
                for moved in 0..=chunks.len() {
                    let t = table(rng, &shape, &chunks, moved, false);
                    let room = t.area.len() + room_for_next(&t, &chunks);
                    for length in [room, room.saturating_sub(1), room + 2] {
                        sink.ask(step(&with_area(rng, &t, length)));
                    }
                    for subset in every_subset(&shape) {
                        sink.ask(cut(&t, &subset));
                    }
                }
            }
        }
    }
}

/// Each number around its limits, alone and beside other faults: of the shape, the subsets, the subset asked for, both lists, and the number moved.
pub fn limits(sink: &mut dyn Sink, rng: &mut Rng) {
    let shape = vec![3];
    let subsets = vec![vec![2, 1], vec![0, 1], vec![1, 1]];
    let numbers: Vec<u64> = (0..40).chain(NUMBERS).chain((0..40).map(|_| a_number(rng))).collect();
    for moved in 0..=3 {
        let chunks = chunks_of(rng, &shape, subsets.clone());
        let t = table(rng, &shape, &chunks, moved, true);
        let t = with_area(rng, &t, moved_bytes(&t) + room_for_next(&t, &chunks));
        for &n in &numbers {
            let mut wrong = vec![];
            let mut put = |change: &dyn Fn(&mut LiveTable)| {
                let mut copy = t.clone();
                change(&mut copy);
                wrong.push(copy);
            };
            put(&|t| t.moved = n);
            put(&|t| t.shape[0] = n);
            put(&|t| t.shape.push(n));
            put(&|t| t.subsets.push(n));
            (0..6).for_each(|at| put(&|t| t.subsets[at] = n));
            for at in 0..3 {
                put(&|t| t.old_lengths[at] = n);
                put(&|t| t.moved_lengths[at] = n);
                // a sum that is right in 64 bits
                put(&|t| {
                    let other = (at + 1) % 3;
                    t.old_lengths[other] = t.old_lengths[other].wrapping_add(t.old_lengths[at]).wrapping_sub(n);
                    t.old_lengths[at] = n;
                });
                put(&|t| {
                    let other = (at + 1) % 3;
                    t.moved_lengths[other] = t.moved_lengths[other].wrapping_add(t.moved_lengths[at]).wrapping_sub(n);
                    t.moved_lengths[at] = n;
                });
            }
            put(&|t| t.old_lengths.push(n));
            put(&|t| t.moved_lengths.push(n));
            for wrong in wrong {
                sink.ask(step(&wrong));
                sink.ask(cut(&wrong, &[0, 3]));
                let other = faulty(rng, &wrong);
                sink.ask(step(&other));
                sink.ask(cut(&other, &[1, 0]));
            }
            for subset in [vec![n, 1], vec![0, n], vec![n, n], vec![n, 0], vec![0, 1, n], vec![n]] {
                sink.ask(cut(&t, &subset));
                sink.ask(cut(&faulty(rng, &t), &subset));
            }
        }
    }
    for (subsets, old_lengths) in [(vec![], vec![]), (vec![], vec![0]), (vec![0, 1], vec![]), (vec![0, 0], vec![0])] {
        let moved_lengths = old_lengths.clone();
        let t = LiveTable { shape: vec![1], subsets, old_lengths, moved_lengths, ..LiveTable::default() };
        sink.ask(step(&t));
        sink.ask(cut(&t, &[0, 1]));
    }
}

/// 65,536 cells: in one chunk, in 256, and each in its own; one more.
pub fn many_cells(sink: &mut dyn Sink, rng: &mut Rng) {
    let rows = |count: u64, width: u64| (0..count).map(|i| vec![i * width, width]).collect::<Vec<_>>();
    for subsets in [rows(1, 65_536), rows(256, 256), rows(65_536, 1)] {
        let shape = vec![65_536];
        let chunks = chunks_of(rng, &shape, subsets);
        let mut counts = vec![0, chunks.len() / 2, chunks.len() - 1, chunks.len()];
        counts.dedup();
        for moved in counts {
            let t = table(rng, &shape, &chunks, moved, true);
            let room = moved_bytes(&t) + room_for_next(&t, &chunks);
            sink.ask(step(&with_area(rng, &t, room)));
            if moved < chunks.len() {
                sink.ask(step(&with_area(rng, &t, room - 1)));
            }
            sink.ask(cut(&t, &[0, 65_536]));
            sink.ask(cut(&t, &[65_535, 1]));
            sink.ask(cut(&LiveTable { shape: vec![65_537], ..t.clone() }, &[0, 1]));
            sink.ask(step(&LiveTable { shape: vec![257, 256], ..t }));
        }
    }
}

/// Another string in place of one, mostly one that cannot be read.
fn damaged_string(rng: &mut Rng, lengths: &mut [u64], bytes: &mut Vec<u8>, at: usize) {
    let start = lengths[..at].iter().sum::<u64>() as usize;
    let own = start..start + lengths[at] as usize;
    if own.end > bytes.len() || own.is_empty() {
        return;
    }
    let string = damaged(rng, &bytes[own.clone()], 0, 1);
    lengths[at] = string.len() as u64;
    bytes.splice(own, string);
}

/// Faults in one place or several.
fn faulty(rng: &mut Rng, t: &LiveTable) -> LiveTable {
    let mut t = t.clone();
    for _ in 0..1 + rng.below(3) {
        let whole = t.old_lengths.iter().try_fold(0, |sum: u64, &n| sum.checked_add(n)) == Some(t.old.len() as u64);
        let new: Option<u64> = t.moved_lengths.iter().take(t.moved as usize).try_fold(0, |sum: u64, &n| sum.checked_add(n));
        match rng.below(12) {
            0 => t.shape = damaged_numbers(rng, &t.shape),
            1 => t.subsets = damaged_numbers(rng, &t.subsets),
            2 => t.old_lengths = damaged_numbers(rng, &t.old_lengths),
            3 => t.moved_lengths = damaged_numbers(rng, &t.moved_lengths),
            4 => t.moved = if rng.once_in(2) { a_number(rng) } else { t.moved.wrapping_add(1) },
            5 => t.moved = t.moved.saturating_sub(1),
            6 => {
                let length = rng.below(t.area.len() + 1);
                t.area.truncate(length);
            }
            7 => t.old.push(0),
            8 if t.shape.len() > 0 && t.subsets.len() >= 4 * t.shape.len() => {
                let (one, two) = (rng.below(t.subsets.len()), rng.below(t.subsets.len()));
                t.subsets[one] = t.subsets[two];
            }
            9 | 10 if whole && !t.old_lengths.is_empty() => {
                let at = rng.below(t.old_lengths.len());
                damaged_string(rng, &mut t.old_lengths, &mut t.old, at);
            }
            _ if t.moved > 0 && t.moved <= t.moved_lengths.len() as u64 && new.is_some_and(|n| n <= t.area.len() as u64) => {
                let at = rng.below(t.moved as usize);
                let mut lengths = t.moved_lengths.clone();
                damaged_string(rng, &mut lengths[..t.moved as usize], &mut t.area, at);
                t.moved_lengths = lengths;
            }
            _ => {}
        }
    }
    t
}

/// A table, step by step as the judge says, with cuts and copies with faults between.
pub fn random(sink: &mut dyn Sink, rng: &mut Rng) {
    let shape = any_shape(rng);
    let mut subsets = partition(rng, &shape);
    if subsets.len() > 40 {
        subsets = vec![[vec![0; shape.len()], shape.clone()].concat()];
    }
    let chunks = chunks_of(rng, &shape, subsets);
    let moved = if rng.once_in(3) { rng.below(chunks.len() + 1) } else { 0 };
    let mut t = table(rng, &shape, &chunks, moved, true);
    loop {
        let room = moved_bytes(&t) + room_for_next(&t, &chunks);
        if rng.once_in(3) {
            let less = 1 + rng.below(room_for_next(&t, &chunks).max(1));
            sink.ask(step(&with_area(rng, &t, room.saturating_sub(less).max(moved_bytes(&t)))));
        }
        let more = if rng.once_in(2) { rng.below(40) } else { 0 };
        t = with_area(rng, &t, room + more);
        let subset = inside(rng, &shape);
        sink.ask(cut(&t, &subset));
        if rng.once_in(3) {
            sink.ask(cut(&t, &damaged_numbers(rng, &subset)));
        }
        for _ in 0..2 {
            let wrong = faulty(rng, &t);
            sink.ask(cut(&wrong, &subset));
            sink.ask(step(&wrong));
        }
        let request = step(&t);
        let after = request.judged();
        sink.ask(request);
        match after {
            Ok(r) if r.whole > 0 => t = LiveTable { moved: r.second, moved_lengths: r.lengths, area: r.values, ..t },
            _ => return,
        }
    }
}

// ---------------------------------------------------------------- a migration by the archive

/// What was moved, by the archive alone.
#[derive(Default)]
pub struct Migrations {
    tables: u64,
    steps: u64,
    /// Cuts held against the same one of the table as it was.
    cuts: u64,
    /// Chunks read by the call for their strings: old ones, moved ones.
    chunks: [u64; 2],
    /// Of the most chunks of one table.
    most: usize,
}
impl fmt::Display for Migrations {
    fn fmt(&self, f: &mut fmt::Formatter<'_>) -> fmt::Result {
        let Migrations { tables, steps, cuts, chunks: [old, moved], most } = self;
        write!(
            f,
            "live tables: {tables} migrations of up to {most} chunks, {steps} steps, {cuts} cuts held against those before; "
        )?;
        write!(f, "{old} old chunks and {moved} moved ones read, and merged")
    }
}

impl Compare {
    /// Beside a step that is not refused, or for its area alone: the steps that are left, in areas of the archive's own choice.
    pub fn migrated(&mut self, request: &Request, judged: &Outcome) {
        let (MigrateStep { live }, Ok(_) | Err(6)) = (request, judged) else { return };
        if live.moved > 0 && !self.rng.once_in(8) || request.weight() > 20_000 {
            return;
        }
        if let Err((law, what)) = self.moved_to_the_end(live) {
            self.differ(law, request, &what);
        }
    }

    fn moved_to_the_end(&mut self, live: &LiveTable) -> Result<(), (usize, String)> {
        const CUTS: usize = 13;
        const MERGED: usize = 14;
        let (shape, chunks) = (&live.shape, live.old_lengths.len());
        let whole = [vec![0; shape.len()], shape.clone()].concat();
        let mut subsets = match cells_of(shape) {
            1..=3 => every_subset(shape),
            _ => (0..3).map(|_| inside(&mut self.rng, shape)).collect(),
        };
        subsets.push(whole.clone());
        // each in outputs that are just long enough, longer, each one short, none
        let mut asked = vec![];
        for subset in subsets {
            let request = cut(live, &subset);
            let bytes = live.old.len() + live.area.len();
            let r = self.given(&request, [0, bytes, cells_of(shape) + 1, 0]).map_err(|what| (CUTS, what))?;
            let needs = [0, r.values.len(), r.offsets.len(), 0];
            let more = [0, needs[1] + self.rng.below(9), needs[2] + self.rng.below(9), 0];
            asked.push((subset, request, [rooms(needs), vec![more]].concat()));
        }
        let held = self.chunks_read(live).map_err(|what| (MERGED, what))?;
        let mut t = live.clone();
        let mut entered = 0;
        loop {
            let room = live.area.len() + 2 * live.old.len() + 32 * chunks + 16 * cells_of(shape);
            t = with_area(&mut self.rng, &t, room);
            for (subset, before, rooms) in &asked {
                for &room in rooms {
                    self.counts.migrations.cuts += 1;
                    if !self.guarded.alike(before, &cut(&t, subset), room) {
                        return Err((CUTS, format!("of {subset:?} with {} moved, with outputs of {room:?}", t.moved)));
                    }
                }
            }
            if t.moved == live.moved || t.moved as usize == chunks || self.rng.once_in(4) {
                let now = self.chunks_read(&t).map_err(|what| (MERGED, what))?;
                self.merged(&t, &now).map_err(|what| (MERGED, what))?;
                if now != held {
                    return Err((MERGED, format!("other chunks with {} moved", t.moved)));
                }
            }
            let r = self.given(&step(&t), [0, t.area.len(), 0, chunks]).map_err(|what| (CUTS, what))?;
            if r.whole == 0 {
                break;
            }
            entered += 1;
            if r.second != t.moved + 1 || r.second > chunks as u64 {
                return Err((CUTS, format!("{} of {chunks} chunks moved, behind {}", r.second, t.moved)));
            }
            t = LiveTable { moved: r.second, moved_lengths: r.lengths, area: r.values, ..t };
        }
        if live.moved + entered != chunks as u64 || t.moved != chunks as u64 {
            return Err((CUTS, format!("{entered} steps from {} of {chunks} on, {} moved", live.moved, t.moved)));
        }
        let counts = &mut self.counts.migrations;
        counts.tables += 1;
        counts.steps += entered;
        counts.most = counts.most.max(chunks);
        Ok(())
    }

    /// Each chunk by the call for its string; where they answer, by the Rust's too.
    fn chunks_read(&mut self, t: &LiveTable) -> Result<Vec<Chunk>, String> {
        let (mut old, mut new) = (&t.old[..], &t.area[..]);
        let mut list = vec![];
        for (at, subset) in t.subsets.chunks(2 * t.shape.len()).enumerate() {
            let lengths = &subset[t.shape.len()..];
            let own = &old[..t.old_lengths[at] as usize];
            old = &old[own.len()..];
            let moved = (at as u64) < t.moved;
            let request = if moved {
                let own = &new[..t.moved_lengths[at] as usize];
                new = &new[own.len()..];
                let kind = if self.rng.once_in(2) { MOVED } else { packed(MOVED) };
                Decode { kind, shape: lengths.to_vec(), bytes: own.to_vec() }
            } else {
                DecodeInterleaved { cells: cells_of(lengths) as u64, bytes: own.to_vec() }
            };
            let r = self.given(&request, [0, request.weight(), cells_of(lengths) + 1, 0])?;
            let judged = request.judged();
            if in_domain(&request, &judged) {
                self.with_the_rust(&request, &judged, &Ok(r.clone()));
            }
            self.counts.migrations.chunks[usize::from(moved)] += 1;
            list.push((subset.to_vec(), Content { masks: vec![], values: r.values, offsets: r.offsets }));
        }
        Ok(list)
    }

    /// Merged as any ragged kind of depth 0 they are the cut of the whole shape.
    fn merged(&mut self, t: &LiveTable, chunks: &[Chunk]) -> Result<(), String> {
        let whole = [vec![0; t.shape.len()], t.shape.clone()].concat();
        let kind = ragged(0, self.rng.pick(&[4, 8]), self.rng.below(2) as u64);
        let bytes: usize = chunks.iter().map(|(_, c)| c.values.len()).sum();
        for room in rooms([0, bytes, cells_of(&t.shape) + 1, 0]) {
            let mut outcome = |request: &Request| -> Result<Results, u32> {
                match self.guarded.call(request, room) {
                    0 => self.guarded.results(request).ok_or(u32::MAX),
                    refusal => Err(refusal),
                }
            };
            let (merged, cut) = (outcome(&merge(kind, &t.shape, chunks)), outcome(&cut(t, &whole)));
            if merged != cut {
                return Err(format!("merged {merged:?}, cut {cut:?}, with outputs of {room:?}"));
            }
        }
        Ok(())
    }
}
