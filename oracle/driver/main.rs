//! The comparison. One driver feeds the archive, the judge and the Rust the same requests.
//!
//!   driver compare OBJECT SEED REQUESTS [--first]   compare; --first: end at the first difference
//!   driver long OBJECT                              only the long arrays of that
//!   driver lines OBJECT FILE...                     hold the archive and the judge to recorded lines, and the Rust in its domain
//!   driver show SEED REQUEST                        the line of the request with this number
//!   driver ask                                      lines with requests in, what the judge and the Rust answer out
//!   driver record SEED                              recorded answers out
//!
//! OBJECT is the archive as a shared object. The exit status is 0 where no difference was found.

mod archive;
mod arrangements;
mod cases;
mod combined;
mod guarded;
mod guests;
mod hidden;
mod lines;
mod live;
mod long;
mod record;
mod request;
mod rng;
mod rust;
mod tables;

use archive::Archive;
use arrangements::{Arranged, Rows};
use cases::Sink;
use guarded::Guarded;
use hidden::{NONE, hidden};
use live::Migrations;
use request::{CALLS, Outcome, REFUSALS, Request};
use rng::Rng;
use rust::{BUILDS, Body, body};
use std::collections::HashSet;
use std::hash::{DefaultHasher, Hash, Hasher};
use std::sync::atomic::{AtomicU64, Ordering};
use std::time::Instant;

/// The number of the request at hand.
static NOW: AtomicU64 = AtomicU64::new(0);

unsafe extern "C" {
    fn signal(number: i32, handler: usize) -> usize;
    fn raise(number: i32) -> i32;
    fn write(file: i32, text: *const u8, length: usize) -> isize;
}
/// Where the archive ends the process, say at which request.
extern "C" fn ended(number: i32) {
    let mut text = *b"the process ended at request                     \n";
    let mut n = NOW.load(Ordering::Relaxed);
    let mut at = 48;
    while n > 0 {
        text[at] = b'0' + (n % 10) as u8;
        n /= 10;
        at -= 1;
    }
    unsafe {
        write(1, text.as_ptr(), text.len());
        signal(number, 0);
        raise(number);
    }
}

/// The domain of the comparison: none of 1 to 6, 12 and 14 holds, and no bytes are hidden. The Rust takes a mask byte over 01 for set, and
/// hidden bytes too.
pub fn in_domain(request: &Request, judged: &Outcome) -> bool {
    !matches!(judged, Err(1..=6 | 12 | 14)) && hidden(request) == NONE
}

struct Compare {
    guarded: Guarded,
    rng: Rng,
    stop_at_first: bool,
    /// Requests at hand have a damaged copy of a stored string.
    damaged: bool,
    /// Of oracle/data/arrangements.txt.
    rows: Rows,
    counts: Counts,
}
/// Strings that `decode` accepts and `encode` writes again, the same bytes.
#[derive(Default)]
struct Again {
    strings: u64,
    damaged: u64,
    /// Hashes of kind, count of cells and string: of all, of damaged copies.
    distinct: [HashSet<u64>; 2],
}
/// What was done to working tables.
#[derive(Default)]
struct Tables {
    /// Settings, and those that packed other cells beforehand.
    settings: [u64; 2],
    /// Packing calls, and those that moved a cell; cells moved.
    packings: [u64; 2],
    moved: u64,
    /// Previews, and those of settings that would pack other cells, or leave some displaced.
    previews: [u64; 3],
    /// Of the most cells of one table.
    cells: usize,
}
impl Tables {
    fn count(&mut self, request: &Request, judged: &Outcome) {
        let Ok(after) = judged else { return };
        match request {
            Request::TableSet { table, cell, .. } => {
                let moved = |j: usize| j as u64 != *cell && table.starts[j] != after.offsets[j];
                self.settings[0] += 1;
                self.settings[1] += u64::from((0..table.starts.len()).any(moved));
                self.cells = self.cells.max(table.starts.len());
            }
            Request::TablePack { .. } => {
                self.packings[0] += 1;
                self.packings[1] += u64::from(after.whole > 0);
                self.moved += after.whole;
            }
            Request::TablePreview { table, cell, .. } => {
                let others = (0..table.starts.len()).filter(|&j| j as u64 != *cell);
                let top = others.map(|j| table.starts[j] + table.lengths[j]).max().unwrap_or(0);
                let others: u64 = table.lengths.iter().sum::<u64>() - table.lengths[*cell as usize];
                self.previews[0] += 1;
                self.previews[1] += u64::from(top > others && after.whole - others > table.store.len() as u64 - top);
                self.previews[2] += u64::from(after.second > 0);
            }
            _ => {}
        }
    }
}
/// What guests read and edited.
#[derive(Default)]
struct Guests {
    /// Reads held against that of another array that shows the same.
    twins: u64,
    /// Edits of shown cells held against the setting, and those that moved hidden cells; of hidden cells.
    shown: [u64; 2],
    hidden: u64,
    /// Reads under two planes, cuts and merges with a read before and behind; parts of these merges.
    combined: [u64; 3],
    parts: u64,
}
const MASKS: [&str; 3] = ["no masks", "masks of bytes", "packed masks"];
const ANSWERS: usize = 21;
#[derive(Default)]
struct Counts {
    requests: [[u64; ANSWERS]; CALLS.len()],
    calls: [[u64; ANSWERS]; CALLS.len()],
    /// Requests of kinds with packed masks.
    packed: u64,
    /// Arrays and chunk lists handed over with a mask byte over 01.
    over_01: u64,
    /// Requests with hidden bytes of each sort.
    hidden: [u64; 4],
    /// Kinds, shapes and start numbers of loads that were asked for.
    loads: HashSet<String>,
    tables: Tables,
    guests: Guests,
    arranged: Arranged,
    migrations: Migrations,
    /// Requests of long arrays, which are in no other count.
    long: u64,
    /// By mask form, as in MASKS.
    again: [Again; 3],
    /// Requests that each build of the Rust answered: by its own function, as ragged cells, as the rest form.
    compared: [u64; 3],
    /// By build and refusal: errors and panics of the Rust.
    refused: [[[u64; 2]; ANSWERS]; 4],
    /// As in BETWEEN.
    differences: [u64; BETWEEN.len()],
}
const BETWEEN: [&str; 15] = [
    "archive and judge",
    "archive and Rust",
    "judge and Rust",
    "a string and the one written again",
    "a preview and the setting on a copy",
    "reads of two arrays that show a guest the same",
    "a guest's edit and the setting on a copy",
    "a hidden cell before and after a guest's edit",
    "reads under two planes and under both",
    "a read before a cut and behind it",
    "reads before a merge and one behind it",
    "an arrangement and its row",
    "an arrangement and what is read of it again",
    "cuts of a live table before and after steps",
    "a live table and its chunks, read and merged",
];

fn say(outcome: &Outcome) -> String {
    match outcome {
        Ok(_) => "ok".to_string(),
        Err(refusal) => refusal.to_string(),
    }
}
fn shown(request: &Request) -> String {
    let line = lines::request_line(request);
    if line.len() > 400 { format!("{}... ({} characters)", &line[..400], line.len()) } else { line }
}

impl Compare {
    fn new(object: &str, seed: u64) -> Result<Compare, String> {
        let guarded = Guarded::new(Archive::load(object)?);
        let (rng, counts) = (Rng(!seed), Counts::default());
        Ok(Compare { guarded, rng, stop_at_first: false, damaged: false, rows: Rows::recorded(), counts })
    }

    fn differ(&mut self, between: usize, request: &Request, what: &str) {
        self.differ_in(between, request.call(), what, &shown(request));
    }

    fn differ_in(&mut self, between: usize, call: usize, what: &str, request: &str) {
        self.counts.differences[between] += 1;
        if self.counts.differences[between] <= 10 {
            println!("difference between {}: {}: {what}", BETWEEN[between], CALLS[call]);
            println!("    {request}");
        }
    }

    /// The archive answered.
    fn called(&mut self, call: usize, answer: u32) {
        if (answer as usize) < ANSWERS {
            self.counts.calls[call][answer as usize] += 1;
        }
    }

    /// One call of the archive with outputs of these lengths, held to the judge: its answer and every byte afterwards.
    fn call(&mut self, request: &Request, lent: [usize; 4], judged: &Outcome) -> u32 {
        let fits = judge::fits(&needs(request, judged), &lent);
        let expected = match (judged, fits) {
            (Ok(_), Err(refusal)) => &Err(refusal),
            _ => judged,
        };
        let answer = self.guarded.call(request, lent);
        let number = expected.as_ref().err().copied().unwrap_or(0);
        let fault = self.guarded.fault(request, expected);
        self.called(request.call(), answer);
        if answer != number {
            self.differ(0, request, &format!("answer {answer}, not {number}, with outputs of {lent:?}"));
        } else if let Some(fault) = fault {
            self.differ(0, request, &format!("answer {answer}, but {fault}, with outputs of {lent:?}"));
        }
        answer
    }

    /// What the archive gives on the way to something else, into outputs of these lengths.
    fn given(&mut self, request: &Request, lent: [usize; 4]) -> Result<request::Results, String> {
        let answer = self.guarded.call(request, lent);
        match self.guarded.results(request) {
            Some(results) if answer == 0 => Ok(results),
            _ => Err(format!("answer {answer} on the way, to {} {}", CALLS[request.call()], shown(request))),
        }
    }

    /// Outputs of the exact lengths, longer ones, each one short, none at all. What comes out with the exact lengths.
    fn lent_in_all_ways(&mut self, request: &Request, judged: &Outcome) -> Outcome {
        let slots = request.slots();
        let needs = needs(request, judged);
        let exact = match self.call(request, needs, judged) {
            0 => self.guarded.results(request).ok_or(u32::MAX),
            refusal => Err(refusal),
        };
        if request.in_place().is_some() || slots == [false; 4] {
            return exact; // no other lengths
        }
        let rng = &mut self.rng;
        let mut more = [0, 1, 2, 3].map(|i| if slots[i] { needs[i] + rng.below(9) } else { 0 });
        let mut some = [0, 1, 2, 3].map(|i| if slots[i] { rng.below(40) } else { 0 });
        if let Request::TableMake { store, .. } = request {
            (more[1], some[1]) = (*store, *store); // the store's length is the request's
        }
        match judged {
            Ok(_) => {
                self.call(request, more, judged);
                let making = matches!(request, Request::TableMake { .. });
                for i in (0..4).filter(|&i| !(making && i == 1)) {
                    if needs[i] > 0 {
                        let mut short = if request.weight() > 100_000 { needs } else { more };
                        short[i] = needs[i] - 1;
                        self.call(request, short, judged);
                    }
                }
                if needs != [0; 4] && !making {
                    self.call(request, [0; 4], judged);
                }
                if let Request::Generate { shape, .. } = request {
                    self.room_for_any_load(request, shape.iter().product::<u64>() as usize, more, judged);
                }
                if let Request::GuestRead { values, .. } = request {
                    for room in [values.len(), values.len().saturating_sub(1)] {
                        self.call(request, [more[0], room, more[2], 0], judged); // by what is shown, not by what there is
                    }
                }
            }
            Err(_) => {
                self.call(request, some, judged);
            }
        }
        exact
    }

    /// With 8 value bytes a cell a ragged load fits, whatever is drawn; with one byte less that is not known beforehand.
    fn room_for_any_load(&mut self, request: &Request, cells: usize, more: [usize; 4], judged: &Outcome) {
        let needs = needs(request, judged);
        let room = [more[0], more[1].max(8 * cells), more[2], 0];
        self.call(request, room, judged);
        self.call(request, [room[0], needs[1].max(8 * cells - 1), room[2], 0], judged);
        for i in [0, 2] {
            if needs[i] > 0 {
                let mut short = room;
                short[i] = needs[i] - 1;
                self.call(request, short, judged);
            }
        }
    }

    fn with_the_rust(&mut self, request: &Request, judged: &Outcome, observed: &Outcome) {
        let body = body(request);
        if body == Body::None {
            return;
        }
        self.counts.compared[body as usize] += 1;
        for (at, build) in BUILDS.iter().enumerate() {
            let rust = build.answer(request);
            if let (Err(e), Err(refusal)) = (&rust, judged) {
                self.counts.refused[at][*refusal as usize][usize::from(e == "panic")] += 1;
            }
            let short = match &rust {
                Ok(_) => "ok".to_string(),
                Err(e) => e.clone(),
            };
            if !agree(observed, &rust) {
                self.differ(1, request, &format!("{}; the Rust ({}): {short}", say(observed), build.name));
            }
            if !agree(judged, &rust) {
                self.differ(2, request, &format!("{}; the Rust ({}): {short}", say(judged), build.name));
            }
        }
    }

    /// A stored string read and written again, with outputs as long as the header says; so a refusal is seen with longer outputs too.
    fn again(&mut self, request: &Request, judged: &Outcome) {
        let (kind, shape, bytes) = match request {
            Request::Decode { kind, shape, bytes } => (*kind, shape, bytes),
            Request::PartialDecode { width, place, shape, bytes, .. } => ([0, 1, *width, *place, 0], shape, bytes),
            _ => return,
        };
        let answer = match self.guarded.again(&kind, shape, bytes) {
            Ok(answer) => answer,
            Err(what) => return self.differ(3, request, what),
        };
        let number = judged.as_ref().err().copied().unwrap_or(0);
        if let (Request::Decode { .. }, true) = (request, answer != number) {
            self.differ(0, request, &format!("answer {answer}, not {number}, with outputs that have room for any array"));
        }
        if answer == 0 {
            let mut hash = DefaultHasher::new();
            (kind, shape.iter().product::<u64>(), bytes).hash(&mut hash);
            let row = &mut self.counts.again[if kind[0] == 0 { 0 } else { 1 + usize::from(kind[4] == 1) }];
            row.strings += 1;
            row.distinct[0].insert(hash.finish());
            if self.damaged {
                row.damaged += 1;
                row.distinct[1].insert(hash.finish());
            }
        }
    }

    /// What a preview said beside what the archive's own setting then does to a copy: its refusal, and what is there afterwards.
    fn set_on_a_copy(&mut self, request: &Request, foreseen: &Outcome) {
        let Request::TablePreview { kind, cells, table, cell, cell_masks, value } = request else { return };
        let (kind, cells, table, cell) = (*kind, *cells, table.clone(), *cell);
        let setting = Request::TableSet { kind, cells, table, cell, cell_masks: cell_masks.clone(), value: value.clone() };
        let lent = needs(&setting, &Err(0));
        let after = match self.guarded.call(&setting, lent) {
            0 => {
                let r = self.guarded.results(&setting).unwrap();
                let after = judge::Table { masks: r.masks, starts: r.offsets, lengths: r.lengths, store: r.values };
                Ok(after.looked_at())
            }
            refusal => Err(refusal),
        };
        let foreseen = foreseen.as_ref().map(|r| [r.whole, r.second]).map_err(|refusal| *refusal);
        if foreseen != after {
            self.differ(4, request, &format!("{foreseen:?}, but then {after:?}"));
        }
    }

    /// A read beside that of another array that shows this guest the same: one answer, and the same in every lent byte, whatever room there is.
    fn with_a_twin(&mut self, request: &Request, judged: &Outcome) {
        let (Request::GuestRead { values, .. }, Ok(_)) = (request, judged) else { return };
        let twin = guests::twin(&mut self.rng, request);
        let Request::GuestRead { values: others, .. } = &twin else { unreachable!() };
        if twin == *request {
            return; // it shows all
        }
        assert!(twin.judged() == *judged, "not the same: {}", shown(&twin));
        self.counts.guests.twins += 1;
        let needs = needs(request, judged);
        let mut rooms = rooms(needs);
        for bytes in [values.len(), others.len()].into_iter().flat_map(|bytes| [bytes, bytes.saturating_sub(1)]) {
            rooms.push([needs[0], bytes, needs[2], 0]);
        }
        for room in rooms {
            if !self.guarded.alike(request, &twin, room) {
                self.differ(5, request, &format!("with outputs of {room:?}, and {}", shown(&twin)));
            }
        }
    }

    /// A guest's edit beside the archive's own setting on a copy: of a shown cell they are one, of a hidden one it is refused by what comes before 18, or by 18.
    /// No hidden cell has other masks or another value afterwards.
    fn edited_on_a_copy(&mut self, request: &Request, edited: &Outcome) {
        let Request::GuestEdit { kind, cells, rights, table, cell, cell_masks, value } = request else { return };
        if kind[0] == 0 || rights.len() as u64 != *cells || rights.iter().any(|&byte| byte > 1) {
            return;
        }
        let hidden: Vec<usize> = (0..rights.len()).filter(|&j| rights[j] == 0).collect();
        let (kind, cells, cell) = (*kind, *cells, *cell);
        let (cell_masks, value) = (cell_masks.clone(), value.clone());
        let setting = Request::TableSet { kind, cells, table: table.clone(), cell, cell_masks, value };
        let set = match self.guarded.call(&setting, needs(&setting, &Err(0))) {
            0 => Ok(self.guarded.results(&setting).unwrap()),
            refusal => Err(refusal),
        };
        let guests = &mut self.counts.guests;
        let due = if hidden.iter().any(|&j| j as u64 == cell) {
            guests.hidden += 1;
            match set {
                Ok(_) | Err(16) => Err(18),
                refused => refused,
            }
        } else {
            guests.shown[0] += 1;
            set
        };
        if *edited != due {
            self.differ(6, request, &format!("{}, but the setting {}", say(edited), say(&due)));
        }
        let Ok(after) = edited else { return };
        let cells = rights.len();
        let kept = |j: usize| {
            let masks = (j..table.masks.len()).step_by(cells).all(|at| after.masks.get(at) == Some(&table.masks[at]));
            let value = |starts: &[u64], lengths: &[u64], store: &[u8]| {
                let (start, length) = (*starts.get(j)? as usize, *lengths.get(j)? as usize);
                Some(store.get(start..)?.get(..length)?.to_vec())
            };
            masks && value(&table.starts, &table.lengths, &table.store) == value(&after.offsets, &after.lengths, &after.values)
        };
        if let Some(j) = hidden.iter().find(|&&j| !kept(j)) {
            self.differ(7, request, &format!("cell {j}"));
        }
        self.counts.guests.shown[1] += u64::from(hidden.iter().any(|&j| table.starts.get(j) != after.offsets.get(j)));
    }

    fn hold(&mut self, request: &Request, judged: &Outcome) {
        NOW.fetch_add(1, Ordering::Relaxed);
        self.counts.packed += u64::from(request.packed());
        self.counts.over_01 += u64::from(request.hands_over_01());
        let hidden = hidden(request);
        assert!(judged.is_err() || hidden == NONE, "hidden bytes taken: {}", shown(request));
        (0..4).for_each(|sort| self.counts.hidden[sort] += u64::from(hidden[sort]));
        if let (Request::Generate { .. }, Ok(_)) = (request, judged) {
            self.counts.loads.insert(lines::request_line(request));
        }
        self.counts.tables.count(request, judged);
        self.counts.requests[request.call()][judged.as_ref().err().copied().unwrap_or(0) as usize] += 1;
        let observed = self.lent_in_all_ways(request, judged);
        if in_domain(request, judged) {
            self.with_the_rust(request, judged, &observed);
        }
        self.again(request, judged);
        self.set_on_a_copy(request, &observed);
        self.with_a_twin(request, judged);
        self.edited_on_a_copy(request, &observed);
        self.rights_combined(request, judged);
        self.arranged(request, &observed);
        self.migrated(request, judged);
        self.stop_if_asked();
    }

    fn stop_if_asked(&self) {
        if self.stop_at_first && self.counts.differences != [0; BETWEEN.len()] {
            let seen: Vec<&str> = (0..BETWEEN.len()).filter(|&i| self.counts.differences[i] > 0).map(|i| BETWEEN[i]).collect();
            println!("first difference at request {}: {}", self.asked(), seen.join(", "));
            std::process::exit(1);
        }
    }

    fn report(&self, seconds: f64) -> bool {
        let head: String = (1..ANSWERS).map(|n| format!("{n:>8}")).collect();
        for (what, table) in [
            ("requests, by what they should give", &self.counts.requests),
            ("calls of the archive, by answer", &self.counts.calls),
        ] {
            println!("\n{what}:\n{:<20}{:>9}{head}{:>9}", "", "ok", "all");
            let mut sums = [0; ANSWERS];
            for (call, row) in table.iter().enumerate() {
                let cells: String = row[1..].iter().map(|n| format!("{n:>8}")).collect();
                println!("{:<20}{:>9}{cells}{:>9}", CALLS[call], row[0], row.iter().sum::<u64>());
                (0..ANSWERS).for_each(|n| sums[n] += row[n]);
            }
            let cells: String = sums[1..].iter().map(|n| format!("{n:>8}")).collect();
            println!("{:<20}{:>9}{cells}{:>9}", "all", sums[0], sums.iter().sum::<u64>());
        }
        println!("\nwhat the Rust gives where 7 to 11 and 20 are due, errors / panics:");
        println!("{:<26}{}", "", [7, 8, 9, 10, 11, 20].map(|n| format!("{n:>17}")).concat());
        for (at, build) in BUILDS.iter().enumerate() {
            let cells = [7, 8, 9, 10, 11, 20].map(|n| {
                let [errors, panics] = self.counts.refused[at][n];
                format!("{:>17}", format!("{errors} / {panics}"))
            });
            println!("{:<26}{}", build.name, cells.concat());
        }
        println!(
            "\n{} requests, {} of them with packed masks, {} calls of the archive, {seconds:.0} s",
            self.asked(),
            self.counts.packed,
            self.guarded.calls
        );
        println!("long arrays, around 4,294,967,295 and 8,589,934,592 value bytes: {} requests beside these", self.counts.long);
        println!("loads of {} different kinds, shapes and start numbers", self.counts.loads.len());
        let Tables { settings, packings, moved, previews, cells } = self.counts.tables;
        println!(
            "working tables: {} settings, {} of which packed other cells; {} packing calls, {} of which moved cells, {moved} in all; up to \
             {cells} cells",
            settings[0], settings[1], packings[0], packings[1]
        );
        println!(
            "previews, each held against the setting on a copy: {}; of settings that pack other cells {}, that leave cells displaced {}",
            previews[0], previews[1], previews[2]
        );
        let Guests { twins, shown, hidden, combined, parts } = self.counts.guests;
        println!(
            "guests: {twins} reads held against that of another array that shows the same; {} edits of shown cells held against the setting, {} of \
             which moved hidden cells; {hidden} edits of hidden cells",
            shown[0], shown[1]
        );
        println!(
            "rights that combine: {} reads under two planes, {} cuts and {} merges, of {parts} parts, with reads before and behind",
            combined[0], combined[1], combined[2]
        );
        println!("{}", self.counts.arranged);
        println!("{}", self.counts.migrations);
        println!(
            "a mask byte over 01: stored, refused with 14, in {} requests; handed over in {}",
            self.counts.requests[1][14], self.counts.over_01
        );
        let [content, data, stored, given] = self.counts.hidden;
        println!(
            "hidden bytes: content behind nothing set in {content} requests, data behind a last offset of 0 in {data}, a first offset above 0 \
             stored in {stored} and handed over in {given}"
        );
        println!(
            "in the domain and compared with each of {} builds of the Rust: {} by its own functions, {} as ragged cells of one size, {} as what it \
             writes and reads again",
            BUILDS.len(),
            self.counts.compared[0],
            self.counts.compared[1],
            self.counts.compared[2]
        );
        println!("\nstrings that decode accepts, read and written again, the same bytes; distinct by kind, cells and bytes:");
        println!("{:<20}{:>10}{:>12}{:>18}{:>12}", "", "strings", "distinct", "damaged copies", "distinct");
        let mut sums = [0; 4];
        for (masks, row) in MASKS.iter().zip(&self.counts.again) {
            let numbers = [row.strings, row.distinct[0].len() as u64, row.damaged, row.distinct[1].len() as u64];
            println!("{masks:<20}{:>10}{:>12}{:>18}{:>12}", numbers[0], numbers[1], numbers[2], numbers[3]);
            (0..4).for_each(|i| sums[i] += numbers[i]);
        }
        println!("{:<20}{:>10}{:>12}{:>18}{:>12}\n", "all", sums[0], sums[1], sums[2], sums[3]);
        let mut good = true;
        for (between, n) in self.counts.differences.iter().enumerate() {
            println!("differences between {}: {n}", BETWEEN[between]);
            good &= *n == 0;
        }
        good
    }

    /// Every refusal of docs/DECISIONS.md, part 0, was met, and damaged copies with each mask form were written again.
    fn all_met(&self) -> bool {
        let mut good = true;
        for (masks, _) in MASKS.iter().zip(&self.counts.again).filter(|(_, row)| row.damaged == 0) {
            println!("not met: a damaged copy with {masks}, written again");
            good = false;
        }
        if self.counts.arranged.rows() != self.rows.count() {
            println!("not met: a row of the arrangements");
            good = false;
        }
        for (call, refusals) in REFUSALS.iter().enumerate() {
            for &refusal in refusals.iter().chain(&[0]) {
                if self.counts.calls[call][refusal as usize] == 0 {
                    println!("not met: {} with answer {refusal}", CALLS[call]);
                    good = false;
                }
            }
        }
        good
    }
}

fn needs(request: &Request, judged: &Outcome) -> [usize; 4] {
    let of = |r: &request::Results| [r.masks.len(), r.values.len(), r.offsets.len(), r.lengths.len()];
    if let Some(lent) = request.in_place() {
        return of(&lent);
    }
    let mut needs = judged.as_ref().map_or([0; 4], of);
    if let Request::TableMake { store, .. } = request {
        needs[1] = *store;
    }
    needs
}
/// As long as needed, none, and each one short.
fn rooms(needs: [usize; 4]) -> Vec<[usize; 4]> {
    let mut rooms = vec![needs, [0; 4]];
    for i in (0..4).filter(|&i| needs[i] > 0) {
        let mut short = needs;
        short[i] -= 1;
        rooms.push(short);
    }
    rooms
}
/// A refusal goes with an error or panic.
fn agree(ours: &Outcome, rust: &Result<request::Results, String>) -> bool {
    match (ours, rust) {
        (Ok(ours), Ok(rust)) => ours == rust,
        (Err(_), Err(_)) => true,
        _ => false,
    }
}

impl Sink for Compare {
    fn ask(&mut self, request: Request) {
        self.hold(&request, &request.judged());
        let asked = NOW.load(Ordering::Relaxed);
        if asked >= 10_000 && asked == 10u64.pow(asked.ilog10()) {
            println!("{asked} requests so far, {} differences", self.counts.differences.iter().sum::<u64>());
        }
    }
    fn asked(&self) -> u64 {
        self.counts.requests.iter().flatten().sum()
    }
    fn damaged(&mut self, damaged: bool) {
        self.damaged = damaged;
    }
    fn long(&mut self) {
        self.long_arrays();
    }
}

fn compare(args: &[String]) -> Result<bool, String> {
    let [object, seed, requests, flags @ ..] = args else { return Err("compare OBJECT SEED REQUESTS [--first]".into()) };
    let seed = seed.parse().map_err(|_| "SEED is a number")?;
    let requests = requests.parse().map_err(|_| "REQUESTS is a number")?;
    let mut compare = Compare::new(object, seed)?;
    compare.stop_at_first = flags.iter().any(|f| f == "--first");
    let clock = Instant::now();
    cases::all(&mut compare, seed, requests);
    let good = compare.report(clock.elapsed().as_secs_f64());
    Ok(compare.all_met() && good)
}

fn long(args: &[String]) -> Result<bool, String> {
    let [object] = args else { return Err("long OBJECT".into()) };
    let mut compare = Compare::new(object, 1)?;
    compare.long_arrays();
    Ok(compare.report(0.0))
}

fn hold_lines(args: &[String]) -> Result<bool, String> {
    let [object, files @ ..] = args else { return Err("lines OBJECT FILE...".into()) };
    let mut compare = Compare::new(object, 1)?;
    let mut bad = 0;
    for file in files {
        let text = std::fs::read_to_string(file).map_err(|e| format!("{file}: {e}"))?;
        let mut count = 0;
        for (at, line) in text.lines().enumerate() {
            if line.starts_with('#') || line.is_empty() {
                continue;
            }
            let (request, recorded) = lines::parse(line).map_err(|e| format!("{file}:{}: {e}", at + 1))?;
            count += 1;
            let judged = request.judged();
            compare.hold(&request, &judged);
            if recorded.as_ref() != Some(&judged) {
                println!("{file}:{}: the judge gives {}", at + 1, lines::line(&request, &judged));
                bad += 1;
            }
        }
        println!("{file}: {count} lines");
    }
    println!("lines that the judge answers otherwise: {bad}");
    for (between, n) in compare.counts.differences.iter().enumerate() {
        println!("differences between {}: {n}", BETWEEN[between]);
    }
    Ok(bad == 0 && compare.counts.differences == [0; BETWEEN.len()])
}

/// Counts requests, and shows one.
struct Show(u64, u64);
impl Sink for Show {
    fn ask(&mut self, request: Request) {
        self.0 += 1;
        if self.0 == self.1 {
            println!("{}", lines::line(&request, &request.judged()));
            std::process::exit(0);
        }
    }
    fn asked(&self) -> u64 {
        self.0
    }
}
fn show(args: &[String]) -> Result<bool, String> {
    let numbers: Result<Vec<u64>, _> = args.iter().map(|n| n.parse()).collect();
    let Ok([seed, request]) = numbers.as_deref() else { return Err("show SEED REQUEST".into()) };
    cases::all(&mut Show(0, *request), *seed, *request);
    Ok(false)
}

/// The requests of standard input with what the judge and the Rust answer. Outside the domain too: there the Rust may end the process.
fn ask() -> Result<bool, String> {
    for line in std::io::stdin().lines() {
        let line = line.map_err(|e| e.to_string())?;
        if line.starts_with('#') || line.is_empty() {
            println!("{line}");
            continue;
        }
        let (request, _) = lines::parse(&line)?;
        let asked = lines::request_line(&request);
        let said = |outcome: &Outcome| lines::line(&request, outcome)[asked.len() + 1..].to_string();
        println!("{} {}", CALLS[request.call()], shown(&request));
        println!("    judge: {}", said(&request.judged()));
        if body(&request) == Body::None {
            continue;
        }
        let answers = BUILDS.map(|build| match build.answer(&request) {
            Ok(r) => (build.name, said(&Ok(r))),
            Err(e) => (build.name, e),
        });
        if answers.iter().all(|(_, answer)| *answer == answers[0].1) {
            println!("    Rust: {}", answers[0].1);
        } else {
            answers.iter().for_each(|(name, answer)| println!("    Rust, {name}: {answer}"));
        }
    }
    Ok(true)
}

fn main() {
    // Panics of the Rust are answers.
    std::panic::set_hook(Box::new(|info| {
        if info.location().is_some_and(|l| l.file().contains("driver/")) {
            eprintln!("{info}");
        }
    }));
    for number in [4, 6, 7, 8, 11] {
        unsafe { signal(number, ended as *const () as usize) }; // SIGILL, SIGABRT, SIGBUS, SIGFPE, SIGSEGV
    }
    let args: Vec<String> = std::env::args().skip(1).collect();
    let done = match args.first().map(String::as_str) {
        Some("compare") => compare(&args[1..]),
        Some("long") => long(&args[1..]),
        Some("lines") => hold_lines(&args[1..]),
        Some("show") => show(&args[1..]),
        Some("ask") => ask(),
        Some("record") => record::record(&args[1..]),
        _ => Err("compare, long, lines, show, ask or record".into()),
    };
    match done {
        Ok(good) => std::process::exit(i32::from(!good)),
        Err(e) => {
            eprintln!("driver: {e}");
            std::process::exit(2);
        }
    }
}
