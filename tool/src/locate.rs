//! Stored bytes field by field, in the order in which the library reads them: what each field is, and where reading stops.
//!
//! The library answers with a number alone. This module walks the same bytes and names the fields. It decides nothing:
//! where it stops is used only where it comes to the library's refusal.

use durpaxeta::{Kind, Mark, MaskForm, Place, Refusal, Values, Width, MAX_VALUE_BYTES};
use std::ops::Range;

/// Where reading stops, and why.
#[derive(Debug, PartialEq, Eq)]
pub struct Stop {
    pub refusal: Refusal,
    /// The position of the field.
    pub at: usize,
    /// What is wrong with it.
    pub what: String,
}

fn stop(refusal: Refusal, at: usize, what: String) -> Result<(), Stop> {
    Err(Stop { refusal, at, what })
}

/// A field of stored bytes.
#[derive(Debug, PartialEq, Eq)]
pub struct Field {
    pub at: usize,
    pub length: usize,
    pub part: Part,
}

impl Field {
    pub fn range(&self) -> Range<usize> {
        self.at..self.at + self.length
    }
}

/// What a field is. Cells are numbers, row by row.
#[derive(Debug, PartialEq, Eq)]
pub enum Part {
    MaskLength {
        level: u64,
        says: u64,
    },
    ContentLength {
        level: u64,
        says: u64,
    },
    /// `cells` are those that have a place in this mask, in their order.
    Mask {
        level: u64,
        form: MaskForm,
        cells: Vec<usize>,
    },
    /// A fixed value.
    Plain {
        cell: usize,
    },
    IndexLength {
        says: u64,
    },
    /// `ends` is the cell that ends there, and whether it is empty; `begins` the cell that begins there.
    Offset {
        number: usize,
        says: u64,
        ends: Option<(usize, bool)>,
        begins: Option<usize>,
    },
    /// The bytes of a ragged cell.
    Data {
        cell: usize,
    },
    /// Of the interleaved form.
    Count {
        says: u64,
    },
    CellLength {
        cell: usize,
        says: u64,
    },
    /// Bytes after the last cell, which reading ignores.
    Tail,
}

/// The fields of stored bytes, up to the one that is refused and with it.
#[derive(Debug)]
pub struct Walk {
    pub fields: Vec<Field>,
    pub stop: Option<Stop>,
}

impl Walk {
    /// How many bytes come after the last cell of the interleaved form.
    pub fn tail(&self) -> usize {
        self.fields.last().filter(|field| field.part == Part::Tail).map_or(0, |field| field.length)
    }
}

/// A stored table of a kind, with so many cells.
pub fn table(kind: Kind, cells: usize, bytes: &[u8]) -> Walk {
    let mut walker = Walker { bytes, fields: Vec::new() };
    let stop = walker.table(kind, (0..cells).collect()).err();
    Walk { fields: walker.fields, stop }
}

/// The interleaved form of so many cells.
pub fn interleaved(cells: usize, bytes: &[u8]) -> Walk {
    let mut walker = Walker { bytes, fields: Vec::new() };
    let stop = walker.interleaved(cells).err();
    Walk { fields: walker.fields, stop }
}

// ----------------------------------------------------------------------------------------------- how a mask lies

/// Cells of a byte of a packed mask, the lowest bit first.
pub const BITS: usize = 8;

/// Bytes of the mask of so many cells.
fn mask_length(form: MaskForm, cells: usize) -> usize {
    match form {
        MaskForm::Bytes => cells,
        MaskForm::Packed => cells.div_ceil(BITS),
    }
}

/// What a mask says of the cell at a place. A byte can say neither null nor set; a bit cannot.
pub fn mark(form: MaskForm, mask: &[u8], place: usize) -> Mark {
    Mark::of(match form {
        MaskForm::Bytes => mask[place],
        MaskForm::Packed => mask[place / BITS] >> (place % BITS) & 1,
    })
}

/// The places of a mask of so many cells that lie in these of its bytes.
pub fn places(form: MaskForm, bytes: Range<usize>, cells: usize) -> Range<usize> {
    match form {
        MaskForm::Bytes => bytes,
        MaskForm::Packed => BITS * bytes.start..cells.min(BITS * bytes.end),
    }
}

/// The bits of a packed mask after those of its cells, numbered in its last byte.
pub fn unused_bits(form: MaskForm, cells: usize) -> Range<usize> {
    match form {
        MaskForm::Packed if cells % BITS != 0 => cells % BITS..BITS,
        _ => 0..0,
    }
}

pub fn bits_text(bits: &[usize]) -> String {
    let numbers: Vec<String> = bits.iter().map(usize::to_string).collect();
    format!("bit{} {}", if bits.len() == 1 { "" } else { "s" }, numbers.join(" "))
}

// -------------------------------------------------------------------------------------------------- the fields

fn cells_text(count: usize) -> String {
    if count == 1 {
        "1 cell".to_string()
    } else {
        format!("{count} cells")
    }
}

struct Walker<'a> {
    bytes: &'a [u8],
    fields: Vec<Field>,
}

impl Walker<'_> {
    /// Adds a field; one of no bytes is none.
    fn field(&mut self, at: usize, length: usize, part: Part) {
        if length > 0 {
            self.fields.push(Field { at, length, part });
        }
    }

    /// A little-endian number; one past the end is 0.
    fn number(&self, at: usize, width: usize) -> u64 {
        let mut number = [0; 8];
        if let Some(field) = self.bytes.get(at..at + width) {
            number[..width].copy_from_slice(field);
        }
        u64::from_le_bytes(number)
    }

    fn left(&self, at: usize) -> usize {
        self.bytes.len() - at
    }

    fn table(&mut self, kind: Kind, mut cells: Vec<usize>) -> Result<(), Stop> {
        let mut at = 0;
        for level in 1..=kind.depth {
            let (form, count) = (kind.masks, cells.len());
            let mask = self.frame(form, level, count, at)?;
            let said = |place| mark(form, &self.bytes[mask.clone()], place);
            let set = (0..count).filter(|&place| said(place) == Mark::Set).map(|place| cells[place]).collect();
            let other = (0..count).find(|&place| said(place) == Mark::Other).map(|place| (place, cells[place]));
            self.field(mask.start, mask.len(), Part::Mask { level, form, cells });
            self.unused_bits(form, level, count, mask.end - 1)?;
            if let Some((place, cell)) = other {
                self.neither(level, mask.start + place, cell)?;
            }
            (at, cells) = (mask.end, set);
            if cells.is_empty() {
                return self.no_content(level, at);
            }
        }
        match kind.values {
            Values::Fixed { size, .. } => self.plain(size, &cells, at),
            Values::Ragged { width, place } => self.ragged(width, place, &cells, at),
        }
    }

    /// The two lengths of a frame; answers where its mask lies.
    fn frame(&mut self, form: MaskForm, level: u64, cells: usize, at: usize) -> Result<Range<usize>, Stop> {
        let left = self.left(at);
        if left < 16 {
            stop(
                Refusal::Short,
                at,
                format!(
                    "a frame of level {level} begins there and takes 16 bytes for its two lengths; {left} are left"
                ),
            )?;
        }
        let (mask, content) = (self.number(at, 8), self.number(at + 8, 8));
        self.field(at, 8, Part::MaskLength { level, says: mask });
        let need = mask_length(form, cells);
        if mask != need as u64 {
            let packed = match form {
                MaskForm::Bytes => String::new(),
                MaskForm::Packed => format!(", and their bits take {need}"),
            };
            stop(
                Refusal::Length,
                at,
                format!("the mask length of level {level} says {mask}; that level has {}{packed}", cells_text(cells)),
            )?;
        }
        self.field(at + 8, 8, Part::ContentLength { level, says: content });
        if 16 + u128::from(mask) + u128::from(content) != left as u128 {
            stop(
                Refusal::Length,
                at + 8,
                format!(
                    "the content length of level {level} says {content}, so the frame takes 16 + {mask} + {content} bytes; \
                     {left} are there"
                ),
            )?;
        }
        Ok(at + 16..at + 16 + need)
    }

    /// The bits that no cell has, in the last byte of a mask.
    fn unused_bits(&self, form: MaskForm, level: u64, cells: usize, last: usize) -> Result<(), Stop> {
        let byte = self.bytes[last];
        let bits: Vec<usize> = unused_bits(form, cells).filter(|bit| byte >> bit & 1 == 1).collect();
        if bits.is_empty() {
            return Ok(());
        }
        let verb = if bits.len() == 1 { "is" } else { "are" };
        let (count, bits) = (cells_text(cells), bits_text(&bits));
        let what = format!(
            "the mask of level {level} ends there; it has {count}, and of its last byte, {byte:02X}, the unused {bits} {verb} \
             not 0"
        );
        stop(Refusal::UnusedBits, last, what)
    }

    /// A mask byte that is neither null nor set.
    fn neither(&self, level: u64, at: usize, cell: usize) -> Result<(), Stop> {
        let byte = self.bytes[at];
        let what =
            format!("the mask of level {level} says {byte:02X} of cell {cell}, which is neither 00, null, nor 01, set");
        stop(Refusal::NotBoolean, at, what)
    }

    /// Behind a mask in which no cell is set.
    fn no_content(&self, level: u64, at: usize) -> Result<(), Stop> {
        let noun = match self.left(at) {
            0 => return Ok(()),
            1 => "1 content byte follows".into(),
            left => format!("{left} content bytes follow"),
        };
        stop(Refusal::Length, at, format!("no cell is set in the mask of level {level}, but {noun}"))
    }

    fn plain(&mut self, size: u64, cells: &[usize], at: usize) -> Result<(), Stop> {
        let (need, left) = (size as u128 * cells.len() as u128, self.left(at));
        if need != left as u128 {
            let count = cells_text(cells.len());
            let what = format!("the values begin there; {count} of {size} bytes take {need}, and {left} are there");
            stop(Refusal::Length, at, what)?;
        }
        let size = size as usize;
        for (place, &cell) in cells.iter().enumerate() {
            self.field(at + size * place, size, Part::Plain { cell });
        }
        Ok(())
    }

    fn ragged(&mut self, width: Width, place: Place, cells: &[usize], at: usize) -> Result<(), Stop> {
        let (count, left) = (cells.len(), self.left(at));
        if left < 8 {
            stop(
                Refusal::Short,
                at,
                format!("ragged values begin there and take 8 bytes for the length of their index; {left} are left"),
            )?;
        }
        let width = width.bytes();
        let need = width * (count + 1);
        let length_at = match place {
            Place::Start => at,
            Place::End => self.bytes.len() - 8,
        };
        let length = self.number(length_at, 8);
        self.field(length_at, 8, Part::IndexLength { says: length });
        if length != need as u64 {
            let what = format!("the index length says {length}; the index of {} takes {need} bytes", cells_text(count));
            stop(Refusal::Length, length_at, what)?;
        }
        if need > left - 8 {
            let what = format!("the index takes {need} bytes; {} are there", left - 8);
            stop(Refusal::Length, length_at, what)?;
        }
        let (index, data_at) = match place {
            Place::Start => (at + 8, at + 8 + need),
            Place::End => (length_at - need, at),
        };
        let offsets: Vec<u64> = (0..=count).map(|number| self.number(index + width * number, width)).collect();
        let (last, data) = (offsets[count], left - 8 - need);
        let wrong_end = last != data as u64;
        let breaks = |number: usize| match number.checked_sub(1) {
            None => offsets[0] != 0,
            Some(before) => offsets[number] < offsets[before],
        };
        let wrong = (0..=count).find(|&number| breaks(number)).filter(|_| !wrong_end);
        // With all offsets, or up to the one that breaks their rule.
        for number in 0..=wrong.unwrap_or(count) {
            let part = Part::Offset {
                number,
                says: offsets[number],
                ends: number.checked_sub(1).map(|place| (cells[place], offsets[place] == offsets[number])),
                begins: cells.get(number).copied(),
            };
            self.field(index + width * number, width, part);
        }
        let last_at = index + width * count;
        if wrong_end {
            let what = format!("the last offset says {last} value bytes; {data} are there");
            stop(Refusal::Length, last_at, what)?;
        }
        if let Some(number) = wrong {
            let says = offsets[number];
            let what = match number.checked_sub(1).map(|before| (before, offsets[before])) {
                None => format!("the first offset is {says}; it must be 0"),
                Some((before, more)) => {
                    format!("offset {number} is {says}, less than offset {before} before it, which is {more}")
                }
            };
            stop(Refusal::Falling, index + width * number, what)?;
        }
        if last > MAX_VALUE_BYTES {
            stop(Refusal::Size, last_at, format!("the last offset says {last} value bytes"))?;
        }
        for (ends, &cell) in offsets.windows(2).zip(cells) {
            self.field(data_at + ends[0] as usize, (ends[1] - ends[0]) as usize, Part::Data { cell });
        }
        Ok(())
    }

    fn interleaved(&mut self, cells: usize) -> Result<(), Stop> {
        let need = 4 * (1 + cells);
        if self.bytes.len() < need {
            let there = self.bytes.len();
            let what =
                format!("the count and the lengths of {} take {need} bytes; {there} are there", cells_text(cells));
            stop(Refusal::Short, 0, what)?;
        }
        let count = self.number(0, 4);
        self.field(0, 4, Part::Count { says: count });
        if count != cells as u64 {
            let what = format!("the count says {count}; the shape has {}", cells_text(cells));
            stop(Refusal::Count, 0, what)?;
        }
        let (mut at, mut sum, mut over) = (4, 0, Ok(()));
        for cell in 0..cells {
            let left = self.left(at);
            if left < 4 {
                let what = format!("the length of cell {cell} begins there and takes 4 bytes; {left} are left");
                stop(Refusal::PastEnd, at, what)?;
            }
            let length = self.number(at, 4);
            self.field(at, 4, Part::CellLength { cell, says: length });
            if length > left as u64 - 4 {
                let what = format!("the length of cell {cell} says {length}; {} bytes are left", left - 4);
                stop(Refusal::PastEnd, at, what)?;
            }
            self.field(at + 4, length as usize, Part::Data { cell });
            sum += length;
            if sum > MAX_VALUE_BYTES && over.is_ok() {
                let what = format!("with the length of cell {cell}, which says {length}, the cells sum up to {sum}");
                over = stop(Refusal::Size, at, what);
            }
            at += 4 + length as usize;
        }
        self.field(at, self.left(at), Part::Tail);
        over
    }
}

#[cfg(test)]
mod tests {
    use super::*;
    use durpaxeta::{decode, decode_interleaved, encode, Array, Cell, Order};

    fn at(walk: Walk) -> Option<(u32, usize)> {
        walk.stop.map(|stop| (stop.refusal.number(), stop.at))
    }

    /// The affinity table: 64 bytes.
    fn affinity(place: Place) -> (Kind, Vec<u8>) {
        let kind = Kind::ragged(2, Width::Four, place);
        let cells = [Cell::Value(b"0-3,8"), Cell::Value(b""), Cell::Null { level: 1 }, Cell::Null { level: 2 }];
        (kind, encode(&Array::from_cells(kind, &[2, 2], &cells).unwrap()).unwrap())
    }

    #[test]
    fn each_field_of_a_frame() {
        let (kind, stored) = affinity(Place::Start);
        assert_eq!(stored.len(), 64);
        assert_eq!(at(table(kind, 4, &stored)), None);
        let with = |position: usize, byte: u8| {
            let mut bytes = stored.clone();
            bytes[position] = byte;
            at(table(kind, 4, &bytes))
        };
        assert_eq!(with(0, 5), Some((8, 0)), "mask length of level 1");
        assert_eq!(with(8, 43), Some((8, 8)), "content length of level 1");
        assert_eq!(with(18, 1), Some((8, 20)), "one cell more is set in the mask of level 1");
        assert_eq!(with(20, 2), Some((8, 20)), "mask length of level 2");
        assert_eq!(with(28, 24), Some((8, 28)), "content length of level 2");
        assert_eq!(with(38, 1), Some((8, 39)), "one cell more is set in the mask of level 2");
        assert_eq!(with(39, 16), Some((8, 39)), "index length");
        assert_eq!(with(47, 6), Some((10, 47)), "first offset");
        assert_eq!(with(51, 6), Some((10, 55)), "second offset over the last");
        assert_eq!(with(55, 4), Some((8, 55)), "last offset");
        assert_eq!(with(60, b'x'), None, "a value byte");
        assert_eq!(at(table(kind, 4, &[])), Some((7, 0)));
        assert_eq!(at(table(kind, 4, &stored[..15])), Some((7, 0)));
        assert_eq!(at(table(kind, 4, &stored[..63])), Some((8, 8)));
    }

    /// Three cells take a byte; the length, then the unused bits, then the content.
    #[test]
    fn a_packed_mask() {
        let kind = Kind::fixed(2, 1, Order::Little).packed();
        let cells = [Cell::Value(b"a"), Cell::Null { level: 2 }, Cell::Null { level: 1 }];
        let stored = encode(&Array::from_cells(kind, &[3], &cells).unwrap()).unwrap();
        assert_eq!((stored.len(), stored[16], stored[33]), (35, 0b011, 0b01));
        assert_eq!(at(table(kind, 3, &stored)), None);
        let with = |position: usize, byte: u8| {
            let mut bytes = stored.clone();
            bytes[position] = byte;
            table(kind, 3, &bytes).stop
        };
        let told = |stop: Option<Stop>| stop.map(|stop| (stop.refusal.number(), stop.at, stop.what)).unwrap();
        assert_eq!(
            told(with(0, 3)),
            (8, 0, "the mask length of level 1 says 3; that level has 3 cells, and their bits take 1".into())
        );
        assert_eq!(
            told(with(16, 0b1011)),
            (
                13,
                16,
                "the mask of level 1 ends there; it has 3 cells, and of its last byte, 0B, the unused bit 3 is not 0"
                    .into()
            )
        );
        assert_eq!(
            told(with(33, 0b1000_0101)),
            (
                13,
                33,
                "the mask of level 2 ends there; it has 2 cells, and of its last byte, 85, the unused bits 2 7 are not 0"
                    .into()
            )
        );
        assert_eq!(with(33, 0b11).map(|stop| (stop.refusal.number(), stop.at)), Some((8, 34)));
        // 02 is two cells, null and set.
        assert_eq!(with(33, 0b10), None);
        // A full byte has no unused bits.
        let full = Kind::fixed(1, 1, Order::Little).packed();
        let frame = |mask: &[u8], content: &[u8]| {
            let lengths = [mask.len() as u64, content.len() as u64].map(u64::to_le_bytes).concat();
            [&lengths[..], mask, content].concat()
        };
        assert_eq!(at(table(full, 8, &frame(&[255], b"abcdefgh"))), None);
        assert_eq!(at(table(full, 9, &frame(&[255, 2], b"abcdefgh"))), Some((13, 17)));
    }

    #[test]
    fn an_index_at_the_end() {
        let (kind, stored) = affinity(Place::End);
        let with = |position: usize, byte: u8| {
            let mut bytes = stored.clone();
            bytes[position] = byte;
            at(table(kind, 4, &bytes))
        };
        assert_eq!(with(56, 16), Some((8, 56)), "index length");
        assert_eq!(with(44, 6), Some((10, 44)), "first offset");
        assert_eq!(with(48, 6), Some((10, 52)), "second offset over the last");
        assert_eq!(with(52, 4), Some((8, 52)), "last offset");
    }

    #[test]
    fn plain_values_and_missing_contents() {
        let fixed = |depth| Kind::fixed(depth, 2, Order::Little);
        assert_eq!(at(table(fixed(0), 3, &[0; 5])), Some((8, 0)));
        assert_eq!(at(table(fixed(0), 3, &[0; 6])), None);
        let frame = [1, 0, 0, 0, 0, 0, 0, 0, 0, 0, 0, 0, 0, 0, 0, 0, 1];
        assert_eq!(at(table(fixed(1), 1, &frame)), Some((8, 17)));
        assert_eq!(at(table(fixed(2), 1, &frame)), Some((7, 17)));
        assert_eq!(at(table(Kind::ragged(1, Width::Four, Place::End), 1, &frame)), Some((7, 17)));
    }

    #[test]
    fn interleaved_fields() {
        let stored = [2, 0, 0, 0, 1, 0, 0, 0, b'A', 0, 0, 0, 0];
        assert_eq!(at(interleaved(2, &stored)), None);
        assert_eq!(at(interleaved(2, &stored[..11])), Some((7, 0)));
        assert_eq!(at(interleaved(2, &stored[..12])), Some((11, 9)));
        assert_eq!(at(interleaved(1, &stored)), Some((9, 0)));
        let mut long = stored;
        long[4] = 6;
        assert_eq!(at(interleaved(2, &long)), Some((11, 4)));
        assert_eq!(at(interleaved(0, &[0, 0, 0, 0])), None);
    }

    #[test]
    fn over_the_limit() {
        let (most, field) = (MAX_VALUE_BYTES as usize, u32::MAX as usize);
        let kind = Kind::ragged(0, Width::Eight, Place::Start);
        let bytes = crate::system::zeros(24 + most + 1);
        bytes[0] = 16;
        for (more, due) in [(0, None), (1, Some((5, 16)))] {
            bytes[16..24].copy_from_slice(&((most + more) as u64).to_le_bytes());
            assert_eq!(at(table(kind, 1, &bytes[..24 + most + more])), due);
        }
        // Of the older form three cells can be too long together: the third is the one that is.
        let bytes = crate::system::zeros(4 + 3 * 4 + most + 1);
        bytes[0] = 3;
        for cell in [0, 1] {
            bytes[4 + cell * (4 + field)..][..4].copy_from_slice(&u32::MAX.to_le_bytes());
        }
        let third = 4 + 2 * (4 + field);
        for (more, due) in [(0, None), (1, Some((5, third)))] {
            bytes[third] = 2 + more as u8;
            assert_eq!(at(interleaved(3, &bytes[..third + 4 + 2 + more])), due);
        }
    }

    /// The walk comes to the library's answer. Its fields lie within the bytes and nowhere one over the other; with nothing
    /// refused, every byte is in one of them.
    fn covered(walk: &Walk, answer: Option<Refusal>, stored: &[u8]) {
        assert_eq!(walk.stop.as_ref().map(|stop| stop.refusal), answer, "{stored:02X?}");
        assert!(walk.stop.as_ref().map_or(true, |stop| stop.at <= stored.len()));
        let mut ranges: Vec<Range<usize>> = walk.fields.iter().map(Field::range).collect();
        ranges.sort_by_key(|range| range.start);
        assert!(ranges.windows(2).all(|pair| pair[0].end <= pair[1].start), "{ranges:?}: {stored:02X?}");
        assert!(ranges.last().map_or(true, |range| range.end <= stored.len()), "{ranges:?}: {stored:02X?}");
        if walk.stop.is_none() {
            assert_eq!(ranges.iter().map(Range::len).sum::<usize>(), stored.len(), "{ranges:?}: {stored:02X?}");
        }
    }

    #[test]
    fn bytes_in_no_cell() {
        let told = |walk: Walk| walk.stop.map(|stop| (stop.refusal.number(), stop.at, stop.what)).unwrap();
        let frame = |content: &[u8]| {
            [&[2, 0, 0, 0, 0, 0, 0, 0, content.len() as u8, 0, 0, 0, 0, 0, 0, 0, 0, 0][..], content].concat()
        };
        let fixed = Kind::fixed(1, 2, Order::Little);
        assert_eq!(at(table(fixed, 2, &frame(b""))), None);
        let note = told(table(fixed, 2, &frame(b"note")));
        assert_eq!(note, (8, 18, "no cell is set in the mask of level 1, but 4 content bytes follow".into()));
        let one = told(table(fixed, 2, &frame(b"n")));
        assert_eq!(one, (8, 18, "no cell is set in the mask of level 1, but 1 content byte follows".into()));
        let start = |offsets: [u8; 2], data: &[u8]| {
            [&[8, 0, 0, 0, 0, 0, 0, 0, offsets[0], 0, 0, 0, offsets[1], 0, 0, 0][..], data].concat()
        };
        let ragged = |offsets, data| table(Kind::ragged(0, Width::Four, Place::Start), 1, &start(offsets, data));
        assert_eq!(at(ragged([0, 2], b"AB")), None);
        assert_eq!(told(ragged([1, 2], b"AB")), (10, 8, "the first offset is 1; it must be 0".into()));
        assert_eq!(told(ragged([1, 1], b"A")), (10, 8, "the first offset is 1; it must be 0".into()));
        assert_eq!(told(ragged([1, 2], b"A")), (8, 12, "the last offset says 2 value bytes; 1 are there".into()));
        assert_eq!(told(ragged([0, 0], b"AB")), (8, 12, "the last offset says 0 value bytes; 2 are there".into()));
        assert_eq!(told(ragged([5, 0], b"AB")), (8, 12, "the last offset says 0 value bytes; 2 are there".into()));
        assert_eq!(told(ragged([5, 0], b"")), (10, 8, "the first offset is 5; it must be 0".into()));
        let end = [&b"AB"[..], &start([1, 2], b"")[8..], &start([1, 2], b"")[..8]].concat();
        assert_eq!(at(table(Kind::ragged(0, Width::Four, Place::End), 1, &end)), Some((10, 2)));
        let tail = interleaved(1, &[1, 0, 0, 0, 0, 0, 0, 0, 7]);
        assert_eq!((tail.tail(), at(tail)), (1, None));
        assert_eq!(interleaved(1, &[1, 0, 0, 0, 0, 0, 0, 0]).tail(), 0);
    }

    /// The first one of a mask, its level and its cell; before the content, and before a later one.
    #[test]
    fn mask_bytes_over_01() {
        let (kind, stored) = affinity(Place::Start);
        let with = |changes: &[(usize, u8)]| {
            let mut bytes = stored.clone();
            changes.iter().for_each(|&(position, byte)| bytes[position] = byte);
            table(kind, 4, &bytes).stop.map(|stop| (stop.refusal.number(), stop.at, stop.what))
        };
        let said = |at, level, byte, cell| {
            let what =
                format!("the mask of level {level} says {byte} of cell {cell}, which is neither 00, null, nor 01, set");
            Some((14, at, what))
        };
        assert_eq!(with(&[(37, 2)]), said(37, 2, "02", 1));
        // Cell 2 has no place in the mask of level 2: its last byte is that of cell 3.
        assert_eq!(with(&[(38, 0xFF)]), said(38, 2, "FF", 3));
        assert_eq!(with(&[(19, 0x80), (37, 2)]), said(19, 1, "80", 3));
        assert_eq!(with(&[(17, 3), (18, 2), (20, 9), (39, 9)]), said(17, 1, "03", 1));
        // The lengths come first.
        assert_eq!(with(&[(17, 3), (0, 9)]).map(|(refusal, at, _)| (refusal, at)), Some((8, 0)));
        assert_eq!(with(&[(17, 3), (8, 9)]).map(|(refusal, at, _)| (refusal, at)), Some((8, 8)));
    }

    /// Whatever is damaged: the walk comes to the library's answer.
    #[test]
    fn agrees_with_the_library() {
        let mut draw = crate::random::draws(12345);
        for round in 0..40_000 {
            let (kind, mut stored) = crate::random::damaged(round, &mut draw);
            let answer = decode(kind, &[4], &stored).err();
            covered(&table(kind, 4, &stored), answer, &stored);
            let count = draw(5);
            if stored.len() >= 4 && draw(2) == 0 {
                stored[..4].copy_from_slice(&(count as u32).to_le_bytes());
                stored[4..].iter_mut().for_each(|byte| *byte %= 3);
            }
            let answer = decode_interleaved(count as u64, &stored).err();
            covered(&interleaved(count, &stored), answer, &stored);
        }
    }
}
