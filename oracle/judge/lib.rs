//! The judge: what docs/SPEC.md and docs/DECISIONS.md say of the twenty calls, as plain code.
//!
//! Each function takes what the call takes, as numbers and slices, and gives the result or the refusal number. Outputs are not lent:
//! `fits` says where a lent output is too short (6), and c.rs puts a result into lent outputs.
//! The judge is there to be held against the papers: it allocates and copies as it likes, but no value that is not in the result, so that
//! long arrays can be asked for; and lengths that could leave 64 bits are added in 128.

use std::borrow::{Borrow, Cow};

pub const MAX_DEPTH: u64 = 4;
pub const MAX_SIZE: u64 = 64;
pub const MAX_SIDES: usize = 4;
pub const MAX_CELLS: u64 = 65_536;
pub const MAX_VALUE_BYTES: u64 = 8_589_934_592;
/// The most that an offset of width 4, or a length of the interleaved form, can say.
pub const MAX_FIELD: u64 = 4_294_967_295;
pub const MAX_STORE: u64 = 16_777_216;
pub const MAX_MOVES: u64 = 256;

pub type Refusal = u32;

/// depth, form (0 fixed, 1 ragged), size or width, order (1 big) or place (1 end), mask form (0 bytes, 1 packed).
pub type KindNumbers = [u64; 5];

#[derive(Clone, Copy, Debug, PartialEq)]
pub enum Form {
    Fixed { size: usize, big: bool },
    Ragged { width: usize, end: bool },
}

#[derive(Clone, Copy, Debug, PartialEq)]
pub struct Kind {
    pub depth: usize,
    /// Stored masks have one bit a cell.
    pub packed: bool,
    pub form: Form,
}

/// The value of a cell, or a piece of what is written: lent where it lies somewhere.
pub type Value<'a> = Cow<'a, [u8]>;

/// Content of an array: planes end to end, outermost first; value bytes; offsets.
#[derive(Clone, Debug, Default, PartialEq)]
pub struct Array {
    pub masks: Vec<u8>,
    pub values: Vec<u8>,
    pub offsets: Vec<u64>,
}

// ---------------------------------------------------------------- 1, 2, 3: kind, shape, subsets

fn width_and_place(width: u64, place: u64) -> Result<Form, Refusal> {
    if (width != 4 && width != 8) || place > 1 {
        return Err(1);
    }
    Ok(Form::Ragged { width: width as usize, end: place == 1 })
}

fn cell_size(size: u64) -> Result<usize, Refusal> {
    if size < 1 || size > MAX_SIZE {
        return Err(1);
    }
    Ok(size as usize)
}

pub fn kind([depth, form, size, order, mask]: KindNumbers) -> Result<Kind, Refusal> {
    if depth > MAX_DEPTH || mask > 1 {
        return Err(1);
    }
    let form = match form {
        0 if order <= 1 => Form::Fixed { size: cell_size(size)?, big: order == 1 },
        1 => width_and_place(size, order)?,
        _ => return Err(1),
    };
    Ok(Kind { depth: depth as usize, packed: mask == 1, form })
}

/// The number of cells of a shape. Each side is limited before it is multiplied.
pub fn shape_cells(shape: &[u64]) -> Result<usize, Refusal> {
    if shape.is_empty() || shape.len() > MAX_SIDES {
        return Err(2);
    }
    let mut cells = 1;
    for &side in shape {
        if side < 1 || side > MAX_CELLS {
            return Err(2);
        }
        cells *= side;
        if cells > MAX_CELLS {
            return Err(2);
        }
    }
    Ok(cells as usize)
}

/// A subset: all starts, then all lengths. Its cells in row order.
fn cells_of_subset(shape: &[u64], subset: &[u64]) -> Result<Vec<usize>, Refusal> {
    let sides = shape.len();
    if subset.len() != 2 * sides {
        return Err(3);
    }
    let (start, length) = subset.split_at(sides);
    for i in 0..sides {
        if u128::from(start[i]) + u128::from(length[i]) > u128::from(shape[i]) {
            return Err(3);
        }
    }
    // Side by side from the first: each cell so far becomes a row of the next side.
    let mut cells = vec![0];
    for i in 0..sides {
        let mut next = vec![];
        for cell in cells {
            for at in start[i]..start[i] + length[i] {
                next.push(cell * shape[i] as usize + at as usize);
            }
        }
        cells = next;
    }
    Ok(cells)
}

// ---------------------------------------------------------------- 4, 5: arrays handed over

/// The first offset is 0, and none is below the one before it.
fn rise(offsets: &[u64]) -> bool {
    offsets[0] == 0 && (1..offsets.len()).all(|i| offsets[i - 1] <= offsets[i])
}

/// A mask byte is 00 or 01, whatever lies around it.
fn neither(mask: &[u8]) -> bool {
    mask.iter().any(|&byte| byte > 1)
}

fn check_array(kind: Kind, cells: usize, masks: &[u8], values: &[u8], offsets: &[u64]) -> Result<(), Refusal> {
    if masks.len() != kind.depth * cells {
        return Err(4);
    }
    if neither(masks) {
        return Err(4);
    }
    match kind.form {
        Form::Fixed { size, .. } => {
            if values.len() != cells * size || !offsets.is_empty() {
                return Err(4);
            }
        }
        Form::Ragged { .. } => {
            if offsets.len() != cells + 1 || !rise(offsets) || offsets[cells] != values.len() as u64 {
                return Err(4);
            }
        }
    }
    if values.len() as u64 > MAX_VALUE_BYTES {
        return Err(5);
    }
    Ok(())
}

/// The planes, each a list of one byte a cell.
fn planes(depth: usize, cells: usize, masks: &[u8]) -> Vec<Vec<u8>> {
    (0..depth).map(|level| masks[level * cells..(level + 1) * cells].to_vec()).collect()
}

/// The values, each a list of bytes.
fn cell_values<'a>(form: Form, cells: usize, values: &'a [u8], offsets: &[u64]) -> Vec<Value<'a>> {
    let value = |cell: usize| match form {
        Form::Fixed { size, .. } => &values[cell * size..(cell + 1) * size],
        Form::Ragged { .. } => &values[offsets[cell] as usize..offsets[cell + 1] as usize],
    };
    (0..cells).map(|cell| value(cell).into()).collect()
}

/// Offsets of values that lie end to end from 0.
fn offsets_from_0<V: Borrow<[u8]>>(values: &[V]) -> Vec<u64> {
    let mut offsets = vec![0];
    let mut end = 0;
    for value in values {
        end += value.borrow().len() as u64;
        offsets.push(end);
    }
    offsets
}

/// An array of these planes and values, ragged ones end to end from offset 0.
fn array_of<V: Borrow<[u8]>>(form: Form, planes: &[Vec<u8>], values: &[V]) -> Array {
    let offsets = match form {
        Form::Fixed { .. } => vec![],
        Form::Ragged { .. } => offsets_from_0(values),
    };
    Array { masks: planes.concat(), values: values.concat(), offsets }
}

fn pick<T: Clone>(list: &[T], cells: &[usize]) -> Vec<T> {
    cells.iter().map(|&cell| list[cell].clone()).collect()
}

fn set_cells(mask: &[u8]) -> Vec<usize> {
    (0..mask.len()).filter(|&cell| mask[cell] == 1).collect()
}

// ---------------------------------------------------------------- encode

/// In pieces: end to end they are the stored bytes.
pub fn encode<'a>(
    k: KindNumbers,
    shape: &[u64],
    masks: &[u8],
    values: &'a [u8],
    offsets: &[u64],
) -> Result<Vec<Value<'a>>, Refusal> {
    let kind = kind(k)?;
    let cells = shape_cells(shape)?;
    check_array(kind, cells, masks, values, offsets)?;
    let planes = planes(kind.depth, cells, masks);
    write_content(kind, &planes, &cell_values(kind.form, cells, values, offsets))
}

/// A frame of the outermost plane given; with no plane left, the values.
fn write_content<'a>(kind: Kind, planes: &[Vec<u8>], values: &[Value<'a>]) -> Result<Vec<Value<'a>>, Refusal> {
    let Some((mask, inner)) = planes.split_first() else {
        return write_values(kind.form, values);
    };
    let set = set_cells(mask);
    let mut content = vec![];
    if !set.is_empty() {
        let inner: Vec<Vec<u8>> = inner.iter().map(|plane| pick(plane, &set)).collect();
        content = write_content(kind, &inner, &pick(values, &set))?;
    }
    let mask = write_mask(kind.packed, mask);
    let mut bytes = vec![];
    bytes.extend((mask.len() as u64).to_le_bytes());
    bytes.extend((length_of(&content) as u64).to_le_bytes());
    bytes.extend(mask);
    content.insert(0, bytes.into());
    Ok(content)
}

/// Bytes of all pieces.
pub fn length_of(pieces: &[Value<'_>]) -> usize {
    pieces.iter().map(|piece| piece.len()).sum()
}

/// A plane as it is stored: just as it is, or a bit a cell, the lowest bit of a byte first, and unused bits 0.
pub fn write_mask(packed: bool, plane: &[u8]) -> Vec<u8> {
    if !packed {
        return plane.to_vec();
    }
    plane.chunks(8).map(|eight| set_cells(eight).iter().map(|i| 1 << i).sum()).collect()
}

fn write_values<'a>(form: Form, values: &[Value<'a>]) -> Result<Vec<Value<'a>>, Refusal> {
    match form {
        Form::Fixed { big, .. } => Ok(values.iter().map(|value| in_order(big, value).into()).collect()),
        Form::Ragged { width, end } => write_ragged(width, end, values),
    }
}

fn in_order(big: bool, value: &[u8]) -> Vec<u8> {
    let mut value = value.to_vec();
    if big {
        value.reverse();
    }
    value
}

/// Start: index length, index, data. End: data, index, index length. 20 where an offset does not fit.
fn write_ragged<'a>(width: usize, end: bool, values: &[Value<'a>]) -> Result<Vec<Value<'a>>, Refusal> {
    let mut index = vec![];
    for offset in offsets_from_0(values) {
        if width == 4 && offset > MAX_FIELD {
            return Err(20);
        }
        index.extend(&offset.to_le_bytes()[..width]);
    }
    let length = (index.len() as u64).to_le_bytes();
    let data = values.to_vec();
    let (index, length) = (vec![index.into()], vec![length.to_vec().into()]);
    Ok(if end { [data, index, length].concat() } else { [length, index, data].concat() })
}

// ---------------------------------------------------------------- decode

pub fn decode(k: KindNumbers, shape: &[u64], bytes: &[u8]) -> Result<Array, Refusal> {
    let kind = kind(k)?;
    let cells = shape_cells(shape)?;
    let (planes, values) = read_content(kind, kind.depth, cells, bytes)?;
    Ok(array_of(kind.form, &planes, &values))
}

fn le(bytes: &[u8]) -> u64 {
    bytes.iter().rev().fold(0, |number, &byte| number * 256 + u64::from(byte))
}

/// A frame of `depth` levels over `cells` cells; at depth 0 the values.
fn read_content(kind: Kind, depth: usize, cells: usize, bytes: &[u8]) -> Result<(Vec<Vec<u8>>, Vec<Value<'_>>), Refusal> {
    if depth == 0 {
        return Ok((vec![], read_values(kind.form, cells, bytes)?));
    }
    if bytes.len() < 16 {
        return Err(7);
    }
    let mask_length = u128::from(le(&bytes[0..8]));
    let content_length = u128::from(le(&bytes[8..16]));
    if 16 + mask_length + content_length != bytes.len() as u128 {
        return Err(8);
    }
    if mask_length != mask_bytes(kind.packed, cells) as u128 {
        return Err(8);
    }
    let (mask, content) = bytes[16..].split_at(mask_bytes(kind.packed, cells));
    let plane = read_mask(kind.packed, cells, mask)?;
    let set = set_cells(&plane);
    let (inner, set_values) = if !set.is_empty() {
        read_content(kind, depth - 1, set.len(), content)?
    } else if content.is_empty() {
        (vec![vec![]; depth - 1], vec![])
    } else {
        return Err(8); // nothing hides behind nulls
    };
    let mut planes = vec![plane];
    for plane in inner {
        planes.push(spread(cells, &set, &plane, 0));
    }
    Ok((planes, spread(cells, &set, &set_values, null_value(kind.form).into())))
}

/// What a null is read with: zero bytes, or none.
fn null_value(form: Form) -> Vec<u8> {
    match form {
        Form::Fixed { size, .. } => vec![0; size],
        Form::Ragged { .. } => vec![],
    }
}

/// The bytes of a stored mask of so many cells.
pub fn mask_bytes(packed: bool, cells: usize) -> usize {
    if packed { cells.div_ceil(8) } else { cells }
}

/// What a stored mask says of its cells: its bytes, or 01 for each set bit. 14 where a byte is over 01, 13 where a bit past these cells is
/// set.
fn read_mask(packed: bool, cells: usize, mask: &[u8]) -> Result<Vec<u8>, Refusal> {
    if !packed {
        if neither(mask) {
            return Err(14);
        }
        return Ok(mask.to_vec());
    }
    let bit = |i: usize| mask[i / 8] >> (i % 8) & 1;
    if (cells..8 * mask.len()).any(|i| bit(i) == 1) {
        return Err(13);
    }
    Ok((0..cells).map(bit).collect())
}

/// The list's entries in the places `set`, `null` elsewhere.
fn spread<T: Clone>(cells: usize, set: &[usize], list: &[T], null: T) -> Vec<T> {
    let mut all = vec![null; cells];
    for (at, &cell) in set.iter().enumerate() {
        all[cell] = list[at].clone();
    }
    all
}

fn read_values(form: Form, cells: usize, bytes: &[u8]) -> Result<Vec<Value<'_>>, Refusal> {
    match form {
        Form::Fixed { size, big } => {
            if bytes.len() != cells * size {
                return Err(8);
            }
            Ok(bytes.chunks(size).map(|value| in_order(big, value).into()).collect())
        }
        Form::Ragged { width, end } => {
            let (data, offsets) = read_ragged(width, end, cells, bytes)?;
            Ok(cell_values(form, cells, data, &offsets))
        }
    }
}

/// 7, 8, 10 and then 5.
fn read_ragged(width: usize, end: bool, cells: usize, bytes: &[u8]) -> Result<(&[u8], Vec<u64>), Refusal> {
    if bytes.len() < 8 {
        return Err(7);
    }
    let (length, rest) = if end {
        let (rest, length) = bytes.split_at(bytes.len() - 8);
        (le(length), rest)
    } else {
        let (length, rest) = bytes.split_at(8);
        (le(length), rest)
    };
    if length > rest.len() as u64 {
        return Err(8);
    }
    let length = length as usize;
    if length != width * (cells + 1) {
        return Err(8);
    }
    let (index, data) = if end {
        let (data, index) = rest.split_at(rest.len() - length);
        (index, data)
    } else {
        rest.split_at(length)
    };
    let offsets: Vec<u64> = index.chunks(width).map(le).collect();
    let last = offsets[cells];
    if data.len() as u64 != last {
        return Err(8);
    }
    if !rise(&offsets) {
        return Err(10);
    }
    if last > MAX_VALUE_BYTES {
        return Err(5);
    }
    Ok((data, offsets))
}

// ---------------------------------------------------------------- decode_interleaved

pub fn decode_interleaved(cells: u64, bytes: &[u8]) -> Result<Array, Refusal> {
    let values = read_interleaved(cells, bytes)?;
    Ok(array_of(Form::Ragged { width: 4, end: false }, &[], &values))
}

fn read_interleaved(cells: u64, bytes: &[u8]) -> Result<Vec<&[u8]>, Refusal> {
    if cells > MAX_CELLS {
        return Err(2);
    }
    if (bytes.len() as u64) < 4 * (1 + cells) {
        return Err(7);
    }
    if le(&bytes[0..4]) != cells {
        return Err(9);
    }
    let mut rest = &bytes[4..];
    let mut values = vec![];
    for _ in 0..cells {
        if rest.len() < 4 {
            return Err(11);
        }
        let length = le(&rest[0..4]) as usize;
        rest = &rest[4..];
        if rest.len() < length {
            return Err(11);
        }
        values.push(&rest[..length]);
        rest = &rest[length..];
    }
    let offsets = offsets_from_0(&values);
    if offsets[cells as usize] > MAX_VALUE_BYTES {
        return Err(5);
    }
    Ok(values)
}

// ---------------------------------------------------------------- encode_interleaved

/// In pieces, as `encode`. 20 where a cell's length does not fit.
pub fn encode_interleaved<'a>(
    k: KindNumbers,
    shape: &[u64],
    masks: &[u8],
    values: &'a [u8],
    offsets: &[u64],
) -> Result<Vec<Value<'a>>, Refusal> {
    let kind = kind(k)?;
    if kind.depth != 0 || matches!(kind.form, Form::Fixed { .. }) {
        return Err(1);
    }
    let cells = shape_cells(shape)?;
    check_array(kind, cells, masks, values, offsets)?;
    let mut pieces: Vec<Value<'a>> = vec![(cells as u32).to_le_bytes().to_vec().into()];
    for value in cell_values(kind.form, cells, values, offsets) {
        if value.len() as u64 > MAX_FIELD {
            return Err(20);
        }
        pieces.push((value.len() as u32).to_le_bytes().to_vec().into());
        pieces.push(value);
    }
    Ok(pieces)
}

// ---------------------------------------------------------------- generate

/// The generator's state. A draw makes the next one, and is its upper half.
struct Draws(u64);

impl Draws {
    fn draw(&mut self) -> u64 {
        self.0 = (1_664_525 * self.0 + 1_013_904_223) % 4_294_967_296;
        self.0 / 65_536
    }
}

pub fn generate(k: KindNumbers, shape: &[u64], start: u32) -> Result<Array, Refusal> {
    let kind = kind(k)?;
    let cells = shape_cells(shape)?;
    let mut draws = Draws(u64::from(start));
    let mut planes = vec![vec![0; cells]; kind.depth];
    let mut values = vec![];
    for cell in 0..cells {
        let mut set = 0;
        while set < kind.depth && draws.draw() % 4 != 0 {
            planes[set][cell] = 1;
            set += 1;
        }
        let null = set < kind.depth;
        let length = match kind.form {
            Form::Fixed { size, .. } => size as u64,
            Form::Ragged { .. } if null => 0,
            Form::Ragged { .. } => draws.draw() % 9,
        };
        values.push((0..length).map(|_| if null { 0 } else { (draws.draw() % 256) as u8 }).collect::<Vec<u8>>());
    }
    Ok(array_of(kind.form, &planes, &values))
}

// ---------------------------------------------------------------- extract, merge, partial_decode

/// Of each subset of a list, none of which is empty.
fn cells_of_chunks(shape: &[u64], subsets: &[u64]) -> Result<Vec<Vec<usize>>, Refusal> {
    let numbers = 2 * shape.len();
    if subsets.len() % numbers != 0 {
        return Err(3);
    }
    let mut boxes = vec![];
    for subset in subsets.chunks(numbers) {
        let chunk = cells_of_subset(shape, subset)?;
        if chunk.is_empty() {
            return Err(3);
        }
        boxes.push(chunk);
    }
    Ok(boxes)
}

/// 12 where not each cell is in just one chunk.
fn check_cover(cells: usize, boxes: &[Vec<usize>]) -> Result<(), Refusal> {
    let mut held = vec![0; cells];
    for chunk in boxes {
        for &cell in chunk {
            held[cell] += 1;
        }
    }
    if held.iter().any(|&times| times != 1) {
        return Err(12);
    }
    Ok(())
}

pub fn extract(
    k: KindNumbers,
    shape: &[u64],
    subset: &[u64],
    masks: &[u8],
    values: &[u8],
    offsets: &[u64],
) -> Result<Array, Refusal> {
    let kind = kind(k)?;
    let cells = shape_cells(shape)?;
    let picked = cells_of_subset(shape, subset)?;
    check_array(kind, cells, masks, values, offsets)?;
    let planes: Vec<Vec<u8>> = planes(kind.depth, cells, masks).iter().map(|plane| pick(plane, &picked)).collect();
    let values = cell_values(kind.form, cells, values, offsets);
    Ok(array_of(kind.form, &planes, &pick(&values, &picked)))
}

/// A chunk list, chunk by chunk: all planes of a chunk, its values, its own offsets.
pub fn merge(
    k: KindNumbers,
    shape: &[u64],
    subsets: &[u64],
    masks: &[u8],
    values: &[u8],
    offsets: &[u64],
) -> Result<Array, Refusal> {
    let kind = kind(k)?;
    let cells = shape_cells(shape)?;
    let boxes = cells_of_chunks(shape, subsets)?;

    // 4: the totals that subsets and last offsets imply are the lengths given, and each chunk keeps the array's rules
    let all: usize = boxes.iter().map(Vec::len).sum();
    if masks.len() != kind.depth * all {
        return Err(4);
    }
    if neither(masks) {
        return Err(4);
    }
    let mut lists = vec![]; // the offsets of each chunk
    match kind.form {
        Form::Fixed { size, .. } => {
            if values.len() != all * size || !offsets.is_empty() {
                return Err(4);
            }
        }
        Form::Ragged { .. } => {
            if offsets.len() != all + boxes.len() {
                return Err(4);
            }
            let mut rest = offsets;
            for chunk in &boxes {
                let (own, next) = rest.split_at(chunk.len() + 1);
                if !rise(own) {
                    return Err(4);
                }
                lists.push(own);
                rest = next;
            }
            let total: u128 = lists.iter().map(|own| u128::from(own[own.len() - 1])).sum();
            if total != values.len() as u128 {
                return Err(4);
            }
        }
    }

    // 5: the sum of the cell lengths of all chunks, and each value byte is in one cell
    if values.len() as u64 > MAX_VALUE_BYTES {
        return Err(5);
    }

    // 12: each cell once
    check_cover(cells, &boxes)?;

    let mut merged_planes = vec![vec![0; cells]; kind.depth];
    let mut merged_values = vec![Value::default(); cells];
    let (mut masks, mut values) = (masks, values);
    for (at, chunk) in boxes.iter().enumerate() {
        let own_offsets = if lists.is_empty() { &[][..] } else { lists[at] };
        let value_bytes = match kind.form {
            Form::Fixed { size, .. } => chunk.len() * size,
            Form::Ragged { .. } => own_offsets[chunk.len()] as usize,
        };
        let own_planes = planes(kind.depth, chunk.len(), masks);
        let own_values = cell_values(kind.form, chunk.len(), values, own_offsets);
        for (i, &cell) in chunk.iter().enumerate() {
            for level in 0..kind.depth {
                merged_planes[level][cell] = own_planes[level][i];
            }
            merged_values[cell] = own_values[i].clone();
        }
        masks = &masks[kind.depth * chunk.len()..];
        values = &values[value_bytes..];
    }
    Ok(array_of(kind.form, &merged_planes, &merged_values))
}

/// Ragged values of depth 0: decode, then extract.
pub fn partial_decode(width: u64, place: u64, shape: &[u64], subset: &[u64], bytes: &[u8]) -> Result<Array, Refusal> {
    let form = width_and_place(width, place)?;
    let cells = shape_cells(shape)?;
    let picked = cells_of_subset(shape, subset)?;
    let values = read_values(form, cells, bytes)?;
    Ok(array_of(form, &[], &pick(&values, &picked)))
}

// ---------------------------------------------------------------- reverse_endianness, subset_cells

/// The bytes afterwards, and the length of the whole cells.
pub fn reverse_endianness(size: u64, bytes: &[u8]) -> Result<(Vec<u8>, u64), Refusal> {
    let size = cell_size(size)?;
    let whole = bytes.len() / size * size;
    let mut reversed = bytes.to_vec();
    for cell in reversed[..whole].chunks_mut(size) {
        cell.reverse();
    }
    Ok((reversed, whole as u64))
}

pub fn subset_cells(shape: &[u64], subset: &[u64]) -> Result<Vec<u64>, Refusal> {
    shape_cells(shape)?;
    Ok(cells_of_subset(shape, subset)?.iter().map(|&cell| cell as u64).collect())
}

// ---------------------------------------------------------------- the working table

/// Planes as in an array; a start and a length for each cell; the bytes that they are in.
#[derive(Clone, Debug, Default, PartialEq)]
pub struct Table {
    pub masks: Vec<u8>,
    pub starts: Vec<u64>,
    pub lengths: Vec<u64>,
    pub store: Vec<u8>,
}

fn table_kind(k: KindNumbers) -> Result<Kind, Refusal> {
    let kind = kind(k)?;
    if matches!(kind.form, Form::Fixed { .. }) {
        return Err(1);
    }
    Ok(kind)
}

fn table_cells(cells: u64) -> Result<usize, Refusal> {
    if cells < 1 || cells > MAX_CELLS {
        return Err(2);
    }
    Ok(cells as usize)
}

fn check_store(length: u64) -> Result<(), Refusal> {
    if length > MAX_STORE {
        return Err(5);
    }
    Ok(())
}

/// How many levels of a cell are set from the outside up to the first null.
fn set_levels(levels: &[u8]) -> usize {
    levels.iter().take_while(|&&byte| byte == 1).count()
}

/// The rest form of a cell: what is below a null is cleared.
fn rested(form: Form, levels: &[u8], value: &[u8]) -> (Vec<u8>, Value<'static>) {
    let set = set_levels(levels);
    let masks = (0..levels.len()).map(|level| u8::from(level < set)).collect();
    (masks, if set == levels.len() { value.to_vec() } else { null_value(form) }.into())
}

impl Table {
    /// The mask bytes of a cell, outermost first.
    fn levels(&self, depth: usize, cell: usize) -> Vec<u8> {
        (0..depth).map(|level| self.masks[level * self.starts.len() + cell]).collect()
    }

    fn value(&self, cell: usize) -> &[u8] {
        &self.store[self.starts[cell] as usize..][..self.lengths[cell] as usize]
    }

    /// 4: lengths of lists, mask bytes, rest form, places in the store, bytes that two cells have.
    fn check(&self, depth: usize, cells: usize) -> Result<(), Refusal> {
        if self.masks.len() != depth * cells || self.starts.len() != cells || self.lengths.len() != cells {
            return Err(4);
        }
        if neither(&self.masks) {
            return Err(4);
        }
        let mut held = vec![false; self.store.len()];
        for cell in 0..cells {
            let (start, length) = (self.starts[cell], self.lengths[cell]);
            let levels = self.levels(depth, cell);
            let set = set_levels(&levels);
            if levels[set..].contains(&1) {
                return Err(4);
            }
            if set < depth && length != 0 {
                return Err(4);
            }
            if u128::from(start) + u128::from(length) > self.store.len() as u128 {
                return Err(4);
            }
            if length == 0 && start != 0 {
                return Err(4);
            }
            for byte in &mut held[start as usize..(start + length) as usize] {
                if *byte {
                    return Err(4);
                }
                *byte = true;
            }
        }
        Ok(())
    }

    /// The cells that have bytes, in the order in which they lie.
    fn lying(&self) -> Vec<usize> {
        let mut cells: Vec<usize> = (0..self.lengths.len()).filter(|&cell| self.lengths[cell] > 0).collect();
        cells.sort_by_key(|&cell| self.starts[cell]);
        cells
    }

    /// The cells that are not at their packed starts, as they lie, each with that start.
    fn displaced(&self) -> Vec<(usize, u64)> {
        let mut list = vec![];
        let mut packed = 0;
        for cell in self.lying() {
            if self.starts[cell] != packed {
                list.push((cell, packed));
            }
            packed += self.lengths[cell];
        }
        list
    }

    /// The sum of lengths, and how many cells are not at their packed starts.
    pub fn looked_at(&self) -> [u64; 2] {
        [self.lengths.iter().sum(), self.displaced().len() as u64]
    }

    /// Copied, and nothing cleared.
    fn move_cell(&mut self, cell: usize, to: u64) {
        let value = self.value(cell).to_vec();
        self.store[to as usize..][..value.len()].copy_from_slice(&value);
        self.starts[cell] = to;
    }
}

/// Of the rest form, packed in cell order. The table's store has what is written to the lent one, which has `store` bytes.
pub fn table_make(
    k: KindNumbers,
    cells: u64,
    masks: &[u8],
    values: &[u8],
    offsets: &[u64],
    store: u64,
) -> Result<Table, Refusal> {
    let kind = table_kind(k)?;
    let cells = table_cells(cells)?;
    check_array(kind, cells, masks, values, offsets)?;
    check_store(store)?;
    let mut planes = planes(kind.depth, cells, masks);
    let mut table = Table::default();
    for (cell, value) in cell_values(kind.form, cells, values, offsets).iter().enumerate() {
        let levels: Vec<u8> = planes.iter().map(|plane| plane[cell]).collect();
        let (levels, value) = rested(kind.form, &levels, value);
        (0..kind.depth).for_each(|level| planes[level][cell] = levels[level]);
        table.starts.push(if value.is_empty() { 0 } else { table.store.len() as u64 });
        table.lengths.push(value.len() as u64);
        table.store.extend(value.iter());
    }
    table.masks = planes.concat();
    if table.store.len() as u64 > store {
        return Err(6);
    }
    Ok(table)
}

/// In cell order.
pub fn table_read(k: KindNumbers, cells: u64, table: &Table) -> Result<Array, Refusal> {
    let kind = table_kind(k)?;
    let cells = table_cells(cells)?;
    table.check(kind.depth, cells)?;
    check_store(table.store.len() as u64)?;
    let values: Vec<Vec<u8>> = (0..cells).map(|cell| table.value(cell).to_vec()).collect();
    Ok(array_of(kind.form, &planes(kind.depth, cells, &table.masks), &values))
}

/// The table afterwards.
pub fn table_set(
    k: KindNumbers,
    cells: u64,
    table: &Table,
    cell: u64,
    cell_masks: &[u8],
    value: &[u8],
) -> Result<Table, Refusal> {
    let kind = table_kind(k)?;
    let cells = table_cells(cells)?;
    settled(kind, cells, None, table, cell, cell_masks, value)
}

/// What is left to check of a setting, and the table afterwards. Where rights are given, they must show the cell.
fn settled(
    kind: Kind,
    cells: usize,
    rights: Option<&[u8]>,
    table: &Table,
    cell: u64,
    cell_masks: &[u8],
    value: &[u8],
) -> Result<Table, Refusal> {
    table.check(kind.depth, cells)?;
    if cell_masks.len() != kind.depth || neither(cell_masks) {
        return Err(4);
    }
    check_store(table.store.len() as u64)?;
    if cell >= cells as u64 {
        return Err(15);
    }
    let cell = cell as usize;
    if rights.is_some_and(|rights| !shows(rights, cell)) {
        return Err(18);
    }
    let (levels, value) = rested(kind.form, cell_masks, value);

    // the old bytes are given up
    let mut table = table.clone();
    (table.starts[cell], table.lengths[cell]) = (0, 0);
    let room = table.store.len() as u64;
    let (length, others) = (value.len() as u64, table.lengths.iter().sum::<u64>());
    if others + length > room {
        return Err(16);
    }

    (0..kind.depth).for_each(|level| table.masks[level * cells + cell] = levels[level]);
    if length == 0 {
        return Ok(table);
    }
    // right after the highest-lying cell left; where too little remains there, after all cells, packed
    let mut end = table.lying().last().map_or(0, |&highest| table.starts[highest] + table.lengths[highest]);
    if room - end < length {
        table.displaced().iter().for_each(|&(cell, to)| table.move_cell(cell, to));
        end = others;
    }
    table.store[end as usize..][..value.len()].copy_from_slice(&value);
    (table.starts[cell], table.lengths[cell]) = (end, length);
    Ok(table)
}

/// The sum of lengths and how many cells are not packed, after the setting made on a copy.
pub fn table_preview(
    k: KindNumbers,
    cells: u64,
    table: &Table,
    cell: u64,
    cell_masks: &[u8],
    value: &[u8],
) -> Result<[u64; 2], Refusal> {
    let after = table_set(k, cells, table, cell, cell_masks, value)?;
    Ok(after.looked_at())
}

/// The table afterwards, and how many cells were moved.
pub fn table_pack(k: KindNumbers, cells: u64, table: &Table, most: u64) -> Result<(Table, u64), Refusal> {
    let kind = table_kind(k)?;
    if most < 1 || most > MAX_MOVES {
        return Err(1);
    }
    let cells = table_cells(cells)?;
    table.check(kind.depth, cells)?;
    check_store(table.store.len() as u64)?;
    let mut table = table.clone();
    let displaced = table.displaced();
    let moved = displaced.len().min(most as usize);
    displaced[..moved].iter().for_each(|&(cell, to)| table.move_cell(cell, to));
    Ok((table, moved as u64))
}

// ---------------------------------------------------------------- what a guest may see and set

/// 17 of a kind without masks, which could hide nothing; then 4 of a plane that is not one byte a cell, each 00 or 01.
fn check_rights(kind: Kind, cells: usize, rights: &[u8]) -> Result<(), Refusal> {
    if kind.depth == 0 {
        return Err(17);
    }
    if rights.len() != cells || neither(rights) {
        return Err(4);
    }
    Ok(())
}

fn shows(rights: &[u8], cell: usize) -> bool {
    rights[cell] == 1
}

/// The outermost mask is cleared where the plane is 00, and what is then there is put in rest form.
pub fn guest_read(
    k: KindNumbers,
    shape: &[u64],
    rights: &[u8],
    masks: &[u8],
    values: &[u8],
    offsets: &[u64],
) -> Result<Array, Refusal> {
    let kind = kind(k)?;
    let cells = shape_cells(shape)?;
    check_rights(kind, cells, rights)?;
    check_array(kind, cells, masks, values, offsets)?;
    let mut planes = planes(kind.depth, cells, masks);
    let mut values = cell_values(kind.form, cells, values, offsets);
    for cell in 0..cells {
        if !shows(rights, cell) {
            planes[0][cell] = 0;
        }
        let levels: Vec<u8> = planes.iter().map(|plane| plane[cell]).collect();
        let (levels, value) = rested(kind.form, &levels, &values[cell]);
        (0..kind.depth).for_each(|level| planes[level][cell] = levels[level]);
        values[cell] = value;
    }
    Ok(array_of(kind.form, &planes, &values))
}

/// The table after the setting of a cell that the plane shows.
pub fn guest_edit(
    k: KindNumbers,
    cells: u64,
    rights: &[u8],
    table: &Table,
    cell: u64,
    cell_masks: &[u8],
    value: &[u8],
) -> Result<Table, Refusal> {
    let kind = table_kind(k)?;
    let cells = table_cells(cells)?;
    check_rights(kind, cells, rights)?;
    settled(kind, cells, Some(rights), table, cell, cell_masks, value)
}

// ---------------------------------------------------------------- small arrangements

/// A cell's masks and value in one of its states: null at level 1 up to the innermost, then set with 0, 1, 2, 3 zero bytes.
fn cell_in(depth: usize, state: usize) -> (Vec<u8>, Vec<u8>) {
    if state < depth {
        let masks = (0..depth).map(|level| u8::from(level < state)).collect();
        return (masks, vec![]);
    }
    (vec![1; depth], vec![0; state - depth])
}

/// The states of the cells are the digits of the number, the first cell's the highest.
pub fn arrangement(depth: u64, cells: u64, number: u64) -> Result<Array, Refusal> {
    if depth > 2 || cells < 1 || cells > 4 {
        return Err(1);
    }
    let (depth, cells, states) = (depth as usize, cells as usize, depth + 4);
    let mut rest = number;
    let mut digits = vec![];
    for _ in 0..cells {
        digits.insert(0, (rest % states) as usize);
        rest /= states;
    }
    if rest > 0 {
        return Err(19); // more digits than cells
    }
    let mut planes = vec![vec![]; depth];
    let mut values = vec![];
    for state in digits {
        let (masks, value) = cell_in(depth, state);
        (0..depth).for_each(|level| planes[level].push(masks[level]));
        values.push(value);
    }
    Ok(array_of(Form::Ragged { width: 4, end: false }, &planes, &values))
}

// ---------------------------------------------------------------- live tables

/// A table whose chunks leave the interleaved form one by one. The first ones are moved, so many; their strings are in the area.
#[derive(Clone, Copy)]
pub struct Live<'a> {
    pub shape: &'a [u64],
    pub subsets: &'a [u64],
    pub old_lengths: &'a [u64],
    pub old: &'a [u8],
    pub moved: u64,
    pub moved_lengths: &'a [u64],
    pub area: &'a [u8],
}

/// Of moved chunks.
const MOVED: Form = Form::Ragged { width: 8, end: false };

fn sum(lengths: &[u64]) -> u128 {
    lengths.iter().map(|&length| u128::from(length)).sum()
}

/// Strings that lie end to end.
fn strings<'a>(lengths: &[u64], bytes: &'a [u8]) -> Vec<&'a [u8]> {
    let mut rest = bytes;
    let mut list = vec![];
    for &length in lengths {
        let (string, behind) = rest.split_at(length as usize);
        list.push(string);
        rest = behind;
    }
    list
}

impl<'a> Live<'a> {
    /// 4: lengths of lists, the sum of the old lengths, too many moved, and the sum of their lengths.
    fn check(&self, chunks: usize) -> Result<(), Refusal> {
        if self.old_lengths.len() != chunks {
            return Err(4);
        }
        if self.moved_lengths.len() != chunks {
            return Err(4);
        }
        if sum(self.old_lengths) != self.old.len() as u128 {
            return Err(4);
        }
        if self.moved > chunks as u64 {
            return Err(4);
        }
        if sum(self.new_lengths()) > self.area.len() as u128 {
            return Err(4);
        }
        Ok(())
    }

    /// Of the chunks that are moved.
    fn new_lengths(&self) -> &'a [u64] {
        &self.moved_lengths[..self.moved as usize]
    }

    /// The values of each chunk, or the first refusal: 4, 12, and then chunk by chunk that of its reader.
    fn values(&self, cells: usize, boxes: &[Vec<usize>]) -> Result<Vec<Vec<Value<'a>>>, Refusal> {
        self.check(boxes.len())?;
        check_cover(cells, boxes)?;
        let (old, new) = (strings(self.old_lengths, self.old), strings(self.new_lengths(), self.area));
        let mut chunks = vec![];
        for (at, chunk) in boxes.iter().enumerate() {
            let cells = chunk.len();
            chunks.push(if at < new.len() {
                read_values(MOVED, cells, new[at])?
            } else {
                read_interleaved(cells as u64, old[at])?.into_iter().map(Value::from).collect()
            });
        }
        Ok(chunks)
    }
}

/// The cells of a subset, each from the chunk that holds it.
pub fn migrate_extract(live: &Live<'_>, subset: &[u64]) -> Result<Array, Refusal> {
    let cells = shape_cells(live.shape)?;
    let boxes = cells_of_chunks(live.shape, live.subsets)?;
    let picked = cells_of_subset(live.shape, subset)?;
    let chunks = live.values(cells, &boxes)?;
    let mut table = vec![Value::default(); cells];
    for (chunk, own) in boxes.iter().zip(chunks) {
        for (&cell, value) in chunk.iter().zip(own) {
            table[cell] = value;
        }
    }
    let cut = pick(&table, &picked);
    if length_of(&cut) as u64 > MAX_VALUE_BYTES {
        return Err(5);
    }
    Ok(array_of(MOVED, &[], &cut))
}

/// What a step enters: the string of the next chunk, in pieces, and where it begins in the area.
pub struct Step<'a> {
    pub at: usize,
    pub string: Vec<Value<'a>>,
}

/// `None` where none is left.
pub fn migrate_step<'a>(live: &Live<'a>) -> Result<Option<Step<'a>>, Refusal> {
    let cells = shape_cells(live.shape)?;
    let boxes = cells_of_chunks(live.shape, live.subsets)?;
    let chunks = live.values(cells, &boxes)?;
    let Some(next) = chunks.get(live.moved as usize) else {
        return Ok(None);
    };
    let string = write_values(MOVED, next)?;
    let at = sum(live.new_lengths()) as usize;
    fits(&[at + length_of(&string)], &[live.area.len()])?;
    Ok(Some(Step { at, string }))
}

// ---------------------------------------------------------------- 6

/// 6 where a lent output is shorter than the result needs.
pub fn fits(needs: &[usize], lent: &[usize]) -> Result<(), Refusal> {
    if (0..needs.len()).any(|i| lent[i] < needs[i]) {
        return Err(6);
    }
    Ok(())
}
