//! Doors to the listed functions. Numbers and slices in, vectors out; the form of each call is that of docs/DECISIONS.md, part 0.
//! A kind is depth, form (0 fixed, 1 ragged), size or width, order or place. Nothing here judges what is handed over.
use crate::array::array_bytes_internal::{
    extract_decoded_regions_vlen, merge_chunks_vlen, merge_chunks_vlen_optional,
};
use crate::array::codec::{
    BytesCodec, BytesPartialDecoderCache, CodecChain, OptionalCodec, VlenCodec, VlenV2Codec,
};
use crate::codec::vlen::{VlenIndexDataType, VlenIndexLocation};
use crate::*;
use std::num::NonZeroU64;
use std::panic::{AssertUnwindSafe, catch_unwind};
use std::sync::Arc;

/// Masks, values, offsets.
pub type Array = (Vec<u8>, Vec<u8>, Vec<u64>);
/// An error begins with `error`, a panic is `panic`.
pub type Outcome<T> = Result<T, String>;

fn caught<T>(call: impl FnOnce() -> Result<T, CodecError>) -> Outcome<T> {
    match catch_unwind(AssertUnwindSafe(call)) {
        Ok(Ok(t)) => Ok(t),
        Ok(Err(e)) => Err(format!("error {e:?}")),
        Err(_) => Err("panic".to_string()),
    }
}

// ---------------------------------------------------------------- kinds and arrays
fn over(codec: Arc<dyn ArrayToBytesCodecTraits>) -> Arc<CodecChain> {
    Arc::new(CodecChain::new(vec![], codec, vec![]))
}
fn plain(endian: Option<Endianness>) -> Arc<CodecChain> {
    over(Arc::new(BytesCodec::new(endian)))
}
pub fn vlen(width: u64, place: u64) -> VlenCodec {
    let width = if width == 4 { VlenIndexDataType::UInt32 } else { VlenIndexDataType::UInt64 };
    let place = if place == 0 { VlenIndexLocation::Start } else { VlenIndexLocation::End };
    VlenCodec::new(plain(Some(Endianness::Little)), plain(None), width, place)
}
pub struct Kind {
    pub depth: usize,
    pub ragged: bool,
    pub data_type: DataType,
    pub chain: Arc<CodecChain>,
}
pub fn kind([depth, form, size, order]: [u64; 4]) -> Kind {
    let ragged = form == 1;
    let (mut data_type, mut chain) = if ragged {
        (DataType::Plain(DataTypeSize::Variable), over(Arc::new(vlen(size, order))))
    } else {
        let order = if order == 1 { Endianness::Big } else { Endianness::Little };
        (DataType::Plain(DataTypeSize::Fixed(size as usize)), plain(Some(order)))
    };
    for _ in 0..depth {
        data_type = data_type.optional();
        chain = over(Arc::new(OptionalCodec::new(plain(None), chain)));
    }
    Kind { depth: depth as usize, ragged, data_type, chain }
}
pub fn sides(shape: &[u64]) -> Vec<NonZeroU64> {
    shape.iter().map(|&s| NonZeroU64::new(s).unwrap()).collect()
}
/// A 64-bit host: offsets are numbers of the same form.
fn as_usize(offsets: &[u64]) -> &[usize] {
    unsafe { std::slice::from_raw_parts(offsets.as_ptr().cast(), offsets.len()) }
}
fn ragged<'a>(values: &'a [u8], offsets: &'a [u64]) -> ArrayBytesVariableLength<'a> {
    // unchecked: the listed text and `validate` judge what is handed over
    unsafe {
        ArrayBytesVariableLength::new_unchecked(
            values,
            ArrayBytesOffsets::new_unchecked(as_usize(offsets)),
        )
    }
}
/// An array that borrows everything; `depth` planes of equal length lie end to end in `masks`.
pub fn array<'a>(
    is_ragged: bool,
    depth: usize,
    masks: &'a [u8],
    values: &'a [u8],
    offsets: &'a [u64],
) -> ArrayBytes<'a> {
    let mut bytes = if is_ragged {
        ArrayBytes::Variable(ragged(values, offsets))
    } else {
        ArrayBytes::new_flen(values)
    };
    let cells = if depth == 0 { 0 } else { masks.len() / depth };
    for level in (0..depth).rev() {
        bytes = bytes.with_optional_mask(&masks[level * cells..(level + 1) * cells]);
    }
    bytes
}
pub fn subset(numbers: &[u64]) -> ArraySubset {
    let (start, shape) = numbers.split_at(numbers.len() / 2);
    ArraySubset { start: start.to_vec(), shape: shape.to_vec() }
}
fn parts(bytes: &ArrayBytes) -> Array {
    let mut masks = vec![];
    let mut at = bytes;
    loop {
        match at {
            ArrayBytes::Optional(o) => {
                masks.extend_from_slice(o.mask());
                at = o.data();
            }
            ArrayBytes::Fixed(v) => return (masks, v.to_vec(), vec![]),
            ArrayBytes::Variable(v) => {
                return (masks, v.bytes().to_vec(), v.offsets().iter().map(|&o| o as u64).collect());
            }
        }
    }
}
/// The chunks of a list that lies end to end.
pub fn chunks<'a>(
    depth: usize,
    sides: usize,
    subsets: &[u64],
    mut masks: &'a [u8],
    mut values: &'a [u8],
    mut offsets: &'a [u64],
) -> Vec<(ArrayBytes<'a>, ArraySubset)> {
    subsets
        .chunks(2 * sides)
        .map(|numbers| {
            let cells = numbers[sides..].iter().product::<u64>() as usize;
            let (m, o) = (&masks[..depth * cells], &offsets[..cells + 1]);
            let v = &values[..o[cells] as usize];
            masks = &masks[m.len()..];
            values = &values[v.len()..];
            offsets = &offsets[o.len()..];
            (array(true, depth, m, v, o), subset(numbers))
        })
        .collect()
}

// ---------------------------------------------------------------- the calls
pub fn encode(
    k: [u64; 4],
    shape: &[u64],
    masks: &[u8],
    values: &[u8],
    offsets: &[u64],
) -> Outcome<Vec<u8>> {
    caught(|| {
        let (k, s) = (kind(k), sides(shape));
        let bytes = array(k.ragged, k.depth, masks, values, offsets);
        let fill = FillValue::new(vec![]);
        Ok(k.chain.encode(bytes, &s, &k.data_type, &fill, &CodecOptions)?.into_owned())
    })
}
pub fn decode(k: [u64; 4], shape: &[u64], bytes: &[u8]) -> Outcome<Array> {
    caught(|| {
        let (k, s) = (kind(k), sides(shape));
        let fill = FillValue::new(vec![]);
        Ok(parts(&k.chain.decode(bytes.into(), &s, &k.data_type, &fill, &CodecOptions)?))
    })
}
pub fn decode_interleaved(cells: u64, bytes: &[u8]) -> Outcome<Array> {
    caught(|| {
        let (v, o) = VlenV2Codec::interleaved(cells as usize, &bytes.into())?;
        Ok((vec![], v, o.into_iter().map(|o| o as u64).collect()))
    })
}
pub fn extract(shape: &[u64], numbers: &[u64], values: &[u8], offsets: &[u64]) -> Outcome<Array> {
    caught(|| {
        let r = extract_decoded_regions_vlen(
            values,
            as_usize(offsets),
            &subset(numbers),
            &sides(shape),
        )?;
        Ok(parts(&ArrayBytes::Variable(r)))
    })
}
pub fn merge(
    depth: u64,
    shape: &[u64],
    subsets: &[u64],
    masks: &[u8],
    values: &[u8],
    offsets: &[u64],
) -> Outcome<Array> {
    caught(|| {
        let depth = depth as usize;
        let list = list(depth, chunks(depth, shape.len(), subsets, masks, values, offsets));
        Ok(parts(&merged(depth, shape, list)?))
    })
}
pub fn partial_decode(
    width: u64,
    place: u64,
    shape: &[u64],
    numbers: &[u64],
    bytes: &[u8],
) -> Outcome<Array> {
    caught(|| {
        let handle = Arc::new(BytesPartialDecoderCache(Some(bytes.to_vec())));
        let decoder = Arc::new(vlen(width, place)).partial_decoder(
            handle,
            &sides(shape),
            &DataType::Plain(DataTypeSize::Variable),
            &FillValue::new(vec![]),
            &CodecOptions,
        )?;
        Ok(parts(&decoder.partial_decode(&subset(numbers), &CodecOptions)?))
    })
}
pub fn reverse_endianness(size: u64, bytes: &[u8]) -> Outcome<Vec<u8>> {
    caught(|| {
        let mut v = bytes.to_vec();
        reverse(size, &mut v);
        Ok(v)
    })
}

// ---------------------------------------------------------------- for the benchmark: nothing copied, nothing caught
pub fn reverse(size: u64, bytes: &mut [u8]) {
    crate::array::reverse_endianness(bytes, &DataType::Plain(DataTypeSize::Fixed(size as usize)));
}
pub fn interleaved(cells: usize, bytes: &ArrayBytesRaw) -> (Vec<u8>, Vec<usize>) {
    VlenV2Codec::interleaved(cells, bytes).unwrap()
}
pub fn extracted(
    values: &[u8],
    offsets: &[u64],
    subset: &ArraySubset,
    shape: &[NonZeroU64],
) -> ArrayBytesVariableLength<'static> {
    extract_decoded_regions_vlen(values, as_usize(offsets), subset, shape).unwrap()
}
pub fn partial_decoder(
    width: u64,
    place: u64,
    shape: &[u64],
    bytes: &[u8],
) -> Arc<dyn ArrayPartialDecoderTraits> {
    let handle = Arc::new(BytesPartialDecoderCache(Some(bytes.to_vec())));
    let data_type = DataType::Plain(DataTypeSize::Variable);
    let (shape, fill) = (sides(shape), FillValue::new(vec![]));
    Arc::new(vlen(width, place)).partial_decoder(handle, &shape, &data_type, &fill, &CodecOptions).unwrap()
}
/// A chunk list as the merges take it.
pub enum List<'a> {
    Ragged(Vec<(ArrayBytesVariableLength<'a>, ArraySubset)>),
    Optional(Vec<(ArrayBytesOptional<'a>, ArraySubset)>),
}
pub fn list<'a>(depth: usize, chunks: Vec<(ArrayBytes<'a>, ArraySubset)>) -> List<'a> {
    let chunks = chunks.into_iter();
    if depth == 0 {
        List::Ragged(chunks.map(|(b, s)| (b.into_variable().unwrap(), s)).collect())
    } else {
        List::Optional(chunks.map(|(b, s)| (b.into_optional().unwrap(), s)).collect())
    }
}
pub fn merged(depth: usize, shape: &[u64], list: List) -> Result<ArrayBytes<'static>, CodecError> {
    Ok(match list {
        List::Ragged(list) => ArrayBytes::Variable(merge_chunks_vlen(list, shape)),
        List::Optional(list) => ArrayBytes::Optional(merge_chunks_vlen_optional(list, shape, depth)?),
    })
}
