//! The listed Rust, four times: stand-in chain and listed chain, debug and release.

use crate::request::{Request, Request::*, Results};

type Array = (Vec<u8>, Vec<u8>, Vec<u64>);
type Got<T> = Result<T, String>;

/// The doors of one build (oracle/rust/stand/door.rs).
pub struct Build {
    pub name: &'static str,
    encode: fn([u64; 4], &[u64], &[u8], &[u8], &[u64]) -> Got<Vec<u8>>,
    decode: fn([u64; 4], &[u64], &[u8]) -> Got<Array>,
    decode_interleaved: fn(u64, &[u8]) -> Got<Array>,
    extract: fn(&[u64], &[u64], &[u8], &[u64]) -> Got<Array>,
    merge: fn(u64, &[u64], &[u64], &[u8], &[u8], &[u64]) -> Got<Array>,
    partial_decode: fn(u64, u64, &[u64], &[u64], &[u8]) -> Got<Array>,
    reverse_endianness: fn(u64, &[u8]) -> Got<Vec<u8>>,
}
macro_rules! build {
    ($name:literal, $library:ident) => {
        Build {
            name: $name,
            encode: $library::door::encode,
            decode: $library::door::decode,
            decode_interleaved: $library::door::decode_interleaved,
            extract: $library::door::extract,
            merge: $library::door::merge,
            partial_decode: $library::door::partial_decode,
            reverse_endianness: $library::door::reverse_endianness,
        }
    };
}
pub const BUILDS: [Build; 4] = [
    build!("stand-in chain, debug", standin_debug),
    build!("stand-in chain, release", standin_release),
    build!("listed chain, debug", listed_debug),
    build!("listed chain, release", listed_release),
];

fn four(kind: &[u64; 5]) -> [u64; 4] {
    [kind[0], kind[1], kind[2], kind[3]]
}
fn product(numbers: &[u64]) -> u64 {
    numbers.iter().product()
}
/// Offsets of `cells` cells of one size.
fn even(cells: u64, size: u64) -> Vec<u64> {
    (0..=cells).map(|i| i * size).collect()
}
fn array((masks, values, offsets): Array) -> Results {
    Results { masks, values, offsets, ..Results::default() }
}

/// How the Rust answers a request.
#[derive(Clone, Copy, PartialEq)]
pub enum Body {
    /// By a function of the listed files.
    Own,
    /// Extract and merge of fixed kinds and the masks of extract have no body there. They are asked for as ragged cells of one size.
    AsRagged,
    /// `guest_read` of kinds with masks: there are no rights. The outermost mask is cleared here; the rest form is what the Rust writes of that and reads
    /// again.
    AsRest,
    /// `subset_cells`: the indexers are not listed. `encode_interleaved`: vlen_v2.rs only reads. `generate`: there is no load. There is no
    /// working table, so no guest's edit; and no arrangement. Kinds with packed masks: the Rust has masks of bytes only.
    None,
}
pub fn body(request: &Request) -> Body {
    match request {
        _ if request.packed() => Body::None,
        Extract { kind, .. } if kind[1] == 0 || kind[0] > 0 => Body::AsRagged,
        Merge { kind, .. } if kind[1] == 0 => Body::AsRagged,
        SubsetCells { .. } | EncodeInterleaved { .. } | Generate { .. } => Body::None,
        TableMake { .. } | TableRead { .. } | TableSet { .. } | TablePack { .. } | TablePreview { .. } => Body::None,
        GuestRead { kind, .. } if kind[0] > 0 => Body::AsRest,
        GuestRead { .. } | GuestEdit { .. } | Arrangement { .. } => Body::None,
        MigrateStep { .. } | MigrateExtract { .. } => Body::None,
        _ => Body::Own,
    }
}

impl Build {
    /// An array that is lent, and never copied here, to bytes.
    pub fn written(&self, kind: [u64; 4], shape: &[u64], masks: &[u8], values: &[u8], offsets: &[u64]) -> Got<Vec<u8>> {
        (self.encode)(kind, shape, masks, values, offsets)
    }

    /// Only for requests in the domain of the comparison: none of 1 to 6, 12 and 14 holds, and no bytes are hidden.
    pub fn answer(&self, request: &Request) -> Got<Results> {
        match request {
            Encode { kind, shape, masks, values, offsets } => {
                let values = (self.encode)(four(kind), shape, masks, values, offsets)?;
                Ok(Results { values, ..Results::default() })
            }
            Decode { kind, shape, bytes } => (self.decode)(four(kind), shape, bytes).map(array),
            DecodeInterleaved { cells, bytes } => (self.decode_interleaved)(*cells, bytes).map(array),
            Extract { kind, shape, subset, masks, values, offsets } => {
                let cells = product(shape);
                let mut result = if kind[1] == 1 {
                    (self.extract)(shape, subset, values, offsets).map(array)?
                } else {
                    let (_, values, _) = (self.extract)(shape, subset, values, &even(cells, kind[2]))?;
                    Results { values, ..Results::default() }
                };
                for plane in masks.chunks(cells as usize) {
                    result.masks.extend((self.extract)(shape, subset, plane, &even(cells, 1))?.1);
                }
                Ok(result)
            }
            Merge { kind, shape, subsets, masks, values, offsets } => {
                if kind[1] == 1 {
                    return (self.merge)(kind[0], shape, subsets, masks, values, offsets).map(array);
                }
                let sides = shape.len();
                let chunks = subsets.chunks(2 * sides);
                let offsets: Vec<u64> = chunks.flat_map(|subset| even(product(&subset[sides..]), kind[2])).collect();
                let (masks, values, _) = (self.merge)(kind[0], shape, subsets, masks, values, &offsets)?;
                Ok(Results { masks, values, ..Results::default() })
            }
            PartialDecode { width, place, shape, subset, bytes } => {
                (self.partial_decode)(*width, *place, shape, subset, bytes).map(array)
            }
            ReverseEndianness { size, bytes } => {
                let values = (self.reverse_endianness)(*size, bytes)?;
                // The Rust names no length; the whole cells are what it may have touched.
                let whole = bytes.len() as u64 / size * size;
                Ok(Results { values, whole, ..Results::default() })
            }
            SubsetCells { .. } | EncodeInterleaved { .. } | Generate { .. } => unreachable!(),
            TableMake { .. } | TableRead { .. } | TableSet { .. } | TablePack { .. } | TablePreview { .. } => unreachable!(),
            GuestRead { kind, shape, rights, masks, values, offsets } => {
                let mut masks = masks.clone();
                rights.iter().zip(&mut masks).filter(|(right, _)| **right == 0).for_each(|(_, mask)| *mask = 0);
                let stored = (self.encode)(four(kind), shape, &masks, values, offsets)?;
                (self.decode)(four(kind), shape, &stored).map(array)
            }
            GuestEdit { .. } | Arrangement { .. } | MigrateStep { .. } | MigrateExtract { .. } => unreachable!(),
        }
    }
}
