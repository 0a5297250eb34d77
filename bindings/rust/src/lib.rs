//! Tables of optional and variable-length cells in one checked byte layout.
//!
//! A cell of a table is null at some level, or it has a value; the value may be empty. [`Cell`] tells the two apart.
//! This crate wraps the archive `libdurpaxeta.a`: it lends the outputs, sized by itself, and hands back owned results.
//! Every function answers a result or one [`Refusal`], which knows its number, its meaning and who causes it.
//! [`encode_into`], [`encode_interleaved_into`], [`decode_into`], [`extract_into`], [`merge_into`], [`generate_into`],
//! [`arrangement_into`] and [`guest_read_into`] write into slices that the caller lends instead.
//! A [`Table`] is one whose cells are edited in memory; [`table_make_into`], [`table_read_into`] and [`TableMut`] do that in lent slices.
//! [`Rights`] are the cells that a guest may see; [`guest_read`] and [`Table::guest_edit`] show and set no other.
//! [`arrangements`] are all tables of a few cells, an acceptance set for those who show tables; [`arrangement`] is one by its number.
//! A [`LiveTable`] leaves the older, interleaved form chunk by chunk, while it is in use; [`LiveTable::step`] moves the next chunk.
//! The crate needs `core` and `alloc` only.
//!
//! Masks come before values, and values before offsets, everywhere.
//!
//! ```
//! use durpaxeta::{decode, encode, Array, Cell, Kind, Place, Width};
//!
//! // Three guests: one on cores 0 to 3, one on no core, one that inherits all cores.
//! let kind = Kind::ragged(1, Width::Four, Place::Start);
//! let guests = [Cell::Value(b"0-3"), Cell::Value(b""), Cell::Null { level: 1 }];
//! let stored = encode(&Array::from_cells(kind, &[3], &guests)?)?;
//!
//! let table = decode(kind, &[3], &stored)?;
//! assert_eq!(table.cell(1), Some(Cell::Value(b"")));
//! assert_eq!(table.cell(2), Some(Cell::Null { level: 1 }));
//! # Ok::<(), durpaxeta::Refusal>(())
//! ```

#![no_std]
#![deny(unsafe_code, missing_docs)]

extern crate alloc;

mod arrangement;
mod array;
mod calls;
mod ffi;
mod kind;
mod lent;
mod live;
mod refusal;
mod rights;
mod sizes;
mod subset;
mod table;
mod text;

pub use arrangement::{arrangement, arrangement_count, arrangement_into, arrangements, Arrangements};
pub use array::{Array, ArrayRef, Cell, Cells, Mark, RaggedValues};
pub use calls::{
    decode, decode_interleaved, decode_into, encode, encode_interleaved, encode_interleaved_into, encode_into, extract,
    extract_into, generate, generate_into, merge, merge_into, partial_decode, reverse_endianness, subset_cells, Chunk,
};
pub use kind::{Kind, MaskForm, Order, Place, Values, Width};
pub use lent::{cell_count, Lent, Room};
pub use live::{LiveTable, LiveTableRef, Step};
pub use refusal::{Blame, Refusal, UnknownRefusal};
pub use rights::{guest_read, guest_read_into, Rights};
pub use subset::Subset;
pub use table::{table_make_into, table_read_into, Preview, Table, TableMut, TableRef};
pub use text::{read_number, TextError};

/// Most mask levels of a kind.
pub const MAX_DEPTH: u64 = 4;
/// Most bytes of a fixed cell.
pub const MAX_SIZE: u64 = 64;
/// Most sides of a shape.
pub const MAX_SIDES: usize = 4;
/// Most cells of a shape.
pub const MAX_CELLS: u64 = 65_536;
/// Most value bytes of a table. On a target of 32 bits no slice is as long, and what is handed over can never be too much.
pub const MAX_VALUE_BYTES: u64 = 8_589_934_592;
/// Most bytes of a working table's store.
pub const MAX_STORE: u64 = 16_777_216;
/// Most cells that one [`Table::pack`] moves.
pub const MAX_MOVES: u64 = 256;
/// Most mask levels of an [`arrangement`].
pub const MAX_ARRANGED_DEPTH: u64 = 2;
/// Most cells of an [`arrangement`].
pub const MAX_ARRANGED_CELLS: u64 = 4;
