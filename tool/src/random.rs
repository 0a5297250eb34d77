//! Numbers and damaged tables for tests, the same in each run.

use durpaxeta::{encode, Array, Cell, Kind, Order, Place, Values, Width};

/// Draws numbers below a limit.
pub fn draws(mut seed: u64) -> impl FnMut(usize) -> usize {
    move |limit| {
        seed ^= seed << 13;
        seed ^= seed >> 7;
        seed ^= seed << 17;
        (seed >> 11) as usize % limit
    }
}

/// A stored table of 4 cells, of one kind after the other; some are as they should be, some damaged.
pub fn damaged(round: usize, draw: &mut impl FnMut(usize) -> usize) -> (Kind, Vec<u8>) {
    let kinds = [
        Kind::ragged(2, Width::Four, Place::Start),
        Kind::ragged(2, Width::Four, Place::End),
        Kind::ragged(0, Width::Eight, Place::Start),
        Kind::ragged(0, Width::Four, Place::End),
        Kind::ragged(4, Width::Eight, Place::End),
        Kind::fixed(0, 3, Order::Big),
        Kind::fixed(3, 2, Order::Little),
        Kind::ragged(2, Width::Four, Place::Start).packed(),
        Kind::fixed(3, 2, Order::Little).packed(),
    ];
    let kind = kinds[round % kinds.len()];
    let depth = kind.depth as usize;
    let cells: Vec<Cell<'_>> = (0..4)
        .map(|_| match draw(4) {
            0 if depth > 0 => Cell::Null { level: 1 + draw(depth) },
            _ => Cell::Value(match kind.values {
                Values::Fixed { size, .. } => &b"abc"[..size as usize],
                Values::Ragged { .. } => &b"abc"[..draw(4)],
            }),
        })
        .collect();
    let mut stored = encode(&Array::from_cells(kind, &[4], &cells).unwrap()).unwrap();
    for _ in 0..draw(3) {
        let position = draw(stored.len());
        stored[position] = if draw(2) == 0 { stored[position] ^ (1 << draw(8)) } else { draw(256) as u8 };
    }
    if draw(4) == 0 {
        stored.truncate(draw(stored.len() + 1));
    }
    (kind, stored)
}
