//! Rights that combine (S14.9 to S14.11), as laws over the archive alone: from one input two ways through its calls end alike. The judge
//! says only which requests are not refused.

use crate::cases::{Content, cells_of, extract, merge, plane};
use crate::guests::read;
use crate::request::Outcome;
use crate::request::Request::{self, *};
use crate::{Compare, rooms, shown};

/// A plane's bytes are the values of an array of depth 0 with cells of one byte.
const PLANE: [u64; 5] = [0, 0, 1, 0, 0];
fn of_plane(rights: Vec<u8>) -> Content {
    Content { masks: vec![], values: rights, offsets: vec![] }
}

fn front<'a, T>(rest: &mut &'a [T], count: usize) -> &'a [T] {
    let (front, behind) = rest.split_at(count);
    *rest = behind;
    front
}
/// The parts of a merge that is not refused.
fn parts(request: &Request) -> Vec<(Vec<u64>, Content)> {
    let Merge { kind, shape, subsets, masks, values, offsets } = request else { unreachable!() };
    let (mut masks, mut values, mut offsets) = (&masks[..], &values[..], &offsets[..]);
    let part = |subset: &[u64]| {
        let cells = cells_of(&subset[shape.len()..]);
        let own = front(&mut offsets, if kind[1] == 1 { cells + 1 } else { 0 });
        let bytes = own.last().map_or(cells * kind[2] as usize, |&last| last as usize);
        let masks = front(&mut masks, kind[0] as usize * cells).to_vec();
        (subset.to_vec(), Content { masks, values: front(&mut values, bytes).to_vec(), offsets: own.to_vec() })
    };
    subsets.chunks(2 * shape.len()).map(part).collect()
}

/// Last calls that end alike, or what stood in the way.
type Ways = Result<Vec<Request>, String>;

impl Compare {
    /// Beside a read two planes; beside a cut and a merge, where there are masks, a read before it and one behind it.
    pub fn rights_combined(&mut self, request: &Request, judged: &Outcome) {
        if judged.is_err() {
            return;
        }
        let (law, ways) = match request {
            GuestRead { .. } => (8, vec![self.two_planes(request), self.one_plane_twice(request)]),
            Extract { kind, shape, subset, .. } if kind[0] > 0 && cells_of(&subset[shape.len()..]) > 0 => {
                (9, vec![self.read_and_cut(request)])
            }
            Merge { kind, .. } if kind[0] > 0 => (10, vec![self.read_and_merged(request)]),
            _ => return,
        };
        self.counts.guests.combined[law - 8] += 1;
        for ways in ways {
            if let Err(what) = ways.and_then(|ways| self.end_alike(&ways)) {
                self.differ(law, request, &what);
            }
        }
    }

    fn two_planes(&mut self, request: &Request) -> Ways {
        let GuestRead { kind, shape, rights, masks, values, offsets } = request else { unreachable!() };
        let c = Content { masks: masks.clone(), values: values.clone(), offsets: offsets.clone() };
        let other = plane(&mut self.rng, rights.len());
        let both: Vec<u8> = rights.iter().zip(&other).map(|(one, other)| one & other).collect();
        let seen = self.made(request)?;
        let seen_by_other = self.made(&read(*kind, shape, &other, &c))?;
        Ok(vec![read(*kind, shape, &both, &c), read(*kind, shape, &other, &seen), read(*kind, shape, rights, &seen_by_other)])
    }

    fn one_plane_twice(&mut self, request: &Request) -> Ways {
        let GuestRead { kind, shape, rights, .. } = request else { unreachable!() };
        let seen = self.made(request)?;
        Ok(vec![request.clone(), read(*kind, shape, rights, &seen)])
    }

    fn read_and_cut(&mut self, request: &Request) -> Ways {
        let Extract { kind, shape, subset, masks, values, offsets } = request else { unreachable!() };
        let c = Content { masks: masks.clone(), values: values.clone(), offsets: offsets.clone() };
        let rights = plane(&mut self.rng, cells_of(shape));
        let seen = self.made(&read(*kind, shape, &rights, &c))?;
        let cut = self.made(request)?;
        let rights = self.made(&extract(PLANE, shape, subset, &of_plane(rights)))?.values;
        Ok(vec![extract(*kind, shape, subset, &seen), read(*kind, &subset[shape.len()..], &rights, &cut)])
    }

    fn read_and_merged(&mut self, request: &Request) -> Ways {
        let Merge { kind, shape, .. } = request else { unreachable!() };
        let (mut seen, mut planes) = (vec![], vec![]);
        for (subset, c) in parts(request) {
            let lengths = &subset[shape.len()..];
            let rights = plane(&mut self.rng, cells_of(lengths));
            seen.push((subset.clone(), self.made(&read(*kind, lengths, &rights, &c))?));
            planes.push((subset, of_plane(rights)));
        }
        self.counts.guests.parts += seen.len() as u64;
        let merged = self.made(request)?;
        let rights = self.made(&merge(PLANE, shape, &planes))?.values;
        Ok(vec![merge(*kind, shape, &seen), read(*kind, shape, &rights, &merged)])
    }

    /// What the archive makes of it. There is room for all that is handed over, and nothing of it takes more.
    fn made(&mut self, request: &Request) -> Result<Content, String> {
        let (GuestRead { masks, values, offsets, .. }
        | Extract { masks, values, offsets, .. }
        | Merge { masks, values, offsets, .. }) = request
        else {
            unreachable!()
        };
        let r = self.given(request, [masks.len(), values.len(), offsets.len(), 0])?;
        Ok(Content { masks: r.masks, values: r.values, offsets: r.offsets })
    }

    /// The ways end with one answer, and the same in every lent byte, whatever room there is.
    fn end_alike(&mut self, ways: &[Request]) -> Result<(), String> {
        let c = self.made(&ways[0])?;
        let needs = [c.masks.len(), c.values.len(), c.offsets.len(), 0];
        let more = [0, 1, 2, 3].map(|i| if i < 3 { needs[i] + self.rng.below(9) } else { 0 });
        for room in [rooms(needs), vec![more]].concat() {
            for way in &ways[1..] {
                if !self.guarded.alike(&ways[0], way, room) {
                    return Err(format!("with outputs of {room:?}, {} and {}", shown(&ways[0]), shown(way)));
                }
            }
        }
        Ok(())
    }
}
