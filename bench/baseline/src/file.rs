//! Packs and placements: heads, row order and loads, packing, the figure.

use crate::crowding::{Counter, PackingTest};
use crate::feeders::Feeders;
use crate::number::{Reader, Refusal, refused};

/// A layer's bound (mu or lambda) and its number of rows.
#[derive(Clone, Copy, Default)]
pub struct Layer {
    pub bound: usize,
    pub size: usize,
}

/// What packs and placements begin with.
pub struct Base {
    kind: usize,
    pub n: usize,
    pub r: usize,
    /// The nodes out of service, ascending; kinds 4 to 7 list them.
    pub dark: Vec<u8>,
}

impl Base {
    fn read(head: &mut Reader, kinds: &[usize]) -> Result<Self, Refusal> {
        let kind = head.kind(kinds)?;
        let n = head.within(2, 255)?;
        let r = head.within(2, n.min(5))?;
        let count = if kind >= 4 { head.within(0, n)? } else { 0 };
        let mut dark = Vec::with_capacity(count);
        let mut least = 0;
        for _ in 0..count {
            let node = head.within(least, n - 1)?;
            dark.push(node as u8);
            least = node + 1;
        }
        Ok(Base { kind, n, r, dark })
    }
}

pub struct Pack<'a> {
    pub base: Base,
    pub layers: [Layer; 5],
    pub rows: &'a [u8],
}

pub struct Placement {
    pub kind: usize,
    pub n: usize,
    pub r: usize,
    pub s: usize,
    pub k: usize,
    pub b: usize,
    pub figure: usize,
    /// The place of the first row.
    pub first: usize,
    pub most: usize,
    pub layers: [Layer; 5],
    /// What fails in place of nodes, in a placement of kind 6.
    pub feeders: Option<Feeders>,
}

impl<'a> Pack<'a> {
    pub fn check<T: PackingTest>(bytes: &'a [u8]) -> Result<Self, Refusal> {
        let mut head = Reader::new(bytes);
        let base = Base::read(&mut head, &[1, 4])?;
        let r = base.r;
        let mut layers = [Layer::default(); 5];
        let mut size = 0;
        for layer in &mut layers[..r] {
            layer.bound = head.within(1, 4096)?;
            layer.size = head.within(0, 4096 - size)?;
            size += layer.size;
        }
        let first = head.at;
        let rows = head.part(size * r)?;
        head.end()?;
        check_rows::<T>(rows, first, &base, None, &layers[..r])?;
        Ok(Pack { base, layers, rows })
    }
}

impl Placement {
    pub fn check<T: PackingTest>(bytes: &[u8]) -> Result<Self, Refusal> {
        let mut head = Reader::new(bytes);
        let base = Base::read(&mut head, &[2, 3, 5, 6])?;
        let lost_by = if base.kind == 2 { one_floor } else { nested_floors };
        let Base { n, r, .. } = base;
        let s = head.within(1, r)?;
        let k = head.within(s, n - 1)?;
        let b = head.within(1, 4096)?;
        let figure_at = head.at;
        let figure = head.within(0, b)?;
        let mut layers = [Layer::default(); 5];
        let mut left = b;
        let mut lost = 0;
        for (x, layer) in layers[..s].iter_mut().enumerate() {
            layer.bound = head.within(0, 16_777_216)?;
            layer.size = head.within(if x == s - 1 { left } else { 0 }, left)?;
            left -= layer.size;
            lost += layer.size.min(lost_by(s, k, x, layer.bound));
        }
        let first = head.at;
        let rows = head.part(b * r)?;
        let feeders = if base.kind == 6 { Some(Feeders::read(&mut head, n, r, k)?) } else { None };
        head.end()?;
        let most = check_rows::<T>(rows, first, &base, feeders.as_ref(), &layers[..s])?;
        if figure != b - lost {
            return refused(8, figure_at);
        }
        Ok(Placement { kind: base.kind, n, r, s, k, b, figure, first, most, layers, feeders })
    }
}

/// Bare rows, kind 7.
pub struct Bare<'a> {
    pub base: Base,
    pub s: usize,
    pub k: usize,
    pub rows: &'a [u8],
}

impl<'a> Bare<'a> {
    pub fn check(bytes: &'a [u8]) -> Result<Self, Refusal> {
        let mut head = Reader::new(bytes);
        let base = Base::read(&mut head, &[7])?;
        let s = head.within(1, base.r)?;
        let k = head.within(s, base.n - 1)?;
        let b = head.within(1, 4096)?;
        let first = head.at;
        let rows = head.part(b * base.r)?;
        head.end()?;
        // No layer of b rows is crowded where b may stand together.
        check_rows::<Counter>(rows, first, &base, None, &[Layer { bound: b, size: b }])?;
        Ok(Bare { base, s, k, rows })
    }
}

/// What k failures lose at most in layer x of a placement of kind 2.
fn one_floor(s: usize, k: usize, x: usize, lambda: usize) -> usize {
    lambda * choose(k, x + 1) / choose(s, x + 1)
}

/// The same in a placement of kind 3, 5 or 6. Below 2^64 for lambda up to 2^24 and k up to 255.
pub fn nested_floors(s: usize, k: usize, x: usize, lambda: usize) -> usize {
    (0..=x).rev().fold(lambda, |lost, i| lost * (k - i) / (s - i))
}

/// C(m, j) for m up to 255 and j up to 5.
fn choose(m: usize, j: usize) -> usize {
    (0..j).fold(1, |c, i| c * (m - i.min(m)) / (i + 1))
}

/// Tests the rows' order, that none names a node out of service, and each layer's packing; where there are feeders, that no row
/// has two nodes on one, and the packing of feeders. The largest number of rows that hold one node.
fn check_rows<T: PackingTest>(
    rows: &[u8],
    at: usize,
    base: &Base,
    feeders: Option<&Feeders>,
    layers: &[Layer],
) -> Result<usize, Refusal> {
    match base.r {
        2 => check_rows_of::<T, 2>(rows, at, base, feeders, layers),
        3 => check_rows_of::<T, 3>(rows, at, base, feeders, layers),
        4 => check_rows_of::<T, 4>(rows, at, base, feeders, layers),
        _ => check_rows_of::<T, 5>(rows, at, base, feeders, layers),
    }
}

fn check_rows_of<T: PackingTest, const R: usize>(
    bytes: &[u8],
    at: usize,
    base: &Base,
    feeders: Option<&Feeders>,
    layers: &[Layer],
) -> Result<usize, Refusal> {
    let n = base.n;
    let (rows, _) = bytes.as_chunks::<R>();
    let mut loads = [0u16; 256];
    // The loads after layer 0 are that layer's counts of single nodes.
    let (single, others) = rows.split_at(layers[0].size);
    let in_order = add_loads(single, n, &mut loads);
    let crowded_node = most(&loads) > layers[0].bound;
    if let Err(i) = in_order.and_then(|()| add_loads(others, n, &mut loads).map_err(|i| single.len() + i)) {
        return refused(6, at + i * R);
    }
    if base.dark.iter().any(|&node| loads[usize::from(node)] > 0) {
        return refused(15, at + first_naming(rows, &base.dark) * R);
    }
    let Some(feeders) = feeders else {
        check_packings::<T, R>(rows, at, n, layers, crowded_node)?;
        return Ok(most(&loads));
    };
    let mapped = feeders.rows(rows).map_err(|i| Refusal { number: 21, place: at + i * R })?;
    let crowded_feeder = most(&loads_of(&mapped[..single.len()])) > layers[0].bound;
    check_packings::<T, R>(&mapped, at, feeders.g, layers, crowded_feeder)?;
    Ok(most(&loads))
}

/// Each layer's packing, of rows of numbers below n; `crowded` where layer 0 is not one.
fn check_packings<T: PackingTest, const R: usize>(
    rows: &[[u8; R]],
    at: usize,
    n: usize,
    layers: &[Layer],
    crowded: bool,
) -> Result<(), Refusal> {
    if crowded {
        return refused(7, at + first_loaded(&rows[..layers[0].size], layers[0].bound) * R);
    }
    let mut test = None;
    let mut done = layers[0].size;
    for (x, layer) in layers.iter().enumerate().skip(1) {
        if layer.size > layer.bound {
            let mine = &rows[done..done + layer.size];
            let test = test.get_or_insert_with(|| T::new(n));
            if let Some(i) = test.first_crowded(mine, x + 1, layer.bound) {
                return refused(7, at + (done + i) * R);
            }
        }
        done += layer.size;
    }
    Ok(())
}

fn most(loads: &[u16; 256]) -> usize {
    usize::from(loads.iter().copied().max().unwrap_or(0))
}

/// How many of the rows hold each number.
fn loads_of<const R: usize>(rows: &[[u8; R]]) -> [u16; 256] {
    let mut loads = [0; 256];
    for &node in rows.as_flattened() {
        loads[usize::from(node)] += 1;
    }
    loads
}

/// Adds each row's nodes to the loads, up to the first row that is not ascending below n: that one's index.
fn add_loads<const R: usize>(rows: &[[u8; R]], n: usize, loads: &mut [u16; 256]) -> Result<(), usize> {
    for (i, row) in rows.iter().enumerate() {
        let mut good = usize::from(row[R - 1]) < n;
        for j in 1..R {
            good &= row[j - 1] < row[j];
        }
        if !good {
            return Err(i);
        }
        for &node in row {
            loads[usize::from(node)] += 1;
        }
    }
    Ok(())
}

/// The first row with a node of this ascending list; there is one.
#[cold]
fn first_naming<const R: usize>(rows: &[[u8; R]], dark: &[u8]) -> usize {
    rows.iter().position(|row| row.iter().any(|node| dark.binary_search(node).is_ok())).unwrap_or(0)
}

/// The first row with a node that more than `bound` of these rows hold; there is one.
#[cold]
fn first_loaded<const R: usize>(rows: &[[u8; R]], bound: usize) -> usize {
    let loads = loads_of(rows);
    rows.iter().position(|row| row.iter().any(|&node| usize::from(loads[usize::from(node)]) > bound)).unwrap_or(0)
}

#[cfg(test)]
mod tests {
    use super::*;

    #[test]
    fn binomials() {
        assert_eq!(choose(5, 2), 10);
        assert_eq!(choose(2, 3), 0);
        assert_eq!(choose(0, 0), 1);
        assert_eq!(choose(254, 5), 8_468_125_050);
    }

    #[test]
    fn rules_of_loss() {
        assert_eq!(nested_floors(2, 3, 1, 3), 9);
        assert_eq!(nested_floors(4, 7, 2, 1), 7);
        assert_eq!(one_floor(4, 7, 2, 1), 8);
    }

    #[test]
    fn the_first_row_out_of_order_is_named() {
        let mut loads = [0; 256];
        assert_eq!(add_loads(&[[0, 1, 2], [3, 4, 6]], 7, &mut loads), Ok(()));
        assert_eq!(add_loads(&[[0, 1, 2], [3, 4, 7]], 7, &mut loads), Err(1));
        assert_eq!(add_loads(&[[0, 1, 1], [3, 4, 7]], 7, &mut loads), Err(0));
        assert_eq!(add_loads(&[[2, 1, 3]], 7, &mut loads), Err(0));
    }
}
