//! Certifying bare rows: a placement of kind 5 with all rows in the layer with the highest figure.

use crate::file::{Bare, nested_floors};
use crate::number::{Refusal, push_number};

/// The sets of x+1 places of a row of r, as masks.
fn masks(r: usize, x: usize) -> Vec<u8> {
    (0..1u8 << r).filter(|mask| mask.count_ones() as usize == x + 1).collect()
}

/// A row's nodes at these places, as one number.
fn key(row: &[u8], mask: u8) -> u64 {
    let places = (0..row.len()).filter(|place| mask >> place & 1 == 1);
    places.fold(0, |key, place| key << 8 | u64::from(row[place]))
}

/// The largest number of rows that hold one set of x+1 nodes: nodes and pairs by tables, larger sets by one sort.
fn most_together(rows: &[u8], r: usize, x: usize) -> usize {
    let masks = masks(r, x);
    let keys = rows.chunks_exact(r).flat_map(|row| masks.iter().map(|&mask| key(row, mask)));
    if x < 2 {
        let mut counts = vec![0u16; 1 << (8 * (x + 1))];
        for key in keys {
            counts[key as usize] += 1;
        }
        return counts.into_iter().max().unwrap_or(0).into();
    }
    let mut keys: Vec<u64> = keys.collect();
    keys.sort_unstable();
    keys.chunk_by(|a, b| a == b).map(<[u64]>::len).max().unwrap_or(0)
}

/// The placement that is written, or the refusal.
pub fn certify(bytes: &[u8]) -> Result<Vec<u8>, Refusal> {
    let Bare { base, s, k, rows } = Bare::check(bytes)?;
    let b = rows.len() / base.r;
    let layers = (0..s).map(|x| (x, most_together(rows, base.r, x)));
    let figures = layers.map(|(x, lambda)| (b - b.min(nested_floors(s, k, x, lambda)), x, lambda));
    let (figure, taken, lambda) = figures.max().unwrap_or_default();
    let mut out = Vec::with_capacity(448 + rows.len());
    for v in [5, base.n, base.r, base.dark.len()] {
        push_number(&mut out, v);
    }
    for &node in &base.dark {
        push_number(&mut out, node.into());
    }
    for v in [s, k, b, figure] {
        push_number(&mut out, v);
    }
    for x in 0..s {
        let mine = if x == taken { [lambda, b] } else { [0, 0] };
        for v in mine {
            push_number(&mut out, v);
        }
    }
    out.extend_from_slice(rows);
    Ok(out)
}

#[cfg(test)]
mod tests {
    use super::*;

    #[test]
    fn worked() {
        let rows = [0, 1, 2, 0, 3, 4, 0, 5, 6, 1, 3, 5, 1, 4, 6, 2, 3, 6, 2, 4, 5];
        let bare = [&[7, 7, 3, 0, 2, 3, 7], &rows[..]].concat();
        let written = [&[5, 7, 3, 0, 2, 3, 7, 4, 0, 0, 1, 7], &rows[..]].concat();
        assert_eq!(certify(&bare).ok().unwrap(), written);
        assert_eq!(certify(&[7, 3, 2, 0, 2, 2, 1, 0, 1]).ok().unwrap(), [5, 3, 2, 0, 2, 2, 1, 0, 0, 0, 1, 1, 0, 1]);
        assert_eq!(most_together(&[0, 1, 2, 3, 5, 0, 1, 2, 4, 5, 0, 1, 3, 4, 5], 5, 2), 3);
    }
}
