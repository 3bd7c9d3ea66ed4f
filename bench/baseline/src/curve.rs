//! The curve of document 02, request (c): a placement's figure for every number of failures.

use crate::crowding::PackingTest;
use crate::file::{Placement, nested_floors};
use crate::number::Refusal;
use crate::text::push_pair;

/// C(m+1,0) to C(m+1,5) from those of m.
fn next_row(row: [usize; 6]) -> [usize; 6] {
    [1, row[0] + row[1], row[1] + row[2], row[2] + row[3], row[3] + row[4], row[4] + row[5]]
}

fn row_of(m: usize) -> [usize; 6] {
    (0..m).fold([1, 0, 0, 0, 0, 0], |row, _| next_row(row))
}

/// The least number of failures, s, and the figure of each from it on.
pub fn curve<T: PackingTest>(bytes: &[u8]) -> Result<(usize, Vec<u16>), Refusal> {
    let p = Placement::check::<T>(bytes)?;
    let (s, units) = (p.s, p.feeders.as_ref().map_or(p.n, |feeders| feeders.g));
    let layers = &p.layers[..s];
    let below = row_of(s);
    let mut above = below;
    let mut figures = Vec::with_capacity(units - s);
    for k in s..units {
        let lost: usize = if p.kind == 2 {
            layers.iter().enumerate().map(|(x, layer)| layer.size.min(layer.bound * above[x + 1] / below[x + 1])).sum()
        } else {
            layers.iter().enumerate().map(|(x, layer)| layer.size.min(nested_floors(s, k, x, layer.bound))).sum()
        };
        figures.push((p.b - lost) as u16);
        above = next_row(above);
    }
    Ok((s, figures))
}

/// What the program `curve` prints for these bytes.
pub fn curve_reply<T: PackingTest>(bytes: &[u8]) -> Vec<u8> {
    let mut out = Vec::new();
    match curve::<T>(bytes) {
        Ok((s, figures)) => {
            for (k, &figure) in (s..).zip(&figures) {
                push_pair(&mut out, k, figure.into());
            }
        }
        Err(e) => out = crate::refused_line(e),
    }
    out
}

#[cfg(test)]
mod tests {
    use super::*;
    use crate::crowding::Counter;

    #[test]
    fn seven_cabinets() {
        let rows = b"012345012034056135146236245".map(|c| c - b'0');
        for head in [&[5, 7, 3, 0][..], &[3, 7, 3], &[2, 7, 3]] {
            let bytes = [head, &[2, 3, 9, 5, 1, 2, 1, 7], &rows].concat();
            assert_eq!(curve_reply::<Counter>(&bytes), b"2 7\n3 5\n4 1\n5 0\n6 0\n");
        }
        assert_eq!(row_of(5), [1, 5, 10, 10, 5, 1]);
    }
}
