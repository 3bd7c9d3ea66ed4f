//! The cabinet page of document 02, request (m).

use crate::crowding::PackingTest;
use crate::file::Placement;
use crate::number::Refusal;

const LINE: usize = 27;

/// Puts a number right in a field of four blanks.
fn put(field: &mut [u8], mut v: usize) {
    for place in field.iter_mut().rev() {
        *place = b'0' + (v % 10) as u8;
        v /= 10;
        if v == 0 {
            break;
        }
    }
}

/// One line a record, and the line of what is kept.
pub fn page<T: PackingTest>(bytes: &[u8]) -> Result<Vec<u8>, Refusal> {
    let p = Placement::check::<T>(bytes)?;
    let mut out = vec![b' '; LINE * (p.b + 1)];
    let (records, last) = out.split_at_mut(LINE * p.b);
    let of_layer = p.layers.iter().enumerate().flat_map(|(x, layer)| std::iter::repeat_n(x, layer.size));
    let rows = bytes[p.first..].chunks_exact(p.r);
    for (i, ((line, row), x)) in records.chunks_exact_mut(LINE).zip(rows).zip(of_layer).enumerate() {
        put(&mut line[..4], i);
        line[5] = b'0' + x as u8;
        for (field, node) in line[6..26].chunks_exact_mut(4).zip(row) {
            put(field, usize::from(*node));
        }
        line[26] = b'\n';
    }
    last[..5].copy_from_slice(b"kept ");
    put(&mut last[5..9], p.figure);
    last[9..13].copy_from_slice(b" of ");
    put(&mut last[13..17], p.b);
    last[26] = b'\n';
    Ok(out)
}

#[cfg(test)]
mod tests {
    use super::page;
    use crate::crowding::Counter;

    #[test]
    fn seven_cabinets() {
        let mut bytes = vec![5, 7, 3, 0, 2, 3, 9, 5, 1, 2, 1, 7];
        bytes.extend(b"012345012034056135146236245".map(|c| c - b'0'));
        let text = String::from_utf8(page::<Counter>(&bytes).ok().unwrap()).unwrap();
        let lines: Vec<&str> = text.lines().collect();
        assert_eq!(lines.len(), 10);
        assert_eq!(lines[1], "   1 0   3   4   5        ");
        assert_eq!(lines[8], "   8 1   2   4   5        ");
        assert_eq!(lines[9], "kept    5 of    9         ");
    }
}
