//! Three packs joined into one (document 02, requests (e) and (h)).

use crate::crowding::PackingTest;
use crate::file::{Layer, Pack};
use crate::number::{Reader, Refusal, push_number, refused};

/// The lengths of the first two packs, and the packs one after another: the joined pack. Nothing where the lengths can't be
/// read; a length past the input is that of an empty pack.
pub fn join<T: PackingTest>(input: &[u8]) -> Option<Result<Vec<u8>, Refusal>> {
    let mut head = Reader::new(input);
    let (one, two) = (head.number().ok()?, head.number().ok()?);
    let rest = &input[head.at..];
    let others = rest.get(one..).unwrap_or(&[]);
    let files = [rest.get(..one).unwrap_or(&[]), others.get(..two).unwrap_or(&[]), others.get(two..).unwrap_or(&[])];
    Some(join_three::<T>(files))
}

fn join_three<T: PackingTest>([first, second, third]: [&[u8]; 3]) -> Result<Vec<u8>, Refusal> {
    let packs = [Pack::check::<T>(first)?, Pack::check::<T>(second)?, Pack::check::<T>(third)?];
    let r = packs[0].base.r;
    let n: usize = packs.iter().map(|pack| pack.base.n).sum();
    if packs.iter().any(|pack| pack.base.r != r) || n > 255 {
        return refused(13, 0);
    }
    let mut joined = [Layer::default(); 5];
    for (x, layer) in joined[..r].iter_mut().enumerate() {
        let used = || packs.iter().map(|pack| pack.layers[x]).filter(|own| own.size > 0);
        // Three mu's of at most 4,096: nothing here passes 64 bits.
        layer.bound = used().fold(1, |mu, own| lcm(mu, own.bound));
        layer.size = used().map(|own| layer.bound / own.bound * own.size).sum();
    }
    let rows: usize = joined.iter().map(|layer| layer.size).sum();
    if rows > 4096 || joined.iter().any(|layer| layer.bound > 4096) {
        return refused(13, 0);
    }
    let mut out = Vec::with_capacity(448 + rows * r);
    for v in [4, n, r] {
        push_number(&mut out, v);
    }
    write_lists(&packs, &mut out);
    for layer in &joined[..r] {
        push_number(&mut out, layer.bound);
        push_number(&mut out, layer.size);
    }
    write_rows(&packs, &joined[..r], r, &mut out);
    Ok(out)
}

/// The nodes out of service, each after the nodes of the packs before.
fn write_lists(packs: &[Pack; 3], out: &mut Vec<u8>) {
    push_number(out, packs.iter().map(|pack| pack.base.dark.len()).sum());
    let mut shift = 0;
    for pack in packs {
        for &node in &pack.base.dark {
            push_number(out, shift + usize::from(node));
        }
        shift += pack.base.n;
    }
}

/// Layer by layer, each pack's blocks as often as its mu goes into the joined one, their nodes after those of the packs before.
fn write_rows(packs: &[Pack; 3], joined: &[Layer], r: usize, out: &mut Vec<u8>) {
    let mut at = [0; 3];
    for (x, layer) in joined.iter().enumerate() {
        let mut shift = 0u8;
        for (pack, at) in packs.iter().zip(&mut at) {
            let own = pack.layers[x];
            let blocks = &pack.rows[*at..*at + own.size * r];
            *at += blocks.len();
            if own.size > 0 {
                let start = out.len();
                out.extend(blocks.iter().map(|node| node + shift));
                for _ in 1..layer.bound / own.bound {
                    out.extend_from_within(start..start + blocks.len());
                }
            }
            // Past the last pack it is not used, and 255 is the most before.
            shift = shift.wrapping_add(pack.base.n as u8);
        }
    }
}

fn lcm(a: usize, b: usize) -> usize {
    a / gcd(a, b) * b
}

fn gcd(a: usize, b: usize) -> usize {
    if b == 0 { a } else { gcd(b, a % b) }
}

#[cfg(test)]
mod tests {
    use super::*;
    use crate::crowding::Counter;
    use crate::sorted::Sorted;

    fn joined(packs: [&[u8]; 3]) -> Result<Vec<u8>, Refusal> {
        let reply = join_three::<Counter>(packs);
        assert_eq!(reply, join_three::<Sorted>(packs));
        reply
    }

    #[test]
    fn three_by_hand() {
        let two = [1, 2, 2, 2, 1, 3, 1, 0, 1, 0, 1];
        let three = [1, 3, 2, 3, 2, 9, 0, 0, 1, 1, 2];
        let none = [1, 2, 2, 5, 0, 7, 0];
        let rows = [0, 1, 0, 1, 0, 1, 2, 3, 3, 4, 2, 3, 3, 4, 0, 1];
        assert_eq!(joined([&two, &three, &none]), Ok([&[4, 7, 2, 0, 6, 7, 3, 1], &rows[..]].concat()));
    }

    #[test]
    fn lists_are_shifted_and_joined() {
        let (first, third) = ([4, 3, 2, 1, 2, 1, 0, 1, 0], [4, 4, 2, 2, 0, 3, 1, 0, 1, 1, 1, 2]);
        assert_eq!(joined([&first, &[1, 2, 2, 1, 0, 1, 0], &third]), Ok(vec![4, 9, 2, 3, 2, 5, 8, 1, 0, 1, 1, 6, 7]));
    }

    #[test]
    fn refusals() {
        let good = [1, 2, 2, 1, 0, 1, 0];
        assert_eq!(joined([&good, &good[..6], &[]]), refused(1, 6));
        assert_eq!(joined([&good, &good, &[1, 3, 3, 1, 0, 1, 0, 1, 0]]), refused(13, 0));
        let wide = [1, 253, 1, 2, 1, 0, 1, 0];
        assert_eq!(joined([&wide, &good, &good]), refused(13, 0));
        assert_eq!(join::<Counter>(&[1]), None);
        assert_eq!(join::<Counter>(&[7, 9, 0]), Some(refused(1, 0)));
    }
}
