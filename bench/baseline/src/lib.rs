//! The programs `check` and `plan` of documents 01 and 02 in plain Rust: the mark that the proved programs are measured against.

pub mod certify;
pub mod crowding;
pub mod curve;
pub mod feeders;
pub mod file;
pub mod join;
pub mod number;
pub mod page;
pub mod replay;
pub mod rounds;
pub mod sorted;
pub mod split;
pub mod text;
pub mod worst;

use std::fs::File;
use std::io::{Read, Write};
use std::mem::ManuallyDrop;
use std::os::fd::FromRawFd;

use crowding::PackingTest;
use file::{Base, Pack, Placement};
use number::{Reader, Refusal, push_number, refused};
use split::{Fill, Rule};

/// All of standard input.
pub fn read_input() -> Vec<u8> {
    // SAFETY: descriptor 0 is open from the start and is never closed here.
    let mut input = ManuallyDrop::new(unsafe { File::from_raw_fd(0) });
    let mut bytes = Vec::new();
    if input.read_to_end(&mut bytes).is_err() {
        std::process::exit(1);
    }
    bytes
}

pub fn write_output(bytes: &[u8]) {
    // SAFETY: descriptor 1 is open from the start and is never closed here.
    let mut output = ManuallyDrop::new(unsafe { File::from_raw_fd(1) });
    if output.write_all(bytes).is_err() {
        std::process::exit(1);
    }
}

/// total / n to the nearest whole, a half going to the even one.
fn half_to_even(total: usize, n: usize) -> usize {
    let whole = total / n;
    match (2 * (total % n)).cmp(&n) {
        std::cmp::Ordering::Less => whole,
        std::cmp::Ordering::Greater => whole + 1,
        std::cmp::Ordering::Equal => whole + whole % 2,
    }
}

/// What `check` prints for these bytes.
pub fn check_reply<T: PackingTest>(input: &[u8]) -> Vec<u8> {
    match Placement::check::<T>(input) {
        Ok(p) => {
            let mean = half_to_even(p.b * p.r, p.n);
            text::line("accepted", &[p.figure, p.b, p.k, p.n, p.most, mean])
        }
        Err(e) => refused_line(e),
    }
}

/// What `plan` writes for these bytes.
pub fn plan_reply<T: PackingTest>(input: &[u8], fill: Fill) -> Vec<u8> {
    plan::<T>(input, fill).unwrap_or_else(refused_line)
}

/// What `join_bench` writes for these bytes.
pub fn join_reply<T: PackingTest>(input: &[u8]) -> Vec<u8> {
    join::join::<T>(input).map_or_else(Vec::new, |joined| joined.unwrap_or_else(refused_line))
}

fn refused_line(e: Refusal) -> Vec<u8> {
    text::line("refused", &[e.number, e.place])
}

fn plan<T: PackingTest>(input: &[u8], fill: Fill) -> Result<Vec<u8>, Refusal> {
    let mut head = Reader::new(input);
    let mut order = [0; 3];
    for (index, value) in order.iter_mut().enumerate() {
        *value = head.number().map_err(|_| Refusal { number: 12, place: index })?;
    }
    let (pack, rules) = ordered::<T>(&input[head.at..], order)?;
    let counts = split::named(&rules[..order[0]], order[2], fill);
    Ok(placement(&pack, &rules[..order[0]], &counts, order))
}

/// The pack and the rules of loss of the layers below s, where the pack, s, k and b (12) and the blocks (9) are not refused.
fn ordered<T: PackingTest>(bytes: &[u8], [s, k, b]: [usize; 3]) -> Result<(Pack<'_>, [Rule; 5]), Refusal> {
    let pack = Pack::check::<T>(bytes)?;
    if !(1..=pack.base.r).contains(&s) {
        return refused(12, 0);
    }
    if !(s..pack.base.n).contains(&k) {
        return refused(12, 1);
    }
    if !(1..=4096).contains(&b) {
        return refused(12, 2);
    }
    let layers = &pack.layers[..s];
    if layers.iter().all(|layer| layer.size == 0) {
        return refused(9, 0);
    }
    let mut rules = [Rule::default(); 5];
    for (x, layer) in layers.iter().enumerate() {
        rules[x] = Rule::new(s, k, x, layer);
    }
    Ok((pack, rules))
}

/// What asking gives: the figure, the counts and the copies of the split that would be planned.
pub struct Offer {
    pub figure: usize,
    pub counts: [usize; 5],
    pub copies: [usize; 5],
}

/// Document 02, (i): asking.
pub fn ask<T: PackingTest>(bytes: &[u8], order: [usize; 3], fill: Fill) -> Result<Offer, Refusal> {
    let (_, rules) = ordered::<T>(bytes, order)?;
    let rules = &rules[..order[0]];
    let counts = split::named(rules, order[2], fill);
    let mut copies = [0; 5];
    let mut figure = order[2];
    for (x, rule) in rules.iter().enumerate() {
        copies[x] = rule.copies(counts[x]);
        figure -= rule.loss(counts[x]);
    }
    Ok(Offer { figure, counts, copies })
}

/// Document 02, (i): committing these counts.
pub fn commit<T: PackingTest>(bytes: &[u8], order: [usize; 3], counts: &[usize; 5]) -> Result<Vec<u8>, Refusal> {
    let (pack, rules) = ordered::<T>(bytes, order)?;
    let [s, _, b] = order;
    let sum = counts.iter().try_fold(0_usize, |sum, &c| sum.checked_add(c));
    let placed = (0..5).all(|x| counts[x] == 0 || x < s && pack.layers[x].size > 0);
    if sum != Some(b) || !placed {
        return refused(16, 0);
    }
    Ok(placement(&pack, &rules[..s], counts, order))
}

/// The placement of these counts: row j of a layer is its block j mod m.
fn placement(pack: &Pack, rules: &[Rule], counts: &[usize; 5], [s, k, b]: [usize; 3]) -> Vec<u8> {
    let Base { n, r, ref dark, .. } = pack.base;
    let lost: usize = rules.iter().zip(counts).map(|(rule, &c)| rule.loss(c)).sum();
    let mut out = Vec::with_capacity(448 + b * r);
    for v in [5, n, r, dark.len()] {
        push_number(&mut out, v);
    }
    for &node in dark {
        push_number(&mut out, node.into());
    }
    for v in [s, k, b, b - lost] {
        push_number(&mut out, v);
    }
    for (x, rule) in rules.iter().enumerate() {
        push_number(&mut out, rule.copies(counts[x]) * pack.layers[x].bound);
        push_number(&mut out, counts[x]);
    }
    let mut blocks = pack.rows;
    for (layer, &count) in pack.layers[..s].iter().zip(counts) {
        let (mine, rest) = blocks.split_at(layer.size * r);
        blocks = rest;
        let start = out.len();
        let end = start + count * r;
        out.extend_from_slice(&mine[..mine.len().min(end - start)]);
        // What is there already is whole copies of the blocks, so it may be repeated.
        while out.len() < end {
            out.extend_from_within(start..out.len().min(start + end - out.len()));
        }
    }
    out
}

#[cfg(test)]
mod tests {
    use super::*;

    const ROWS: [u8; 27] = [0, 1, 2, 3, 4, 5, 0, 1, 2, 0, 3, 4, 0, 5, 6, 1, 3, 5, 1, 4, 6, 2, 3, 6, 2, 4, 5];

    fn seven_cabinets() -> Vec<u8> {
        [&[1, 7, 3, 1, 2, 1, 7, 1, 0], &ROWS[..]].concat()
    }

    fn both(input: &[u8]) -> Vec<u8> {
        let reply = plan_reply::<crowding::Counter>(input, split::by_recurrence);
        assert_eq!(reply, plan_reply::<crowding::Counter>(input, split::by_entries));
        assert_eq!(reply, plan_reply::<sorted::Sorted>(input, split::by_candidates));
        reply
    }

    fn both_checks(input: &[u8]) -> Vec<u8> {
        let reply = check_reply::<crowding::Counter>(input);
        assert_eq!(reply, check_reply::<sorted::Sorted>(input));
        reply
    }

    #[test]
    fn the_nine_records_are_planned_and_accepted() {
        let order = [&[2, 3, 9], &seven_cabinets()[..]].concat();
        let tail = [&[2, 3, 9, 5, 1, 2, 1, 7], &ROWS[..]].concat();
        assert_eq!(both(&order), [&[5, 7, 3, 0], &tail[..]].concat());
        for head in [&[5, 7, 3, 0][..], &[3, 7, 3], &[2, 7, 3]] {
            assert_eq!(both_checks(&[head, &tail].concat()), b"accepted 5 9 3 7 4 4\n");
        }
        assert_eq!(both_checks(&[&[4, 7, 3, 0], &tail[..]].concat()), b"refused 3 0\n");
    }

    #[test]
    fn nodes_out_of_service() {
        // Node 3 is out of service, and the nodes from it on are one further.
        let rows = ROWS.map(|node| node + u8::from(node >= 3));
        let order = [&[2, 3, 9, 4, 8, 3, 1, 3, 1, 2, 1, 7, 1, 0], &rows[..]].concat();
        let placement = [&[5, 8, 3, 1, 3, 2, 3, 9, 5, 1, 2, 1, 7], &rows[..]].concat();
        assert_eq!(both(&order), placement);
        assert_eq!(both_checks(&placement), b"accepted 5 9 3 8 4 3\n");
        for (list, reply) in [
            (&[0][..], "accepted 5 9 3 8 4 3\n"),
            (&[2, 2, 3], "refused 15 14\n"),
            (&[1, 7], "refused 15 25\n"),
            (&[2, 3, 3], "refused 4 5\n"),
            (&[2, 3, 2], "refused 4 5\n"),
            (&[1, 8], "refused 4 4\n"),
            (&[9], "refused 4 3\n"),
            (&[1, 131, 128, 0], "accepted 5 9 3 8 4 3\n"),
        ] {
            let listed = [&[5, 8, 3], list, &placement[5..]].concat();
            assert_eq!(both_checks(&listed), reply.as_bytes(), "{list:?}");
        }
    }

    #[test]
    fn feeders_in_place_of_nodes() {
        // Eleven nodes on feeders of which the last has none; node 7 is out of service. The rows' feeders are those of ROWS.
        let feeders = [4, 0, 6, 2, 0, 5, 3, 1, 2, 3, 1];
        let rows = [1, 3, 10, 0, 5, 6, 4, 8, 10, 0, 1, 9, 2, 4, 5, 5, 6, 10, 0, 2, 10, 2, 3, 9, 0, 5, 8];
        let bare = [&[6, 11, 3, 1, 7, 2, 3, 9, 5, 1, 2, 1, 7], &rows[..]].concat();
        for (g, list, reply) in [
            (&[8][..], &feeders[..], "accepted 5 9 3 11 4 2\n"),
            (&[7], &feeders, "accepted 5 9 3 11 4 2\n"),
            (&[136, 0], &feeders, "accepted 5 9 3 11 4 2\n"),
            (&[3], &feeders, "refused 4 40\n"),
            (&[12], &feeders, "refused 4 40\n"),
            (&[6], &feeders, "refused 4 43\n"),
            (&[8], &feeders[..10], "refused 1 51\n"),
            (&[], &[], "refused 1 40\n"),
            (&[8], &[4, 0, 6, 2, 0, 5, 3, 1, 2, 3, 1, 0], "refused 5 52\n"),
            // nodes 4 and 8 of the third row; 0 and 9, the first and the last of the fourth
            (&[8], &[4, 0, 6, 2, 0, 5, 3, 1, 0, 3, 1], "refused 21 19\n"),
            (&[8], &[3, 0, 6, 2, 0, 5, 4, 1, 2, 3, 1], "refused 21 22\n"),
            // node 8 on feeder 7, so that no two rows are closer
            (&[8], &[4, 0, 6, 2, 0, 5, 3, 1, 7, 3, 1], "accepted 5 9 3 11 4 2\n"),
            // node 9 on feeder 5: the fourth row, 0 1 9, and the fifth, 2 4 5, have feeders 0 and 5
            (&[8], &[4, 0, 6, 2, 0, 5, 3, 1, 2, 5, 1], "refused 7 22\n"),
        ] {
            assert_eq!(both_checks(&[&bare[..], g, list].concat()), reply.as_bytes(), "{g:?} {list:?}");
        }
    }

    #[test]
    fn figures_of_seven_cabinets() {
        for (s, k, b, figure) in [(2, 2, 7, 6), (2, 3, 7, 4), (2, 3, 9, 5), (2, 2, 9, 7), (3, 4, 7, 6), (3, 4, 10, 7), (2, 2, 1, 0)] {
            let reply = both(&[&[s, k, b], &seven_cabinets()[..]].concat());
            assert_eq!(reply[7], figure, "s {s}, k {k}, b {b}");
            assert!(both_checks(&reply).starts_with(b"accepted"));
        }
    }

    #[test]
    fn a_pair_in_two_rows_is_refused_at_the_first() {
        let mut order = [&[2, 3, 9], &seven_cabinets()[..]].concat();
        let last = order.len() - 1;
        order[last] = 6;
        assert_eq!(both(&order), b"refused 7 27\n");
    }

    #[test]
    fn orders_are_refused_after_the_pack() {
        for (order, reply) in [
            (&[0, 3, 9][..], "refused 12 0\n"),
            (&[2, 7, 9], "refused 12 1\n"),
            (&[2, 3, 129, 32], "refused 12 2\n"),
            (&[128, 0, 3, 9], "refused 12 0\n"),
        ] {
            assert_eq!(both(&[order, &seven_cabinets()].concat()), reply.as_bytes());
        }
        assert_eq!(both(&[2, 3, 9]), b"refused 1 0\n");
        assert_eq!(both(&[2, 3]), b"refused 12 2\n");
        assert_eq!(both(&[1, 2, 5, 1, 3, 2, 1, 0, 1, 1, 0, 1]), b"refused 9 0\n");
    }

    #[test]
    fn what_is_asked_and_committed_is_planned() {
        let pack = seven_cabinets();
        for order in [[2, 3, 9], [2, 2, 9], [3, 4, 10], [1, 6, 1]] {
            let offer = ask::<crowding::Counter>(&pack, order, split::by_recurrence).ok().unwrap();
            let committed = commit::<crowding::Counter>(&pack, order, &offer.counts).ok().unwrap();
            assert_eq!(committed, both(&[&order.map(|v| v as u8), &pack[..]].concat()));
            assert_eq!(usize::from(committed[7]), offer.figure);
        }
        for counts in [[2, 6, 0, 0, 0], [2, 6, 1, 0, 0], [usize::MAX, 10, 0, 0, 0], [2, 7, 0, 0, 1]] {
            let refusal = commit::<crowding::Counter>(&pack, [2, 3, 9], &counts).err().unwrap();
            assert_eq!((refusal.number, refusal.place), (16, 0));
        }
    }

    #[test]
    fn the_largest_order_is_planned() {
        let reply = both(&[&[2, 3, 128, 32], &seven_cabinets()[..]].concat());
        assert_eq!(reply.len(), 16 + 3 * 4096);
        assert!(both_checks(&reply).starts_with(b"accepted "));
    }
}
