//! The calls that take a pack.
use std::hint::black_box;

use baseline::crowding::Counter;
use baseline::file::Pack;
use baseline::number::{Reader, push_number};
use baseline::split::by_recurrence;
use musseltwig::{Order, ask, check_pack, commit, join_three, plan, plan_operator};

use crate::{Lent, line};

/// The inputs that the calls beside `plan` are measured on.
const SOME: [&str; 4] = ["plan-nine", "plan-m7-k6", "plan-m819-k6", "plan-m4096-k6"];

/// The other operator's wish, which leaves this one nearly all.
const OTHER: u64 = 1;

fn plain_plan(input: &[u8]) -> Vec<u8> {
    baseline::plan_reply::<Counter>(input, by_recurrence)
}

/// An order, s, k and b, and the pack after it.
fn order_of(input: &[u8]) -> ([usize; 3], &[u8]) {
    let mut head = Reader::new(input);
    let order = [0; 3].map(|_| head.number().expect("a number"));
    (order, &input[head.at..])
}

/// The order and the pack as `plan` reads them.
fn with_order(order: [usize; 3], pack: &[u8]) -> Vec<u8> {
    let mut bytes = vec![];
    for v in order {
        push_number(&mut bytes, v);
    }
    bytes.extend(pack);
    bytes
}

pub fn planned(name: &str, input: &[u8], lent: &mut Lent) {
    let (own, pack) = order_of(input);
    let [s, k, b] = own.map(|v| v as u64);
    let order = Order { s, k, b };
    let Lent { work, out } = lent;
    let length = plan(pack, order, work, out).expect("a plan").length;
    assert!(out[..length] == plain_plan(input), "plan of {name}");
    line("plan", name, || plan(black_box(pack), order, work, out), || plain_plan(black_box(input)));
    if SOME.contains(&name) {
        checked(name, pack);
        asked(name, own, pack, lent);
        operator(name, own, pack, lent);
    }
}

fn checked(name: &str, pack: &[u8]) {
    let (ours, theirs) = (check_pack(pack).expect("a pack"), Pack::check::<Counter>(pack).ok().expect("a pack"));
    let layers = ours.layers.map(|l| (l.bound as usize, l.size as usize));
    assert_eq!(
        (ours.n as usize, ours.r as usize, layers),
        (theirs.base.n, theirs.base.r, theirs.layers.map(|l| (l.bound, l.size)))
    );
    line("check_pack", name, || check_pack(black_box(pack)), || Pack::check::<Counter>(black_box(pack)).ok());
}

/// Asking, and committing the counts that it gives.
fn asked(name: &str, own: [usize; 3], pack: &[u8], lent: &mut Lent) {
    let [s, k, b] = own.map(|v| v as u64);
    let order = Order { s, k, b };
    let Lent { work, out } = lent;
    let plain_ask = |pack: &[u8]| baseline::ask::<Counter>(pack, own, by_recurrence).expect("an answer");
    let (ours, theirs) = (ask(pack, order, work).expect("an offer"), plain_ask(pack));
    assert_eq!(ours.figure as usize, theirs.figure);
    assert_eq!((ours.counts, ours.copies), (theirs.counts.map(|v| v as u64), theirs.copies.map(|v| v as u64)));
    line("ask", name, || ask(black_box(pack), order, work), || plain_ask(black_box(pack)));
    let plain_commit = |pack: &[u8]| baseline::commit::<Counter>(pack, own, &theirs.counts).expect("an answer");
    let length = commit(pack, order, &ours.counts, out).expect("a placement").length;
    assert!(out[..length] == plain_commit(pack), "commit of {name}");
    line("commit", name, || commit(black_box(pack), order, &ours.counts, out), || plain_commit(black_box(pack)));
}

/// The same order with b as the wish; in plain Rust the plan of the grant.
fn operator(name: &str, own: [usize; 3], pack: &[u8], lent: &mut Lent) {
    let [s, k, b] = own.map(|v| v as u64);
    let order = Order { s, k, b };
    let Lent { work, out } = lent;
    let granted = with_order([own[0], own[1], own[2].min(2_048.max(4_096 - OTHER as usize))], pack);
    let length = plan_operator(pack, order, OTHER, work, out).expect("a plan").length;
    assert!(out[..length] == plain_plan(&granted), "plan_operator of {name}");
    line(
        "plan_operator",
        name,
        || plan_operator(black_box(pack), order, OTHER, work, out),
        || plain_plan(black_box(&granted)),
    );
}

/// The lengths of the first two packs, and three packs.
pub fn joined(name: &str, input: &[u8], lent: &mut Lent) {
    let mut head = Reader::new(input);
    let [one, two] = [0; 2].map(|_| head.number().expect("a length"));
    let (first, rest) = input[head.at..].split_at(one);
    let (second, third) = rest.split_at(two);
    let plain = |input: &[u8]| baseline::join_reply::<Counter>(input);
    let out = &mut lent.out;
    let length = join_three(first, second, third, out).expect("a joined pack");
    assert!(out[..length] == plain(input), "join of {name}");
    line("join_three", name, || join_three(black_box(first), second, third, out), || plain(black_box(input)));
}
