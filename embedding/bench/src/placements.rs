//! The calls that take a placement, and `certify`.
use std::hint::black_box;

use baseline::crowding::Counter;
use baseline::file::Placement;
use baseline::number::Reader;
use baseline::replay::{Replayed, events_of};
use baseline::worst::by_counts;
use musseltwig::{
    Event, Order, certify, check_placement, check_reply, curve, open_walk, page, raw, replay, rounds, worst_case,
    write_number,
};

use crate::{Lent, line};

/// The inputs that the calls beside `check_reply` are measured on; `certify` takes no feeders.
const SOME: [&str; 4] = ["check-nine", "check-r2", "check-r5", "check-r5-layer0"];
const FED: &str = "check-feeders";

fn plain(p: &[u8]) -> Placement {
    Placement::check::<Counter>(p).expect("a placement")
}

/// The rows' bytes of a placement that was checked.
fn rows_of<'a>(head: &Placement, p: &'a [u8]) -> &'a [u8] {
    &p[head.first..head.first + head.b * head.r]
}

pub fn checked(name: &str, p: &[u8], lent: &mut Lent) {
    let out = &mut lent.out;
    let plain_line = |p: &[u8]| baseline::check_reply::<Counter>(p);
    let length = check_reply(p, out).expect("a line");
    assert!(out[..length] == plain_line(p), "check of {name}");
    line("check_reply", name, || check_reply(black_box(p), out), || plain_line(black_box(p)));
    if SOME.contains(&name) || name == FED {
        headed(name, p);
        curved(name, p, lent);
        paged(name, p, lent);
        walked(name, p);
    }
    if SOME.contains(&name) {
        certified(name, &bare_rows(p), lent);
    }
}

fn headed(name: &str, p: &[u8]) {
    let (ours, theirs) = (check_placement(p).expect("a placement"), plain(p));
    let own = [ours.kind, ours.n, ours.r, ours.order.s, ours.order.k, ours.order.b, ours.figure, ours.first];
    let plain_own = [theirs.kind, theirs.n, theirs.r, theirs.s, theirs.k, theirs.b, theirs.figure, theirs.first];
    assert_eq!(own, plain_own.map(|v| v as u64), "check of {name}");
    line("check_placement", name, || check_placement(black_box(p)), || plain(black_box(p)));
}

fn curved(name: &str, p: &[u8], lent: &mut Lent) {
    let plain_curve = |p: &[u8]| baseline::curve::curve::<Counter>(p).expect("a curve").1;
    let out = &mut lent.work;
    let length = curve(p, out).expect("a curve");
    assert!(out[..length] == plain_curve(p), "curve of {name}");
    line("curve", name, || curve(black_box(p), out), || plain_curve(black_box(p)));
}

fn paged(name: &str, p: &[u8], lent: &mut Lent) {
    let plain_page = |p: &[u8]| baseline::page::page::<Counter>(p).expect("a page");
    let out = &mut lent.out;
    let length = page(p, out).expect("a page");
    assert!(out[..length] == plain_page(p), "page of {name}");
    line("page", name, || page(black_box(p), out), || plain_page(black_box(p)));
}

/// A step in plain Rust as the library's is one: a call that is not inlined, with its answer in a lent slice: where the row begins and its
/// length, 0 and 0 at the end, and the next step's place, r and what is left.
#[inline(never)]
fn plain_step(bytes: &[u8], [at, r, left]: [usize; 3], answer: &mut [usize]) -> usize {
    if answer.len() < 6 {
        return raw::BAD_LENGTH;
    }
    let row = if left == 0 { None } else { bytes.get(at..).and_then(|rest| rest.get(..r)) };
    let told = match row {
        Some(row) => [0, at, row.len(), at + r, r, left - 1],
        None => [0, 0, 0, at, r, left],
    };
    answer[..6].copy_from_slice(&told);
    0
}

/// All rows, one step each; every node is looked at. Measured against rows that plain Rust has at hand, and against steps that are calls.
fn walked(name: &str, p: &[u8]) {
    let sum = |row: &[u8]| row.iter().map(|v| usize::from(*v)).sum::<usize>();
    let ours = |p: &[u8]| open_walk(p).expect("a walk").map(sum).sum::<usize>();
    let theirs = |p: &[u8]| {
        let head = plain(p);
        rows_of(&head, p).chunks_exact(head.r).map(sum).sum::<usize>()
    };
    let called = |p: &[u8]| {
        let head = plain(p);
        let (mut place, mut total) = ([head.first, head.r, head.b], 0);
        loop {
            let mut a = [0; raw::STEP_ANSWER];
            if plain_step(p, place, &mut a) != 0 || a[2] == 0 {
                return total;
            }
            place = [a[3], a[4], a[5]];
            total += sum(&p[a[1]..a[1] + a[2]]);
        }
    };
    assert!(ours(p) == theirs(p) && ours(p) == called(p), "walk of {name}");
    line("open_walk, step", name, || ours(black_box(p)), || theirs(black_box(p)));
    line("the same, plain Rust's step a call", name, || ours(black_box(p)), || called(black_box(p)));
}

/// The bare rows of a placement.
fn bare_rows(p: &[u8]) -> Vec<u8> {
    let head = check_placement(p).expect("a placement");
    let Order { s, k, b } = head.order;
    let listed = head.out_of_service.len() as u64;
    let numbers = [7, head.n, head.r, listed].into_iter().chain(head.out_of_service).chain([s, k, b]);
    let mut bytes = vec![];
    for v in numbers {
        let mut form = [0; raw::NUMBER_MOST];
        let length = write_number(&mut form, v).expect("a number");
        bytes.extend(&form[..length]);
    }
    bytes.extend(rows_of(&plain(p), p));
    bytes
}

fn certified(name: &str, bare: &[u8], lent: &mut Lent) {
    let plain_certify = |bare: &[u8]| baseline::certify::certify(bare).expect("a placement");
    let out = &mut lent.out;
    let length = certify(bare, out).expect("a placement").length;
    assert!(out[..length] == plain_certify(bare), "certify of {name}");
    line("certify", name, || certify(black_box(bare), out), || plain_certify(black_box(bare)));
}

pub fn worst(name: &str, p: &[u8], lent: &mut Lent) {
    let plain_worst = |p: &[u8]| baseline::worst::worst_case::<Counter>(p, by_counts).expect("a worst case");
    let out = &mut lent.out;
    let number = worst_case(p, out).expect("a worst case") as usize;
    let (plain_number, set) = plain_worst(p);
    assert!(number == plain_number && out[..set.len()] == set, "worst case of {name}");
    line("worst_case", name, || worst_case(black_box(p), out), || plain_worst(black_box(p)));
}

/// q, a byte, and a placement.
pub fn played(name: &str, input: &[u8]) {
    let (q, p) = (input[0], &input[1..]);
    let plain_rounds = |p: &[u8]| {
        let head = plain(p);
        baseline::rounds::rounds(
            &baseline::rounds::Estate { n: head.n, r: head.r, s: head.s, rows: rows_of(&head, p) },
            q.into(),
        )
    };
    assert_eq!(rounds(p, q.into()).expect("a number") as usize, plain_rounds(p), "rounds of {name}");
    line("rounds", name, || rounds(black_box(p), q.into()), || plain_rounds(black_box(p)));
}

/// The placement's length as a number, the placement, and a log.
pub fn replayed(name: &str, input: &[u8]) {
    let mut head = Reader::new(input);
    let length = head.number().expect("a length");
    let (p, log) = input[head.at..].split_at(length);
    let events = events_of(log);
    let ours: Vec<Event> = events.iter().map(|e| Event { time: e.time, node: e.node, down: e.down }).collect();
    let plain_replay = |p: &[u8]| {
        let head = plain(p);
        baseline::replay::replay(
            &baseline::replay::Estate { n: head.n, r: head.r, s: head.s, rows: rows_of(&head, p) },
            &events,
        )
    };
    let lowest = replay(p, &ours).expect("a number");
    assert_eq!(
        Replayed::Lowest(lowest.usable as usize, lowest.event.expect("an event")),
        plain_replay(p),
        "replay of {name}"
    );
    line("replay", name, || replay(black_box(p), &ours), || plain_replay(black_box(p)));
}
