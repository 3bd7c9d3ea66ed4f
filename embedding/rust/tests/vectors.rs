//! Runs the vectors of crates/vectors_test/stdin, which reference/ makes, through the safe functions, in four threads at once. Each
//! answer and every element of the lent slices are compared. crates/vectors_test says how the vectors stand in the file.
use musseltwig::*;

/// How many numbers a vector gives or expects at most.
const NUMBERS: usize = 19;

/// A vector's call: what it is lent.
struct Lent<'a> {
    input: &'a [u8],
    given: [u64; NUMBERS],
    work: Vec<u16>,
    out: Vec<u8>,
}

type Numbers = [u64; NUMBERS];

fn numbers(values: impl IntoIterator<Item = u64>) -> Numbers {
    let mut all = [0; NUMBERS];
    for (to, v) in all.iter_mut().zip(values) {
        *to = v;
    }
    all
}

fn refused(e: Refusal) -> Numbers {
    numbers([e.number(), e.place()])
}

fn one(answer: Result<usize, Refusal>) -> Numbers {
    answer.map_or_else(refused, |n| numbers([0, n as u64]))
}

fn planned(answer: Result<Planned, Refusal>) -> Numbers {
    answer.map_or_else(refused, |p| numbers([0, p.length as u64, p.figure].into_iter().chain(p.counts)))
}

fn read(answer: Result<Reading, Refusal>) -> Numbers {
    answer.map_or_else(refused, |n| numbers([0, n.value, n.next as u64]))
}

/// What an answer has past its layers, as the vector has it: how many nodes are out of service, which, g and the feeders, and 0 after
/// them. A vector that has none of it is of an answer without.
fn put_list(l: &mut Lent, dark: &[u64], feeders: Option<&Feeders>) {
    let mut list = vec![dark.len() as u64];
    list.extend(dark);
    if let Some(f) = feeders {
        list.push(f.number);
        list.extend(&f.each);
    }
    let end = l.given[6] as usize;
    assert!(list.len() <= end || end == 0 && list == [0]);
    list.resize(end, 0);
    for (to, v) in l.out.iter_mut().zip(list) {
        *to = v as u8;
    }
}

fn head(first: [u64; 9], layers: [Layer; 5]) -> Numbers {
    numbers(first.into_iter().chain(layers.iter().flat_map(|l| [l.bound, l.size])))
}

fn pack(l: &mut Lent) -> Numbers {
    let answer = check_pack(l.input);
    put_list(l, answer.as_ref().map_or(&[], |p| &p.out_of_service), None);
    answer.map_or_else(refused, |p| head([0, 0, p.n, p.r, 0, 0, 0, 0, p.first], p.layers))
}

fn placement(l: &mut Lent) -> Numbers {
    let answer = check_placement(l.input);
    let known = answer.as_ref().ok();
    put_list(l, known.map_or(&[], |p| &p.out_of_service), known.and_then(|p| p.feeders.as_ref()));
    answer.map_or_else(refused, |p| {
        head([0, p.kind, p.n, p.r, p.order.s, p.order.k, p.order.b, p.figure, p.first], p.layers)
    })
}

fn walk(l: &mut Lent) -> Numbers {
    let mut rows = match open_walk(l.input) {
        Err(e) => return refused(e),
        Ok(rows) => rows,
    };
    let first = [rows.at, rows.r, rows.left];
    let (mut count, mut to) = (0, 0);
    for row in rows.by_ref() {
        l.out[to..to + row.len()].copy_from_slice(row);
        (count, to) = (count + 1, to + row.len());
    }
    let last = [rows.at, rows.left];
    let past = [rows.next().map_or(0, <[u8]>::len) as u64, rows.next().map_or(0, <[u8]>::len) as u64];
    let [at, r, left] = first;
    numbers([0, at, r, left, count, to as u64, last[0], last[1], past[0], past[1], rows.at, rows.left, at, left])
}

/// The figures stand in the working slice, and the vector has them as bytes.
fn figures(l: &mut Lent) -> Numbers {
    let answer = one(curve(l.input, &mut l.work));
    for (to, v) in l.out.chunks_exact_mut(2).zip(&l.work) {
        to.copy_from_slice(&v.to_le_bytes());
    }
    answer
}

fn join(l: &mut Lent) -> Numbers {
    let [packs, one_end, two_end] = [l.given[0], l.given[1], l.given[2]].map(|v| v as usize);
    let out = &mut l.out;
    one(match packs {
        1 => join_one(l.input, out),
        2 => join_two(&l.input[..one_end], &l.input[one_end..], out),
        _ => join_three(&l.input[..one_end], &l.input[one_end..two_end], &l.input[two_end..], out),
    })
}

fn log(l: &mut Lent) -> Numbers {
    let (bytes, log) = l.input.split_at(l.given[0] as usize);
    let events: Vec<Event> = log
        .chunks_exact(6)
        .map(|e| Event { time: u32::from_le_bytes([e[0], e[1], e[2], e[3]]), node: e[4], down: e[5] > 0 })
        .collect();
    replay(bytes, &events).map_or_else(refused, |lowest| match lowest.event {
        Some(event) => numbers([0, lowest.usable, 1, event as u64]),
        None => numbers([0, lowest.usable]),
    })
}

/// The calls by their numbers in crates/vectors_test and reference/script.py, and the two that are not exported: `first_crowded` and
/// `plan_reply`.
const CALLS: std::ops::RangeInclusive<usize> = 4..=23;
const NOT_EXPORTED: [usize; 2] = [8, 13];

/// What the call of this number answers; none where it is not exported.
fn call(what: u8, l: &mut Lent) -> Option<Numbers> {
    let g = l.given;
    let order = Order { s: g[0], k: g[1], b: g[2] };
    let offered = |o: Offer| numbers([0, o.figure].into_iter().chain(o.counts).chain(o.copies));
    Some(match what {
        4 => read(read_number(l.input, g[0] as usize)),
        5 => read(read_within(l.input, g[0] as usize, g[1], g[2])),
        6 => pack(l),
        7 => placement(l),
        9 => one(write_number(&mut l.out, g[0])),
        10 => planned(plan(l.input, order, &mut l.work, &mut l.out)),
        11 => walk(l),
        12 => one(check_reply(l.input, &mut l.out)),
        14 => figures(l),
        15 => join(l),
        16 => planned(plan_operator(l.input, order, g[3], &mut l.work, &mut l.out)),
        17 => ask(l.input, order, &mut l.work).map_or_else(refused, offered),
        18 => planned(commit(l.input, order, &[g[9], g[10], g[11], g[12], g[13]], &mut l.out)),
        19 => one(worst_case(l.input, &mut l.out).map(|n| n as usize)),
        20 => one(rounds(l.input, g[0]).map(|n| n as usize)),
        21 => log(l),
        22 => one(page(l.input, &mut l.out)),
        23 => planned(certify(l.input, &mut l.out)),
        what if NOT_EXPORTED.contains(&what.into()) => return None,
        what => panic!("no call has the number {what}"),
    })
}

/// The next numbers of the file, 0 after them.
fn next_numbers(file: &mut &[u8], count: u8) -> Numbers {
    let (these, rest) = file.split_at(4 * count as usize);
    *file = rest;
    numbers(these.chunks_exact(4).map(|n| match u32::from_le_bytes(n.try_into().unwrap()) {
        u32::MAX => u64::MAX,
        n => n as u64,
    }))
}

/// Runs the whole file; answers how many vectors there were, each call's among them.
fn run(mut file: &[u8]) -> usize {
    let (mut bytes, mut written, mut part, mut called) = (vec![], vec![], 0..0, 0);
    let mut seen = [0; 24];
    while let [what, _, g, e, rest @ ..] = file {
        file = rest;
        let given = next_numbers(&mut file, *g);
        let expected = next_numbers(&mut file, *e);
        let [first, second] = [given[0] as usize, given[1] as usize];
        match what {
            0 => {
                bytes = file[..first].to_vec();
                (file, part) = (&file[first..], 0..first);
            }
            1 => {
                written = file[..first].to_vec();
                file = &file[first..];
            }
            2 => bytes[first] = given[1] as u8,
            3 => part = first..second,
            _ => {
                let fill = given[4] as u8;
                let entry = u16::from_le_bytes([fill, fill]);
                let work = vec![entry; given[7] as usize];
                let mut lent = Lent { input: &bytes[part.clone()], given, work, out: vec![fill; given[5] as usize] };
                let Some(answer) = call(*what, &mut lent) else { continue };
                called += 1;
                seen[*what as usize] += 1;
                assert_eq!(answer, expected, "call {what}, vector {called}");
                let out = given[6] as usize;
                assert_eq!(lent.out[..out], written[..out], "call {what}, vector {called}");
                assert!(lent.out[out..].iter().all(|b| *b == fill), "call {what}, vector {called}");
                assert!(lent.work[given[8] as usize..].iter().all(|v| *v == entry), "call {what}, vector {called}");
            }
        }
    }
    assert!(CALLS.filter(|what| !NOT_EXPORTED.contains(what)).all(|what| seen[what] > 0), "{seen:?}");
    called
}

#[test]
fn vectors_in_four_threads() {
    let path = concat!(env!("CARGO_MANIFEST_DIR"), "/../../crates/vectors_test/stdin");
    let file = std::fs::read(path).unwrap();
    let called: Vec<usize> = std::thread::scope(|s| {
        let threads: Vec<_> = (0..4).map(|_| s.spawn(|| run(&file))).collect();
        threads.into_iter().map(|t| t.join().unwrap()).collect()
    });
    println!("Rust: 4 threads, {} vectors each, none differs", called[0]);
    assert!(called[0] > 80_000 && called.iter().all(|c| *c == called[0]));
}
