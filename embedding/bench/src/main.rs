//! Time per call of the library against the tuned plain Rust of bench/baseline, in one process: library_bench FOLDER [TEXT], where
//! `python3 embedding/bench/files.py FOLDER` wrote the inputs; with a text only those with it in their names. Answers must be equal. Both
//! sides run in turn, and the least time of each counts.
mod orders;
mod placements;

use std::hint::black_box;
use std::time::{Duration, Instant};

use musseltwig::raw;

/// What the calls are lent, kept from call to call as a controller would.
pub struct Lent {
    pub work: Vec<u16>,
    pub out: Vec<u8>,
}

/// The time of one call, over a batch of some milliseconds.
fn timed(call: &mut dyn FnMut()) -> f64 {
    let start = Instant::now();
    call();
    let batch = (2_000_000 / start.elapsed().as_nanos().max(1)).clamp(1, 10_000) as u32;
    let start = Instant::now();
    for _ in 0..batch {
        call();
    }
    start.elapsed().as_secs_f64() / f64::from(batch)
}

/// Prints a line of the table: the call of the library, and the same in plain Rust.
pub fn line<A, B>(call: &str, input: &str, mut ours: impl FnMut() -> A, mut theirs: impl FnMut() -> B) {
    let (mut least, mut base, start) = (f64::MAX, f64::MAX, Instant::now());
    while start.elapsed() < Duration::from_millis(300) {
        least = least.min(timed(&mut || drop(black_box(ours()))));
        base = base.min(timed(&mut || drop(black_box(theirs()))));
    }
    println!("| `{call}` | `{input}` | {:.1} | {:.1} | {:.2} |", least * 1e6, base * 1e6, least / base);
}

fn main() {
    let mut words = std::env::args().skip(1);
    let folder = words.next().expect("a folder of inputs");
    let only = words.next().unwrap_or_default();
    let mut files: Vec<_> = std::fs::read_dir(folder).expect("the folder").map(|f| f.expect("a file").path()).collect();
    files.sort();
    let mut lent = Lent { work: vec![0; raw::WORK_MOST], out: vec![0; raw::PAGE_MOST] };
    println!("| call | input | library, µs | plain Rust, µs | ratio |\n|---|---|---|---|---|");
    for file in files {
        let name = file.file_name().expect("a name").to_string_lossy().into_owned();
        if !name.contains(&only) {
            continue;
        }
        let input = std::fs::read(&file).expect("the input");
        match name.split('-').next().expect("a word") {
            "check" => placements::checked(&name, &input, &mut lent),
            "worst" => placements::worst(&name, &input, &mut lent),
            "rounds" => placements::played(&name, &input),
            "replay" => placements::replayed(&name, &input),
            "plan" => orders::planned(&name, &input, &mut lent),
            _ => orders::joined(&name, &input, &mut lent),
        }
    }
}
