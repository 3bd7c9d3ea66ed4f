//! `replay CALLS`: n, r and s, a byte each, the rows' length in four bytes, lowest first, the rows and a log on standard input; takes the log
//! apart and runs it so many times, and prints the last answer.
use baseline::replay::{Estate, Replayed, events_of, replay};

fn main() {
    let calls = std::env::args().nth(1).and_then(|word| word.parse().ok()).unwrap_or(1);
    let input = baseline::read_input();
    let [n, r, s] = [0, 1, 2].map(|i| input[i] as usize);
    let end = 7 + u32::from_le_bytes([input[3], input[4], input[5], input[6]]) as usize;
    let mut answer = Replayed::Quiet(0);
    for _ in 0..calls {
        let estate = std::hint::black_box(Estate { n, r, s, rows: &input[7..end] });
        answer = std::hint::black_box(replay(&estate, &events_of(std::hint::black_box(&input[end..]))));
    }
    baseline::write_output(format!("{answer:?}\n").as_bytes());
}
