//! `rounds CALLS`: n, r, s and q, a byte each, and the rows on standard input; plays so many times and prints the last number.
use baseline::rounds::{Estate, rounds};

fn main() {
    let calls = std::env::args().nth(1).and_then(|word| word.parse().ok()).unwrap_or(1);
    let input = baseline::read_input();
    let [n, r, s, q] = [0, 1, 2, 3].map(|i| input[i] as usize);
    let mut number = 0;
    for _ in 0..calls {
        let estate = std::hint::black_box(Estate { n, r, s, rows: &input[4..] });
        number = std::hint::black_box(rounds(&estate, q));
    }
    baseline::write_output(format!("{number}\n").as_bytes());
}
