//! The true worst case of the placement on standard input, as many times as the first word says: its number and its set. A second
//! word, `rows` or `check`, has all rows counted at each set, or the placement checked and no more.
use baseline::crowding::Counter;
use baseline::file::Placement;
use baseline::worst::{by_counts, by_rows, worst_case};

fn main() {
    let words: Vec<String> = std::env::args().collect();
    let times: usize = words.get(1).and_then(|w| w.parse().ok()).unwrap_or(1);
    let how = words.get(2).map_or("counts", String::as_str);
    let input = baseline::read_input();
    let mut reply = Vec::new();
    for _ in 0..times {
        let input = std::hint::black_box(&input);
        let given = match how {
            "check" => Placement::check::<Counter>(input).map(|p| (p.figure, Vec::new())),
            "rows" => worst_case::<Counter>(input, by_rows),
            _ => worst_case::<Counter>(input, by_counts),
        };
        reply = match std::hint::black_box(given) {
            Ok((number, set)) => {
                let set: Vec<String> = set.iter().map(u8::to_string).collect();
                format!("{number} {}\n", set.join(" ")).into_bytes()
            }
            Err(e) => format!("refused {} {}\n", e.number, e.place).into_bytes(),
        };
    }
    baseline::write_output(&reply);
}
