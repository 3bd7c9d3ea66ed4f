//! `plan` with the packing test by sorting and every useful count tried, for comparison with the counting and the recurrence
//! of `plan`.

fn main() {
    let input = baseline::read_input();
    baseline::write_output(&baseline::plan_reply::<baseline::sorted::Sorted>(&input, baseline::split::by_candidates));
}
