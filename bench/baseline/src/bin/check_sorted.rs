//! `check` with the packing test by sorting, for comparison with the counting of `check`.

fn main() {
    baseline::write_output(&baseline::check_reply::<baseline::sorted::Sorted>(&baseline::read_input()));
}
