//! The program `join_bench`: three packs joined.

fn main() {
    baseline::write_output(&baseline::join_reply::<baseline::crowding::Counter>(&baseline::read_input()));
}
