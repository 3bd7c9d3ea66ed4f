fn main() {
    baseline::write_output(&baseline::check_reply::<baseline::crowding::Counter>(&baseline::read_input()));
}
