fn main() {
    baseline::write_output(&baseline::curve::curve_reply::<baseline::crowding::Counter>(&baseline::read_input()));
}
