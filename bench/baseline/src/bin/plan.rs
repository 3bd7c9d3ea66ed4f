fn main() {
    let input = baseline::read_input();
    baseline::write_output(&baseline::plan_reply::<baseline::crowding::Counter>(&input, baseline::split::by_recurrence));
}
