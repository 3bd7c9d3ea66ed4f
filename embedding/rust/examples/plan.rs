//! Plans nine records on seven cabinets, checks the placement, and prints its certificate line.
use musseltwig::{check_placement, check_reply, plan, raw, Order, Refusal};

/// n = 7, r = 3; mu and m of three layers; the blocks of layer 0 and of layer 1.
#[rustfmt::skip]
const PACK: [u8; 36] = [
    1, 7, 3, 1, 2, 1, 7, 1, 0,
    0, 1, 2, 3, 4, 5,
    0, 1, 2, 0, 3, 4, 0, 5, 6, 1, 3, 5, 1, 4, 6, 2, 3, 6, 2, 4, 5,
];

fn main() -> Result<(), Refusal> {
    let mut work = vec![0; raw::WORK_MOST];
    let mut out = vec![0; raw::OUTPUT_MOST];
    let mut line = [0; raw::LINE_NEEDED];

    let planned = plan(&PACK, Order { s: 2, k: 3, b: 9 }, &mut work, &mut out)?;
    let placement = &out[..planned.length];
    let checked = check_placement(placement)?;
    let length = check_reply(placement, &mut line)?;
    let Order { k, b, .. } = checked.order;
    println!("{} of {b} records stay usable whichever {k} cabinets fail", checked.figure);
    print!("{}", String::from_utf8_lossy(&line[..length]));
    Ok(())
}
