//! Plans and checks placements of replicated records. Every call of the proved library is here, safe: slices in, a `Result` out.
//! What is lent as `&mut` is written at its start alone, and after a refusal holds what it held before. `raw` has the sizes that
//! serve for every input. docs/FORMATS.md has the files, the refusals and what each call promises.
#[cfg(not(all(target_arch = "x86_64", target_os = "linux", target_pointer_width = "64")))]
compile_error!("libmusseltwig.a is for x86-64 Linux");

pub mod raw;
mod refusal;

pub use refusal::Refusal;

/// What is planned: a record fails with s of its replicas, k nodes fail, b records are placed.
#[derive(Clone, Copy, Debug, PartialEq, Eq)]
pub struct Order {
    pub s: u64,
    pub k: u64,
    pub b: u64,
}

/// A layer's two numbers: mu and m of a pack, lambda and c of a placement; 0 and 0 where there is no such layer.
#[derive(Clone, Copy, Debug, Default, PartialEq, Eq)]
pub struct Layer {
    pub bound: u64,
    pub size: u64,
}

/// An accepted pack: its numbers, the place of its first block, and the nodes out of service.
#[derive(Clone, Debug, PartialEq, Eq)]
pub struct Pack {
    pub n: u64,
    pub r: u64,
    pub first: u64,
    pub layers: [Layer; 5],
    pub out_of_service: Vec<u64>,
}

/// How many feeders there are, and the feeder of each node.
#[derive(Clone, Debug, PartialEq, Eq)]
pub struct Feeders {
    pub number: u64,
    pub each: Vec<u64>,
}

/// An accepted placement: its numbers, the place of its first row, the nodes out of service, and in kind 6 the feeders.
#[derive(Clone, Debug, PartialEq, Eq)]
pub struct Placement {
    pub kind: u64,
    pub n: u64,
    pub r: u64,
    pub order: Order,
    pub figure: u64,
    pub first: u64,
    pub layers: [Layer; 5],
    pub out_of_service: Vec<u64>,
    pub feeders: Option<Feeders>,
}

/// A placement that was written: its length in the output, its figure and the counts of its layers.
#[derive(Clone, Copy, Debug, PartialEq, Eq)]
pub struct Planned {
    pub length: usize,
    pub figure: u64,
    pub counts: [u64; 5],
}

/// What planning would give: the figure, the counts, and the copies of the blocks.
#[derive(Clone, Copy, Debug, PartialEq, Eq)]
pub struct Offer {
    pub figure: u64,
    pub counts: [u64; 5],
    pub copies: [u64; 5],
}

/// An event of an outage log: at a time in seconds a node (of a placement of kind 6 a feeder) goes down or comes up.
#[derive(Clone, Copy, Debug, PartialEq, Eq)]
pub struct Event {
    pub time: u32,
    pub node: u8,
    pub down: bool,
}

/// The lowest number of usable records over a log, and the first event after which it stood; of an empty log no event.
#[derive(Clone, Copy, Debug, PartialEq, Eq)]
pub struct Lowest {
    pub usable: u64,
    pub event: Option<usize>,
}

/// A number that was read, and the next place.
#[derive(Clone, Copy, Debug, PartialEq, Eq)]
pub struct Reading {
    pub value: u64,
    pub next: usize,
}

/// Makes a call with an answer of N numbers: the numbers, or the refusal.
fn told<const N: usize>(call: impl FnOnce(*mut u64, usize) -> usize) -> Result<[u64; N], Refusal> {
    let mut answer = [0; N];
    match call(answer.as_mut_ptr(), N) {
        0 => Ok(answer),
        _ => Err(Refusal::of(answer[0], answer[1])
            .expect("a refusal's number is 1 to 21, and N numbers are what the call asks for")),
    }
}

/// The call with its slices as pointers and lengths, and its answer's numbers.
macro_rules! call {
    ($name:ident, $needed:ident, $($slice:expr),* ; $($number:expr),* $(; $($lent:expr),*)?) => {{
        // SAFETY: each pointer is a slice's, with the slice's own length; what is written is lent as `&mut`, so nothing overlaps it;
        // `counts` has the five that the call reads.
        told::<{ raw::$needed }>(|answer, length| unsafe {
            raw::$name($($slice.as_ptr(), $slice.len(),)* $($number,)* $($($lent.as_mut_ptr(), $lent.len(),)*)? answer, length)
        })
    }};
}

fn layers(numbers: &[u64]) -> [Layer; 5] {
    std::array::from_fn(|x| Layer { bound: numbers[2 * x], size: numbers[2 * x + 1] })
}

fn five(numbers: &[u64]) -> [u64; 5] {
    std::array::from_fn(|x| numbers[x])
}

fn planned<const N: usize>(a: [u64; N]) -> Planned {
    Planned { length: a[1] as usize, figure: a[2], counts: five(&a[3..]) }
}

/// Checks a pack.
pub fn check_pack(pack: &[u8]) -> Result<Pack, Refusal> {
    let a = call!(musseltwig_check_pack, CHECK_PACK_ANSWER, pack;)?;
    let listed = a[14] as usize;
    Ok(Pack { n: a[1], r: a[2], first: a[3], layers: layers(&a[4..14]), out_of_service: a[15..15 + listed].to_vec() })
}

/// Checks a placement.
pub fn check_placement(placement: &[u8]) -> Result<Placement, Refusal> {
    let a = call!(musseltwig_check_placement, CHECK_PLACEMENT_ANSWER, placement;)?;
    let end = 20 + a[19] as usize;
    let nodes = a[2] as usize;
    let feeders = (a[1] == 6).then(|| Feeders { number: a[end], each: a[end + 1..end + 1 + nodes].to_vec() });
    Ok(Placement {
        kind: a[1],
        n: a[2],
        r: a[3],
        order: Order { s: a[4], k: a[5], b: a[6] },
        figure: a[7],
        first: a[8],
        layers: layers(&a[9..19]),
        out_of_service: a[20..end].to_vec(),
        feeders,
    })
}

/// Plans b records on a pack: writes the placement with the highest figure that its blocks allow. `work` has at least s × (b+1)
/// entries, which are free afterwards, `out` 448 + b × r bytes.
pub fn plan(pack: &[u8], order: Order, work: &mut [u16], out: &mut [u8]) -> Result<Planned, Refusal> {
    call!(musseltwig_plan, PLAN_ANSWER, pack; order.s, order.k, order.b; work, out).map(planned)
}

/// Plans one of two operators alone, with as many records as it is granted of its wish beside the other's; the order's b is its wish.
pub fn plan_operator(
    pack: &[u8],
    order: Order,
    other: u64,
    work: &mut [u16],
    out: &mut [u8],
) -> Result<Planned, Refusal> {
    call!(musseltwig_plan_operator, PLAN_OPERATOR_ANSWER, pack; order.s, order.k, order.b, other; work, out)
        .map(planned)
}

/// Tells what planning would give, and writes no placement.
pub fn ask(pack: &[u8], order: Order, work: &mut [u16]) -> Result<Offer, Refusal> {
    let a = call!(musseltwig_ask, ASK_ANSWER, pack; order.s, order.k, order.b; work)?;
    Ok(Offer { figure: a[1], counts: five(&a[2..]), copies: five(&a[7..]) })
}

/// Writes the placement of the split with these counts and the least copies.
pub fn commit(pack: &[u8], order: Order, counts: &[u64; 5], out: &mut [u8]) -> Result<Planned, Refusal> {
    call!(musseltwig_commit, COMMIT_ANSWER, pack; order.s, order.k, order.b, counts.as_ptr(); out).map(planned)
}

/// Certifies a file of bare rows: writes the placement with these rows, all in the layer with the highest figure; that layer's count
/// is b, the others are 0. `out` has at least 448 + b × r bytes.
pub fn certify(rows: &[u8], out: &mut [u8]) -> Result<Planned, Refusal> {
    call!(musseltwig_certify, CERTIFY_ANSWER, rows; ; out).map(planned)
}

/// Rewrites a pack as joining does; answers its length in `out`, for which `raw::OUTPUT_MOST` bytes are always enough.
pub fn join_one(first: &[u8], out: &mut [u8]) -> Result<usize, Refusal> {
    call!(musseltwig_join_one, JOIN_ONE_ANSWER, first; ; out).map(|a| a[1] as usize)
}

/// Joins two packs; answers the joined pack's length in `out`. A place in a pack counts from the first byte of the pack that is
/// refused, the first that is not accepted.
pub fn join_two(first: &[u8], second: &[u8], out: &mut [u8]) -> Result<usize, Refusal> {
    call!(musseltwig_join_two, JOIN_TWO_ANSWER, first, second; ; out).map(|a| a[1] as usize)
}

/// Joins three packs; answers the joined pack's length in `out`. Places are as in `join_two`.
pub fn join_three(first: &[u8], second: &[u8], third: &[u8], out: &mut [u8]) -> Result<usize, Refusal> {
    call!(musseltwig_join_three, JOIN_THREE_ANSWER, first, second, third; ; out).map(|a| a[1] as usize)
}

/// Writes a placement's figure for each number of failures from s on; answers how many stand in `out`.
pub fn curve(placement: &[u8], out: &mut [u16]) -> Result<usize, Refusal> {
    call!(musseltwig_curve, CURVE_ANSWER, placement; ; out).map(|a| a[1] as usize)
}

/// The fewest usable records over all sets of k nodes; the first such set stands in `out` as k bytes.
pub fn worst_case(placement: &[u8], out: &mut [u8]) -> Result<u64, Refusal> {
    call!(musseltwig_worst_case, WORST_CASE_ANSWER, placement; ; out).map(|a| a[1])
}

/// The usable records after q rounds of cuts and repairs.
pub fn rounds(placement: &[u8], q: u64) -> Result<u64, Refusal> {
    call!(musseltwig_rounds, ROUNDS_ANSWER, placement; q).map(|a| a[1])
}

/// Runs an outage log against a placement.
pub fn replay(placement: &[u8], log: &[Event]) -> Result<Lowest, Refusal> {
    let times: Vec<u32> = log.iter().map(|e| e.time).collect();
    let nodes: Vec<u8> = log.iter().map(|e| e.node).collect();
    let downs: Vec<u8> = log.iter().map(|e| e.down as u8).collect();
    let a = call!(musseltwig_replay, REPLAY_ANSWER, placement, times, nodes, downs;)?;
    Ok(Lowest { usable: a[1], event: (!log.is_empty()).then_some(a[2] as usize) })
}

/// Writes the cabinet page; answers its length in `out`, 27 × (b+1).
pub fn page(placement: &[u8], out: &mut [u8]) -> Result<usize, Refusal> {
    call!(musseltwig_page, PAGE_ANSWER, placement; ; out).map(|a| a[1] as usize)
}

/// Writes what the program `check` prints, `accepted F b k n most mean` or `refused number place`, and a newline; answers the line's
/// length in `out`, which has at least 200 bytes.
pub fn check_reply(placement: &[u8], out: &mut [u8]) -> Result<usize, Refusal> {
    call!(musseltwig_check_reply, CHECK_REPLY_ANSWER, placement; ; out).map(|a| a[1] as usize)
}

/// The rows of a placement, each a part of its bytes.
#[derive(Clone, Debug)]
pub struct Rows<'a> {
    bytes: &'a [u8],
    /// The walk's place, r, and the rows that are left.
    pub at: u64,
    pub r: u64,
    pub left: u64,
}

/// Opens a row walk.
pub fn open_walk(placement: &[u8]) -> Result<Rows<'_>, Refusal> {
    let a = call!(musseltwig_open_walk, OPEN_WALK_ANSWER, placement;)?;
    Ok(Rows { bytes: placement, at: a[1], r: a[2], left: a[3] })
}

impl<'a> Iterator for Rows<'a> {
    type Item = &'a [u8];

    fn next(&mut self) -> Option<&'a [u8]> {
        let bytes = self.bytes;
        let a = call!(musseltwig_step, STEP_ANSWER, bytes; self.at, self.r, self.left).ok()?;
        (self.at, self.r, self.left) = (a[3], a[4], a[5]);
        (a[2] > 0).then(|| &bytes[a[1] as usize..(a[1] + a[2]) as usize])
    }
}

/// Reads the number at a place.
pub fn read_number(bytes: &[u8], at: usize) -> Result<Reading, Refusal> {
    call!(musseltwig_read_number, READ_NUMBER_ANSWER, bytes; at as u64)
        .map(|a| Reading { value: a[1], next: a[2] as usize })
}

/// Reads the number at a place, which is to be lo to hi.
pub fn read_within(bytes: &[u8], at: usize, lo: u64, hi: u64) -> Result<Reading, Refusal> {
    call!(musseltwig_read_within, READ_WITHIN_ANSWER, bytes; at as u64, lo, hi)
        .map(|a| Reading { value: a[1], next: a[2] as usize })
}

/// Writes a number in its shortest form; answers how many bytes stand in `out`.
pub fn write_number(out: &mut [u8], value: u64) -> Result<usize, Refusal> {
    told::<{ raw::WRITE_NUMBER_ANSWER }>(|answer, length| {
        // SAFETY: as in `call!`.
        unsafe { raw::musseltwig_write_number(out.as_mut_ptr(), out.len(), value, answer, length) }
    })
    .map(|a| a[1] as usize)
}
