//! The library's functions and sizes as they are. Made by embedding/declarations.py: change calls.txt instead.

/// Returned where a slice is not as long as stated: nothing is touched.
pub const BAD_LENGTH: usize = 255;
/// Entries of a working slice that every order can be planned in.
pub const WORK_MOST: usize = 20485;
/// Bytes of an output that every placement that is planned and every joined pack fits.
pub const OUTPUT_MOST: usize = 20928;
/// Entries of an output that every curve fits.
pub const CURVE_MOST: usize = 254;
/// Bytes of an output that every worst set fits.
pub const SET_MOST: usize = 254;
/// Bytes of an output that every page fits.
pub const PAGE_MOST: usize = 110619;
/// Bytes that the certificate line asks for.
pub const LINE_NEEDED: usize = 200;
/// Bytes that every number fits.
pub const NUMBER_MOST: usize = 4;
/// How many numbers `musseltwig_check_pack` asks of its answer.
pub const CHECK_PACK_ANSWER: usize = 270;
/// How many numbers `musseltwig_check_placement` asks of its answer.
pub const CHECK_PLACEMENT_ANSWER: usize = 531;
/// How many numbers `musseltwig_plan` asks of its answer.
pub const PLAN_ANSWER: usize = 8;
/// How many numbers `musseltwig_plan_operator` asks of its answer.
pub const PLAN_OPERATOR_ANSWER: usize = 8;
/// How many numbers `musseltwig_ask` asks of its answer.
pub const ASK_ANSWER: usize = 12;
/// How many numbers `musseltwig_commit` asks of its answer.
pub const COMMIT_ANSWER: usize = 8;
/// How many numbers `musseltwig_certify` asks of its answer.
pub const CERTIFY_ANSWER: usize = 8;
/// How many numbers `musseltwig_join_one` asks of its answer.
pub const JOIN_ONE_ANSWER: usize = 2;
/// How many numbers `musseltwig_join_two` asks of its answer.
pub const JOIN_TWO_ANSWER: usize = 2;
/// How many numbers `musseltwig_join_three` asks of its answer.
pub const JOIN_THREE_ANSWER: usize = 2;
/// How many numbers `musseltwig_curve` asks of its answer.
pub const CURVE_ANSWER: usize = 2;
/// How many numbers `musseltwig_worst_case` asks of its answer.
pub const WORST_CASE_ANSWER: usize = 2;
/// How many numbers `musseltwig_rounds` asks of its answer.
pub const ROUNDS_ANSWER: usize = 2;
/// How many numbers `musseltwig_replay` asks of its answer.
pub const REPLAY_ANSWER: usize = 3;
/// How many numbers `musseltwig_page` asks of its answer.
pub const PAGE_ANSWER: usize = 2;
/// How many numbers `musseltwig_check_reply` asks of its answer.
pub const CHECK_REPLY_ANSWER: usize = 2;
/// How many numbers `musseltwig_open_walk` asks of its answer.
pub const OPEN_WALK_ANSWER: usize = 4;
/// How many numbers `musseltwig_step` asks of its answer.
pub const STEP_ANSWER: usize = 6;
/// How many numbers `musseltwig_read_number` asks of its answer.
pub const READ_NUMBER_ANSWER: usize = 3;
/// How many numbers `musseltwig_read_within` asks of its answer.
pub const READ_WITHIN_ANSWER: usize = 3;
/// How many numbers `musseltwig_write_number` asks of its answer.
pub const WRITE_NUMBER_ANSWER: usize = 2;

/// The refusals' names and numbers, and whether the place varies.
pub const REFUSALS: [(&str, u64, bool); 21] = [
    ("Ended", 1, true),
    ("Malformed", 2, true),
    ("WrongKind", 3, false),
    ("OutsideLimits", 4, true),
    ("Trailing", 5, true),
    ("BadRow", 6, true),
    ("Crowded", 7, true),
    ("WrongFigure", 8, true),
    ("NoBlock", 9, false),
    ("ShortWork", 10, true),
    ("ShortOutput", 11, true),
    ("BadOrder", 12, true),
    ("Unjoinable", 13, false),
    ("BadWish", 14, false),
    ("OutOfService", 15, true),
    ("BadCounts", 16, false),
    ("TooManySets", 17, false),
    ("BadRounds", 18, false),
    ("EarlierEvent", 19, true),
    ("BadEvent", 20, true),
    ("SharedFeeder", 21, true),
];

extern "C" {
    /// Checks a pack. Answer: 0, n, r, the first block's place, mu and m of five layers, how many nodes are out of
    /// service, and these.
    pub fn musseltwig_check_pack(pack: *const u8, pack_length: usize, answer: *mut u64, answer_length: usize) -> usize;
    /// Checks a placement. Answer: 0, kind, n, r, s, k, b, F, first row, five lambda and c, the list as
    /// check_pack's; kind 6: g, feeders.
    pub fn musseltwig_check_placement(
        placement: *const u8,
        placement_length: usize,
        answer: *mut u64,
        answer_length: usize,
    ) -> usize;
    /// Plans b records on a pack; work has at least s * (b + 1) entries, free afterwards, out at least 448 + b * r
    /// bytes. Answer: 0, the placement's length in out, F, and the counts of five layers.
    pub fn musseltwig_plan(
        pack: *const u8,
        pack_length: usize,
        s: u64,
        k: u64,
        b: u64,
        work: *mut u16,
        work_length: usize,
        out: *mut u8,
        out_length: usize,
        answer: *mut u64,
        answer_length: usize,
    ) -> usize;
    /// Plans one of two operators alone, b being what it is granted beside the other; work and out as in
    /// musseltwig_plan. Answer: 0, the placement's length in out, F, and the counts of five layers.
    pub fn musseltwig_plan_operator(
        pack: *const u8,
        pack_length: usize,
        s: u64,
        k: u64,
        wish: u64,
        other: u64,
        work: *mut u16,
        work_length: usize,
        out: *mut u8,
        out_length: usize,
        answer: *mut u64,
        answer_length: usize,
    ) -> usize;
    /// Tells what musseltwig_plan would give, and writes no placement; work as there. Answer: 0, F, the counts of
    /// five layers, and the copies of their blocks.
    pub fn musseltwig_ask(
        pack: *const u8,
        pack_length: usize,
        s: u64,
        k: u64,
        b: u64,
        work: *mut u16,
        work_length: usize,
        answer: *mut u64,
        answer_length: usize,
    ) -> usize;
    /// Writes the placement of the split with these five counts and the least copies; out as in musseltwig_plan.
    /// Answer: 0, the placement's length in out, F, and the counts of five layers.
    pub fn musseltwig_commit(
        pack: *const u8,
        pack_length: usize,
        s: u64,
        k: u64,
        b: u64,
        counts: *const u64,
        out: *mut u8,
        out_length: usize,
        answer: *mut u64,
        answer_length: usize,
    ) -> usize;
    /// Certifies bare rows: writes their placement, all in the layer with the highest figure; out as in
    /// musseltwig_plan. Answer: 0, the placement's length in out, F, and the counts of five layers: b in the layer
    /// taken, 0 in the others.
    pub fn musseltwig_certify(
        rows: *const u8,
        rows_length: usize,
        out: *mut u8,
        out_length: usize,
        answer: *mut u64,
        answer_length: usize,
    ) -> usize;
    /// Joins one pack: rewrites it as kind 4; out has room for the joined pack: OUTPUT_MOST bytes always do. Answer:
    /// 0, the joined pack's length in out.
    pub fn musseltwig_join_one(
        first: *const u8,
        first_length: usize,
        out: *mut u8,
        out_length: usize,
        answer: *mut u64,
        answer_length: usize,
    ) -> usize;
    /// Joins two packs, the second's nodes last; a place is in the refused pack; out as in musseltwig_join_one.
    /// Answer: 0, the joined pack's length in out.
    pub fn musseltwig_join_two(
        first: *const u8,
        first_length: usize,
        second: *const u8,
        second_length: usize,
        out: *mut u8,
        out_length: usize,
        answer: *mut u64,
        answer_length: usize,
    ) -> usize;
    /// Joins three packs, as musseltwig_join_two joins two. Answer: 0, the joined pack's length in out.
    pub fn musseltwig_join_three(
        first: *const u8,
        first_length: usize,
        second: *const u8,
        second_length: usize,
        third: *const u8,
        third_length: usize,
        out: *mut u8,
        out_length: usize,
        answer: *mut u64,
        answer_length: usize,
    ) -> usize;
    /// Writes a placement's figure for each number of failures, from s to n - 1, in kind 6 to g - 1. Answer: 0, how
    /// many figures stand in out.
    pub fn musseltwig_curve(
        placement: *const u8,
        placement_length: usize,
        out: *mut u16,
        out_length: usize,
        answer: *mut u64,
        answer_length: usize,
    ) -> usize;
    /// Finds the true worst case over all sets of k nodes, in kind 6 feeders, and writes the first such set as k
    /// bytes. Answer: 0, the fewest usable records.
    pub fn musseltwig_worst_case(
        placement: *const u8,
        placement_length: usize,
        out: *mut u8,
        out_length: usize,
        answer: *mut u64,
        answer_length: usize,
    ) -> usize;
    /// Plays q rounds of cuts and repairs. Answer: 0, the usable records after the last cut.
    pub fn musseltwig_rounds(
        placement: *const u8,
        placement_length: usize,
        q: u64,
        answer: *mut u64,
        answer_length: usize,
    ) -> usize;
    /// Runs an outage log: event i is at times[i], of nodes[i], down where downs[i] is not 0; the three are equally
    /// long. Answer: 0, the lowest number of usable records and the first event after which it stood; of an empty
    /// log b alone.
    pub fn musseltwig_replay(
        placement: *const u8,
        placement_length: usize,
        times: *const u32,
        times_length: usize,
        nodes: *const u8,
        nodes_length: usize,
        downs: *const u8,
        downs_length: usize,
        answer: *mut u64,
        answer_length: usize,
    ) -> usize;
    /// Writes the cabinet page, 27 * (b + 1) bytes. Answer: 0, the page's length in out.
    pub fn musseltwig_page(
        placement: *const u8,
        placement_length: usize,
        out: *mut u8,
        out_length: usize,
        answer: *mut u64,
        answer_length: usize,
    ) -> usize;
    /// Writes the line `accepted F b k n most mean` or `refused number place`, and a newline; out has 200 bytes or
    /// more. Answer: 0, the line's length in out.
    pub fn musseltwig_check_reply(
        placement: *const u8,
        placement_length: usize,
        out: *mut u8,
        out_length: usize,
        answer: *mut u64,
        answer_length: usize,
    ) -> usize;
    /// Opens a row walk. Answer: 0, the first row's place, r and b: the at, r and left of the first step.
    pub fn musseltwig_open_walk(
        placement: *const u8,
        placement_length: usize,
        answer: *mut u64,
        answer_length: usize,
    ) -> usize;
    /// Steps a row walk. Answer: 0, where the row begins in placement and its length, 0 and 0 at the end; the next
    /// step's at, r and left.
    pub fn musseltwig_step(
        placement: *const u8,
        placement_length: usize,
        at: u64,
        r: u64,
        left: u64,
        answer: *mut u64,
        answer_length: usize,
    ) -> usize;
    /// Reads the number at a place. Answer: 0, its value and the next place.
    pub fn musseltwig_read_number(
        bytes: *const u8,
        bytes_length: usize,
        at: u64,
        answer: *mut u64,
        answer_length: usize,
    ) -> usize;
    /// Reads the number at a place, which is to be lo to hi. Answer: 0, its value and the next place.
    pub fn musseltwig_read_within(
        bytes: *const u8,
        bytes_length: usize,
        at: u64,
        lo: u64,
        hi: u64,
        answer: *mut u64,
        answer_length: usize,
    ) -> usize;
    /// Writes a number in its shortest form, 1 to 4 bytes. Answer: 0, how many bytes stand in out.
    pub fn musseltwig_write_number(
        out: *mut u8,
        out_length: usize,
        value: u64,
        answer: *mut u64,
        answer_length: usize,
    ) -> usize;
}
