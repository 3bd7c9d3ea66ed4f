//! The packing test: the first row that holds nodes which stand together in too many rows of its layer.
//!
//! Sets of w nodes are grouped by their lowest w-2 nodes (a radix sort, one pass a node), and within a group the last two
//! nodes are counted in one table with a cell for each pair. A group's counts begin above every earlier count, so the table
//! is never cleared, and they begin where a count above the bound sets one bit, so the test of a count is one `or`.
//! Memory is kept small: at these sizes a page that is touched for the first time costs more than a pass over it.

/// As many as a 16-bit index reaches. Only those of pairs of nodes are touched.
const CELLS: usize = 1 << 16;
const ROWS: usize = 4096;

/// The bit of a count above its bound, and what the counts of two groups lie apart.
const OVER: u32 = 2 * ROWS as u32;
const STEP: u32 = 2 * OVER;

/// The cell of the pair (0, b): that of (a, b) is a places on.
const FIRST_CELL: [u16; 256] = {
    let mut first = [0; 256];
    let mut b = 1;
    while b < 256 {
        first[b] = first[b - 1] + b as u16 - 1;
        b += 1;
    }
    first
};

/// A packing test, its room kept from one layer to the next.
pub trait PackingTest {
    /// For rows of nodes below n.
    fn new(n: usize) -> Self;

    /// The first of these rows that holds `width` (2 or more) nodes which stand in more than `bound` of them.
    /// There are at most 4,096 rows, and more than `bound`.
    fn first_crowded<const R: usize>(&mut self, rows: &[[u8; R]], width: usize, bound: usize) -> Option<usize>;
}

pub struct Counter {
    cells: Box<[u32; CELLS]>,
    pairs: usize,
    groups: u32,
}

impl PackingTest for Counter {
    fn new(n: usize) -> Self {
        let Ok(cells) = vec![0; CELLS].into_boxed_slice().try_into() else { unreachable!() };
        Counter { cells, pairs: n * (n - 1) / 2, groups: 0 }
    }

    fn first_crowded<const R: usize>(&mut self, rows: &[[u8; R]], width: usize, bound: usize) -> Option<usize> {
        match (width, R) {
            (2, _) => self.crowded_pair(rows, bound),
            (3, 3) => self.crowded_group::<R, 1>(rows, &sorted(rows, [[0]]), bound),
            (3, 4) => self.crowded_group::<R, 1>(rows, &sorted(rows, [[0], [1]]), bound),
            (3, _) => self.crowded_group::<R, 1>(rows, &sorted(rows, [[0], [1], [2]]), bound),
            (4, 4) => self.crowded_group::<R, 2>(rows, &sorted(rows, [[0, 1]]), bound),
            (4, _) => self.crowded_group::<R, 2>(rows, &sorted(rows, [[0, 1], [0, 2], [1, 2]]), bound),
            _ => self.crowded_group::<R, 3>(rows, &sorted(rows, [[0, 1, 2]]), bound),
        }
    }
}

impl Counter {
    fn crowded_pair<const R: usize>(&mut self, rows: &[[u8; R]], bound: usize) -> Option<usize> {
        let before = self.next_group(bound);
        self.cells[..self.pairs].fill(before);
        let over = rows.iter().fold(0, |over, row| over | add(&mut self.cells, 0, row));
        if over & OVER == 0 {
            return None;
        }
        rows.iter().position(|row| self.crowded(row))
    }

    /// The same for sets whose first P nodes are `starts`.
    fn crowded_group<const R: usize, const P: usize>(
        &mut self,
        rows: &[[u8; R]],
        starts: &[Start],
        bound: usize,
    ) -> Option<usize> {
        if self.groups == 0 {
            // Written before it is read, each page is mapped once and not twice.
            self.cells[..self.pairs].fill(1);
        }
        let mut before = self.next_group(bound);
        let mut code = 0;
        let mut over = 0;
        for start in starts {
            let row = &rows[start.row()];
            if start.code::<R, P>(row) != code {
                code = start.code::<R, P>(row);
                before = self.next_group(bound);
            }
            over |= match start.next() {
                1 => add(&mut self.cells, before, &row[1.min(R)..]),
                2 => add(&mut self.cells, before, &row[2.min(R)..]),
                _ => add(&mut self.cells, before, &row[3.min(R)..]),
            };
        }
        if over & OVER == 0 { None } else { self.find_crowded::<R, P>(rows, starts, bound) }
    }

    /// The same where some set is crowded: each group is counted again and its rows looked at.
    #[cold]
    fn find_crowded<const R: usize, const P: usize>(
        &mut self,
        rows: &[[u8; R]],
        starts: &[Start],
        bound: usize,
    ) -> Option<usize> {
        let row = |start: &Start| &rows[start.row()];
        let mut first = None;
        for starts in starts.chunk_by(|a, b| a.code::<R, P>(row(a)) == b.code::<R, P>(row(b))) {
            let before = self.next_group(bound);
            for start in starts {
                add(&mut self.cells, before, &row(start)[start.next()..]);
            }
            let crowded = starts.iter().filter(|start| self.crowded(&row(start)[start.next()..]));
            first = [first, crowded.map(|start| start.row()).min()].into_iter().flatten().min();
        }
        first
    }

    /// What a group's counts begin at: above those of the groups before, and a count of bound + 1 sets the bit.
    fn next_group(&mut self, bound: usize) -> u32 {
        self.groups += STEP;
        self.groups + OVER - 1 - bound as u32
    }

    fn crowded(&self, nodes: &[u8]) -> bool {
        nodes.iter().enumerate().any(|(j, &b)| nodes[..j].iter().any(|&a| self.cells[cell(a, b)] & OVER != 0))
    }
}

/// The cell of two nodes, a below b.
#[inline(always)]
fn cell(a: u8, b: u8) -> usize {
    usize::from(FIRST_CELL[usize::from(b)].wrapping_add(u16::from(a)))
}

/// Counts every pair of these nodes, a cell below `before` from there on. The answer has the bit OVER if one now stands
/// above the bound.
#[inline(always)]
fn add(cells: &mut [u32; CELLS], before: u32, nodes: &[u8]) -> u32 {
    let mut over = 0;
    for j in 1..nodes.len() {
        for i in 0..j {
            let count = &mut cells[cell(nodes[i], nodes[j])];
            *count = before.max(*count) + 1;
            over |= *count;
        }
    }
    over
}

/// One to three nodes at a set's start. From the top bits: the first two of them, or the one; the row, 12 bits; the
/// position in the row after them, 4 bits. A third node is the row's third.
#[derive(Clone, Copy)]
struct Start(u32);

impl Start {
    fn new(first_nodes: u32, row: usize, next: usize) -> Self {
        Start(first_nodes << 16 | (row << 4 | next) as u32)
    }

    fn row(self) -> usize {
        self.0 as usize >> 4 & (ROWS - 1)
    }

    fn next(self) -> usize {
        (self.0 & 15) as usize
    }

    /// The P nodes.
    #[inline(always)]
    fn code<const R: usize, const P: usize>(self, row: &[u8; R]) -> u32 {
        if P == 3 { self.0 >> 16 << 8 | u32::from(row[2.min(R - 1)]) } else { self.0 >> 16 }
    }
}

/// The starts at each of the given positions of each row, in the order of their nodes.
#[inline(always)]
fn sorted<const R: usize, const P: usize, const Q: usize>(rows: &[[u8; R]], positions: [[usize; P]; Q]) -> Vec<Start> {
    // Row lengths that have no such positions never come here: their positions are cut.
    let node = |row: &[u8; R], position: usize| row[position.min(R - 1)];
    let mut places = [[0; 256]; P];
    for row in rows {
        for nodes in positions {
            for p in 0..P {
                places[p][usize::from(node(row, nodes[p]))] += 1;
            }
        }
    }
    places.iter_mut().for_each(sums_before);
    let mut list = vec![Start(0); Q * rows.len()];
    for nodes in positions {
        for (i, row) in rows.iter().enumerate() {
            let first = nodes.iter().take(2).fold(0, |code, &position| code << 8 | u32::from(node(row, position)));
            put(&mut list, &mut places[P - 1], node(row, nodes[P - 1]), Start::new(first, i, nodes[P - 1] + 1));
        }
    }
    if P > 1 {
        let mut other = vec![Start(0); list.len()];
        for p in (0..P - 1).rev() {
            let shift = if p == 0 { 24 } else { 16 };
            for &start in &list {
                put(&mut other, &mut places[p], (start.0 >> shift) as u8, start);
            }
            std::mem::swap(&mut list, &mut other);
        }
    }
    list
}

/// Turns counts into the places of the first of each.
fn sums_before(counts: &mut [u16; 256]) {
    let mut sum = 0;
    for count in counts {
        (*count, sum) = (sum, sum + *count);
    }
}

/// Puts a start into its node's next place.
#[inline(always)]
fn put(list: &mut [Start], places: &mut [u16; 256], node: u8, start: Start) {
    let place = &mut places[usize::from(node)];
    list[usize::from(*place)] = start;
    *place += 1;
}

#[cfg(test)]
mod tests {
    use super::*;

    /// Bit sets of row positions with `width` members.
    fn sets(r: usize, width: usize) -> Vec<usize> {
        (0..1usize << r).filter(|set| set.count_ones() as usize == width).collect()
    }

    fn by_force<const R: usize>(rows: &[[u8; R]], width: usize, bound: usize) -> Option<usize> {
        rows.iter().position(|row| {
            sets(R, width).iter().any(|set| {
                let mut nodes = (0..R).filter(|j| set >> j & 1 == 1).map(|j| row[j]);
                let nodes: Vec<u8> = nodes.by_ref().collect();
                rows.iter().filter(|other| nodes.iter().all(|v| other.contains(v))).count() > bound
            })
        })
    }

    fn random_rows<const R: usize>(seed: &mut u64, n: u64, size: usize) -> Vec<[u8; R]> {
        let mut next = || {
            *seed = seed.wrapping_mul(6364136223846793005).wrapping_add(1442695040888963407);
            *seed >> 33
        };
        let mut rows = Vec::new();
        while rows.len() < size {
            let mut row = [0; R];
            row.fill_with(|| (next() % n) as u8);
            row.sort();
            if row.windows(2).all(|pair| pair[0] < pair[1]) {
                rows.push(row);
            }
        }
        rows
    }

    fn agrees<T: PackingTest, const R: usize>(seed: &mut u64) {
        for n in [R as u64, 6, 9, 14, 255] {
            for size in [1, 2, 7, 40] {
                let rows = random_rows::<R>(seed, n, size);
                let mut test = T::new(n as usize);
                for width in 2..=R {
                    for bound in (0..size).filter(|&bound| bound < 4 || bound == 9) {
                        let found = test.first_crowded(&rows, width, bound);
                        assert_eq!(found, by_force(&rows, width, bound), "{rows:?} {width} {bound}");
                    }
                }
            }
        }
    }

    fn agrees_with_brute_force<T: PackingTest>() {
        let mut seed = 31;
        for _ in 0..20 {
            agrees::<T, 2>(&mut seed);
            agrees::<T, 3>(&mut seed);
            agrees::<T, 4>(&mut seed);
            agrees::<T, 5>(&mut seed);
        }
    }

    #[test]
    fn counting_agrees_with_brute_force() {
        agrees_with_brute_force::<Counter>();
    }

    #[test]
    fn sorting_agrees_with_brute_force() {
        agrees_with_brute_force::<crate::sorted::Sorted>();
    }
}
