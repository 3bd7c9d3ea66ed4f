//! Request (k) in plain Rust, by the same method: usable records of every state once, then storm and crew in turn.

/// The rows of a placement of n <= 10 nodes, r bytes each, and its threshold s.
pub struct Estate<'a> {
    pub n: usize,
    pub r: usize,
    pub s: usize,
    pub rows: &'a [u8],
}

/// The usable records after q rounds, each side playing its best.
pub fn rounds(estate: &Estate, q: usize) -> usize {
    let b = estate.rows.len() / estate.r;
    let mut usable = [0u16; 1024];
    for (state, entry) in usable[..1 << estate.n].iter_mut().enumerate() {
        *entry = usable_in(estate, state) as u16;
    }
    Game { usable: &usable, n: estate.n, b }.storm(q - 1, 0)
}

fn usable_in(estate: &Estate, state: usize) -> usize {
    let hits = |row: &[u8]| row.iter().map(|&v| state >> v & 1).sum::<usize>();
    estate.rows.chunks_exact(estate.r).filter(|row| hits(row) < estate.s).count()
}

struct Game<'a> {
    usable: &'a [u16; 1024],
    n: usize,
    b: usize,
}

impl Game<'_> {
    fn storm(&self, repairs: usize, state: usize) -> usize {
        let mut fewest = self.b;
        for v in 0..self.n {
            if state >> v & 1 == 1 {
                continue;
            }
            for u in 0..v {
                if state >> u & 1 == 0 {
                    fewest = fewest.min(self.crew(repairs, state | 1 << v | 1 << u));
                }
            }
        }
        fewest
    }

    fn crew(&self, repairs: usize, state: usize) -> usize {
        if repairs == 0 {
            return self.usable[state] as usize;
        }
        let mut most = 0;
        for v in 0..self.n {
            if state >> v & 1 == 1 {
                most = most.max(self.storm(repairs - 1, state & !(1 << v)));
            }
        }
        most
    }
}

#[cfg(test)]
mod tests {
    use super::*;

    #[test]
    fn the_seven_rows_of_layer_1() {
        let rows = [0, 1, 2, 0, 3, 4, 0, 5, 6, 1, 3, 5, 1, 4, 6, 2, 3, 6, 2, 4, 5];
        let estate = Estate { n: 7, r: 3, s: 2, rows: &rows };
        assert_eq!([1, 2, 3].map(|q| rounds(&estate, q)), [6, 4, 1]);
    }
}
