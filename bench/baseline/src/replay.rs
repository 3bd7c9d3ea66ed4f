//! Request (l) in plain Rust, by the same method: each record's replicas on nodes that are down are kept, and an event costs the rows that
//! hold its node.

#[derive(Clone, Copy)]
pub struct Event {
    pub time: u32,
    pub node: u8,
    pub down: bool,
}

/// What a log gives: the lowest number and the event, the number alone, or a refusal's number and place.
#[derive(Clone, Copy, Debug, PartialEq)]
pub enum Replayed {
    Lowest(usize, usize),
    Quiet(usize),
    Refused(usize, usize),
}

/// The rows of a placement of n nodes, r bytes each, and its threshold s.
pub struct Estate<'a> {
    pub n: usize,
    pub r: usize,
    pub s: usize,
    pub rows: &'a [u8],
}

/// The log's events, six bytes each: the time's four, lowest first, the node, and 1 for down or 0 for up.
pub fn events_of(log: &[u8]) -> Vec<Event> {
    log.chunks_exact(6).map(|e| Event { time: u32::from_le_bytes([e[0], e[1], e[2], e[3]]), node: e[4], down: e[5] > 0 }).collect()
}

/// The records on each node, one node after another, and where each node's begin.
fn index_of(estate: &Estate) -> ([usize; 257], Vec<u16>) {
    let mut starts = [0usize; 257];
    for &v in estate.rows {
        starts[v as usize + 1] += 1;
    }
    for v in 0..256 {
        starts[v + 1] += starts[v];
    }
    let mut next = starts;
    let mut records = vec![0u16; estate.rows.len()];
    for (i, row) in estate.rows.chunks_exact(estate.r).enumerate() {
        for &v in row {
            records[next[v as usize]] = i as u16;
            next[v as usize] += 1;
        }
    }
    (starts, records)
}

/// Runs the log, with all nodes up at first.
pub fn replay(estate: &Estate, log: &[Event]) -> Replayed {
    let b = estate.rows.len() / estate.r;
    let (starts, records) = index_of(estate);
    let mut down = [false; 256];
    let mut hits = vec![0u16; b];
    let (mut usable, mut time, mut answer) = (b, 0, Replayed::Quiet(b));
    for (i, event) in log.iter().enumerate() {
        let v = event.node as usize;
        if event.time < time {
            return Replayed::Refused(19, i);
        }
        if v >= estate.n || down[v] == event.down {
            return Replayed::Refused(20, i);
        }
        time = event.time;
        down[v] = event.down;
        let on_node = &records[starts[v]..starts[v + 1]];
        if event.down {
            for &record in on_node {
                let held = &mut hits[record as usize];
                *held += 1;
                usable -= (*held as usize == estate.s) as usize;
            }
        } else {
            for &record in on_node {
                let held = &mut hits[record as usize];
                usable += (*held as usize == estate.s) as usize;
                *held -= 1;
            }
        }
        answer = match answer {
            Replayed::Lowest(low, at) if low <= usable => Replayed::Lowest(low, at),
            _ => Replayed::Lowest(usable, i),
        };
    }
    answer
}

#[cfg(test)]
mod tests {
    use super::*;

    const ROWS: [u8; 27] = [0, 1, 2, 3, 4, 5, 0, 1, 2, 0, 3, 4, 0, 5, 6, 1, 3, 5, 1, 4, 6, 2, 3, 6, 2, 4, 5];

    fn run(log: &[(u32, u8, bool)]) -> Replayed {
        let log: Vec<Event> = log.iter().map(|&(time, node, down)| Event { time, node, down }).collect();
        replay(&Estate { n: 7, r: 3, s: 2, rows: &ROWS }, &log)
    }

    #[test]
    fn nine_records() {
        assert_eq!(run(&[]), Replayed::Quiet(9));
        assert_eq!(run(&[(1, 0, true)]), Replayed::Lowest(9, 0));
        assert_eq!(run(&[(1, 0, true), (1, 1, true), (3, 3, true), (4, 0, false), (4, 0, true)]), Replayed::Lowest(5, 2));
        assert_eq!(run(&[(5, 0, true), (4, 7, true)]), Replayed::Refused(19, 1));
        assert_eq!(run(&[(5, 0, true), (5, 7, true), (4, 1, true)]), Replayed::Refused(20, 1));
    }
}
