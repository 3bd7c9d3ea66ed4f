//! The named split: the highest figure, then the largest count in layer s-1, s-2, down to 0.

use crate::file::{Layer, nested_floors};

/// Above every loss of at most 4,096 records: no layer below has a block for them.
const NO_SPLIT: i16 = 8192;

/// A layer's loss: the smaller of c and what d copies of m blocks lose. `period` copies more lose costs[period] more, whatever
/// they add to.
#[derive(Clone, Copy)]
pub struct Rule {
    m: usize,
    period: usize,
    costs: [i16; 121],
}

impl Default for Rule {
    fn default() -> Self {
        Rule { m: 0, period: 1, costs: [0; 121] }
    }
}

impl Rule {
    pub fn new(s: usize, k: usize, x: usize, layer: &Layer) -> Self {
        if layer.size == 0 {
            return Rule::default();
        }
        let period = (s - x..=s).product();
        let mut costs = [0; 121];
        for (d, cost) in costs[..=period].iter_mut().enumerate() {
            // Copies that cost more than 4,096 records cost all of them.
            *cost = nested_floors(s, k, x, d * layer.bound).min(8192) as i16;
        }
        Rule { m: layer.size, period, costs }
    }

    /// The least copies with a block for each of c records.
    pub fn copies(&self, c: usize) -> usize {
        if c == 0 { 0 } else { c.div_ceil(self.m) }
    }

    pub fn loss(&self, c: usize) -> usize {
        c.min(self.loss_of_copies(self.copies(c)))
    }

    fn loss_of_copies(&self, d: usize) -> usize {
        d / self.period * self.costs[self.period] as usize + self.costs[d % self.period] as usize
    }

    /// Each count's loss, from no record on.
    fn losses(&self, out: &mut [i16]) {
        if self.m == 0 {
            out.fill(NO_SPLIT);
        } else if self.every_record_lost() {
            for (c, loss) in out.iter_mut().enumerate() {
                *loss = c as i16;
            }
        } else {
            let mut count = 1;
            for (d, copy) in out[1..].chunks_mut(self.m).enumerate() {
                let most = self.loss_of_copies(d + 1).min(8192) as i16;
                for loss in copy {
                    *loss = most.min(count);
                    count += 1;
                }
            }
        }
        out[0] = 0;
    }

    /// A copy costs at least the records that it holds.
    fn every_record_lost(&self) -> bool {
        self.costs[1] as usize >= self.m
    }
}

/// How a row of the table is made: from a layer's rule and the least losses in the layers below it, those with it.
pub type Fill = fn(&Rule, &[i16], &mut [i16]);

/// The counts of the named split of b records.
pub fn named(rules: &[Rule], b: usize, fill: Fill) -> [usize; 5] {
    let width = b + 1;
    // Row x has the least loss of each number of records in layers 0 to x. The top layer's row is not needed.
    let mut table = vec![0; rules.len() * width];
    let (row, mut rest) = table.split_at_mut(width);
    rules[0].losses(row);
    let mut below: &[i16] = row;
    for rule in rules.iter().take(rules.len() - 1).skip(1) {
        let (row, after) = rest.split_at_mut(width);
        fill(rule, below, row);
        (below, rest) = (row, after);
    }
    // The last row is free for the losses of one layer after the other.
    let (table, losses) = table.split_at_mut((rules.len() - 1) * width);
    let mut counts = [0; 5];
    let mut left = b;
    for x in (1..rules.len()).rev() {
        let below = &table[(x - 1) * width..][..=left];
        let losses = &mut losses[..=left];
        rules[x].losses(losses);
        counts[x] = largest_best(losses, below);
        left -= counts[x];
    }
    counts[0] = left;
    counts
}

/// The largest count of the layer that has the least loss of all with the layers below. Whole chunks are looked through at
/// a time, without leaving them early, so that the compiler vectorises it.
fn largest_best(losses: &[i16], below: &[i16]) -> usize {
    let best = sums(losses, below).fold(i16::MAX, i16::min);
    let mut len = losses.len();
    for (losses, below) in losses.rchunks(64).zip(below.chunks(64)) {
        if sums(losses, below).fold(false, |found, sum| found | (sum == best)) {
            return len - 1 - sums(losses, below).position(|sum| sum == best).unwrap_or(0);
        }
        len -= losses.len();
    }
    0
}

/// The whole losses of a layer's counts, from the largest down, with the rest of the records in the layers below.
fn sums(losses: &[i16], below: &[i16]) -> impl Iterator<Item = i16> {
    losses.iter().rev().zip(below).map(|(loss, under)| loss + under)
}

/// The least losses where each record costs one, and those by whole periods of copies; an entry needs the one a step before it.
fn by_steps(rule: &Rule, below: &[i16], out: &mut [i16], periods: &mut [i16]) {
    let (whole, whole_size) = (rule.costs[rule.period], rule.period * rule.m);
    let mut least = -1;
    for j in 0..out.len() {
        least = below[j].min(least + 1);
        out[j] = least;
        periods[j] = below[j].min(periods[j.saturating_sub(whole_size)] + whole);
    }
}

/// One pass over the row for each number of copies below the period, which stand beside whole periods of them: of all copies
/// that a period allows an entry needs only those. Copies past the row's start cost no less.
pub fn by_recurrence(rule: &Rule, below: &[i16], out: &mut [i16]) {
    if rule.m == 0 {
        out.copy_from_slice(below);
        return;
    }
    let mut periods = vec![0; out.len()];
    by_steps(rule, below, out, &mut periods);
    if rule.every_record_lost() {
        return;
    }
    for (out, whole) in out.iter_mut().zip(&periods) {
        *out = (*out).min(*whole);
    }
    for d in 1..rule.period {
        let (from, to) = ((d - 1) * rule.m + 1, (d * rule.m).min(out.len()));
        if from >= out.len() {
            break;
        }
        let cost = rule.costs[d];
        for out in &mut out[from..to] {
            *out = (*out).min(cost + periods[0]);
        }
        for (out, whole) in out[to..].iter_mut().zip(&periods) {
            *out = (*out).min(cost + whole);
        }
    }
}

/// The same entry by entry, with all its copies.
pub fn by_entries(rule: &Rule, below: &[i16], out: &mut [i16]) {
    if rule.m == 0 {
        out.copy_from_slice(below);
        return;
    }
    let mut periods = vec![0; out.len()];
    by_steps(rule, below, out, &mut periods);
    if rule.every_record_lost() {
        return;
    }
    for (j, out) in out.iter_mut().enumerate() {
        let mut least = (*out).min(periods[j]);
        let mut place = j;
        for &cost in &rule.costs[1..rule.period] {
            if place == 0 {
                break;
            }
            place = place.saturating_sub(rule.m);
            least = least.min(cost + periods[place]);
        }
        *out = least;
    }
}

/// Every useful count against every number of records below. The least loss never falls as the records grow, so of counts
/// with equal loss only the largest is useful, or all the records.
pub fn by_candidates(rule: &Rule, below: &[i16], out: &mut [i16]) {
    if rule.m == 0 {
        out.copy_from_slice(below);
        return;
    }
    let mut losses = vec![0; out.len()];
    rule.losses(&mut losses);
    for ((out, under), loss) in out.iter_mut().zip(below).zip(&losses) {
        *out = *under.min(loss);
    }
    for c in 1..losses.len() - 1 {
        let loss = losses[c];
        if losses[c + 1] > loss {
            for (out, under) in out[c..].iter_mut().zip(below) {
                *out = (*out).min(loss + under);
            }
        }
    }
}

#[cfg(test)]
mod tests {
    use super::*;

    fn rule(s: usize, k: usize, x: usize, bound: usize, size: usize) -> Rule {
        Rule::new(s, k, x, &Layer { bound, size })
    }

    fn by_definition(rule: &Rule, below: &[i16], out: &mut [i16]) {
        for j in 0..out.len() {
            let most = if rule.m == 0 { 0 } else { j };
            out[j] = (0..=most).map(|c| rule.loss(c) as i16 + below[j - c]).min().unwrap();
        }
    }

    #[test]
    fn every_way_fills_the_row_of_the_definition() {
        let width = 60;
        let mut first = vec![0; width];
        for lowest in [rule(5, 5, 0, 1, 0), rule(5, 5, 0, 1, 1), rule(5, 23, 0, 1, 10), rule(2, 7, 0, 1, 100)] {
            lowest.losses(&mut first);
            for m in [0, 1, 2, 3, 7, 10, 59, 60, 61, 4096] {
                for (s, k, x) in [(5, 5, 1), (5, 6, 1), (5, 7, 2), (5, 9, 3), (5, 6, 4), (3, 4, 1), (4, 7, 2), (5, 254, 4)] {
                    for mu in [1, 2, 3, 60, 4096] {
                        let rule = rule(s, k, x, mu, m);
                        let mut rows = [vec![0; width], vec![0; width], vec![0; width], vec![0; width]];
                        by_definition(&rule, &first, &mut rows[0]);
                        by_recurrence(&rule, &first, &mut rows[1]);
                        by_entries(&rule, &first, &mut rows[2]);
                        by_candidates(&rule, &first, &mut rows[3]);
                        for row in &rows[1..] {
                            assert_eq!(&rows[0], row, "s {s}, k {k}, x {x}, mu {mu}, m {m}");
                        }
                    }
                }
            }
        }
    }

    #[test]
    fn losses_repeat_with_the_period() {
        for (s, k, x) in [(5, 6, 1), (5, 7, 2), (5, 9, 3), (5, 6, 4), (3, 4, 1), (4, 7, 2)] {
            let rule = rule(s, k, x, 1, 1);
            for d in 0..500 {
                if rule.loss_of_copies(d) < 4096 {
                    assert_eq!(rule.loss_of_copies(d), nested_floors(s, k, x, d), "s {s}, k {k}, x {x}, d {d}");
                }
            }
        }
    }

    #[test]
    fn ties_go_to_the_highest_layer() {
        let same = [rule(1, 1, 0, 1, 1); 3];
        assert_eq!(named(&same, 9, by_recurrence), [0, 0, 9, 0, 0]);
        assert_eq!(named(&same[..1], 9, by_recurrence), [9, 0, 0, 0, 0]);
        let empty_top = [same[0], same[1], Rule::default()];
        assert_eq!(named(&empty_top, 9, by_candidates), [0, 9, 0, 0, 0]);
    }
}
