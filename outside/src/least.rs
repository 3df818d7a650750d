//! Least sums along arcs, by Dijkstra's algorithm.

use std::cmp::Reverse;
use std::collections::BinaryHeap;

/// A cost and a number of steps; the cost decides, then the steps.
pub type Sum = (u64, u64);

/// The least sum from the start to each place, or none, where `arcs` lists the arcs that leave a place.
pub fn least_sums(places: usize, start: usize, arcs: impl Fn(usize) -> Vec<(usize, Sum)>) -> Vec<Option<Sum>> {
    let mut least = vec![None; places];
    let mut queue = BinaryHeap::from([Reverse(((0, 0), start))]);
    while let Some(Reverse((sum, place))) = queue.pop() {
        if least[place].is_some() {
            continue;
        }
        least[place] = Some(sum);
        for (next, more) in arcs(place) {
            queue.push(Reverse((added(sum, more), next)));
        }
    }
    least
}

pub fn added(sum: Sum, more: Sum) -> Sum {
    (sum.0 + more.0, sum.1 + more.1)
}
