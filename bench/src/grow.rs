//! The baseline: best-first growing of finishes, one link or one rider at a time, with a binary heap.
//!
//! It is Algorithm 2 of source document 000, started at the target and driven backwards, as the table is one of
//! finishes, and run until its queue is empty, as all of the table is filled. A value is 4,096 × cost + steps, so that
//! the table is the very one of the rules (docs/RULES.md, 3.3).

use std::cmp::Reverse;
use std::collections::BinaryHeap;

const CLOSED: u16 = 65_535;
/// What a step count is below, in a value.
const STEP_RANGE: u64 = 4_096;

/// Values with the places that have them, lowest first.
type Queue = BinaryHeap<Reverse<(u64, u32)>>;

#[derive(Clone, Copy, Default)]
struct Arc {
    to: u32,
    cost: u64,
}

/// The arcs that leave each node, those of one node side by side.
#[derive(Default)]
struct Arcs {
    first: Vec<u32>,
    arcs: Vec<Arc>,
}

impl Arcs {
    /// Sorts arcs by the node they leave, into room kept from earlier runs.
    fn set(&mut self, n: usize, arcs: impl Iterator<Item = (usize, Arc)> + Clone) {
        self.first.clear();
        self.first.resize(n + 1, 0);
        for (from, _) in arcs.clone() {
            self.first[from] += 1;
        }
        let mut end = 0;
        for first in &mut self.first {
            end += *first;
            *first = end;
        }
        self.arcs.clear();
        self.arcs.resize(end as usize, Arc::default());
        for (from, arc) in arcs {
            self.first[from] -= 1;
            self.arcs[self.first[from] as usize] = arc;
        }
    }

    fn leaving(&self, node: usize) -> &[Arc] {
        &self.arcs[self.first[node] as usize..self.first[node + 1] as usize]
    }
}

/// The buffers, which are kept from run to run.
#[derive(Default)]
pub struct Grow {
    walks: Arcs,
    drives: Arcs,
    queue: Queue,
}

impl Grow {
    /// Fills the distances and the table of two sound records, and gives the value at the source with all riders to be
    /// met.
    pub fn search(&mut self, network: &[u8], request: &[u8], distances: &mut [u32], table: &mut [u64]) -> u64 {
        let n = number(network, 5);
        let links = network[9..].chunks_exact(8).map(Link::read);
        let bus_weight = u64::from(request[7]);
        self.walks.set(n, links.clone().flat_map(Link::walks));
        self.drives.set(n, links.filter_map(|link| link.drive_backwards(bus_weight)));
        let riders = &request[9..];
        for (rider, row) in riders.chunks_exact(3).zip(distances.chunks_exact_mut(n)) {
            self.walk(number(rider, 0), row);
        }
        self.grow(n, number(request, 5), riders, distances, table);
        let all = (1 << (riders.len() / 3)) - 1;
        table[all * n + number(request, 3)]
    }

    /// The walking distances from a node.
    fn walk(&mut self, start: usize, distances: &mut [u32]) {
        distances.fill(u32::MAX);
        distances[start] = 0;
        self.queue.push(Reverse((0, start as u32)));
        while let Some(Reverse((distance, node))) = self.queue.pop() {
            if distance > u64::from(distances[node as usize]) {
                continue;
            }
            for arc in self.walks.leaving(node as usize) {
                let longer = distance + arc.cost;
                if longer < u64::from(distances[arc.to as usize]) {
                    distances[arc.to as usize] = longer as u32;
                    self.queue.push(Reverse((longer, arc.to)));
                }
            }
        }
    }

    fn grow(&mut self, n: usize, target: usize, riders: &[u8], distances: &[u32], table: &mut [u64]) {
        table.fill(u64::MAX);
        update(&mut self.queue, table, target, 0);
        while let Some(Reverse((value, place))) = self.queue.pop() {
            let place = place as usize;
            if value > table[place] {
                continue;
            }
            let (set, node) = (place / n, place % n);
            for arc in self.drives.leaving(node) {
                update(&mut self.queue, table, set * n + arc.to as usize, value + arc.cost);
            }
            for (j, rider) in riders.chunks_exact(3).enumerate().filter(|(j, _)| set >> j & 1 == 0) {
                let distance = distances[j * n + node];
                if distance != u32::MAX {
                    let cost = u64::from(rider[2]) * u64::from(distance);
                    update(&mut self.queue, table, place + (n << j), value + STEP_RANGE * cost + 1);
                }
            }
        }
    }
}

/// Puts a place into the queue if it is reached at a lower value than before.
fn update(queue: &mut Queue, table: &mut [u64], place: usize, value: u64) {
    if value < table[place] {
        table[place] = value;
        queue.push(Reverse((value, place as u32)));
    }
}

#[derive(Clone, Copy)]
struct Link {
    from: usize,
    to: usize,
    drive: u16,
    walk: u16,
}

impl Link {
    fn read(bytes: &[u8]) -> Link {
        let field = |place| number(bytes, place);
        Link { from: field(0), to: field(2), drive: field(4) as u16, walk: field(6) as u16 }
    }

    /// The link both ways, if it is open to walkers.
    fn walks(self) -> impl Iterator<Item = (usize, Arc)> + Clone {
        let ways = [(self.from, self.to), (self.to, self.from)];
        let open = if self.walk == CLOSED { 0 } else { ways.len() };
        ways.into_iter().take(open).map(move |(from, to)| (from, Arc { to: to as u32, cost: self.walk.into() }))
    }

    fn drive_backwards(self, bus_weight: u64) -> Option<(usize, Arc)> {
        let cost = STEP_RANGE * bus_weight * u64::from(self.drive) + 1;
        (self.drive != CLOSED).then_some((self.to, Arc { to: self.from as u32, cost }))
    }
}

/// The number that two bytes of a record hold.
fn number(record: &[u8], place: usize) -> usize {
    usize::from(u16::from_be_bytes([record[place], record[place + 1]]))
}
