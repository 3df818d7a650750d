//! The search for the right plan.

use crate::least::{added, least_sums, Sum};
use crate::record::{read_both, refuse_if, Answer, Network, Refusal, Request};
use crate::walk::{fill, walks_from};

/// The steps below this one meet a rider; the others drive a link.
pub const FIRST_DRIVE: usize = 8;
/// What a step count is below, in a place of the table.
pub const STEP_RANGE: u64 = 4_096;

/// How many places each room needs.
pub struct Needs {
    pub distances: usize,
    pub table: usize,
    pub steps: usize,
}

pub fn needs(n: usize, l: usize) -> Needs {
    Needs { distances: l * n, table: n << l, steps: l + (l + 1) * (n - 1) }
}

/// The search entry: the plan's cost and its number of steps.
pub fn search(
    network: &[u8],
    request: &[u8],
    distances: &mut [u32],
    table: &mut [u64],
    steps: &mut [u16],
) -> Answer<Sum> {
    let (network, request) = read_both(network, request)?;
    let needs = needs(network.n, request.riders.len());
    refuse_if(distances.len() < needs.distances, 21)?;
    refuse_if(table.len() < needs.table, 22)?;
    refuse_if(steps.len() < needs.steps, 23)?;
    let planner = Planner::new(&network, &request);
    for (j, walks) in planner.walks.iter().enumerate() {
        fill(&mut distances[j * network.n..(j + 1) * network.n], walks);
    }
    for (place, finish) in table.iter_mut().zip(&planner.finishes) {
        *place = finish.map_or(u64::MAX, |(cost, steps)| STEP_RANGE * cost + steps);
    }
    let (sum, plan) = planner.first_plan().ok_or(Refusal { number: 24, place: 0 })?;
    steps[..plan.len()].copy_from_slice(&plan);
    Ok(sum)
}

/// A place of the table is a state of the bus: R·n + v stands for node v with the riders of R still to be met.
struct Planner<'a> {
    network: &'a Network,
    request: &'a Request,
    walks: Vec<Vec<Option<u64>>>,
    finishes: Vec<Option<Sum>>,
}

impl<'a> Planner<'a> {
    fn new(network: &'a Network, request: &'a Request) -> Planner<'a> {
        let walks = request.riders.iter().map(|rider| walks_from(network, rider.node)).collect();
        let mut planner = Planner { network, request, walks, finishes: Vec::new() };
        planner.finishes = planner.least_finishes();
        planner
    }

    /// Where a step leads from a place, and its cost; none if the step can't be taken there.
    fn taken(&self, place: usize, step: usize) -> Option<(usize, Sum)> {
        let n = self.network.n;
        let (set, node) = (place / n, place % n);
        if step < FIRST_DRIVE {
            let rider = self.request.riders.get(step)?;
            let still = set >> step & 1 == 1;
            let cost = u64::from(rider.weight) * self.walks[step][node]?;
            return still.then(|| (place - (n << step), (cost, 1)));
        }
        let link = self.network.links.get(step - FIRST_DRIVE)?;
        let cost = u64::from(self.request.bus_weight) * link.drive_cost()?;
        (link.from == node).then_some((set * n + link.to, (cost, 1)))
    }

    /// The best finish from each place: least sums from the target along the steps, taken backwards.
    fn least_finishes(&self) -> Vec<Option<Sum>> {
        let n = self.network.n;
        let places = n << self.request.riders.len();
        let mut into = vec![Vec::new(); n];
        for (k, link) in self.network.links.iter().enumerate() {
            into[link.to].push((FIRST_DRIVE + k, link.from));
        }
        least_sums(places, self.request.target, |place| {
            let (set, node) = (place / n, place % n);
            let meetings = (0..self.request.riders.len()).map(|j| (j, (set | 1 << j) * n + node));
            let drives = into[node].iter().map(|&(step, from)| (step, set * n + from));
            let before = |(step, earlier)| {
                let (later, sum) = self.taken(earlier, step)?;
                (later == place).then_some((earlier, sum))
            };
            meetings.chain(drives).filter_map(before).collect()
        })
    }

    /// The right plan, step by step: always the lowest step that a best finish can begin with.
    fn first_plan(&self) -> Option<(Sum, Vec<u16>)> {
        let mut place = self.network.n * ((1 << self.request.riders.len()) - 1) + self.request.source;
        let mut plan = Vec::new();
        let sum = self.finishes[place]?;
        while self.finishes[place] != Some((0, 0)) {
            let (step, next) = self.lowest_best_step(place);
            plan.push(step as u16);
            place = next;
        }
        Some((sum, plan))
    }

    fn lowest_best_step(&self, place: usize) -> (usize, usize) {
        let best = |step| {
            let (next, sum) = self.taken(place, step)?;
            let whole = added(sum, self.finishes[next]?);
            (Some(whole) == self.finishes[place]).then_some((step, next))
        };
        let steps = FIRST_DRIVE + self.network.links.len();
        (0..steps).find_map(best).expect("a best finish begins with some step")
    }
}
