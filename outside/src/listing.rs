//! The right plan of a tiny network by its definition alone: all plans are listed, and the least is taken.

use crate::random::Random;
use crate::record::{Network, Request};
use crate::search::{needs, search, FIRST_DRIVE, STEP_RANGE};
use crate::shapes::{self, Size};

const NETWORKS: u64 = 2_000;

/// What decides between plans: the cost, the number of steps, then the steps in dictionary order.
type Plan = (u64, u64, Vec<u16>);

/// Errs if the search of the rules finds another plan, or leaves another table, than the listing.
pub fn check() -> Result<(), String> {
    (0..NETWORKS).try_for_each(check_network)
}

fn check_network(seed: u64) -> Result<(), String> {
    let mut random = Random::new(2 << 32 | seed);
    let (n, l) = random.pick(&[(1, 0), (1, 2), (2, 0), (2, 1), (2, 2), (3, 0), (3, 1)]);
    let size = Size { nodes: n, links: random.between(0, 5) };
    let network = shapes::network(&mut random, size);
    let request = shapes::request(&mut random, n, l);
    let needs = needs(n, l);
    let mut table = vec![0; needs.table];
    let mut steps = vec![0; needs.steps];
    let mut distances = vec![0; needs.distances];
    let found = search(&network.record(), &request.record(), &mut distances, &mut table, &mut steps);
    let found = found.ok().map(|(cost, count)| (cost, count, steps[..count as usize].to_vec()));
    let listing = Listing { network: &network, request: &request, most_steps: needs.steps, walks: walks(&network) };
    let listed = (0..needs.table).map(|place| listing.least(place)).collect::<Vec<_>>();
    let finish = |plan: &Option<Plan>| plan.as_ref().map_or(u64::MAX, |(cost, steps, _)| STEP_RANGE * cost + steps);
    if found == listed[((1 << l) - 1) * n + request.source] && table == listed.iter().map(finish).collect::<Vec<_>>() {
        Ok(())
    } else {
        Err(format!("the search of the rules and the listing differ on {network:?} and {request:?}"))
    }
}

struct Listing<'a> {
    network: &'a Network,
    request: &'a Request,
    most_steps: usize,
    walks: Vec<Vec<Option<u64>>>,
}

impl Listing<'_> {
    /// The least plan from a place of the table: R·n + v is node v with the riders of R still to be met.
    fn least(&self, place: usize) -> Option<Plan> {
        let mut least = None;
        self.list(place % self.network.n, place / self.network.n, (0, 0, Vec::new()), &mut least);
        least
    }

    /// Goes through all plans that begin with the given one, which has led to a node and left riders to be met.
    fn list(&self, node: usize, riders: usize, plan: Plan, least: &mut Option<Plan>) {
        if node == self.request.target && riders == 0 && least.as_ref().is_none_or(|least| plan < *least) {
            *least = Some(plan.clone());
        }
        if plan.2.len() == self.most_steps {
            return;
        }
        for (j, rider) in self.request.riders.iter().enumerate().filter(|(j, _)| riders >> j & 1 == 1) {
            if let Some(distance) = self.walks[rider.node][node] {
                self.list(node, riders & !(1 << j), and(&plan, j, rider.weight, distance), least);
            }
        }
        for (k, link) in self.network.links.iter().enumerate().filter(|(_, link)| link.from == node) {
            if let Some(cost) = link.drive_cost() {
                self.list(link.to, riders, and(&plan, FIRST_DRIVE + k, self.request.bus_weight, cost), least);
            }
        }
    }
}

/// The plan with one step more.
fn and((cost, count, steps): &Plan, step: usize, weight: u8, distance: u64) -> Plan {
    let steps = steps.iter().copied().chain([step as u16]).collect();
    (cost + u64::from(weight) * distance, count + 1, steps)
}

/// The walking distances between all nodes, by Floyd and Warshall's algorithm.
fn walks(network: &Network) -> Vec<Vec<Option<u64>>> {
    let n = network.n;
    let mut walks = vec![vec![None; n]; n];
    let shorten = |walk: &mut Option<u64>, new: u64| *walk = Some(walk.map_or(new, |old| old.min(new)));
    for link in &network.links {
        if let Some(cost) = link.walk_cost() {
            shorten(&mut walks[link.from][link.to], cost);
            shorten(&mut walks[link.to][link.from], cost);
        }
    }
    (0..n).for_each(|node| walks[node][node] = Some(0));
    for (over, from, to) in (0..n * n * n).map(|i| (i / n / n, i / n % n, i % n)) {
        if let (Some(first), Some(second)) = (walks[from][over], walks[over][to]) {
            shorten(&mut walks[from][to], first + second);
        }
    }
    walks
}
