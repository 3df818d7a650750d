//! Random networks, requests and drives of many shapes.

use crate::random::Random;
use crate::record::{Link, Network, Request, Rider, CLOSED, MOST_LINKS, MOST_NODES};

#[derive(Clone, Copy)]
pub struct Size {
    pub nodes: usize,
    pub links: usize,
}

pub const LARGEST: Size = Size { nodes: MOST_NODES, links: MOST_LINKS };

/// Mostly small, sometimes of middling size, now and then large or at a limit.
pub fn size(random: &mut Random) -> Size {
    let nodes = match random.below(40) {
        0 => random.between(41, MOST_NODES),
        1 => random.pick(&[1, 2, MOST_NODES - 1, MOST_NODES]),
        2..=7 => random.between(9, 40),
        _ => random.between(1, 8),
    };
    let links = match random.below(40) {
        0 => random.pick(&[0, MOST_LINKS - 1, MOST_LINKS]),
        _ => random.between(0, 4 * nodes).min(MOST_LINKS),
    };
    Size { nodes, links }
}

#[derive(Clone, Copy)]
enum Ends {
    Any,
    Near,
    Line,
    BackwardLine,
    Hub,
    Crowd,
}

impl Ends {
    fn of(self, random: &mut Random, k: usize, n: usize) -> (usize, usize) {
        let (one, other) = (random.below(n), random.below(n));
        let this = k / 2 % (n - 1).max(1);
        let next = (this + 1) % n;
        let (from, to) = match self {
            Ends::Any => (one, other),
            Ends::Near => (one, (one + random.below(4)) % n),
            Ends::Line => (this, next),
            Ends::BackwardLine => (n - 1 - this, n - 1 - next),
            Ends::Hub => (0, one),
            Ends::Crowd => (one % 3, other % 3),
        };
        match self {
            Ends::Line | Ends::BackwardLine | Ends::Hub if k % 2 == 1 => (to, from),
            _ => (from, to),
        }
    }
}

#[derive(Clone, Copy)]
struct Costs {
    least: usize,
    most: usize,
    /// One link in so many is closed; 0 is none.
    closed: usize,
}

impl Costs {
    fn any(random: &mut Random) -> Costs {
        let (least, most) = random.pick(&[(0, 0), (0, 1), (1, 1), (1, 9), (0, 65_534), (65_533, 65_534)]);
        let closed = random.pick(&[0, 0, 20, 6, 2]);
        Costs { least, most, closed }
    }

    fn one(self, random: &mut Random) -> u16 {
        if self.closed > 0 && random.once_in(self.closed) {
            return CLOSED;
        }
        random.between(self.least, self.most) as u16
    }
}

pub fn network(random: &mut Random, size: Size) -> Network {
    let ends = random.pick(&[Ends::Any, Ends::Near, Ends::Line, Ends::BackwardLine, Ends::Hub, Ends::Crowd]);
    let (drives, walks) = (Costs::any(random), Costs::any(random));
    shaped(random, size, ends, drives, walks)
}

fn shaped(random: &mut Random, size: Size, ends: Ends, drives: Costs, walks: Costs) -> Network {
    let link = |k| {
        let (from, to) = ends.of(random, k, size.nodes);
        Link { from, to, drive: drives.one(random), walk: walks.one(random) }
    };
    Network { n: size.nodes, links: (0..size.links).map(link).collect() }
}

fn weight(random: &mut Random) -> u8 {
    let any = random.between(1, 100) as u8;
    random.pick(&[1, 1, 2, 3, 100, any])
}

pub fn request(random: &mut Random, n: usize, l: usize) -> Request {
    let source = random.below(n);
    let other = random.below(n);
    let mut riders: Vec<Rider> = Vec::new();
    for _ in 0..l {
        let repeated = riders.last().filter(|_| random.once_in(3)).map(|rider| rider.node);
        let node = repeated.unwrap_or(random.below(n));
        riders.push(Rider { node, weight: weight(random) });
    }
    Request { source, target: random.pick(&[source, other, other, other]), bus_weight: weight(random), riders }
}

/// A long line with the bus at one end and the riders at the other, at the highest costs and weights.
pub fn far_riders(random: &mut Random) -> (Network, Request) {
    let nodes = random.between(450, MOST_NODES);
    let costs = Costs { least: 65_533, most: 65_534, closed: 0 };
    let ends = random.pick(&[Ends::Line, Ends::BackwardLine]);
    let network = shaped(random, Size { nodes, links: 2 * nodes }, ends, costs, costs);
    let l = random.between(1, 4);
    let mut near = || random.below(nodes / 8);
    let (source, target) = (near(), near());
    let riders = (0..l).map(|_| Rider { node: nodes - 1 - near(), weight: 100 }).collect();
    (network, Request { source, target, bus_weight: 100, riders })
}

/// A random drive of at most so many links, with the node where it ends.
pub fn drive(random: &mut Random, network: &Network, source: usize, most: usize) -> (Vec<u16>, usize) {
    let mut leaving = vec![Vec::new(); network.n];
    for (k, link) in network.links.iter().enumerate() {
        if link.drive_cost().is_some() {
            leaving[link.from].push(k);
        }
    }
    let mut node = source;
    let mut route = Vec::new();
    while route.len() < most && !leaving[node].is_empty() {
        let k = random.pick(&leaving[node]);
        route.push(k as u16);
        node = network.links[k].to;
    }
    (route, node)
}
