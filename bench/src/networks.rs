//! The networks and requests that are measured.

use outside::random::Random;
use outside::record::{Link, Network, Request, Rider};

/// How many networks are made for each setting.
pub const NETWORKS: u64 = 5;

#[derive(Clone, Copy, Debug)]
pub enum Shape {
    /// Streets both ways between the corners of a grid.
    Grid,
    /// A ring, and three more links from each node to any others.
    Any,
    /// One long street, both ways.
    Line,
}

#[derive(Clone, Copy)]
pub struct Setting {
    pub shape: Shape,
    pub nodes: usize,
    pub riders: usize,
}

pub fn settings() -> Vec<Setting> {
    let mut settings = Vec::new();
    for shape in [Shape::Grid, Shape::Any, Shape::Line] {
        for nodes in [100, 300, 512] {
            settings.extend([3, 5, 7].map(|riders| Setting { shape, nodes, riders }));
        }
    }
    settings
}

impl Setting {
    /// One of the setting's networks and its request, as records.
    pub fn records(self, number: u64) -> (Vec<u8>, Vec<u8>) {
        let mut random = Random::new(number);
        let network = network(&mut random, self.shape, self.nodes);
        let request = request(&mut random, self.nodes, self.riders);
        (network.record(), request.record())
    }
}

fn network(random: &mut Random, shape: Shape, n: usize) -> Network {
    let ends: Vec<(usize, usize)> = match shape {
        Shape::Grid => both_ways(grid(n)),
        Shape::Any => (0..n).flat_map(|v| [(v, (v + 1) % n)].into_iter().chain(any_from(random, n, v))).collect(),
        Shape::Line => both_ways((1..n).map(|v| (v - 1, v)).collect()),
    };
    let mut cost = || random.between(1, 1_000) as u16;
    let links = ends.into_iter().map(|(from, to)| Link { from, to, drive: cost(), walk: cost() }).collect();
    Network { n, links }
}

fn any_from(random: &mut Random, n: usize, from: usize) -> [(usize, usize); 3] {
    [(); 3].map(|()| (from, random.below(n)))
}

fn both_ways(streets: Vec<(usize, usize)>) -> Vec<(usize, usize)> {
    streets.into_iter().flat_map(|(one, other)| [(one, other), (other, one)]).collect()
}

/// A grid as near to a square as the number of its corners lets it be.
fn grid(n: usize) -> Vec<(usize, usize)> {
    let wide = (1..=n).filter(|wide| n.is_multiple_of(*wide) && wide * wide >= n).min().unwrap_or(n);
    let along = (0..n).filter(|v| v % wide + 1 < wide).map(|v| (v, v + 1));
    let across = (wide..n).map(|v| (v - wide, v));
    along.chain(across).collect()
}

fn request(random: &mut Random, n: usize, l: usize) -> Request {
    let (source, target) = (random.below(n), random.below(n));
    let riders = (1..=l as u8).map(|weight| Rider { node: random.below(n), weight }).collect();
    Request { source, target, bus_weight: 2, riders }
}
