//! Records with their texts, and texts that are damaged.

use crate::random::Random;
use crate::record::{Link, Network, Request, Rider, MOST_LINKS, MOST_NODES, MOST_RIDERS};
use crate::shapes::{self, Size};
use crate::text::{network_text, request_text, Kind, MOST_BYTES};
use crate::text_damage::{change_number, Damage, DAMAGES};

pub struct Damaged {
    pub kind: Kind,
    pub text: Vec<u8>,
    /// What was done to the text.
    pub damage: Vec<&'static str>,
}

/// A record that is sound beside 512 nodes, and its text.
pub fn sound(case: u64) -> (Kind, Vec<u8>, String) {
    let mut random = Random::new(4 << 32 | case);
    let Size { nodes, mut links } = shapes::size(&mut random);
    if random.once_in(8) {
        links = random.pick(&[0, MOST_LINKS]);
    }
    if random.once_in(2) {
        let network = shapes::network(&mut random, Size { nodes, links });
        (Kind::Network, network.record(), network_text(&network))
    } else {
        let (n, l) = (random.pick(&[nodes, MOST_NODES]), random.between(0, MOST_RIDERS));
        let request = shapes::request(&mut random, n, l);
        (Kind::Request, request.record(), request_text(&request))
    }
}

pub fn damaged(case: u64) -> Damaged {
    let mut random = Random::new(5 << 32 | case);
    let (kind, text) = any_text(&mut random);
    let mut damaged = Damaged { kind, text: text.into_bytes(), damage: Vec::new() };
    for _ in 0..random.pick(&[1, 1, 1, 2, 3]) {
        let changed: (&str, Damage) = ("a number changed", change_number);
        let any = random.pick(&DAMAGES);
        let (name, damage) = random.pick(&[changed, any, any, any, any]);
        damage(&mut random, &mut damaged.text);
        damaged.damage.push(name);
    }
    damaged
}

/// How many edges there are.
pub const EDGES: u64 = 11;

/// A text at an edge: of as many links or riders as there may be, of one more, of more whose count has fine low bits,
/// of as many links as a text can have, as long as a text may be, and a byte longer.
pub fn edge(case: u64) -> Damaged {
    let (kind, text) = match case {
        0..=4 => (Kind::Network, many_links([2_048, 2_049, 65_536, 65_537, 390_000][case as usize])),
        5..=8 => (Kind::Request, many_riders([7, 8, 256, 65_537][case as usize - 5])),
        9 => (Kind::Request, padded(many_riders(2), MOST_BYTES)),
        _ => (Kind::Network, padded(many_links(2), MOST_BYTES + 1)),
    };
    Damaged { kind, text: text.into_bytes(), damage: vec!["none"] }
}

fn many_links(m: usize) -> String {
    network_text(&Network { n: 1, links: vec![Link { from: 0, to: 0, drive: 1, walk: 1 }; m] })
}

fn many_riders(l: usize) -> String {
    request_text(&Request { source: 0, target: 0, bus_weight: 1, riders: vec![Rider { node: 0, weight: 1 }; l] })
}

/// The text, made so long by blank lines.
fn padded(text: String, length: usize) -> String {
    let padding = " \n".repeat(length);
    text.clone() + &padding[..length - text.len()]
}

/// The text of a network or a request, now and then with more links or riders than there may be.
fn any_text(random: &mut Random) -> (Kind, String) {
    let Size { nodes, links } = shapes::size(random);
    if random.once_in(2) {
        let links = if random.once_in(40) { MOST_LINKS + 1 } else { links };
        (Kind::Network, network_text(&shapes::network(random, Size { nodes, links })))
    } else {
        let l = random.between(0, MOST_RIDERS);
        let l = if random.once_in(20) { MOST_RIDERS + random.between(1, 4) } else { l };
        (Kind::Request, request_text(&shapes::request(random, nodes, l)))
    }
}
