//! Damage to records and routes, often in several places at once, so that the order of the checks shows.

use crate::random::Random;
use crate::record::number;

pub fn damage_network(random: &mut Random, record: &mut Vec<u8>) {
    for _ in 0..random.between(1, 3) {
        let n = field(record, 5, 2);
        let m = field(record, 7, 2);
        match random.below(9) {
            0 => put(record, 5, 2, random.pick(&[0, 513, 65_535, n.wrapping_sub(1), n / 2])),
            1 => put(record, 7, 2, random.pick(&[0, 2_049, 65_535, m.wrapping_sub(1), m + 1])),
            2 => grow_to_links(random, record, 2_049),
            3 | 4 => {
                let end = 9 + 8 * random.below(m.max(1)) + 2 * random.below(2);
                put(record, end, 2, random.pick(&[n, n + 1, 512, 65_535]));
            }
            _ => damage_any(random, record, 4),
        }
    }
}

pub fn damage_request(random: &mut Random, record: &mut Vec<u8>, n: usize) {
    for _ in 0..random.between(1, 3) {
        let l = field(record, 8, 1);
        let rider = 9 + 3 * random.below(l.max(1));
        let bad_node = random.pick(&[n, n + 1, 512, 65_535]);
        let bad_weight = random.pick(&[0, 101, 255]);
        match random.below(9) {
            0 => put(record, random.pick(&[3, 5]), 2, bad_node),
            1 => put(record, rider, 2, bad_node),
            2 => put(record, 7, 1, bad_weight),
            3 => put(record, rider + 2, 1, bad_weight),
            4 => put(record, 8, 1, random.pick(&[8, 9, 255, l + 1, l.wrapping_sub(1)])),
            _ => damage_any(random, record, 2),
        }
    }
}

/// Damage that either record can take, whose stated length has so many bytes.
fn damage_any(random: &mut Random, record: &mut Vec<u8>, width: usize) {
    let length = record.len();
    match random.below(8) {
        0 => put(record, 0, 1, random.pick(&[0, 2, 255])),
        1 => put(record, random.between(1, width), 1, usize::from(random.byte())),
        2 => put(record, 1, width, random.pick(&[length.wrapping_sub(1), length + 1, 0])),
        3 => record.truncate(random.pick(&[8, 9, 10, length.saturating_sub(1)])),
        4 => record.truncate(random.below(length + 1)),
        5 => {
            let more = random.pick(&[1, 3, 8, 16]);
            record.extend(random.bytes(more));
        }
        6 => {
            let place = random.below(length.max(1));
            put(record, place, 1, usize::from(random.byte()));
        }
        _ => {
            let length = random.below(40);
            *record = random.bytes(length);
        }
    }
    if random.once_in(2) {
        state_length(record, width);
    }
}

/// Makes a sound network with so many links, more than the limit.
fn grow_to_links(random: &mut Random, record: &mut Vec<u8>, links: usize) {
    if random.once_in(8) {
        record.resize(9 + 8 * links, 0);
        put(record, 7, 2, links);
        state_length(record, 4);
    }
}

pub fn damage_route(random: &mut Random, route: &mut Vec<u16>, m: usize) {
    for _ in 0..random.between(1, 3) {
        let place = random.below(route.len().max(1));
        let any = random.below(m.max(1)) as u16;
        let link = random.pick(&[any, any, any, m as u16, m as u16 + 1, 65_535]);
        match random.below(5) {
            0 | 1 if !route.is_empty() => route[place] = link,
            2 if !route.is_empty() => drop(route.remove(place)),
            3 => route.truncate(place),
            _ => route.push(link),
        }
    }
}

fn state_length(record: &mut [u8], width: usize) {
    let length = record.len();
    put(record, 1, width, length);
}

/// The number in a field, as far as the record reaches.
fn field(record: &[u8], place: usize, width: usize) -> usize {
    record.get(place..place + width).map_or(0, number)
}

/// Puts a number into a field, as far as the record reaches.
fn put(record: &mut [u8], place: usize, width: usize, value: usize) {
    let bytes = &value.to_be_bytes()[8 - width..];
    for (byte, &new) in record.iter_mut().skip(place).zip(bytes) {
        *byte = new;
    }
}
