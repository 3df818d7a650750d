//! The file of vectors: calls, each with what it must answer and leave behind. The head of the file says how it is
//! written.

use crate::call::{shown, Call};
use crate::notation::{count, numbers, word_and_numbers, GREATEST};
use crate::program::parted;
use crate::record::{link_bytes, request_value};

/// What every place of a room holds before the call.
const BEFORE: u8 = 77;

/// The entries that the file calls.
pub const ENTRIES: [&str; 10] =
    ["network", "request", "link", "size", "walk", "price", "tablet", "search", "write-network", "write-request"];

/// A call of the file, with what it must answer and what its rooms must begin with.
pub struct Vector {
    pub line: usize,
    pub entry: Entry,
    answer: u64,
    lists: Vec<Vec<u64>>,
}

/// What is called: one of the C functions, or one of two entries that C hosts do not have.
pub enum Entry {
    Function(Call),
    Link { network: Vec<u8>, link: u64 },
    Size { input: Vec<u8> },
}

/// All calls of the file, or which line is not understood.
pub fn read(text: &str) -> Result<Vec<Vector>, String> {
    let mut handed = Handed::default();
    let mut vectors = Vec::new();
    for (line, text) in (1..).zip(text.lines().map(str::trim)) {
        let named = |error| format!("line {line}: {error}");
        match text.chars().next() {
            None | Some('#') => {}
            Some(first) if first.is_ascii_uppercase() => handed.change(text).map_err(named)?,
            Some(_) => vectors.push(vector(line, text, &handed).map_err(named)?),
        }
    }
    Ok(vectors)
}

fn vector(line: usize, text: &str, handed: &Handed) -> Result<Vector, String> {
    let mut parts = text.split('|');
    let entry = entry(parts.next().unwrap_or(""), handed)?;
    let [answer] = numbers(parts.next().unwrap_or(""))?[..] else {
        return Err("it needs one number as the answer".into());
    };
    let lists = parts.map(numbers).collect::<Result<_, _>>()?;
    Ok(Vector { line, entry, answer, lists })
}

fn entry(head: &str, handed: &Handed) -> Result<Entry, String> {
    let (name, numbers) = word_and_numbers(head)?;
    let Handed { network, request, route, links, value } = handed.clone();
    let call = match (name, &numbers[..]) {
        ("link", &[link]) => return Ok(Entry::Link { network, link }),
        ("size", []) => return Ok(Entry::Size { input: network }),
        ("network", []) => Call::Network { network },
        ("request", []) => Call::Request { network, request },
        ("walk", &[start, places]) => Call::Walk { network, start, distances: room(places)? },
        ("price", &[places]) => Call::Price { network, request, route, meeting: room(places)? },
        ("tablet", &[bytes]) => {
            let all: Vec<u8> = route.into_iter().flat_map(u16::to_be_bytes).collect();
            let route = all.get(..count(bytes)?).ok_or("the route has fewer bytes")?.to_vec();
            Call::Tablet { network, request, route }
        }
        ("search", &[distances, table, steps]) => {
            Call::Search { network, request, distances: room(distances)?, table: room(table)?, steps: room(steps)? }
        }
        ("write-network", &[n, places]) => Call::WriteNetwork { n, links, room: room(places)? },
        ("write-request", &[n, places]) => Call::WriteRequest { n, value, room: room(places)? },
        _ => return Err(format!("{name:?} with {} numbers is no entry", numbers.len())),
    };
    Ok(Entry::Function(call))
}

/// A room as it is lent.
fn room<T: Clone + From<u8>>(places: u64) -> Result<Vec<T>, String> {
    Ok(vec![T::from(BEFORE); count(places)?])
}

/// What the calls are handed, as the lines with a capital letter say.
#[derive(Clone, Default)]
struct Handed {
    network: Vec<u8>,
    request: Vec<u8>,
    route: Vec<u16>,
    links: Vec<u16>,
    value: Vec<u64>,
}

impl Handed {
    fn change(&mut self, line: &str) -> Result<(), String> {
        let (word, numbers) = word_and_numbers(line)?;
        match word {
            "Network" => self.network = record(&numbers, &[1, 4, 2, 2], &[2, 2, 2, 2])?,
            "Request" => self.request = record(&numbers, &[1, 2, 2, 2, 1, 1], &[2, 1])?,
            "Route" => self.route = numbers.into_iter().map(in_16_bits).collect::<Result<_, _>>()?,
            "Links" => self.links = numbers.into_iter().map(in_16_bits).collect::<Result<_, _>>()?,
            "Value" => self.value = numbers,
            _ => return Err(format!("nothing is called {word:?}")),
        }
        Ok(())
    }
}

/// The bytes of a record, from their number and its fields: those of its head, then those of each entry.
fn record(numbers: &[u64], head: &[usize], entry: &[usize]) -> Result<Vec<u8>, String> {
    let (&bytes, fields) = numbers.split_first().ok_or("the number of bytes is missing")?;
    if fields.len() < head.len() || (fields.len() - head.len()) % entry.len() != 0 {
        return Err("the record's last field is missing".into());
    }
    let widths = head.iter().chain(entry.iter().cycle());
    let laid_out = fields.iter().zip(widths).flat_map(|(field, width)| field.to_be_bytes().into_iter().skip(8 - width));
    let mut record: Vec<u8> = laid_out.collect();
    record.resize(count(bytes)?, 255);
    Ok(record)
}

fn in_16_bits(number: u64) -> Result<u16, String> {
    let cut = if number == GREATEST { Ok(u16::MAX) } else { u16::try_from(number) };
    cut.map_err(|_| format!("{number} is more than 16 bits hold"))
}

impl Vector {
    pub fn name(&self) -> &'static str {
        match &self.entry {
            Entry::Function(call) => call.name(),
            Entry::Link { .. } => "link",
            Entry::Size { .. } => "size",
        }
    }

    /// Errs unless the rules answer this and leave this behind.
    pub fn check(&self) -> Result<(), String> {
        let (answer, rooms) = self.entry.outcome();
        let wrong = match (answer == self.answer, self.lists.len() > rooms.len()) {
            (false, _) => Some(format!("the rules say {} instead of {}", shown(answer), shown(self.answer))),
            (_, true) => Some(format!("{} parts are too many", 2 + self.lists.len())),
            _ => self.wrong_room(&rooms),
        };
        wrong.map_or(Ok(()), |wrong| Err(format!("line {}, {}: {wrong}", self.line, self.name())))
    }

    fn wrong_room(&self, rooms: &[Room]) -> Option<String> {
        let lists = self.lists.iter().map(Vec::as_slice).chain(std::iter::repeat(&[][..]));
        rooms.iter().zip(lists).find_map(|(room, list)| room.difference(list))
    }
}

impl Entry {
    /// What the rules answer, and the rooms afterwards.
    fn outcome(&self) -> (u64, Vec<Room>) {
        match self {
            Entry::Function(call) => {
                let mut call = call.clone();
                let answer = call.answer();
                (call.encoded(answer), rooms(&call))
            }
            Entry::Link { network, link } => {
                let bytes = link_bytes(network, *link);
                (bytes.len() as u64, vec![Room::of("link", bytes)])
            }
            Entry::Size { input } => (parted(input).0.len() as u64, Vec::new()),
        }
    }
}

fn rooms(call: &Call) -> Vec<Room> {
    match call {
        Call::Network { .. } | Call::Tablet { .. } => Vec::new(),
        Call::Request { network, request } => {
            vec![Room { before: 0, ..Room::of("value", &request_value(network, request)) }]
        }
        Call::Walk { distances, .. } => vec![Room::of("distances", distances)],
        Call::Price { meeting, .. } => vec![Room::of("meeting", meeting)],
        Call::Search { distances, table, steps, .. } => {
            vec![Room::of("distances", distances), Room::of("table", table), Room::of("steps", steps)]
        }
        Call::WriteNetwork { room, .. } | Call::WriteRequest { room, .. } => vec![Room::of("room", room)],
    }
}

/// A room after the call.
struct Room {
    name: &'static str,
    places: Vec<u64>,
    /// What a place holds with every bit set.
    greatest: u64,
    /// What a place holds that was not written.
    before: u64,
}

impl Room {
    fn of<T: Copy + Into<u64>>(name: &'static str, places: &[T]) -> Room {
        let places = places.iter().map(|&place| place.into()).collect();
        Room { name, places, greatest: GREATEST >> (64 - 8 * size_of::<T>()), before: BEFORE.into() }
    }

    /// Says where the room holds something else than the list at its start, if it does.
    fn difference(&self, list: &[u64]) -> Option<String> {
        let Room { name, places, greatest, before } = self;
        if list.len() > places.len() {
            return Some(format!("{} numbers are listed for {name}, which has {} places", list.len(), places.len()));
        }
        let must =
            |place| list.get(place).map_or(*before, |&number| if number == GREATEST { *greatest } else { number });
        let place = (0..places.len()).find(|&place| places[place] != must(place))?;
        Some(format!("{name} place {place} of {} holds {} instead of {}", places.len(), places[place], must(place)))
    }
}
