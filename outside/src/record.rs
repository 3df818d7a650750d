//! The network record and the request record: read, with their refusals, and written.

pub const CLOSED: u16 = 65_535;
pub const MOST_NODES: usize = 512;
pub const MOST_LINKS: usize = 2_048;
pub const MOST_RIDERS: usize = 7;
/// The bytes of the longest record, a network.
pub const LONGEST_RECORD: usize = 9 + 8 * MOST_LINKS;

/// The value of a request (1.9): source, target, bus weight and riders, seven nodes, seven weights.
pub type Value = [u16; VALUE_NUMBERS];
pub const VALUE_NUMBERS: usize = FIRST_WEIGHT + MOST_RIDERS;
/// Where in a value the bus weight and the number of riders stand, and where the nodes and the weights begin.
pub const BUS_WEIGHT: usize = 2;
pub const RIDER_COUNT: usize = 3;
pub const FIRST_NODE: usize = 4;
pub const FIRST_WEIGHT: usize = FIRST_NODE + MOST_RIDERS;

#[derive(Clone, Copy, Debug, PartialEq, Eq)]
pub struct Refusal {
    pub number: u64,
    pub place: u64,
}

pub type Answer<T> = Result<T, Refusal>;

/// Refuses at place 0 if something is wrong.
pub fn refuse_if(wrong: bool, number: u64) -> Answer<()> {
    refuse_at(wrong.then_some(0), number)
}

/// Refuses at the bad place, if there is one.
pub fn refuse_at(bad: Option<usize>, number: u64) -> Answer<()> {
    match bad {
        Some(place) => Err(Refusal { number, place: place as u64 }),
        None => Ok(()),
    }
}

#[derive(Clone, Debug)]
pub struct Link {
    pub from: usize,
    pub to: usize,
    pub drive: u16,
    pub walk: u16,
}

impl Link {
    fn read(bytes: &[u8]) -> Link {
        Link {
            from: number(&bytes[0..2]),
            to: number(&bytes[2..4]),
            drive: number(&bytes[4..6]) as u16,
            walk: number(&bytes[6..8]) as u16,
        }
    }

    /// The link of four numbers, in the record's order.
    pub fn of(numbers: &[u16]) -> Link {
        Link { from: numbers[0].into(), to: numbers[1].into(), drive: numbers[2], walk: numbers[3] }
    }

    /// The cost of driving the link, unless it is closed to the bus.
    pub fn drive_cost(&self) -> Option<u64> {
        (self.drive != CLOSED).then_some(u64::from(self.drive))
    }

    /// The cost of walking the link, unless it is closed to walkers.
    pub fn walk_cost(&self) -> Option<u64> {
        (self.walk != CLOSED).then_some(u64::from(self.walk))
    }
}

#[derive(Clone, Debug)]
pub struct Network {
    pub n: usize,
    pub links: Vec<Link>,
}

impl Network {
    pub fn read(record: &[u8]) -> Answer<Network> {
        check_opening(record, 4, 0)?;
        let n = number(&record[5..7]);
        let m = number(&record[7..9]);
        refuse_if(n == 0 || n > MOST_NODES || m > MOST_LINKS, 4)?;
        refuse_if(record.len() != 9 + 8 * m, 5)?;
        let links: Vec<Link> = record[9..].chunks_exact(8).map(Link::read).collect();
        refuse_at(links.iter().position(|link| link.from >= n || link.to >= n), 6)?;
        Ok(Network { n, links })
    }

    /// The four numbers of each link, one link behind the other (1.11).
    pub fn numbers(&self) -> Vec<u16> {
        self.links.iter().flat_map(|link| [link.from as u16, link.to as u16, link.drive, link.walk]).collect()
    }

    pub fn record(&self) -> Vec<u8> {
        let mut record = vec![1];
        record.extend((9 + 8 * self.links.len() as u32).to_be_bytes());
        record.extend((self.n as u16).to_be_bytes());
        record.extend((self.links.len() as u16).to_be_bytes());
        record.extend(self.numbers().into_iter().flat_map(u16::to_be_bytes));
        record
    }
}

#[derive(Clone, Debug)]
pub struct Rider {
    pub node: usize,
    pub weight: u8,
}

#[derive(Clone, Debug)]
pub struct Request {
    pub source: usize,
    pub target: usize,
    pub bus_weight: u8,
    pub riders: Vec<Rider>,
}

impl Request {
    pub fn read(record: &[u8], n: usize) -> Answer<Request> {
        check_opening(record, 2, 10)?;
        let l = usize::from(record[8]);
        refuse_if(l > MOST_RIDERS, 14)?;
        refuse_if(record.len() != 9 + 3 * l, 15)?;
        let request = Request {
            source: number(&record[3..5]),
            target: number(&record[5..7]),
            bus_weight: record[7],
            riders: record[9..]
                .chunks_exact(3)
                .map(|rider| Rider { node: number(&rider[0..2]), weight: rider[2] })
                .collect(),
        };
        refuse_at(request.nodes().iter().position(|&node| node >= n), 16)?;
        refuse_at(request.weights().iter().position(|weight| !(1..=100).contains(weight)), 17)?;
        Ok(request)
    }

    fn nodes(&self) -> Vec<usize> {
        let riders = self.riders.iter().map(|rider| rider.node);
        [self.source, self.target].into_iter().chain(riders).collect()
    }

    fn weights(&self) -> Vec<u8> {
        let riders = self.riders.iter().map(|rider| rider.weight);
        [self.bus_weight].into_iter().chain(riders).collect()
    }

    /// The value that the request is read into.
    pub fn value(&self) -> Value {
        let mut value = [0; VALUE_NUMBERS];
        let head = [self.source as u16, self.target as u16, u16::from(self.bus_weight), self.riders.len() as u16];
        value[..4].copy_from_slice(&head);
        for (j, rider) in self.riders.iter().enumerate() {
            value[FIRST_NODE + j] = rider.node as u16;
            value[FIRST_WEIGHT + j] = u16::from(rider.weight);
        }
        value
    }

    pub fn record(&self) -> Vec<u8> {
        let mut record = vec![1];
        record.extend((9 + 3 * self.riders.len() as u16).to_be_bytes());
        record.extend((self.source as u16).to_be_bytes());
        record.extend((self.target as u16).to_be_bytes());
        record.extend([self.bus_weight, self.riders.len() as u8]);
        for rider in &self.riders {
            record.extend((rider.node as u16).to_be_bytes());
            record.push(rider.weight);
        }
        record
    }
}

/// Reads both records; the network's refusals come first.
pub fn read_both(network: &[u8], request: &[u8]) -> Answer<(Network, Request)> {
    let network = Network::read(network)?;
    let request = Request::read(request, network.n)?;
    Ok((network, request))
}

/// The eight bytes of a link in its record (1.10).
pub fn link_bytes(record: &[u8], link: u64) -> &[u8] {
    match Network::read(record) {
        Ok(network) if link < network.links.len() as u64 => &record[9 + 8 * link as usize..][..8],
        _ => &record[..0],
    }
}

/// The value that a request is read into; beside a refusal all of it is 0.
pub fn request_value(network: &[u8], request: &[u8]) -> Value {
    read_both(network, request).map_or([0; VALUE_NUMBERS], |(_, request)| request.value())
}

/// The big-endian number that bytes hold.
pub fn number(bytes: &[u8]) -> usize {
    bytes.iter().fold(0, |high, &byte| high << 8 | usize::from(byte))
}

/// The three checks that open both records; the stated length has a width of its own in each.
fn check_opening(record: &[u8], width: usize, before: u64) -> Answer<()> {
    refuse_if(record.len() < 9, before + 1)?;
    refuse_if(record[0] != 1, before + 2)?;
    refuse_if(number(&record[1..1 + width]) != record.len(), before + 3)
}
