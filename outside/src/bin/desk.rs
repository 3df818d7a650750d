//! Compares the C functions of the desk and of the tablet with the rules: each answer, and all memory after each call.
//! Its arguments are the file of vectors and the command that runs the host; `--compare-only` may come first.

use outside::arguments::compare_only;
use outside::call::{shown, Call};
use outside::host::{Answers, Host};
use outside::memory::Memory;
use outside::record::{read_both, Answer, CLOSED, MOST_LINKS, MOST_NODES, MOST_RIDERS, RIDER_COUNT};
use outside::search::{FIRST_DRIVE, STEP_RANGE};
use outside::tally::Tally;
use outside::vectors::{self, Entry, Vector};
use outside::{desk_cases, listing, rereading, walk_kinds};
use std::error::Error;
use std::io::Write;
use std::process::{self, ChildStdin};
use std::sync::mpsc::{sync_channel, SyncSender};
use std::{env, fs, thread};

const CASES: u64 = 60_000;
/// How often each outcome must have occurred.
const LEAST: usize = 40;

/// Plans that must have occurred as often.
const PLAN_KINDS: [&str; 5] = [
    "plan without a step",
    "plan that drives on from the target",
    "plan that leaves a node twice",
    "plan that costs more than 32 bits hold",
    "plan with all limits reached",
];

/// Networks and requests that must have been written as often.
const WRITTEN_NETWORKS: [&str; 6] = [
    "network written with no link",
    "network written with 2,048 links",
    "network written with a link closed to the bus",
    "network written with a link closed to walkers",
    "network written into a room as long",
    "network written into a longer room",
];
const WRITTEN_REQUESTS: [&str; 4] = [
    "request written with no rider",
    "request written with 7 riders",
    "request written into a room as long",
    "request written into a longer room",
];

/// A call to make; the seed is that of the bytes around its parts.
struct Case {
    name: String,
    seed: u64,
    call: Call,
}

fn main() {
    let arguments: Vec<String> = env::args().skip(1).collect();
    if let Err(error) = compare(&arguments) {
        println!("outside: {error}");
        process::exit(1);
    }
}

fn compare(arguments: &[String]) -> Result<(), Box<dyn Error>> {
    let (compare_only, arguments) = compare_only(arguments);
    let (file, command) = arguments.split_first().ok_or("no file of vectors was given")?;
    let text = fs::read_to_string(file).map_err(|error| format!("{file}: {error}"))?;
    let vectors = vectors::read(&text).map_err(|error| format!("{file}, {error}"))?;
    let mut by_entry = Tally::default();
    vectors.iter().for_each(|vector| by_entry.add(vector.name().into()));
    if !compare_only {
        vectors.iter().try_for_each(Vector::check).map_err(|error| format!("{file}, {error}"))?;
        by_entry.check(&vectors::ENTRIES.map(String::from), 1)?;
        listing::check()?;
        rereading::check()?;
    }
    let (compared, tally) = compare_with_host(command, vectors)?;
    println!("outside: {compared} calls of the desk and the tablet agree with the rules");
    if !compare_only {
        tally.check(&outcomes(), LEAST)?;
        println!("outside: all calls of {file} agree: {}", by_entry.listed());
    }
    Ok(())
}

/// Says how many calls were compared, and what occurred.
fn compare_with_host(command: &[String], vectors: Vec<Vector>) -> Result<(u64, Tally), Box<dyn Error>> {
    let (host, calls, mut answers) = Host::start(command)?;
    // The caller runs ahead by a few calls only, and the host is read from all the while.
    let (sender, receiver) = sync_channel(16);
    let caller = thread::spawn(move || make_calls(vectors, calls, sender));
    let mut tally = Tally::default();
    let mut compared = 0;
    for case in receiver {
        compare_case(case, &mut answers, &mut tally)?;
        compared += 1;
    }
    caller.join().map_err(|_| "the caller failed")?;
    host.end(answers)?;
    Ok((compared, tally))
}

/// Sends the calls to the host, each to the comparison first.
fn make_calls(vectors: Vec<Vector>, mut host: ChildStdin, comparison: SyncSender<Case>) {
    let known = vectors.into_iter().filter_map(|Vector { line, entry, .. }| match entry {
        Entry::Function(call) => Some(Case { name: format!("line {line}"), seed: line as u64, call }),
        Entry::Link { .. } | Entry::Size { .. } => None,
    });
    let random = (0..CASES).map(|case| Case { name: format!("call {case}"), seed: case, call: desk_cases::call(case) });
    for case in known.chain(random) {
        let message = Memory::of(&case.call, case.seed).message(&case.call);
        if comparison.send(case).is_err() || host.write_all(&message).is_err() {
            return;
        }
    }
}

fn compare_case(case: Case, answers: &mut Answers, tally: &mut Tally) -> Result<(), Box<dyn Error>> {
    let Case { name, seed, mut call } = case;
    let before = Memory::of(&call, seed);
    let answer = call.answer();
    let ours = call.encoded(answer);
    let (theirs, after) = answers.next(before.bytes.len())?;
    let difference = match ours == theirs {
        true => Memory::of(&call, seed).difference(&after),
        false => Some(format!("{} instead of {}", shown(theirs), shown(ours))),
    };
    if let Some(difference) = difference {
        let number = call.number().map_or(String::new(), |number| format!(" {number}"));
        return Err(format!("{name}, {}{number}: {difference}\n{}", call.name(), before.shown()).into());
    }
    note(tally, &call, answer);
    Ok(())
}

fn note(tally: &mut Tally, call: &Call, answer: Answer<u64>) {
    walk_kinds::kinds(call, answer).into_iter().for_each(|kind| tally.add(kind));
    match (answer, call) {
        (Err(refusal), _) => tally.add(format!("{} refused {}", call.name(), refusal.number)),
        (Ok(finish), Call::Search { network, request, steps, .. }) => {
            note_plan(tally, network, request, &steps[..(finish % STEP_RANGE) as usize], finish / STEP_RANGE);
        }
        (Ok(length), Call::WriteNetwork { links, room, .. }) => note_network(tally, links, room, length as usize),
        (Ok(length), Call::WriteRequest { value, room, .. }) => note_request(tally, value, room, length as usize),
        (Ok(_), _) => tally.add(format!("{} granted", call.name())),
    }
}

fn note_network(tally: &mut Tally, links: &[u16], room: &[u8], length: usize) {
    let closed = |use_at: usize| links.chunks_exact(4).any(|link| link[use_at] == CLOSED);
    let are = [
        links.is_empty(),
        links.len() == 4 * MOST_LINKS,
        closed(2),
        closed(3),
        room.len() == length,
        room.len() > length,
    ];
    note_kinds(tally, WRITTEN_NETWORKS, are);
}

fn note_request(tally: &mut Tally, value: &[u64], room: &[u8], length: usize) {
    let l = value[RIDER_COUNT];
    let are = [l == 0, l == MOST_RIDERS as u64, room.len() == length, room.len() > length];
    note_kinds(tally, WRITTEN_REQUESTS, are);
}

/// Notes those of some kinds that are.
fn note_kinds<const COUNT: usize>(tally: &mut Tally, kinds: [&str; COUNT], are: [bool; COUNT]) {
    kinds.into_iter().zip(are).filter(|(_, is)| *is).for_each(|(kind, _)| tally.add(kind.into()));
}

fn note_plan(tally: &mut Tally, network: &[u8], request: &[u8], steps: &[u16], cost: u64) {
    let (network, request) = read_both(network, request).expect("a plan comes of good records");
    let links = steps.iter().filter_map(|&step| usize::from(step).checked_sub(FIRST_DRIVE));
    let nodes: Vec<usize> = [request.source].into_iter().chain(links.map(|k| network.links[k].to)).collect();
    let left = &nodes[..nodes.len() - 1];
    tally.add(format!("search granted for {} riders", request.riders.len()));
    let are = [
        steps.is_empty(),
        left.contains(&request.target),
        (1..left.len()).any(|i| left[..i].contains(&left[i])),
        cost >= 1 << 32,
        network.n == MOST_NODES && network.links.len() == MOST_LINKS && request.riders.len() == MOST_RIDERS,
    ];
    note_kinds(tally, PLAN_KINDS, are);
}

/// All that must occur.
fn outcomes() -> Vec<String> {
    let network: Vec<u64> = (1..=6).collect();
    let both: Vec<u64> = (1..=6).chain(11..=17).collect();
    let refusals = [
        ("network", network.clone(), vec![]),
        ("request", both.clone(), vec![]),
        ("walk", network, vec![41, 42]),
        ("price", both.clone(), (31..=37).collect()),
        ("search", both.clone(), (21..=24).collect()),
        ("tablet", both, (32..=38).collect()),
        ("write-network", vec![], (81..=83).collect()),
        ("write-request", vec![], (81..=83).collect()),
    ];
    let refused = refusals.into_iter().flat_map(|(name, records, own)| {
        records.into_iter().chain(own).map(move |number| format!("{name} refused {number}"))
    });
    let granted = ["network", "request", "walk", "price", "tablet"].map(|name| format!("{name} granted"));
    let planned = (0..=MOST_RIDERS).map(|l| format!("search granted for {l} riders"));
    let kinds = PLAN_KINDS.into_iter().chain(WRITTEN_NETWORKS).chain(WRITTEN_REQUESTS).map(String::from);
    let of_entry = |name: &str| walk_kinds::KINDS.map(|kind| format!("{name} {kind}"));
    let walked = walk_kinds::ENTRIES.into_iter().flat_map(of_entry);
    refused.chain(granted).chain(planned).chain(kinds).chain(walked).collect()
}
