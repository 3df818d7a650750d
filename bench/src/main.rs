//! Times the desk's search beside the baseline, and prints the ratio. It is linked with the desk's archive.

mod grow;
mod networks;

use grow::Grow;
use networks::{settings, Setting, NETWORKS};
use outside::search::needs;
use std::time::{Duration, Instant};

/// How often each search is run; the median counts.
const RUNS: usize = 9;

#[link(name = "desk", kind = "static")]
extern "C" {
    fn tivelgor_search(
        network: *const u8,
        network_length: usize,
        request: *const u8,
        request_length: usize,
        distances: *mut u32,
        distances_length: usize,
        table: *mut u64,
        table_length: usize,
        steps: *mut u16,
        steps_length: usize,
    ) -> u64;
}

/// The rooms of one side, which are lent to each of its runs.
struct Rooms {
    distances: Vec<u32>,
    table: Vec<u64>,
    steps: Vec<u16>,
}

impl Rooms {
    fn new(n: usize, l: usize) -> Rooms {
        let needs = needs(n, l);
        Rooms { distances: vec![0; needs.distances], table: vec![0; needs.table], steps: vec![0; needs.steps] }
    }
}

fn main() {
    println!("| network | nodes | riders | desk, ms | baseline, ms | ratio |\n|---|---|---|---|---|---|");
    for setting in settings() {
        let Setting { shape, nodes, riders } = setting;
        let (desk, baseline) = measure(setting);
        let ratio = desk.as_secs_f64() / baseline.as_secs_f64();
        let [desk, baseline] = [desk, baseline].map(|time| 1_000.0 * time.as_secs_f64() / NETWORKS as f64);
        println!("| {shape:?} | {nodes} | {riders} | {desk:.3} | {baseline:.3} | {ratio:.2} |");
    }
}

/// The times of the desk and of the baseline for all networks of a setting.
fn measure(setting: Setting) -> (Duration, Duration) {
    let (mut desk, mut baseline) = (Duration::ZERO, Duration::ZERO);
    let mut grow = Grow::default();
    let [mut ours, mut theirs] = [(); 2].map(|()| Rooms::new(setting.nodes, setting.riders));
    for number in 0..NETWORKS {
        let (network, request) = setting.records(number);
        // The two take turns, so that whatever else the machine does falls on both.
        let runs = [(); RUNS].map(|()| {
            let (answer, desk) = timed(|| desk_search(&network, &request, &mut ours));
            let (value, baseline) = timed(|| grow.search(&network, &request, &mut theirs.distances, &mut theirs.table));
            assert!(answer == value && ours.distances == theirs.distances && ours.table == theirs.table);
            (desk, baseline)
        });
        desk += median(runs.map(|run| run.0));
        baseline += median(runs.map(|run| run.1));
    }
    (desk, baseline)
}

fn timed(search: impl FnOnce() -> u64) -> (u64, Duration) {
    let start = Instant::now();
    let answer = search();
    (answer, start.elapsed())
}

fn median(mut times: [Duration; RUNS]) -> Duration {
    times.sort();
    times[RUNS / 2]
}

fn desk_search(network: &[u8], request: &[u8], rooms: &mut Rooms) -> u64 {
    // SAFETY: each part is that of a live slice, and those that are written are borrowed alone.
    unsafe {
        tivelgor_search(
            network.as_ptr(),
            network.len(),
            request.as_ptr(),
            request.len(),
            rooms.distances.as_mut_ptr(),
            rooms.distances.len(),
            rooms.table.as_mut_ptr(),
            rooms.table.len(),
            rooms.steps.as_mut_ptr(),
            rooms.steps.len(),
        )
    }
}
