//! Compares what the desks' command shows of records, and what it makes of texts, sound and damaged, with the rules.
//! Its arguments are the words by which the command is run.

use outside::desk_command::{start_of, DeskCommand, Way};
use outside::random::Random;
use outside::tally::Tally;
use outside::text::{outcome, shown, Kind, Outcome, EXPECTED};
use outside::text_cases::{damaged, edge, sound, Damaged, EDGES};
use outside::text_damage::DAMAGES;
use std::path::Path;
use std::{env, fs, process, thread};

const SOUND: u64 = 100;
const DAMAGED: u64 = 2_000;
/// How often each outcome must have occurred.
const LEAST: usize = 8;
/// How many run at a time.
const WORKERS: u64 = 2;

fn main() {
    let command: Vec<String> = env::args().skip(1).collect();
    let scratch = env::temp_dir().join(format!("tivelgor-text-{}", process::id()));
    let compared = fs::create_dir(&scratch).map_err(|error| error.to_string()).and_then(|()| {
        let compared = compare(&command, &scratch);
        fs::remove_dir_all(&scratch).map_err(|error| error.to_string())?;
        compared
    });
    match compared {
        Ok(runs) => println!("outside: {runs} runs of the command show and write what the rules say"),
        Err(error) => {
            println!("outside: {error}");
            process::exit(1);
        }
    }
}

/// Says how many runs there were, if all went as they should and nothing was left out.
fn compare(command: &[String], scratch: &Path) -> Result<usize, String> {
    let work = |worker: u64| compare_cases(command, &scratch.join(worker.to_string()), worker);
    let done: Vec<Result<_, String>> = thread::scope(|scope| {
        let workers: Vec<_> = (0..WORKERS).map(|worker| scope.spawn(move || work(worker))).collect();
        workers.into_iter().map(|worker| worker.join().expect("no worker fails")).collect()
    });
    let (mut runs, mut tally) = (0, Tally::default());
    for worker in done {
        let (more_runs, occurred) = worker?;
        runs += more_runs;
        occurred.into_iter().for_each(|what| tally.add(what));
    }
    tally.check(&outcomes(), LEAST)?;
    Ok(runs)
}

/// Says how many runs a worker made, and what occurred.
fn compare_cases(command: &[String], folder: &Path, worker: u64) -> Result<(usize, Vec<String>), String> {
    let mut command = DeskCommand::new(command, folder).map_err(|error| error.to_string())?;
    let mine = |cases: u64| (worker..cases).step_by(WORKERS as usize);
    for case in mine(SOUND) {
        let (kind, record, text) = sound(case);
        compare_both(&mut command, kind, &record, &text).map_err(|error| format!("text, record {case}: {error}"))?;
    }
    for case in mine(EDGES) {
        compare_text(&mut command, &edge(case), case).map_err(|error| format!("text, edge {case}: {error}"))?;
    }
    let mut occurred = Vec::new();
    for case in mine(DAMAGED) {
        let text = compare_text(&mut command, &damaged(case), case);
        occurred.extend(text.map_err(|error| format!("text, case {case}: {error}"))?);
    }
    Ok((command.runs, occurred))
}

/// Errs unless the record is shown by this text, and written from it.
fn compare_both(command: &mut DeskCommand, kind: Kind, record: &[u8], text: &str) -> Result<(), String> {
    let written = Outcome::Written(record.to_vec());
    if outcome(kind, text.as_bytes()) != written {
        return Err(format!("by the rules, this is not the text of its record:\n{text}"));
    }
    command.show(kind, record, text)?;
    command.write(kind, text.as_bytes(), &Way::any(&mut Random::new(record.len() as u64)), &written)
}

/// Says what occurred, if the command makes of the text what it should.
fn compare_text(command: &mut DeskCommand, text: &Damaged, case: u64) -> Result<Vec<String>, String> {
    let Damaged { kind, text, damage } = text;
    let outcome = outcome(*kind, text);
    let compared = command.write(*kind, text, &Way::any(&mut Random::new(case)), &outcome);
    compared.map_err(|error| {
        let line = if let Outcome::Slip(slip) = &outcome { format!(" in line {}", slip.line) } else { String::new() };
        let done = format!("damage: {}; by the rules: {}{line}", damage.join(", "), named(&outcome));
        format!("{error}\n  {done}\n  {} text ({} bytes): {}", kind.word(), text.len(), start_of(text))
    })?;
    if let Outcome::Written(record) = &outcome {
        let again = shown(*kind, record).ok_or("the reader refuses what was written")?;
        compare_both(command, *kind, record, &again)?;
    }
    let result = format!("{} {}", kind.word(), named(&outcome));
    Ok(damage.iter().map(|name| name.to_string()).chain([result]).collect())
}

fn named(outcome: &Outcome) -> String {
    match outcome {
        Outcome::Written(_) => "written".into(),
        Outcome::Refused(number) => format!("refused {number}"),
        Outcome::Slip(slip) => format!("slip, {} expected", slip.expected),
        Outcome::TooLong => "too long".into(),
    }
}

/// All that must occur.
fn outcomes() -> Vec<String> {
    let slips = EXPECTED.map(|expected| format!("slip, {expected} expected"));
    let results: Vec<String> =
        ["written", "refused 81", "refused 82"].map(String::from).into_iter().chain(slips).collect();
    let of = |kind: Kind| results.iter().map(move |result| format!("{} {result}", kind.word()));
    let all = of(Kind::Network).chain(of(Kind::Request)).chain(DAMAGES.map(|(name, _)| name.into()));
    // No cost is expected in a request.
    all.filter(|what| what != "request slip, a cost expected").collect()
}
