//! Compares what the program `plan` prints with the rules, byte for byte.
//! Its arguments are a folder with an example, `stdin` and what is printed for it, `stdout`, and the command that runs
//! `plan`; `--compare-only` may come first.

use outside::arguments::compare_only;
use outside::call::Call;
use outside::plan_cases::input;
use outside::program::{output, parted, MOST_INPUT, TABLE_PLACES};
use outside::record::{number, MOST_NODES, MOST_RIDERS};
use outside::search::{needs, Needs};
use outside::tally::Tally;
use outside::walk_kinds;
use std::error::Error;
use std::io::{ErrorKind, Write};
use std::path::Path;
use std::process::{self, ChildStdin, Command, Stdio};
use std::time::Duration;
use std::{env, fs, io, thread};

const CASES: u64 = 1_000;
/// How often each outcome must have occurred.
const LEAST: usize = 5;
/// How many run at a time.
const WORKERS: u64 = 2;
/// Long enough for `plan` to start, and to wait for more than the first piece.
const FIRST_PAUSE: Duration = Duration::from_millis(120);
const PAUSE: Duration = Duration::from_millis(10);

/// Inputs that must have occurred as well.
const INPUT_KINDS: [&str; 5] = [
    "input too short to state a length",
    "input longer than what is taken",
    "stated length under 9",
    "stated length beyond the input",
    "input in pieces",
];

fn main() {
    let arguments: Vec<String> = env::args().skip(1).collect();
    match compare(&arguments) {
        Ok(()) => println!("outside: {CASES} runs of plan print what the rules say"),
        Err(error) => {
            println!("outside: {error}");
            process::exit(1);
        }
    }
}

fn compare(arguments: &[String]) -> Result<(), String> {
    let (compare_only, arguments) = compare_only(arguments);
    let (folder, command) = arguments.split_first().ok_or("no folder with an example was given")?;
    let [example, printed] = ["stdin", "stdout"].map(|name| {
        let file = Path::new(folder).join(name);
        fs::read(&file).map_err(|error| format!("{}: {error}", file.display()))
    });
    let (example, printed) = (example?, printed?);
    if !compare_only && output(&example).as_bytes() != printed {
        return Err(format!("the rules print something else than {folder} for its example"));
    }
    compare_input(command, vec![example]).map_err(|difference| format!("plan, example: {difference}"))?;
    let tally = compare_cases(command)?;
    if compare_only {
        return Ok(());
    }
    tally.check(&outcomes(), LEAST)
}

/// Says what occurred, if `plan` prints what it should in all cases.
fn compare_cases(command: &[String]) -> Result<Tally, String> {
    let work = |worker| (worker..CASES).step_by(WORKERS as usize).map(|case| compare_case(command, case)).collect();
    let occurred: Vec<Result<Vec<_>, String>> = thread::scope(|scope| {
        let workers: Vec<_> = (0..WORKERS).map(|worker| scope.spawn(move || work(worker))).collect();
        workers.into_iter().map(|worker| worker.join().expect("no worker fails")).collect()
    });
    let mut tally = Tally::default();
    for cases in occurred {
        cases?.into_iter().flatten().for_each(|what| tally.add(what));
    }
    Ok(tally)
}

/// Says what occurred, if `plan` prints what it should.
fn compare_case(command: &[String], case: u64) -> Result<Vec<String>, String> {
    compare_input(command, input(case)).map_err(|difference| format!("plan, case {case}: {difference}"))
}

fn compare_input(command: &[String], pieces: Vec<Vec<u8>>) -> Result<Vec<String>, String> {
    let input = pieces.concat();
    let expected = output(&input);
    let occurred = kinds(&input, pieces.len(), &expected);
    let run = run(command, pieces).map_err(|error| error.to_string())?;
    if run.status.success() && run.stderr.is_empty() && run.stdout == expected.as_bytes() {
        return Ok(occurred);
    }
    let shown: String = input.iter().take(200).map(|byte| format!("{byte:02X}")).collect();
    let [printed, errors] = [&run.stdout, &run.stderr].map(|text| String::from_utf8_lossy(text));
    Err(format!(
        "{}, printed {printed:?} instead of {expected:?} and {errors:?} as errors\n  input ({} bytes): {shown}",
        run.status,
        input.len()
    ))
}

fn kinds(input: &[u8], pieces: usize, printed: &str) -> Vec<String> {
    let stated = input.get(1..5).map(number);
    let words: Vec<&str> = printed.split_whitespace().take(2).collect();
    let outcome = if words[0] == "ok" { "ok".into() } else { words.join(" ") };
    let kinds = INPUT_KINDS.into_iter().zip([
        stated.is_none(),
        input.len() > MOST_INPUT,
        stated.is_some_and(|stated| stated < 9),
        stated.is_some_and(|stated| stated > input.len()),
        pieces > 1,
    ]);
    let mut search = search_of(input);
    let answer = search.answer();
    let kinds = kinds.filter(|(_, is)| *is).map(|(kind, _)| kind.into());
    kinds.chain([outcome]).chain(walk_kinds::kinds(&search, answer)).collect()
}

/// The search that an input asks for.
fn search_of(input: &[u8]) -> Call {
    let (network, request) = parted(&input[..input.len().min(MOST_INPUT)]);
    let Needs { distances, steps, .. } = needs(MOST_NODES, MOST_RIDERS);
    Call::Search {
        network: network.to_vec(),
        request: request.to_vec(),
        distances: vec![0; distances],
        table: vec![0; TABLE_PLACES],
        steps: vec![0; steps],
    }
}

/// All that must occur.
fn outcomes() -> Vec<String> {
    let refusals = (1..=6).chain(11..=17).chain([22, 24]).map(|number| format!("refused {number}"));
    let walked = format!("search {}", walk_kinds::BACKWARDS);
    refusals.chain(["ok".into(), walked]).chain(INPUT_KINDS.map(String::from)).collect()
}

fn run(command: &[String], pieces: Vec<Vec<u8>>) -> Result<process::Output, Box<dyn Error>> {
    let (program, arguments) = command.split_first().ok_or("no command was given")?;
    let pipe = Stdio::piped;
    let mut plan = Command::new(program).args(arguments).stdin(pipe()).stdout(pipe()).stderr(pipe()).spawn()?;
    let stdin = plan.stdin.take().ok_or("plan has no input")?;
    let writer = thread::spawn(|| hand_over(stdin, pieces));
    let output = plan.wait_with_output()?;
    writer.join().map_err(|_| "the writer failed")??;
    Ok(output)
}

fn hand_over(mut stdin: ChildStdin, pieces: Vec<Vec<u8>>) -> io::Result<()> {
    for (i, piece) in pieces.iter().enumerate() {
        match i {
            0 => {}
            1 => thread::sleep(FIRST_PAUSE),
            _ => thread::sleep(PAUSE),
        }
        match stdin.write_all(piece) {
            // It need not read to the end of what is too long.
            Err(error) if error.kind() == ErrorKind::BrokenPipe => return Ok(()),
            written => written?,
        }
    }
    Ok(())
}
