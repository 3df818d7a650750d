//! The desks' command, run in a scratch folder.

use crate::random::Random;
use crate::text::{Kind, Outcome};
use std::fs::{self, File};
use std::io;
use std::path::{Path, PathBuf};
use std::process::{Command, Output, Stdio};

/// What a file may hold that is to be written; the last is longer than any record.
const BEFORE: [Option<&[u8]>; 3] = [None, Some(b"as it was"), Some(&[7; 20_000])];
/// What sanitizers say.
const ALARMS: [&str; 2] = ["Sanitizer", "runtime error:"];

/// How a text is handed over, and the record given.
pub struct Way {
    from_input: bool,
    to_output: bool,
    before: Option<&'static [u8]>,
}

impl Way {
    /// Mostly by files.
    pub fn any(random: &mut Random) -> Way {
        Way { from_input: random.once_in(8), to_output: random.once_in(8), before: random.pick(&BEFORE) }
    }
}

pub struct DeskCommand<'a> {
    command: &'a [String],
    text: PathBuf,
    record: PathBuf,
    pub runs: usize,
}

impl<'a> DeskCommand<'a> {
    /// Makes the folder, in which nothing else may be.
    pub fn new(command: &'a [String], folder: &Path) -> io::Result<DeskCommand<'a>> {
        fs::create_dir(folder)?;
        Ok(DeskCommand { command, text: folder.join("text"), record: folder.join("record"), runs: 0 })
    }

    /// Errs unless the command shows a record by this text.
    pub fn show(&mut self, kind: Kind, record: &[u8], text: &str) -> Result<(), String> {
        self.runs += 1;
        fs::write(&self.record, record).map_err(|error| error.to_string())?;
        let run = self.run(&["show", kind.word(), &self.record.to_string_lossy()], Stdio::null())?;
        if run.status.success() && run.stdout == text.as_bytes() && run.stderr.is_empty() {
            Ok(())
        } else {
            Err(format!("show says {} instead of \"{}\"", said(&run), start_of(text.as_bytes())))
        }
    }

    /// Errs unless the outcome of writing a text is this one.
    pub fn write(&mut self, kind: Kind, text: &[u8], way: &Way, outcome: &Outcome) -> Result<(), String> {
        self.runs += 1;
        self.lay_out(text, way).map_err(|error| error.to_string())?;
        let named = |file: &Path, piped| if piped { "-".into() } else { file.to_string_lossy().into_owned() };
        let (from, to) = (named(&self.text, way.from_input), named(&self.record, way.to_output));
        let input = match way.from_input {
            true => File::open(&self.text).map_err(|error| error.to_string())?.into(),
            false => Stdio::null(),
        };
        let run = self.run(&["write", kind.word(), &from, "-o", &to], input)?;
        let (status, record) = match outcome {
            Outcome::Written(record) => (0, Some(&record[..])),
            Outcome::Refused(_) => (1, None),
            Outcome::Slip(_) | Outcome::TooLong => (2, None),
        };
        let output = record.filter(|_| way.to_output).unwrap_or(&[]);
        let file = record.filter(|_| !way.to_output).or(way.before);
        let errors = String::from_utf8_lossy(&run.stderr);
        if run.status.code() != Some(status) || run.stdout != output || !says(&errors, outcome, &from) {
            return Err(format!("write says {}", said(&run)));
        }
        self.check_files(file)
    }

    /// Puts the text into its file, and into that of the record what it holds before.
    fn lay_out(&self, text: &[u8], way: &Way) -> io::Result<()> {
        fs::write(&self.text, text)?;
        match way.before {
            Some(before) => fs::write(&self.record, before),
            None if self.record.exists() => fs::remove_file(&self.record),
            None => Ok(()),
        }
    }

    /// Errs unless the record's file holds this, or is not there, and no other file was left.
    fn check_files(&self, record: Option<&[u8]>) -> Result<(), String> {
        let folder = self.text.parent().ok_or("no folder")?;
        let files = fs::read_dir(folder).map_err(|error| error.to_string())?.count();
        if fs::read(&self.record).ok().as_deref() == record && files == 1 + usize::from(record.is_some()) {
            Ok(())
        } else {
            Err("write leaves other files than it should".into())
        }
    }

    fn run(&self, words: &[&str], input: Stdio) -> Result<Output, String> {
        let (program, arguments) = self.command.split_first().ok_or("no command was given")?;
        let run = Command::new(program).args(arguments).args(words).stdin(input).output();
        let run = run.map_err(|error| format!("{program}: {error}"))?;
        match ALARMS.iter().find(|alarm| String::from_utf8_lossy(&run.stderr).contains(*alarm)) {
            Some(alarm) => Err(format!("{alarm} stands in what it says: {}", said(&run))),
            None => Ok(run),
        }
    }
}

/// Whether the errors are those of an outcome: none, or a line that begins as it should and goes on.
fn says(errors: &str, outcome: &Outcome, file: &str) -> bool {
    let opening = match outcome {
        Outcome::Written(_) => return errors.is_empty(),
        Outcome::Refused(number) => format!("tivelgor: refused {number} at 0: "),
        Outcome::Slip(slip) => format!("tivelgor: {file}:{}: ", slip.line),
        Outcome::TooLong => format!("tivelgor: {file}: "),
    };
    let line = errors.strip_suffix('\n').unwrap_or("");
    line.strip_prefix(&opening).is_some_and(|words| !words.is_empty() && !words.contains('\n'))
}

fn said(run: &Output) -> String {
    format!("\"{}\", \"{}\" as errors, {}", start_of(&run.stdout), start_of(&run.stderr), run.status)
}

/// As much of a text as is worth showing.
pub fn start_of(text: &[u8]) -> String {
    text[..text.len().min(1_000)].escape_ascii().to_string()
}
