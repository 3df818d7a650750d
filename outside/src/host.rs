//! The host that makes the calls: a program of its own, which calls go to and answers come from.

use std::error::Error;
use std::io::{self, Read};
use std::process::{Child, ChildStdin, ChildStdout, Command, Stdio};

pub struct Host(Child);

impl Host {
    /// Starts the host by a command with its arguments, and gives the two ends by which to speak with it.
    pub fn start(command: &[String]) -> Result<(Host, ChildStdin, Answers), Box<dyn Error>> {
        let (program, arguments) = command.split_first().ok_or("no command was given")?;
        let mut host = Command::new(program).args(arguments).stdin(Stdio::piped()).stdout(Stdio::piped()).spawn()?;
        let calls = host.stdin.take().ok_or("the host has no input")?;
        let answers = host.stdout.take().ok_or("the host has no output")?;
        Ok((Host(host), calls, Answers(answers)))
    }

    /// Errs unless the host, whose input has ended, says no more and ends well.
    pub fn end(mut self, mut answers: Answers) -> Result<(), Box<dyn Error>> {
        let silent = answers.0.read(&mut [0])? == 0;
        let well = self.0.wait()?.success();
        if silent && well {
            Ok(())
        } else {
            Err("the host did not end as it should".into())
        }
    }
}

pub struct Answers(ChildStdout);

impl Answers {
    /// The next answer, with all memory as the call left it.
    pub fn next(&mut self, memory_length: usize) -> io::Result<(u64, Vec<u8>)> {
        let mut answer = [0; 8];
        self.0.read_exact(&mut answer)?;
        let mut memory = vec![0; memory_length];
        self.0.read_exact(&mut memory)?;
        Ok((u64::from_le_bytes(answer), memory))
    }
}
