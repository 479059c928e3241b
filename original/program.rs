//! The program `compared_calls`: it is started, given requests and asked for its answers.

use crate::calls::{Outcome, Request};
use std::io::{Read, Write};
use std::process::{Child, ChildStdin, ChildStdout, Command, Stdio};
use std::thread;

/// A run of the program. Its input is written by another thread than the one that reads its answers.
pub struct Program {
    child: Child,
    output: ChildStdout,
}

impl Program {
    pub fn start(command: &[String]) -> Result<(Program, ChildStdin), String> {
        let started = Command::new(&command[0])
            .args(&command[1..])
            .stdin(Stdio::piped())
            .stdout(Stdio::piped())
            .spawn();
        let mut child = started.map_err(|error| format!("{} cannot be run: {error}", command[0]))?;
        let input = child.stdin.take().ok_or("the program has no input")?;
        let output = child.stdout.take().ok_or("the program has no output")?;
        Ok((Program { child, output }, input))
    }

    /// The answers to these, fewer where the program ends before.
    pub fn answers<'a>(&mut self, asked: impl Iterator<Item = &'a Request>) -> Result<Vec<Outcome>, String> {
        let sizes: Vec<usize> = asked.map(Request::size).collect();
        let all = sizes.iter().sum();
        let mut bytes = Vec::with_capacity(all);
        let mut part = self.output.by_ref().take(all as u64);
        part.read_to_end(&mut bytes).map_err(|error| format!("the answers cannot be read: {error}"))?;
        let mut rest = &bytes[..];
        let next = |size| {
            let answer;
            (answer, rest) = rest.split_at_checked(size)?;
            Some(Outcome::read(answer))
        };
        Ok(sizes.into_iter().map_while(next).collect())
    }

    /// Waits for its end, once its input has ended; nothing may follow the last answer.
    pub fn end(mut self) -> Result<(), String> {
        let mut rest = [0];
        if self.output.read(&mut rest).unwrap_or(0) > 0 {
            self.stop();
            return Err("the program writes on after its last answer".into());
        }
        match self.child.wait() {
            Ok(status) if status.success() => Ok(()),
            Ok(status) => Err(format!("the program ends with {status}")),
            Err(error) => Err(format!("the program's status cannot be read: {error}")),
        }
    }

    /// Ends it at once.
    pub fn stop(mut self) {
        let _ = self.child.kill();
        let _ = self.child.wait();
    }
}

pub fn bytes_of<'a>(requests: impl Iterator<Item = &'a Request>) -> Vec<u8> {
    let mut bytes = Vec::new();
    requests.for_each(|request| request.put(&mut bytes));
    bytes
}

/// The answers to a few requests, by a run of its own; fewer where the program ends before.
pub fn asked(command: &[String], requests: &[Request]) -> Result<Vec<Outcome>, String> {
    let (mut program, mut input) = Program::start(command)?;
    let bytes = bytes_of(requests.iter());
    let writer = thread::spawn(move || input.write_all(&bytes));
    let answers = program.answers(requests.iter());
    program.stop();
    let _ = writer.join();
    answers
}
