//! A program whose output nobody takes just ends: it does not hang, says nothing on standard
//! error, and no signal stops it but the one for a broken pipe.

use std::fs::File;
use std::io::{self, Read};
use std::os::unix::process::ExitStatusExt;
use std::process::{Command, ExitStatus, Stdio};
use std::thread;

use super::difference::on_errors;
use super::handed::cannot_run;
use super::patience::Patience;
use super::Case;
use crate::program;

const SIGPIPE: i32 = 13;

type Output = fn(&str) -> io::Result<(Command, Stdio)>;

const OUTPUTS: [(&str, Output); 4] = [
    ("output closed", closed),
    ("output full", full),
    ("output that nobody reads", unread),
    ("output that is read in part", left),
];

/// Each input into each of these outputs. An input has a word for what is printed for it.
pub fn cases(program: &str, patience: &Patience, inputs: &[(&str, Vec<u8>)]) -> Vec<Case> {
    let mut cases = Vec::new();
    for (printed, input) in inputs {
        for (name, output) in OUTPUTS {
            let run = || {
                let (mut command, output) = output(program)?;
                program::run_into(output, &mut command, input)
            };
            let fault = match patience.run(run) {
                Ok((errors, status)) => fault(&errors, status),
                Err(error) => Some(cannot_run(error)),
            };
            cases.push(Case { name: format!("{name}, {printed}"), fault });
        }
    }
    cases
}

/// Only a shell can close it.
fn closed(program: &str) -> io::Result<(Command, Stdio)> {
    let mut shell = Command::new("sh");
    shell.args(["-c", "exec \"$0\" >&-", program]);
    Ok((shell, Stdio::null()))
}

fn full(program: &str) -> io::Result<(Command, Stdio)> {
    let full = File::options().write(true).open("/dev/full")?;
    Ok((Command::new(program), full.into()))
}

fn unread(program: &str) -> io::Result<(Command, Stdio)> {
    let (reader, writer) = io::pipe()?;
    drop(reader);
    Ok((Command::new(program), writer.into()))
}

fn left(program: &str) -> io::Result<(Command, Stdio)> {
    let (mut reader, writer) = io::pipe()?;
    thread::spawn(move || reader.read_exact(&mut [0; 5]).ok());
    Ok((Command::new(program), writer.into()))
}

pub fn fault(errors: &[u8], status: ExitStatus) -> Option<String> {
    if !errors.is_empty() {
        return Some(on_errors(errors));
    }
    let stopped = status.signal().is_some_and(|signal| signal != SIGPIPE);
    stopped.then(|| format!("  stopped: {status}"))
}
