//! Runs a program on a tape, as a process of its own.

use std::io::{self, Read};
use std::os::fd::{AsFd, OwnedFd};
use std::process::{Child, Command, ExitStatus, Stdio};
use std::sync::mpsc::{self, Receiver};
use std::time::{Duration, Instant};
use std::{hint, thread};

use crate::pieces::Pieces;

/// A program that takes longer is stopped.
pub const LONGEST_RUN: Duration = Duration::from_secs(20);

pub struct Answer {
    pub output: Vec<u8>,
    pub errors: Vec<u8>,
    pub status: ExitStatus,
}

pub fn run(command: &mut Command, tape: &[u8]) -> io::Result<Answer> {
    run_within(LONGEST_RUN, command, Pieces::whole(tape))
}

pub fn run_within(limit: Duration, command: &mut Command, tape: Pieces) -> io::Result<Answer> {
    Running::start(limit, command.stdout(Stdio::piped()), tape, Input::Ends)?.answer()
}

/// As from a terminal, where nobody ends the input before the program has ended.
pub fn run_open(limit: Duration, command: &mut Command, tape: Pieces) -> io::Result<Answer> {
    Running::start(limit, command.stdout(Stdio::piped()), tape, Input::StaysOpen)?.answer()
}

/// What stands on standard error, when the output goes elsewhere.
pub fn run_into(
    output: Stdio,
    command: &mut Command,
    tape: &[u8],
) -> io::Result<(Vec<u8>, ExitStatus)> {
    let tape = Pieces::whole(tape);
    Running::start(LONGEST_RUN, command.stdout(output), tape, Input::Ends)?.ended()
}

/// Whether the input ends with the tape, or not while the program runs.
enum Input {
    Ends,
    StaysOpen,
}

/// All pipes are served at once, so that none can fill up and wait.
struct Running {
    child: Child,
    errors: Receiver<Vec<u8>>,
    until: Instant,
    /// A second end to write to, for nothing but that the input stays open.
    _open: Option<OwnedFd>,
}

impl Running {
    fn start(
        limit: Duration,
        command: &mut Command,
        tape: Pieces,
        input: Input,
    ) -> io::Result<Running> {
        let mut child = command.stdin(Stdio::piped()).stderr(Stdio::piped()).spawn()?;
        let pipe = child.stdin.take().expect("input is piped");
        let open = match input {
            Input::Ends => None,
            Input::StaysOpen => Some(pipe.as_fd().try_clone_to_owned()?),
        };
        // A program may stop reading once the tape is too long, so a broken pipe is no fault.
        thread::spawn(move || tape.write(pipe).ok());
        let errors = read_all(child.stderr.take().expect("errors are piped"));
        Ok(Running { child, errors, until: Instant::now() + limit, _open: open })
    }

    /// Where the output is piped.
    fn answer(mut self) -> io::Result<Answer> {
        let output = read_all(self.child.stdout.take().expect("output is piped"));
        let output = self.received(&output)?;
        let (errors, status) = self.ended()?;
        Ok(Answer { output, errors, status })
    }

    fn received(&self, pipe: &Receiver<Vec<u8>>) -> io::Result<Vec<u8>> {
        let left = self.until.saturating_duration_since(Instant::now());
        pipe.recv_timeout(left).map_err(|_| too_slow())
    }

    /// A program can close its output long before it ends.
    fn ended(&mut self) -> io::Result<(Vec<u8>, ExitStatus)> {
        let errors = self.received(&self.errors)?;
        let begun = Instant::now();
        loop {
            if let Some(status) = self.child.try_wait()? {
                return Ok((errors, status));
            }
            if Instant::now() > self.until {
                return Err(too_slow());
            }
            wait_since(begun);
        }
    }
}

/// A process is mostly gone at once, and what is slept would count as its time.
fn wait_since(begun: Instant) {
    if begun.elapsed() < Duration::from_micros(300) {
        hint::spin_loop();
    } else {
        thread::sleep(Duration::from_micros(100));
    }
}

/// Whatever went wrong, no program is left behind.
impl Drop for Running {
    fn drop(&mut self) {
        self.child.kill().ok();
        self.child.wait().ok();
    }
}

fn read_all(mut pipe: impl Read + Send + 'static) -> Receiver<Vec<u8>> {
    let (sender, receiver) = mpsc::channel();
    thread::spawn(move || {
        let mut bytes = Vec::new();
        if pipe.read_to_end(&mut bytes).is_ok() {
            // Nobody listens any longer once the program was stopped.
            sender.send(bytes).ok();
        }
    });
    receiver
}

fn too_slow() -> io::Error {
    io::Error::new(io::ErrorKind::TimedOut, "no answer in time")
}
