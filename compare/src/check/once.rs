//! An output that fails once and then takes more: nothing may follow a write that failed, since
//! what has its end counts as whole, a report by its last line and a tape by its last command.

use std::fs::File;
use std::io::{self, ErrorKind, Read, Write};
use std::os::fd::{AsFd, AsRawFd};
use std::os::unix::fs::OpenOptionsExt;
use std::process::Command;

use super::handed::cannot_run;
use super::patience::Patience;
use super::shut;
use super::Case;
use crate::program;

/// A write that finds no room fails and does not wait. The number is Linux's.
const O_NONBLOCK: i32 = 0o4000;

const PAGE: usize = 4096;

/// Every room that what is due does not fit in, so that, however a program cuts what it writes, each
/// of its writes is once the first that finds too little room; a shorter one after it may find
/// enough.
pub fn cases(program: &str, patience: &Patience, input: &[u8], due: &[u8]) -> Vec<Case> {
    let case = |room| {
        let fault = match patience.run(|| fault_with_room(program, input, due, room)) {
            Ok(fault) => fault,
            Err(error) => Some(cannot_run(error)),
        };
        Case { name: format!("output that fails once, after {room} bytes"), fault }
    };
    (0..due.len()).map(case).collect()
}

fn fault_with_room(
    program: &str,
    input: &[u8],
    due: &[u8],
    room: usize,
) -> io::Result<Option<String>> {
    let mut pipe = Pipe::with_room(room)?;
    let output = pipe.writer.try_clone()?.into();
    let (errors, status) = program::run_into(output, &mut Command::new(program), input)?;
    let taken = pipe.taken_from_program()?;
    Ok(shut::fault(&errors, status).or_else(|| fault_unless_beginning(due, &taken)))
}

fn fault_unless_beginning(due: &[u8], taken: &[u8]) -> Option<String> {
    let begins = due.starts_with(taken);
    (!begins).then(|| format!("  after a write that failed: {}", taken.escape_ascii()))
}

/// Nobody reads it while the program runs.
struct Pipe {
    reader: File,
    writer: File,
    filled: usize,
}

impl Pipe {
    /// The room is in the last page of the pipe: what fits in there is taken, and what does not
    /// finds no other page, so that none of it is taken.
    fn with_room(room: usize) -> io::Result<Pipe> {
        let (reader, writer) = io::pipe()?;
        let reader = reopened_never_to_wait(&reader, File::options().read(true))?;
        let writer = reopened_never_to_wait(&writer, File::options().write(true))?;
        let mut pipe = Pipe { reader, writer, filled: 0 };
        while none_for_waiting(pipe.writer.write(&[0; PAGE]))? > 0 {}
        pipe.filled = pipe.read_all()?.len() - room;
        pipe.writer.write_all(&vec![0; pipe.filled])?;
        Ok(pipe)
    }

    fn taken_from_program(&mut self) -> io::Result<Vec<u8>> {
        let mut bytes = self.read_all()?;
        Ok(bytes.split_off(self.filled))
    }

    fn read_all(&mut self) -> io::Result<Vec<u8>> {
        let mut bytes = Vec::new();
        let mut page = [0; PAGE];
        loop {
            match none_for_waiting(self.reader.read(&mut page))? {
                0 => return Ok(bytes),
                count => bytes.extend_from_slice(&page[..count]),
            }
        }
    }
}

/// The bytes read or written: none where that would have had to wait.
fn none_for_waiting(count: io::Result<usize>) -> io::Result<usize> {
    match count {
        Err(error) if error.kind() == ErrorKind::WouldBlock => Ok(0),
        count => count,
    }
}

fn reopened_never_to_wait(end: &impl AsFd, options: &mut std::fs::OpenOptions) -> io::Result<File> {
    let path = format!("/proc/self/fd/{}", end.as_fd().as_raw_fd());
    options.custom_flags(O_NONBLOCK).open(path)
}
