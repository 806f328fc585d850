//! This program, and others, as processes.

use std::fs;
use std::os::unix::fs::PermissionsExt;
use std::path::PathBuf;
use std::process::{Command, Output};

use compare::program::{self, Answer};

pub const PROGRAM: &str = env!("CARGO_BIN_EXE_compare");

pub fn compare(words: &[&str]) -> Output {
    Command::new(PROGRAM).args(words).output().unwrap()
}

/// With something on standard input.
pub fn compare_on(words: &[&str], input: &[u8]) -> Answer {
    program::run(Command::new(PROGRAM).args(words), input).unwrap()
}

pub fn text(bytes: &[u8]) -> String {
    String::from_utf8(bytes.to_vec()).unwrap()
}

pub fn temporary(name: &str) -> PathBuf {
    PathBuf::from(env!("CARGO_TARGET_TMPDIR")).join(name)
}

/// A program to be checked, as a shell script.
pub fn script(name: &str, body: &str) -> String {
    let path = temporary(name);
    fs::write(&path, format!("#!/bin/sh\n{body}\n")).unwrap();
    fs::set_permissions(&path, fs::Permissions::from_mode(0o755)).unwrap();
    path.to_str().unwrap().to_string()
}

pub fn last_line(output: &Output) -> String {
    text(&output.stdout).lines().last().unwrap().to_string()
}
