//! A tape handed over in pieces, so that a program meets reads that give it less than it
//! asks for, at any place of the tape.

use std::io::{self, Write};
use std::thread;
use std::time::Duration;

use crate::random::Random;

pub struct Pieces {
    tape: Vec<u8>,
    lengths: Vec<usize>,
}

/// The longest piece, as one of these.
const LONGEST: [u64; 6] = [1, 3, 20, 300, 2000, 7000];

/// Pauses for a tape, and how long each is: a program that waits for more takes what it
/// has meanwhile.
const PAUSES: usize = 12;
const PAUSE: Duration = Duration::from_micros(300);

impl Pieces {
    pub fn whole(tape: &[u8]) -> Pieces {
        Pieces { tape: tape.to_vec(), lengths: vec![tape.len()] }
    }

    pub fn drawn(random: &mut Random, tape: &[u8]) -> Pieces {
        let longest = random.pick(&LONGEST);
        let (mut lengths, mut left) = (Vec::new(), tape.len());
        while left > 0 {
            let length = left.min(random.between(1, longest) as usize);
            lengths.push(length);
            left -= length;
        }
        Pieces { tape: tape.to_vec(), lengths }
    }

    pub fn count(&self) -> usize {
        self.lengths.len()
    }

    /// One write for each piece. The pauses stand at equal distances over the whole tape.
    pub fn write(&self, mut pipe: impl Write) -> io::Result<()> {
        let together = self.count().div_ceil(PAUSES + 1);
        let mut rest = &self.tape[..];
        for (number, &length) in self.lengths.iter().enumerate() {
            if number > 0 && number % together == 0 {
                thread::sleep(PAUSE);
            }
            let (piece, left) = rest.split_at(length);
            pipe.write_all(piece)?;
            rest = left;
        }
        Ok(())
    }
}
