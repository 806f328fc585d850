//! Tapes made from a seed: lawful ones of all shapes, and damaged ones for every
//! refusal that the program can give.

mod accepted;
mod campaign;
mod damage;
mod long;
mod readings;
mod refused;
mod several;
mod shapes;

use std::path::Path;
use std::{fs, io};

use crate::random::Random;
use crate::totals;

/// What the maker of a tape knows of its outcome, apart from the engine.
#[derive(Clone, Copy, Debug, PartialEq, Eq)]
pub enum Due {
    Accepted,
    Refused(u8),
    Open,
}

pub struct Made {
    pub kind: &'static str,
    pub due: Due,
    pub tape: Vec<u8>,
}

type Tape = Vec<u8>;

/// How a kind of tape is made.
enum Maker {
    Accepted(fn(&mut Random) -> Tape),
    Refused(u8, fn(&mut Random) -> Tape),
    Open(fn(&mut Random) -> Tape),
    /// The first of several refusals is found while the tape is made.
    Several(fn(&mut Random) -> (Tape, u8)),
}

type Kind = (&'static str, Maker);

fn kinds() -> impl Iterator<Item = &'static Kind> + Clone {
    let form = [accepted::KINDS, long::KINDS, damage::KINDS];
    let content = [readings::KINDS, refused::KINDS, several::KINDS];
    form.into_iter().chain(content).flatten()
}

pub fn kind_count() -> usize {
    kinds().count()
}

/// Kinds come in turn, so that every one is made before any comes again. One that is listed twice
/// comes twice as often.
pub fn made(seed: u64, index: u64) -> Made {
    let mut random = Random::nth(seed, index);
    let kind = kinds().cycle().nth(index as usize % kind_count());
    let (kind, maker) = kind.expect("there are kinds");
    let (tape, due) = match maker {
        Maker::Accepted(make) => (make(&mut random), Due::Accepted),
        Maker::Refused(number, make) => (make(&mut random), Due::Refused(*number)),
        Maker::Open(make) => (make(&mut random), Due::Open),
        Maker::Several(make) => {
            let (tape, number) = make(&mut random);
            (tape, Due::Refused(number))
        }
    };
    Made { kind, due, tape }
}

/// Each tape beside what the program should print for it.
pub fn write(seed: u64, count: u64, folder: &Path) -> io::Result<()> {
    fs::create_dir_all(folder)?;
    for index in 0..count {
        let tape = made(seed, index).tape;
        fs::write(folder.join(format!("{index:05}.tape")), &tape)?;
        fs::write(folder.join(format!("{index:05}.out")), totals::printed(&tape))?;
    }
    Ok(())
}
