//! Readings in metres and kilometres through the library, pattern by pattern.

use std::ops::AddAssign;
use std::thread;

use compare::judge::Refusal;
use compare::random::Random;
use compare::reading::{Reading, Unit, LARGEST, UNITS};
use compare::spell;

use crate::tapes::SCANNED;
use crate::{library, watched, Count};

const SIGN: u32 = 1 << 31;
const MANTISSAS: u32 = 1 << 23;

/// As many readings as a tape of 65,536 bytes holds.
const MOST: u16 = 13_106;

/// What cells hold before a call; no reading gives it.
const UNTOUCHED: i32 = i32::MIN;

/// Cells of the lent slice after the points.
const SPARE: usize = 2;

/// What a scan's cells hold before a call.
const UNTOLD: [u64; SCANNED] = [u64::MAX; SCANNED];

/// The calls that take a tape, watched or as they are.
#[derive(Clone, Copy)]
struct Calls {
    scan: fn(&[u8], &mut [u64]) -> u8,
    fill: fn(&[u8], &mut [i32]) -> u8,
    open: fn(&[u8], &mut [i32], &mut [u64]) -> u8,
}

const WATCHED: Calls = Calls { scan: watched::scan, fill: watched::fill, open: watched::open };
const PLAIN: Calls = Calls { scan: library::scan, fill: library::fill, open: library::open };

/// A tape of readings along one axis, and what a slice holds before and after it is filled.
struct Log {
    tape: Vec<u8>,
    readings: u16,
    untouched: Vec<i32>,
    due: Vec<i32>,
    cells: Vec<i32>,
}

impl Log {
    /// Of zeros.
    fn new(unit: Unit, readings: u16) -> Log {
        let points = usize::from(readings);
        let zero = spell::reading(Reading { unit, bits: 0 });
        let tape = spell::tape(&[readings], 0, vec![zero; points]);
        let untouched = vec![UNTOUCHED; points + SPARE];
        let mut due = untouched.clone();
        due[..points].fill(0);
        Log { tape, readings, cells: untouched.clone(), untouched, due }
    }

    fn put(&mut self, place: usize, bits: u32, due: Result<i32, Refusal>) {
        // An axis, a p and the reading's own letter stand before its four bytes.
        let at = 3 + 2 + 5 * place + 1;
        self.tape[at..at + 4].copy_from_slice(&bits.to_le_bytes());
        self.due[place] = due.unwrap_or(UNTOUCHED);
    }

    /// What the calls answer, and all that they write.
    fn compare(&mut self, count: &mut Count, calls: Calls, due: Result<(), Refusal>) {
        let refusal = due.map_or_else(|Refusal(number)| number, |()| 0);
        self.scan(count, calls, refusal);
        self.fill(count, calls, refusal);
        self.open(count, calls, refusal);
    }

    fn scan(&self, count: &mut Count, calls: Calls, refusal: u8) {
        let mut scan = UNTOLD;
        let answer = (calls.scan)(&self.tape, &mut scan);
        count.note((answer, scan) == (refusal, self.told(refusal)), || {
            format!("scan of {}: {answer} {scan:?}, due {refusal}", self.shown())
        });
    }

    fn fill(&mut self, count: &mut Count, calls: Calls, refusal: u8) {
        self.cells.copy_from_slice(&self.untouched);
        let answer = (calls.fill)(&self.tape, &mut self.cells);
        count.note(answer == refusal && self.cells == self.written(refusal), || {
            let cell = self.difference(refusal);
            format!("fill from {}: {answer}, due {refusal}; {cell}", self.shown())
        });
    }

    fn open(&mut self, count: &mut Count, calls: Calls, refusal: u8) {
        self.cells.copy_from_slice(&self.untouched);
        let mut scan = UNTOLD;
        let answer = (calls.open)(&self.tape, &mut self.cells, &mut scan);
        let told = (answer, scan) == (refusal, self.told(refusal));
        count.note(told && self.cells == self.written(refusal), || {
            let cell = self.difference(refusal);
            format!("open of {}: {answer} {scan:?}, due {refusal}; {cell}", self.shown())
        });
    }

    /// A scan's cells after a call.
    fn told(&self, refusal: u8) -> [u64; SCANNED] {
        if refusal != 0 {
            return UNTOLD;
        }
        let readings = self.readings.into();
        // Beside the readings there are an axis, a p and an end.
        [1, 0, readings, readings + 3, readings, 0, 0, 0, 0, 0, 0, 0]
    }

    /// The lent slice after a call.
    fn written(&self, refusal: u8) -> &[i32] {
        if refusal == 0 {
            &self.due
        } else {
            &self.untouched
        }
    }

    fn difference(&self, refusal: u8) -> String {
        let mut cells = self.cells.iter().zip(self.written(refusal));
        format!("cell and due {:?}", cells.find(|(cell, due)| cell != due))
    }

    fn shown(&self) -> String {
        let end = self.tape.len().min(20);
        format!("{} readings {:02x?}", self.readings, &self.tape[..end])
    }
}

/// A unit's readings one to a tape, and those that are taken also many to a tape.
struct Trial {
    unit: Unit,
    calls: Calls,
    single: Log,
    many: Log,
    /// Where the next reading goes among many.
    place: usize,
}

impl Trial {
    fn new(unit: Unit, calls: Calls) -> Trial {
        Trial { unit, calls, single: Log::new(unit, 1), many: Log::new(unit, MOST), place: 0 }
    }

    fn due(&self, bits: u32) -> Result<i32, Refusal> {
        Reading { unit: self.unit, bits }.centimetres()
    }

    fn alone(&mut self, count: &mut Count, bits: u32, due: Result<i32, Refusal>) {
        self.single.put(0, bits, due);
        self.single.compare(count, self.calls, due.map(|_| ()));
    }

    fn among(&mut self, count: &mut Count, bits: u32, centimetres: i32) {
        self.many.put(self.place, bits, Ok(centimetres));
        self.place += 1;
        if self.place == usize::from(MOST) {
            self.last(count);
        }
    }

    /// The tape as it is: readings of the tape before it, or zeros, may still stand at its end.
    fn last(&mut self, count: &mut Count) {
        self.many.compare(count, self.calls, Ok(()));
        self.place = 0;
    }
}

/// Every sign and exponent with 4,096 mantissas, and the patterns around borders and halves.
pub fn check() -> Count {
    let mut count = Count::default();
    let random = &mut Random::new(1);
    for unit in UNITS {
        let centres = [borders(unit), halves(unit, 1_000), ties(random, unit, 100)].concat();
        let patterns = || spread().chain(centres.iter().flat_map(|&bits| around(bits, 64)));
        each_alone(&mut count, unit, patterns());
        each_among(&mut count, unit, patterns());
    }
    count
}

/// Single readings alone: around borders and ties, `n` ties of each size.
pub fn singles(seed: u64, n: u64) -> Count {
    few(seed, n, each_alone)
}

/// The same, many to a tape.
pub fn many(seed: u64, n: u64) -> Count {
    few(seed, n, each_among)
}

type Part = fn(&mut Count, Unit, std::vec::IntoIter<u32>);

fn few(seed: u64, n: u64, part: Part) -> Count {
    Count::of(seed, |count, random| {
        for unit in UNITS {
            let centres = [borders(unit), ties(random, unit, n)].concat();
            let patterns: Vec<u32> = centres.iter().flat_map(|&bits| around(bits, 1)).collect();
            part(count, unit, patterns.into_iter());
        }
    })
}

fn each_alone(count: &mut Count, unit: Unit, patterns: impl Iterator<Item = u32>) {
    let mut trial = Trial::new(unit, WATCHED);
    for bits in patterns {
        trial.alone(count, bits, trial.due(bits));
    }
}

/// Those that are taken.
fn each_among(count: &mut Count, unit: Unit, patterns: impl Iterator<Item = u32>) {
    let mut trial = Trial::new(unit, WATCHED);
    for bits in patterns {
        if let Ok(centimetres) = trial.due(bits) {
            trial.among(count, bits, centimetres);
        }
    }
    trial.last(count);
}

const MANTISSAS_TRIED: u32 = 4_096;

/// Of the mantissas, so many first and so many last are tried.
const AT_ENDS: u32 = 512;

/// 4,096 mantissas with every sign and exponent.
fn spread() -> impl Iterator<Item = u32> {
    let with = |field: u32| mantissas(field).map(move |mantissa| field * MANTISSAS + mantissa);
    (0..1 << 9).flat_map(with)
}

/// Between the first and the last ones some by strides that have no factor in common with their
/// number, 2^10 * 8,191, so that none comes twice; each field has others.
fn mantissas(field: u32) -> impl Iterator<Item = u32> {
    const STRIDE: u64 = 5_184_305;
    let (tried, between) = (MANTISSAS_TRIED - 2 * AT_ENDS, MANTISSAS - 2 * AT_ENDS);
    let stride = move |k| u64::from(k) * STRIDE % u64::from(between);
    let strides = (field * tried..(field + 1) * tried).map(move |k| AT_ENDS + stride(k) as u32);
    (0..AT_ENDS).chain(strides).chain(MANTISSAS - AT_ENDS..MANTISSAS)
}

/// Patterns so near to one, with both signs.
fn around(bits: u32, near: u32) -> impl Iterator<Item = u32> {
    let (first, last) = (bits.saturating_sub(near), (bits + near).min(SIGN - 1));
    (first..=last).flat_map(|bits| [bits, bits | SIGN])
}

fn of_centimetres(unit: Unit, centimetres: f64) -> u32 {
    Reading::of_centimetres(unit, centimetres).bits
}

/// Zero, the first that is not denormal, the first that does not give 0, the first that is past the
/// range or next to it, infinity and the last that is no number.
fn borders(unit: Unit) -> Vec<u32> {
    let given = [0.5, LARGEST.into()].map(|centimetres| of_centimetres(unit, centimetres));
    [&given[..], &[0, MANTISSAS, f32::INFINITY.to_bits(), SIGN - 1]].concat()
}

/// The first so many halves, or the floats next to them.
fn halves(unit: Unit, n: u32) -> Vec<u32> {
    (0..n).map(|below| of_centimetres(unit, f64::from(below) + 0.5)).collect()
}

/// Floats that are halves, so many of each size: odd multiples of half the scale's odd part.
fn ties(random: &mut Random, unit: Unit, n: u64) -> Vec<u32> {
    let scale = unit.in_centimetres();
    let step = f64::from(scale >> scale.trailing_zeros()) / 2.0;
    // A larger odd number is no float, or past the range.
    let most = (f64::from(LARGEST) / step).min(16_777_215.0) as u64;
    let sizes = (0..=most.ilog2()).flat_map(|size| (0..n).map(move |_| size));
    let odd = sizes.map(|size| ((1 << size) + random.below(1 << size)) | 1);
    odd.filter(|&odd| odd <= most).map(|odd| of_centimetres(unit, odd as f64 * step)).collect()
}

/// Readings as sets log them: some centimetres, up to 50 metres of either sign.
pub fn usual(random: &mut Random, unit: Unit) -> Reading {
    let centimetres = random.below(10_001) as f64 - 5_000.0;
    Reading::of_centimetres(unit, centimetres)
}

/// A usual one, or now and then any pattern, half of these not finite.
pub fn any(random: &mut Random) -> Reading {
    let unit = random.pick(&UNITS);
    match random.one_in(6) {
        true => {
            let field = random.pick(&[0, f32::INFINITY.to_bits()]);
            Reading { unit, bits: random.next() as u32 | field }
        }
        false => usual(random, unit),
    }
}

/// How many patterns give what.
#[derive(Default)]
struct Outcomes {
    whole: u64,
    not_finite: u64,
    past: u64,
    differences: u64,
}

impl AddAssign for Outcomes {
    fn add_assign(&mut self, other: Outcomes) {
        self.whole += other.whole;
        self.not_finite += other.not_finite;
        self.past += other.past;
        self.differences += other.differences;
    }
}

/// All 2^32 patterns of both units; gives how many calls came out otherwise than is due.
pub fn all() -> u64 {
    let mut differences = 0;
    for unit in UNITS {
        let Outcomes { whole, not_finite, past, differences: some } = all_of(unit);
        println!("{unit:?}: {whole} whole, {not_finite} refused by 14, {past} by 15");
        differences += some;
    }
    println!("differences: {differences}");
    differences
}

/// A thread for each sign.
fn all_of(unit: Unit) -> Outcomes {
    let mut outcomes = Outcomes::default();
    thread::scope(|scope| {
        let signs = [0, SIGN].map(|sign| scope.spawn(move || all_signed(unit, sign)));
        signs.into_iter().for_each(|half| outcomes += half.join().expect("a half is compared"));
    });
    outcomes
}

/// Those that are taken many to a tape, the others one to a tape.
fn all_signed(unit: Unit, sign: u32) -> Outcomes {
    let (mut outcomes, mut count) = (Outcomes::default(), Count::default());
    let mut trial = Trial::new(unit, PLAIN);
    for bits in (0..SIGN).map(|size| size | sign) {
        let due = trial.due(bits);
        match due {
            Ok(centimetres) => {
                outcomes.whole += 1;
                trial.among(&mut count, bits, centimetres);
            }
            Err(number) => {
                outcomes.not_finite += u64::from(number == Refusal(14));
                outcomes.past += u64::from(number == Refusal(15));
                trial.alone(&mut count, bits, due);
            }
        }
    }
    trial.last(&mut count);
    Outcomes { differences: count.failed, ..outcomes }
}
