//! Small exercises whole, how larger ones begin, what is refused, and draws, as an antt module.

use super::{drawn, draws, generate, halvings, Exercise};
use crate::random::Random;
use crate::shape::Shape;
use crate::table::{list, row_group, signed};

const OPENING: &str = "\
-- Practice campaigns: what is printed for what is read, byte by byte; how larger exercises begin; and draws. Written by
-- `compare table practice`, which splits the input at its first line feed and draws by products and quotients of wide numbers.
use Prim.Native.Nat.{ℕ}
use mathlib.Core.List.{List, [], ◌∷◌}
use lib.IntN.{ℤ, pos, negsuc}

-- all that is printed, a tape or a refusal line
pub record Row : Type 0 where
  pub input : List ℕ
  pub output : List ℕ

-- an exercise with the number of its points, and the first three of them
pub record Start : Type 0 where
  pub seed : ℕ
  pub lengths : List ℕ
  pub p : ℕ
  pub count : ℕ
  pub first : List ℤ

-- the first draws
pub record Draws : Type 0 where
  pub seed : ℕ
  pub draws : List ℕ
";

pub fn module() -> String {
    let rows = |inputs: Vec<Vec<u8>>| inputs.iter().map(|input| row(input)).collect::<Vec<_>>();
    let starts: Vec<String> = starts().into_iter().map(start).collect();
    let groups = [
        row_group("small", SMALL, "Row", &rows(small())),
        row_group("lines", LINES, "Row", &rows(lines())),
        row_group("refusals", REFUSALS, "Row", &rows(refusals())),
        row_group("starts", STARTS, "Start", &starts),
        row_group("published", PUBLISHED, "Draws", &published()),
    ];
    OPENING.to_string() + &groups.concat()
}

/// What is read in each row, and the seed lines of the larger exercises.
pub fn inputs() -> Vec<Vec<u8>> {
    let starts = starts().into_iter().map(line).collect();
    [small(), lines(), refusals(), starts].concat()
}

fn row(input: &[u8]) -> String {
    format!("record {{ input = {}; output = {} }}", list(input), list(&generate(input)))
}

fn line(seed: u32) -> Vec<u8> {
    format!("{seed}\n").into_bytes()
}

const SMALL: &str = "tapes of at most 60 bytes: each number of axes with each p, the last seeds, and lengths or points that are seldom drawn";

const SMALL_TAPE: usize = 60;

/// The first of each number of axes with each p, the last of each number of axes, and the first of
/// those that a wrong generator may print otherwise.
fn small() -> Vec<Vec<u8>> {
    let up = || 1..=u32::MAX;
    let mut seeds = Vec::new();
    for axes in 1..=4 {
        let with_p = |p| first(up(), |drawn| drawn.axes() == axes && drawn.shape.p == p);
        seeds.extend((0..=3).map(with_p));
    }
    seeds.extend((1..=4).map(|axes| first(up().rev(), |drawn| drawn.axes() == axes)));
    let not_halved = |drawn: &Exercise| halvings(&drawn.shape.lengths) == 0;
    seeds.extend([1, 2].map(|axes| first(up(), |it| it.axes() == axes && not_halved(it))));
    // The logs of 3 and 3 add up to less than that of their product.
    seeds.extend([1, 2].map(|p| first(up(), |drawn| drawn.shape == Shape::new(&[3, 3], p))));
    seeds.push(first(up(), |drawn| drawn.points.windows(2).any(|pair| pair[0] == pair[1])));
    seeds.extend([0, -1_000, 1_000].map(|point| first(up(), |it| it.points.contains(&point))));
    seeds.into_iter().map(line).collect()
}

/// The first seed whose tape is small and as it should be.
fn first(mut seeds: impl Iterator<Item = u32>, is: impl Fn(&Exercise) -> bool) -> u32 {
    let is_small = |drawn: &Exercise| drawn.tape().len() <= SMALL_TAPE;
    let found = seeds.find(|&seed| Some(drawn(seed)).filter(is_small).is_some_and(|it| is(&it)));
    found.expect("small tapes of every kind")
}

const LINES: &str = "ten digits, leading zeros up to ten digits, and bytes after the line feed, another seed line among them";

fn lines() -> Vec<Vec<u8>> {
    let inputs: [&[u8]; 17] = [
        b"2147483648\n",
        b"025\n",
        b"00025\n",
        b"000000025\n",
        b"0000000025\n",
        b"25\n\n",
        b"25\n5\n",
        b"25\n0",
        b"25\n0\n",
        b"25\n4294967296\n",
        b"25\nx",
        b"25\n -1\r\n",
        b"25\n\r",
        b"25\n\0",
        b"25\n\xff\xfe\x80",
        b"25\n12345678901234567890123456789012345678901234567890",
        b"0000000025\n5",
    ];
    inputs.map(<[u8]>::to_vec).to_vec()
}

const REFUSALS: &str = "0, numbers over 4294967295, and input that does not open with one to ten digits and a line feed";

fn refusals() -> Vec<Vec<u8>> {
    let inputs: [&[u8]; 48] = [
        b"0\n",
        b"00\n",
        b"0000000000\n",
        b"4294967296\n",
        b"4294967297\n",
        b"4294967321\n",
        b"8589934617\n",
        b"9999999999\n",
        b"00000000025\n",
        b"00000000000\n",
        b"42949672950\n",
        b"18446744073709551641\n",
        b"",
        b"\n",
        b"\n25\n",
        b"2",
        b"25",
        b"2147483648",
        b"0000000025",
        b"00000000025",
        b"25\r",
        b"25\r\n",
        b"\r25\n",
        b"2\r5\n",
        b"25\x0b",
        b"25\0",
        b"25\0\n",
        b"\x0025\n",
        b"+25\n",
        b"-25\n",
        b"-0\n",
        b"25+\n",
        b" 25\n",
        b"25 \n",
        b"2 5\n",
        b"\t25\n",
        b"25\t\n",
        b"x\n",
        b"25x\n",
        b"0x19\n",
        b"1f\n",
        b"2.5\n",
        b"2,500\n",
        b"2/\n",
        b"2:\n",
        b"2\xb5\n",
        b"\xff\n",
        b"\xef\xbc\x92\xef\xbc\x95\n",
    ];
    inputs.map(<[u8]>::to_vec).to_vec()
}

const STARTS: &str = "how exercises begin: of some seeds, of the first seed that draws 9, 9, 9, 9 with each p, and of any seeds";

fn starts() -> Vec<u32> {
    let mut seeds = vec![1, 2, 3, 7, 2_463_534_242, u32::MAX, 1 << 31, u32::MAX - 1, 1 << 16];
    seeds.extend((0..=3).map(first_of_longest));
    let mut random = Random::new(11);
    let any = std::iter::repeat_with(|| random.next() as u32);
    seeds.extend(any.filter(|&seed| seed > 0 && drawn(seed).points.len() >= 3).take(18));
    seeds
}

/// The seed line of a tape that no other is longer than.
pub fn longest() -> Vec<u8> {
    line(first_of_longest(0))
}

fn first_of_longest(p: u8) -> u32 {
    let longest = Shape::new(&[9; 4], p);
    let is = |&seed: &u32| super::shape(&mut draws(seed)) == longest;
    (1..=u32::MAX).find(is).expect("every shape is drawn")
}

fn start(seed: u32) -> String {
    let Exercise { shape: Shape { lengths, p }, points } = drawn(seed);
    let first: Vec<String> = points.iter().take(3).map(|&point| signed(point.into())).collect();
    let (lengths, count, first) = (list(&lengths), points.len(), list(&first));
    format!("record {{ seed = {seed}; lengths = {lengths}; p = {p}; count = {count}; first = {first} }}")
}

const PUBLISHED: &str =
    "the published draws of 2463534242, the seed of Marsaglia's \"Xorshift RNGs\", and then those of other seeds";

/// As published, and not worked out here.
const MARSAGLIAS: (u32, [u64; 10]) = (
    2_463_534_242,
    [
        723_471_715,
        2_497_366_906,
        2_064_144_800,
        2_008_045_182,
        3_532_304_609,
        374_114_282,
        1_350_636_274,
        691_148_861,
        746_858_951,
        2_653_896_249,
    ],
);

fn published() -> Vec<String> {
    let row =
        |seed: u32, draws: &[u64]| format!("record {{ seed = {seed}; draws = {} }}", list(draws));
    let worked_out = |seed| row(seed, &draws(seed).take(8).collect::<Vec<u64>>());
    let (seed, published) = MARSAGLIAS;
    let mut rows = vec![row(seed, &published)];
    rows.extend([1, 1 << 31, u32::MAX].map(worked_out));
    rows
}
