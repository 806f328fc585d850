//! Axes with the lengths of their portions, as an antt module.

use super::dealt;
use crate::table::{list, row_group};

const OPENING: &str = "\
-- Axes cut in portions, each portion's positions counted. Written by `compare table portions`, which deals the positions out one by one.
use Prim.Native.Nat.{ℕ}
use mathlib.Core.List.{List, [], ◌∷◌}

-- an axis of this length cut in as many portions as the list is long
pub record Cut : Type 0 where
  pub length : ℕ
  pub portions : List ℕ

abbrev pub cut : ℕ → List ℕ → Cut
cut D l = record { length = D; portions = l }
";

pub fn module() -> String {
    let groups = [
        group("divided", DIVIDED, divided()),
        group("tiled", TILED, tiled()),
        group("longest", LONGEST, longest()),
        group("empty_ones", EMPTY_ONES, empty_ones()),
    ];
    OPENING.to_string() + &groups.concat()
}

/// A length, and how many portions it is cut in.
type Cut = (u64, u64);

fn group(name: &str, says: &str, cuts: Vec<Cut>) -> String {
    let row = |(length, count)| format!("cut {length} ({})", list(&dealt(length, count)));
    let rows: Vec<String> = cuts.into_iter().map(row).collect();
    row_group(name, says, "Cut", &rows)
}

const DIVIDED: &str = "every length up to 64, in every power of two that it allows";

fn divided() -> Vec<Cut> {
    let powers = |length: u64| (0..=length.ilog2()).map(move |k| (length, 1 << k));
    (1..=64).flat_map(powers).collect()
}

const TILED: &str = "every length up to 14, in every other number of portions up to the length";

fn tiled() -> Vec<Cut> {
    let counts = |length: u64| (1..=length).map(move |count| (length, count));
    (1..=14).flat_map(counts).filter(|(_, count)| !count.is_power_of_two()).collect()
}

const LONGEST: &str =
    "long axes: no portion longer, one, all but one, half of them and some between";

fn longest() -> Vec<Cut> {
    vec![
        (65_535, 1),
        (65_535, 2),
        (65_535, 32),
        (65_535, 64),
        (65_534, 64),
        (65_505, 32),
        (65_504, 32),
        (65_520, 32),
        (1_000, 64),
        (1_024, 64),
        (4_097, 16),
    ]
}

const EMPTY_ONES: &str = "fewer positions than portions: some have none";

fn empty_ones() -> Vec<Cut> {
    vec![(1, 2), (3, 4), (1, 8), (5, 7), (7, 8), (2, 3), (6, 16)]
}
