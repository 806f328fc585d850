//! `compare table readings`, row by row.

mod common;

use common::exact;
use common::process::{compare, text};
use compare::patterns;
use compare::reading::{Reading, Unit};

struct Row<'a> {
    group: &'a str,
    command: u8,
    bits: u32,
    due: &'a str,
}

impl Row<'_> {
    /// `None` for whole centimetres.
    fn reading(&self) -> Option<Reading> {
        let unit = match self.command {
            0x4d => Unit::Metres,
            0x4b => Unit::Kilometres,
            _ => return None,
        };
        Some(Reading { unit, bits: self.bits })
    }

    fn exact(&self) -> Result<i64, u8> {
        self.reading().map_or(Ok(i64::from(self.bits as i32)), exact::centimetres)
    }

    /// Without rounding, in double precision.
    fn product(&self) -> f64 {
        let scale = if self.command == 0x4d { 1e2 } else { 1e5 };
        f64::from(f32::from_bits(self.bits)) * scale
    }
}

fn rows(module: &str) -> Vec<Row<'_>> {
    let (mut group, mut rows) = ("", Vec::new());
    let number = |word: &str| u32::from_str_radix(word.split_once("0x").unwrap().1, 16).unwrap();
    for line in module.lines() {
        group = line.strip_suffix(" =").unwrap_or(group);
        let record = line.trim_start_matches([' ', '∷']);
        let Some(fields) = record.strip_prefix("record { ") else { continue };
        let fields: Vec<&str> = fields.strip_suffix(" }").unwrap().split("; ").collect();
        let &[command, bits, due] = &fields[..] else { panic!("{line}") };
        assert!(command.starts_with("command = 0x") && bits.starts_with("bits = 0x"), "{line}");
        let due = due.strip_prefix("due = ").unwrap();
        rows.push(Row { group, command: number(command) as u8, bits: number(bits), due });
    }
    rows
}

fn group<'a>(rows: &'a [Row], name: &str) -> Vec<&'a Row<'a>> {
    rows.iter().filter(|row| row.group == name).collect()
}

#[test]
fn each_row_says_what_whole_numbers_say() {
    let module = text(&compare(&["table", "readings"]).stdout);
    assert_eq!(module, patterns::module());
    let rows = rows(&module);
    for row in &rows {
        let due = match row.exact() {
            Ok(number @ 0..) => format!("gives (pos {number})"),
            Ok(number) => format!("gives (negsuc {})", -number - 1),
            Err(refusal) => format!("refuses {refusal}"),
        };
        assert_eq!(row.due, due, "{:#x} {:#010x}", row.command, row.bits);
    }
    assert!((90..=130).contains(&rows.len()), "{}", rows.len());
}

#[test]
fn the_groups_are_declared() {
    let module = patterns::module();
    let request = "\n\
-- \"0.125 m gives 12, 0.375 m gives 38, −0.125 m gives −12, and both zeros give 0\"
unfoldable pub request : List Row
request =
    record { command = 0x4D; bits = 0x3E000000; due = gives (pos 12) }
    ∷ record { command = 0x4D; bits = 0x3EC00000; due = gives (pos 38) }
    ∷ record { command = 0x4D; bits = 0xBE000000; due = gives (negsuc 11) }
    ∷ record { command = 0x4D; bits = 0x00000000; due = gives (pos 0) }
    ∷ record { command = 0x4D; bits = 0x80000000; due = gives (pos 0) }
    ∷ []
\n";
    assert!(module.contains(request));
    let mut names: Vec<&str> = rows(&module).iter().map(|row| row.group).collect();
    names.dedup();
    let due = "request zero_or_one ties range smallest not_finite_lem fields whole";
    assert_eq!(names.join(" "), due);
    for name in names {
        assert!(module.contains(&format!("\nunfoldable pub {name} : List Row\n{name} =\n")));
    }
    assert_eq!(module.matches("\n    ∷ []\n").count(), 8);
    assert!(module.lines().all(|line| line.chars().count() < 200));
}

/// Each pattern and the next, in each unit and with each sign.
#[test]
fn borders_are_between_neighbours() {
    let module = patterns::module();
    let rows = rows(&module);
    let bits = |row: &Row| (row.command, row.bits);
    let check = |chunk: &[&Row], due: [Result<i64, u8>; 2]| {
        let (command, last) = bits(chunk[0]);
        let sign = 1 << 31;
        assert_eq!(bits(chunk[1]), (command, last | sign));
        assert_eq!(
            [bits(chunk[2]), bits(chunk[3])],
            [(command, last + 1), (command, (last + 1) | sign)]
        );
        assert_eq!([chunk[0].exact(), chunk[2].exact()], due);
    };
    for chunk in group(&rows, "zero_or_one").chunks(4) {
        check(chunk, [Ok(0), Ok(1)]);
    }
    let ends = [Ok(2_147_483_600), Ok(2_147_483_594)];
    for (chunk, last) in group(&rows, "range").chunks(6).zip(ends) {
        check(chunk, [last, Err(15)]);
        assert_eq!(f32::from_bits(chunk[4].bits), f32::MAX);
    }
}

/// Halves exactly, above an even number and above an odd one in turn; no larger one is a float that
/// is taken.
#[test]
fn ties_are_halves() {
    let module = patterns::module();
    let rows = rows(&module);
    let ties = group(&rows, "ties");
    for (turn, chunk) in ties.chunks(4).enumerate() {
        let product = chunk[0].product();
        assert_eq!(product.fract(), 0.5);
        let odd = product.floor() as i64 % 2;
        assert!(turn % 4 > 1 || odd == turn as i64 % 2, "{product}");
        let around = [chunk[0].bits | 1 << 31, chunk[0].bits - 1, chunk[0].bits + 1];
        assert_eq!([chunk[1].bits, chunk[2].bits, chunk[3].bits], around);
    }
    let parity = |at: usize| ties[at].product().floor() as i64 % 2;
    assert_eq!([8, 24].map(|at| parity(at) + parity(at + 4)), [1, 1]);
    for (last, unit) in [(12, Unit::Metres), (28, Unit::Kilometres)] {
        let from = ties[last].bits + 1;
        let larger = (from..from + 100_000).map(|bits| Row { bits, ..*ties[last] });
        let taken = larger.take_while(|row| row.exact().is_ok());
        assert!(taken.into_iter().all(|row| row.product().fract().abs() != 0.5), "{unit:?}");
    }
}
