//! `compare table portions`, read back row by row; and what its rows, those of `steps` and those of
//! `memory` tell of axes that are cut wrongly.

mod common;

use common::process::{compare, text};
use compare::listed;
use compare::portions::wrong::Wrong;
use compare::portions::{dealt, table, Rule};

struct Row<'a> {
    group: &'a str,
    length: u64,
    portions: Vec<u64>,
}

impl Row<'_> {
    fn count(&self) -> u64 {
        self.portions.len() as u64
    }

    fn agrees(&self, rule: Rule) -> bool {
        rule(self.length, self.count()) == self.portions
    }
}

fn rows(module: &str) -> Vec<Row<'_>> {
    let mut group = "";
    let mut rows = Vec::new();
    for line in module.lines() {
        group = line.strip_suffix(" =").unwrap_or(group);
        if let Some(cut) = line.trim_start().trim_start_matches("∷ ").strip_prefix("cut ") {
            if let Some((length, portions)) = cut.split_once(" (") {
                let portions = portions.strip_suffix("[])").unwrap().split_terminator(" ∷ ");
                let portions = portions.map(|portion| portion.parse().unwrap()).collect();
                rows.push(Row { group, length: length.parse().unwrap(), portions });
            }
        }
    }
    rows
}

/// By quotient and remainder, and not dealt out.
#[test]
fn rows_say_what_is_due() {
    let module = text(&compare(&["table", "portions"]).stdout);
    assert_eq!(module, table::module());
    for Row { length, portions, .. } in rows(&module) {
        let count = portions.len() as u64;
        let due = (0..count).map(|l| length / count + u64::from(l < length % count));
        assert!(due.eq(portions), "{length} in {count}");
    }
}

/// Of 3 to 14 positions there are 1, 1, 2, 3, 4, 4, 5, 6, 7, 8, 9 and 10 counts that are no power.
#[test]
fn groups_are_whole() {
    let module = table::module();
    let rows = rows(&module);
    let cuts = |group| -> Vec<(u64, u64)> {
        let of_group = rows.iter().filter(|row| row.group == group);
        of_group.map(|row| (row.length, row.count())).collect()
    };
    let mut divided = Vec::new();
    for length in 1..=64 {
        let counts = [1, 2, 4, 8, 16, 32, 64].into_iter().filter(|&count| count <= length);
        divided.extend(counts.map(|count| (length, count)));
    }
    assert_eq!((cuts("divided"), divided.len()), (divided, 328));
    let tiled = cuts("tiled");
    assert!(tiled.iter().all(|&(length, count)| count <= length && length <= 14));
    assert!(tiled.iter().all(|(_, count)| ![1, 2, 4, 8].contains(count)));
    assert!(tiled.is_sorted_by(|before, after| before < after));
    assert_eq!(tiled.len(), 60);
    assert!(cuts("longest").iter().all(|&(length, count)| length >= 1_000 && count <= 64));
    assert!(cuts("empty_ones").iter().all(|(length, count)| length < count));
    assert_eq!(rows.len(), 328 + 60 + cuts("longest").len() + cuts("empty_ones").len());
}

#[test]
fn rows_by_hand() {
    let module = table::module();
    for row in [
        "    cut 1 (1 ∷ [])\n    ∷ cut 2 (2 ∷ [])\n    ∷ cut 2 (1 ∷ 1 ∷ [])\n    ∷ cut 3 (3 ∷ [])\n",
        "    ∷ cut 7 (2 ∷ 2 ∷ 2 ∷ 1 ∷ [])\n",
        "    ∷ cut 14 (3 ∷ 3 ∷ 3 ∷ 3 ∷ 2 ∷ [])\n",
        "    ∷ cut 65535 (32768 ∷ 32767 ∷ [])\n",
        "    ∷ cut 5 (1 ∷ 1 ∷ 1 ∷ 1 ∷ 1 ∷ 0 ∷ 0 ∷ [])\n",
    ] {
        assert!(module.contains(row), "{row}");
    }
}

/// Each by powers of two alone, by other counts, and by long axes.
#[test]
fn rows_tell_wrong_rules_apart() {
    let module = table::module();
    let rows = rows(&module);
    assert!(rows.iter().all(|row| row.agrees(dealt)));
    for wrong in Wrong::ALL {
        for (group, least) in [("divided", 50), ("tiled", 10), ("longest", 3)] {
            let of_group = rows.iter().filter(|row| row.group == group);
            let told = of_group.filter(|row| !row.agrees(wrong.rule())).count();
            assert!(told >= least, "{wrong:?}: {told} rows of {group}");
        }
    }
}

/// A rule by which each of the cases that a table names is listed.
type Listed = fn(Rule) -> Vec<(&'static str, String)>;

/// The cases that are listed otherwise than by the right rule.
fn told(listed: Listed, wrong: Wrong) -> Vec<&'static str> {
    let cases = listed(dealt).into_iter().zip(listed(wrong.rule()));
    cases.filter(|(right, wrong)| right != wrong).map(|(right, _)| right.0).collect()
}

#[test]
fn steps_and_memory_tell_wrong_rules_apart() {
    for wrong in Wrong::ALL {
        for listed in [listed::steps_by as Listed, listed::memory_by] {
            let told = told(listed, wrong);
            assert!(told.contains(&"spare_two") && !told.contains(&"undivided"), "{told:?}");
        }
    }
}

/// What the tables hold is what the right rule lists.
#[test]
fn steps_and_memory_are_by_the_right_rule() {
    let tables = [
        (listed::steps_module(), listed::steps_by(dealt)),
        (listed::memory_module(), listed::memory_by(dealt)),
    ];
    for (module, cases) in tables {
        for (name, fields) in cases {
            assert!(module.contains(&format!("; {fields} }}\n")), "{name}");
        }
    }
}
