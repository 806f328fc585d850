//! The commands as processes.

mod common;

use std::fs;
use std::process::Command;

use common::process::{compare, compare_on, temporary, text, PROGRAM};
use compare::pieces::Pieces;
use compare::{make, practice, program, table, totals};

#[test]
fn bad_arguments_get_the_usage() {
    let commands: [&[&str]; 26] = [
        &[],
        &["sum"],
        &["totals", "x"],
        &["practice", "1"],
        &["tape", "x"],
        &["show", "x"],
        &["plan"],
        &["plan", "x", "2"],
        &["plan", "1", "-2"],
        &["price", "6,2", "1,0"],
        &["price", "6,2", "1,0", "0,1", "1"],
        &["price", "6,x", "1,0", "0,1"],
        &["price", "6,2,", "1,0", "0,1"],
        &["price", "6,2", "1,-1", "0,1"],
        &["links", "3", "4,9", "1,5"],
        &["links", "3", "4,9", "1,5", "2", "1"],
        &["links", "x", "4,9", "1,5", "2"],
        &["links", "3", "4 9", "1,5", "2"],
        &["links", "3", "4,9", "1,-5", "2"],
        &["links", "3", "4,9", "1,5", "-1"],
        &["tapes", "1", "2"],
        &["check", "true", "1"],
        &["check", "true", "1", "x"],
        &["exercises", "true", "1", "2"],
        &["exercises", "true", "true", "1", "x"],
        &["exercises", "true", "true", "-1", "2"],
    ];
    for words in commands {
        let output = compare(words);
        assert_eq!(output.status.code(), Some(2), "{words:?}");
        assert!(output.stdout.is_empty() && text(&output.stderr).starts_with("usage: "));
    }
}

#[test]
fn plan_prints_the_papers_cases() {
    let printed = |words: &[&str]| text(&compare(words).stdout);
    let p1 = "order 0\nexponents 2\nmoved 3\nadded 5\nA 1\nT 5\nidle 0\n";
    assert_eq!(printed(&["plan", "2", "5"]), p1);
    let p2 = "order 1 0\nexponents 1 0\nmoved 2\nadded 14\nA 4\nT 6\nidle 0\n";
    assert_eq!(printed(&["plan", "1", "2", "3"]), p2);
    let p4 = "order 0 1\nexponents 1 1\nmoved 6\nadded 14\nA 3\nT 10\nidle 4\n";
    assert_eq!(printed(&["plan", "3", "3", "2"]), p4);
    assert_eq!(printed(&["plan", "11", "3", "2"]), "refused 6\n");
    assert_eq!(printed(&["plan", "0", "65536"]), "refused 4\n");
}

/// What a typed plan gets.
fn priced(lengths: &str, order: &str, exponents: &str) -> String {
    text(&compare(&["price", lengths, order, exponents]).stdout)
}

/// 6 × 1 moved and 12 + 12 + 6 added up; then P6 in both orders, and P8 in both.
#[test]
fn price_prints_plans_worked_out_by_hand() {
    let no = "moved 6\nadded 30\nA 7\nT 6\nfewest no\n";
    assert_eq!(priced("6,2", "1,0", "0,1"), no);
    let yes = "moved 5\nadded 18\nA 5\nT 7\nfewest yes\n";
    assert_eq!(priced("4,2", "0,1", "0,1"), yes);
    let no = "moved 4\nadded 20\nA 5\nT 6\nfewest no\n";
    assert_eq!(priced("4,2", "1,0", "0,1"), no);
    let yes = "moved 0\nadded 21\nA 6\nT 5\nfewest yes\n";
    assert_eq!(priced("3,3", "0,1", "0,0"), yes);
    assert_eq!(priced("3,3", "1,0", "0,0"), yes);
    assert_eq!(priced("5", "0", "2"), "moved 3\nadded 5\nA 1\nT 5\nfewest yes\n");
}

/// By the list for plans from anyone, the first of several.
#[test]
fn price_prints_refusals() {
    let refused = |lengths: &str, order: &str, exponents: &str, number: u8| {
        assert_eq!(priced(lengths, order, exponents), format!("refused {number}\n"));
    };
    refused("", "", "", 3);
    refused("1,1,1,1,1,1,1,1,0", "0", "11", 3);
    refused("6,0", "1,0", "0,1", 4);
    refused("65536,65535,65535", "0", "11", 4);
    refused("4096,4097", "0", "11", 5);
    refused("6,2", "0,0", "10,1", 6);
    refused("6,2", "0,1", "4294967295,4294967295", 6);
    refused("6,2", "0,0", "3,0", 8);
    refused("6,2", "0,2", "0,1", 8);
    refused("6,2", "0", "0,1", 8);
    refused("6,2", "0,1,2", "0,1", 8);
    refused("6,2", "", "", 8);
    refused("6,2", "0,1", "3,0", 9);
    refused("6,2", "0,1", "0,2", 9);
    refused("6,2", "0,1", "0", 9);
    refused("6,2", "0,1", "0,1,0", 9);
}

/// What a search over links gets.
fn found(p: &str, lengths: &str, links: &str, budget: &str) -> String {
    text(&compare(&["links", p, lengths, links, budget]).stdout)
}

/// The second axis costs five times the first; then P4 on a rack larger than the campaign.
#[test]
fn links_prints_searches_worked_out_by_hand() {
    let two = "exponents 1 2\ncost 70\ndistance 48\npriced 2 of 3\n";
    assert_eq!(found("3", "4,9", "1,5", "2"), two);
    let all = "exponents 2 1\ncost 50\ndistance 0\npriced 3 of 3\n";
    assert_eq!(found("3", "4,9", "1,5", "3"), all);
    assert_eq!(found("3", "4,9", "1,5", "18446744073709551615"), all);
    let idle = "exponents 1 1\ncost 6\ndistance 0\npriced 1 of 1\n";
    assert_eq!(found("3", "3,2", "1,1", "5"), idle);
}

/// 3 to 6, 18 and 19, the first of several.
#[test]
fn links_prints_refusals() {
    let refused = |p: &str, lengths: &str, links: &str, budget: &str, number: u8| {
        assert_eq!(found(p, lengths, links, budget), format!("refused {number}\n"));
    };
    refused("11", "", "", "0", 3);
    refused("11", "4,0", "1", "0", 4);
    refused("11", "4096,4097", "1", "0", 5);
    refused("11", "4,9", "1", "0", 6);
    refused("4294967295", "4,9", "1,5", "1", 6);
    refused("3", "4,9", "1", "0", 18);
    refused("3", "4,9", "", "1", 19);
    refused("3", "4,9", "1,5,1", "1", 19);
    refused("3", "4,9", "1,1001", "1", 19);
    refused("3", "4,9", "0,5", "1", 19);
}

/// Length 3, p 0, and the points 862, -184 and 719.
#[test]
fn practice_prints_a_tape_or_a_refusal() {
    let tape = b"A\x03\0B\0V\x5e\x03\0\0V\x48\xff\xff\xffV\xcf\x02\0\0E";
    for input in [&b"25\n"[..], b"0000000025\n", b"25\nrefused\n"] {
        let answer = compare_on(&["practice"], input);
        assert_eq!(answer.output, tape, "{}", input.escape_ascii());
        assert!(answer.status.success() && answer.errors.is_empty());
    }
    for input in [&b"0\n"[..], b"25", b"25\r\n", b""] {
        let answer = compare_on(&["practice"], input);
        assert_eq!(answer.output, b"refused 22\n", "{}", input.escape_ascii());
        assert!(answer.status.success() && answer.errors.is_empty());
    }
}

/// At a terminal nobody has to end the input, be it a line or too much for one.
#[test]
fn practice_answers_before_the_input_ends() {
    for input in [&b"25\n"[..], b"25\n7", b"7x\n", b"12345678901"] {
        let mut command = Command::new(PROGRAM);
        command.arg("practice");
        let open = Pieces::whole(input);
        let answer = program::run_open(program::LONGEST_RUN, &mut command, open).unwrap();
        assert_eq!(answer.output, practice::generate(input), "{}", input.escape_ascii());
        assert!(answer.status.success() && answer.errors.is_empty());
    }
}

#[test]
fn practice_tapes_have_totals() {
    let tape = compare_on(&["practice"], b"25\n").output;
    let report = compare_on(&["totals"], &tape).output;
    assert_eq!(text(&report), "plan 1 0 0 3 1\ndim 0 3 0\ngroup 0 1397\nend 1\n");
}

#[test]
fn tapes_are_written_beside_their_output() {
    let folder = temporary("tapes");
    let output = compare(&["tapes", "5", "30", folder.to_str().unwrap()]);
    assert!(output.status.success() && output.stdout.is_empty());
    for index in 0..30 {
        let tape = fs::read(folder.join(format!("{index:05}.tape"))).unwrap();
        let printed = fs::read(folder.join(format!("{index:05}.out"))).unwrap();
        assert_eq!(tape, make::made(5, index).tape);
        assert_eq!(printed, totals::printed(&tape));
    }
}

#[test]
fn table_says_what_its_comments_say() {
    let module = text(&compare(&["table", "tapes"]).stdout);
    assert_eq!(module, table::module());
    let cases = declared(&module, "Case");
    for (name, refusal, line) in &cases {
        let output = quoted(line);
        match refusal {
            Some(number) => assert_eq!(output, format!("refused {number}\n"), "{name}"),
            None => assert!(output.starts_with("plan "), "{name}"),
        }
        assert!(output.len() <= 200, "{name}");
    }
    assert!(cases.len() >= 23);
    let limits = declared(&module, "Limit");
    for (name, refusal, line) in &limits {
        let number = refusal.unwrap_or("0");
        assert!(line.ends_with(&format!("; refusal = {number} }}")), "{name}");
    }
    assert!(limits.len() >= 16);
    for (list, of) in [("cases", cases), ("limits", limits)] {
        let names: String = of.iter().map(|(name, ..)| format!("{name} ∷ ")).collect();
        assert!(module.contains(&format!("\n{list} = {names}[]\n")));
    }
}

/// 38 -7 -7 and -1562 -100 5, added up by hand.
#[test]
fn table_has_readings_of_all_kinds() {
    let due = r#"; output = text "plan 2 1 2 14 4\ndim 1 3 1\ndim 0 2 0\ngroup 2 -1524 -107 -2\ngroup 0 -1633\ngroup 1 24 -1657\nend 3\n" }"#;
    let module = table::module();
    let cases = declared(&module, "Case");
    let case = cases.iter().find(|case| case.0 == "readings_of_all_kinds").unwrap();
    assert!(case.2.ends_with(due), "{}", case.2);
}

/// Lengths 3 and 2, points 1 2, 3 4 and 5 6, added up by hand; the p asked for is 3.
#[test]
fn table_has_a_rack_larger_than_the_campaign() {
    let due = r#"; output = text "plan 2 2 6 14 3\ndim 0 3 1\ndim 1 2 1\ngroup 1 3 7 11\ngroup 0 21\ngroup 2 9 12\nend 3\n" }"#;
    let module = table::module();
    let cases = declared(&module, "Case");
    let case = cases.iter().find(|case| case.0 == "boards_idle").unwrap();
    assert!(case.2.ends_with(due), "{}", case.2);
    assert!(!module.contains("refused 7"));
}

/// The cases of a kind: the name, the refusal that the comment says, and what is declared.
fn declared<'a>(module: &'a str, kind: &str) -> Vec<(&'a str, Option<&'a str>, &'a str)> {
    let is_case = |lines: &Vec<&str>| {
        lines.len() == 3 && lines[0].starts_with("-- ") && lines[1].ends_with(&format!(" : {kind}"))
    };
    let blocks = module.split("\n\n").map(|block| block.lines().collect::<Vec<&str>>());
    let case = |lines: Vec<&'a str>| {
        let says = lines[0][3..].split_once(": ").unwrap().0;
        (lines[1].split(' ').nth(2).unwrap(), says.strip_prefix("refused "), lines[2])
    };
    blocks.filter(is_case).map(case).collect()
}

/// The text that a case gives in quotes.
fn quoted(line: &str) -> String {
    let inside = line.split("output = text \"").nth(1).unwrap();
    inside.strip_suffix("\" }").unwrap().replace("\\n", "\n")
}

#[test]
fn unknown_tables_get_the_usage() {
    for words in [&["table"][..], &["table", "plans"]] {
        assert_eq!(compare(words).status.code(), Some(2), "{words:?}");
    }
}

/// The step list of lengths 3 and 5, the second axis first and split, by hand from the paper.
#[test]
fn steps_are_listed() {
    let module = text(&compare(&["table", "steps"]).stdout);
    let told = "steps = expands 3 ∷ finishes 2 ∷ transfers 1 0 1 3 ∷ expands 1 ∷ finishes 0 ∷ finishes 1 ∷ [];";
    assert!(module.contains(told));
    let memory = text(&compare(&["table", "memory"]).stdout);
    assert_eq!(memory.matches("pub record Case").count(), 1);
    assert_eq!(memory.matches(" : Case\n").count(), module.matches(" : Case\n").count());
}
