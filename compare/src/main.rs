use std::path::Path;
use std::process::ExitCode;
use std::str::FromStr;
use std::{env, io};

use compare::judge::{self, Refusal};
use compare::links::{Found, Prices, Request};
use compare::plan::{planning, Plan, Planned};
use compare::{
    bench, check, description, listed, make, marked, patterns, portions, practice, price, scans,
    show, table, totals, weighed,
};

const USAGE: &str = "\
usage: compare totals                   tape on standard input, totals on standard output
       compare practice                 seed line on standard input, the tape of the practice
                                        campaign drawn from it on standard output
       compare tape                     campaign as text on standard input, its tape on
                                        standard output
       compare show                     report on standard input, its tables on standard
                                        output
       compare plan P LENGTH..          the planner's plan, its prices, and how many of the
                                        2^P boards stand idle
       compare price LENGTHS ORDER EXPONENTS
                                        a plan's prices, and yes or no to fewest cells added
                                        up; each a list with commas, lengths and exponents by
                                        axis number: compare price 6,2 1,0 0,1
       compare links P LENGTHS LINKS BUDGET
                                        the first cheapest of so many divisions of the boards
                                        in use, and by how much one can be cheaper, where each
                                        value moved costs the link weight of the axis being
                                        summed: compare links 3 4,9 1,5 2
       compare tapes SEED N DIR         write N made tapes, each with what is printed for it
       compare check PROGRAM SEED N     run a program on N made tapes and compare
       compare lengths PROGRAM SEED N   run a program on tapes of every length up to N with every
                                        p that it allows, alone and beside others, and compare
       compare exercises GENERATOR TOTALS SEED N
                                        run a generator on lines of N seeds and on damaged
                                        ones, and another program on its tapes, and compare
       compare bench [PROGRAM]          time the largest campaigns, each as a whole process
       compare table TOPIC              cases for the definitions, as an antt module:
                                        tapes (with their output), scans (of other
                                        tapes), portions (of axes), steps (with what is
                                        held), memory (after each step), marks (plans with
                                        their prices), links (searches with their answers),
                                        practice (seed lines with their tapes) or readings
                                        (with what each gives)

A report is what is printed for a tape. A campaign as text, for example:

    # two fault loops on three line sections, errors in centimetres
    lengths 2 3
    p 1
    1 -2 3          # points, row-major in axis order, the last axis fastest
    4 5*2           # 5*2 is the point 5 twice

A point is a number of whole centimetres (125 or 125cm), or of metres or kilometres as older
sets log them (1.25m or 0.00125km): these go onto the tape in single precision, and whoever
reads it takes the nearest whole centimetre, of two the even one. No blank parts a number from
its unit, and a decimal point is no comma.

Blanks, commas, semicolons and line ends part numbers, # starts a comment. A CSV file from
a spreadsheet will do; its lines may end in empty fields.
";

/// `None` for arguments that make no command.
fn run(words: &[&str]) -> Option<io::Result<bool>> {
    let done = |result: io::Result<()>| Some(result.map(|()| true));
    match *words {
        ["totals"] => done(totals::run(io::stdin().lock(), io::stdout().lock())),
        ["practice"] => done(practice::run(io::stdin().lock(), io::stdout().lock())),
        ["tape"] => done(description::run(io::stdin().lock(), io::stdout().lock())),
        ["show"] => done(show::run(io::stdin().lock(), io::stdout().lock())),
        ["plan", p, ref lengths @ ..] => {
            let lengths: Option<Vec<u64>> =
                lengths.iter().map(|length| length.parse().ok()).collect();
            print_plan(planning(&lengths?, p.parse().ok()?));
            done(Ok(()))
        }
        ["price", lengths, order, exponents] => {
            let exponents: Vec<u32> = numbers(exponents)?;
            let p = exponents.iter().fold(0, |sum: u32, &k| sum.saturating_add(k));
            let (lengths, order) = (numbers(lengths)?, numbers(order)?);
            print_priced(&Plan { lengths, order, exponents, p });
            done(Ok(()))
        }
        ["links", p, lengths, links, budget] => {
            let (lengths, links) = (numbers(lengths)?, numbers(links)?);
            let (p, budget) = (p.parse().ok()?, budget.parse().ok()?);
            print_found(&Request { lengths, p, links, budget });
            done(Ok(()))
        }
        ["tapes", seed, count, folder] => {
            done(make::write(seed.parse().ok()?, count.parse().ok()?, Path::new(folder)))
        }
        ["check", program, seed, count] => {
            Some(Ok(check::run(program, seed.parse().ok()?, count.parse().ok()?)))
        }
        ["lengths", program, seed, longest] => {
            let (seed, longest) = (seed.parse().ok()?, longest.parse().ok()?);
            Some(Ok(check::lengths::run(program, seed, longest)))
        }
        ["exercises", generator, totals, seed, count] => {
            let (seed, count) = (seed.parse().ok()?, count.parse().ok()?);
            Some(Ok(check::exercises::run(generator, totals, seed, count)))
        }
        ["bench"] => Some(bench::run(None)),
        ["bench", program] => Some(bench::run(Some(program))),
        ["table", topic] => {
            print!("{}", module(topic)?);
            done(Ok(()))
        }
        _ => None,
    }
}

/// A list with commas; an empty word lists nothing.
fn numbers<T: FromStr>(word: &str) -> Option<Vec<T>> {
    if word.is_empty() {
        return Some(Vec::new());
    }
    word.split(',').map(|number| number.parse().ok()).collect()
}

fn module(topic: &str) -> Option<String> {
    match topic {
        "tapes" => Some(table::module()),
        "scans" => Some(scans::module()),
        "portions" => Some(portions::table::module()),
        "steps" => Some(listed::steps_module()),
        "memory" => Some(listed::memory_module()),
        "marks" => Some(marked::module()),
        "links" => Some(weighed::module()),
        "practice" => Some(practice::table::module()),
        "readings" => Some(patterns::module()),
        _ => None,
    }
}

fn print_plan(planned: Result<Planned, Refusal>) {
    let Planned { plan, idle } = match planned {
        Ok(planned) => planned,
        Err(Refusal(number)) => return println!("refused {number}"),
    };
    let exponents = plan.order.iter().map(|&axis| plan.exponents[axis]);
    println!("order {}", spaced(plan.order.iter().copied()));
    println!("exponents {}", spaced(exponents));
    print_prices(&plan);
    println!("idle {idle}");
}

fn spaced<T: ToString>(items: impl Iterator<Item = T>) -> String {
    items.map(|item| item.to_string()).collect::<Vec<String>>().join(" ")
}

/// What a search over links answers, or the first check that it fails.
fn print_found(request: &Request) {
    if let Err(Refusal(number)) = judge::search(request) {
        return println!("refused {number}");
    }
    let prices = Prices::new(request);
    let Found { exponents, cost, distance, priced } = prices.found(request.budget);
    println!("exponents {}", spaced(exponents.iter()));
    println!("cost {cost}");
    println!("distance {distance}");
    println!("priced {priced} of {}", prices.all());
}

/// Any plan's prices, or the first check that it fails.
fn print_priced(plan: &Plan) {
    if let Err(Refusal(number)) = judge::plan(plan) {
        return println!("refused {number}");
    }
    print_prices(plan);
    println!("fewest {}", if price::fewest(plan) { "yes" } else { "no" });
}

fn print_prices(plan: &Plan) {
    println!("moved {}", price::moved(plan));
    println!("added {}", price::added(plan));
    println!("A {}", plan.share());
    println!("T {}", price::step_count(plan));
}

fn main() -> ExitCode {
    // An argument that is no text makes no command either.
    let arguments: Vec<_> = env::args_os().skip(1).collect();
    let words: Option<Vec<&str>> = arguments.iter().map(|word| word.to_str()).collect();
    match words.and_then(|words| run(&words)) {
        Some(Ok(true)) => ExitCode::SUCCESS,
        Some(Ok(false)) => ExitCode::FAILURE,
        Some(Err(error)) => {
            eprintln!("compare: {error}");
            ExitCode::FAILURE
        }
        None => {
            eprint!("{USAGE}");
            ExitCode::from(2)
        }
    }
}
