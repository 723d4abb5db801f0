//! Compares libtteuyomal.a with the second opinion. The last line is 'N passed, M failed'; the exit status is 0 when
//! nothing failed.
//!
//!     compare [--seed N] [--cases N] [--printed N] [--first N] [--parts PART,..] [--programs FOLDER] [--until failure]
//!     compare --real FOLDER [--seed N] [--cases N]
//!
//! With --printed, so many random cases of claims and of SDFs, and not as many as of all else. With --parts, random cases of these parts
//! alone: random (decks and blocks), molfiles, neighbours, relisted, libraries, queues, claims, sdf, whole.
//! With --real, the molecules that compare/real_large.py puts into a folder and nothing else, each matching damaged so many times.
//! With a folder, the programs `sheet` and `desk` in it are run and their lines compared too.

#[path = "../../archive.rs"]
mod archive;
mod checker;
mod claims;
mod fixed;
mod inputs;
mod lent;
mod libraries;
mod library_calls;
mod molfiles;
mod neighbours;
mod programs;
mod queues;
mod random;
mod random_libraries;
mod rankings;
mod relisted;
mod sdf;
mod whole;

use checker::Checker;
use std::path::PathBuf;
use std::process::ExitCode;

struct Options {
    seed: u64,
    cases: u64,
    printed: Option<u64>,
    first: u64,
    parts: Option<String>,
    programs: Option<PathBuf>,
    real: Option<PathBuf>,
    until_failure: bool,
}

impl Options {
    /// Whether random cases of a part are asked for.
    fn asks(&self, part: &str) -> bool {
        self.parts.as_ref().is_none_or(|parts| parts.split(',').any(|one| one == part))
    }
}

/// The options of the command line, or what is wrong with it.
fn options(mut words: impl Iterator<Item = String>) -> Result<Options, String> {
    let mut options = Options {
        seed: 20_011,
        cases: 4_000,
        printed: None,
        first: 0,
        parts: None,
        programs: None,
        real: None,
        until_failure: false,
    };
    while let Some(word) = words.next() {
        let value = words.next().ok_or(format!("{word} wants a value"))?;
        let number = || value.parse::<u64>().map_err(|_| format!("{value} is no number"));
        match word.as_str() {
            "--seed" => options.seed = number()?,
            "--cases" => options.cases = number()?,
            "--printed" => options.printed = Some(number()?),
            "--first" => options.first = number()?,
            "--parts" => options.parts = Some(value),
            "--until" if value == "failure" => options.until_failure = true,
            "--programs" => options.programs = Some(PathBuf::from(&value)),
            "--real" => options.real = Some(PathBuf::from(&value)),
            _ => return Err(format!("{word} is no option")),
        }
    }
    Ok(options)
}

fn main() -> ExitCode {
    let options = match options(std::env::args().skip(1)) {
        Ok(options) => options,
        Err(fault) => {
            eprintln!(
                "compare: {fault}\nusage: compare [--seed N] [--cases N] [--printed N] [--first N] [--parts PART,..] [--programs FOLDER] [--until failure]"
            );
            return ExitCode::from(2);
        }
    };
    let checker = &mut Checker::default();
    checker.ends = options.until_failure;
    if checker.ends {
        checker::limit_time();
    }
    if let Some(folder) = &options.real {
        if let Err(fault) = whole::real(checker, folder, options.seed, options.cases as usize) {
            eprintln!("compare: {fault}");
            return ExitCode::from(2);
        }
        return if checker.failed == 0 { ExitCode::SUCCESS } else { ExitCode::FAILURE };
    }
    let Options { seed, first, .. } = options;
    let cases = |part: &str, all: u64| if options.asks(part) { all } else { 0 };
    let printed = options.printed.unwrap_or(options.cases);
    fixed::run(checker);
    random::run(checker, seed, first, cases("random", options.cases));
    molfiles::run(checker, seed, first, cases("molfiles", options.cases));
    neighbours::run(checker, seed, first, cases("neighbours", options.cases));
    relisted::run(checker, seed, first, cases("relisted", options.cases));
    libraries::run(checker);
    rankings::run(checker);
    random_libraries::run(checker, seed, first, cases("libraries", options.cases));
    queues::run(checker, seed, first, cases("queues", options.cases));
    inputs::run(checker);
    claims::run(checker, seed, first, cases("claims", printed));
    sdf::run(checker, seed, first, cases("sdf", printed));
    whole::run(checker, seed, first, cases("whole", options.cases));
    if let Some(folder) = &options.programs {
        programs::run(checker, folder, options.seed);
    }
    report(checker, &options);
    if checker.failed == 0 {
        ExitCode::SUCCESS
    } else {
        ExitCode::FAILURE
    }
}

/// How often each reply was right; a reply that never was is a failure of the comparison.
fn report(checker: &mut Checker, options: &Options) {
    println!("seed {}, random cases {}, calls compared {}", options.seed, options.cases, checker.calls);
    println!("accepted {} times", checker.accepted);
    for field in 1..=6 {
        println!("differs {field}: {} times", checker.differed[field]);
        let seen = checker.differed[field] > 0;
        checker.case(format!("differs {field}"), |checker| checker.holds(seen, "never met"));
    }
    let met = [
        ("claims accepted", checker.claims_accepted),
        ("claims differ", checker.claims_differed),
        ("done", checker.done),
        ("matched", checker.matched),
        ("not matched, another number of atoms", checker.unmatched[0]),
        ("not matched at an atom", checker.unmatched[1]),
        ("not matched at a bond of the list", checker.unmatched[2]),
        ("not matched at a bond of the deck", checker.unmatched[3]),
    ];
    for (what, times) in met {
        println!("{what}: {times} times");
        checker.case(what, |checker| checker.holds(times > 0, "never met"));
    }
    for number in 1..=39 {
        println!("refused {number}: {} times", checker.refused.0[number]);
        let seen = checker.refused.0[number] > 0;
        checker.case(format!("refusal {number}"), |checker| checker.holds(seen, "never met"));
    }
    println!("{} passed, {} failed", checker.passed, checker.failed);
}
