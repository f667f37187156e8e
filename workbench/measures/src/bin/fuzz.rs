//! A long run of the comparison between the proved library and the reference:
//! `fuzz --cases N [--seed S]`. It stops at the first case that differs.

use std::process::ExitCode;
use std::time::Instant;

use workbench::differential::{try_case, Tally};
use workbench::generate::Random;

const USAGE: &str = "usage: fuzz --cases N [--seed S] [--help]";

const ABOUT: &str = "\
Compares the proved library with the reference, which is written from the
specification alone, on files, stores and runs drawn from a seed: every answer and
every lent byte. It stops at the first case that differs and prints its input; at
the end it tells how often each call gave each answer.

  --cases N  how many cases; 10,000 take less than a minute
  --seed S   the seed that they are drawn from, 1 if not given
  --help     this text

Exit status: 0 no difference, 1 a difference, 2 bad usage.
";

/// What is asked for.
enum Asked {
    Help,
    Cases { cases: u64, seed: u64 },
}

/// What the words ask for, or what is wrong with them.
fn read(mut words: impl Iterator<Item = String>) -> Result<Asked, String> {
    let (mut cases, mut seed) = (None, 1);
    while let Some(word) = words.next() {
        match word.as_str() {
            "--help" => return Ok(Asked::Help),
            "--cases" => cases = Some(number(&word, words.next())?),
            "--seed" => seed = number(&word, words.next())?,
            _ => return Err(format!("unknown argument: {word}")),
        }
    }
    let cases = cases.ok_or("--cases is missing")?;
    Ok(Asked::Cases { cases, seed })
}

/// The number behind an option.
fn number(option: &str, word: Option<String>) -> Result<u64, String> {
    let word = word.ok_or_else(|| format!("{option} needs a number"))?;
    word.parse()
        .map_err(|_| format!("{option}: {word} is no number"))
}

fn main() -> ExitCode {
    match read(std::env::args().skip(1)) {
        Ok(Asked::Help) => {
            print!("{USAGE}\n\n{ABOUT}");
            ExitCode::SUCCESS
        }
        Ok(Asked::Cases { cases, seed }) => compare(cases, seed),
        Err(what) => {
            eprintln!("{what}\n{USAGE}");
            ExitCode::from(2)
        }
    }
}

/// Tries the cases of a seed, and prints what it found.
fn compare(cases: u64, seed: u64) -> ExitCode {
    let start = Instant::now();
    let mut seeds = Random::new(seed);
    let mut tally = Tally::default();
    for case in 0..cases {
        let case_seed = seeds.draw();
        if let Err(difference) = try_case(case_seed, &mut tally) {
            println!("case {case} of seed {seed} differs: {}", difference.what);
            println!("its input, {} bytes:", difference.input.len());
            println!("{}", difference.input.escape_ascii());
            return ExitCode::FAILURE;
        }
        if (case + 1) % 10_000 == 0 {
            println!("{} cases, {:.0?}", case + 1, start.elapsed());
        }
    }
    println!("{cases} cases of seed {seed}: no difference");
    for ((call, number), count) in &tally.answers {
        let answer = match number {
            0 => "accepted".to_string(),
            _ => format!("refused {number}"),
        };
        println!("{call:18} {answer:12} {count:>10}");
    }
    ExitCode::SUCCESS
}
