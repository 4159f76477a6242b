//! The command line.

use std::io::{Read, Write};
use std::process::ExitCode;

use differential::archive::Archive;
use differential::driver::{describe, sample, Run, Task};
use differential::generate::Case;
use differential::proof_sheets;

const USAGE: &str = "\
differential TASK [SEED [COUNT]]         compare the fixed cases and COUNT random ones
differential exhaust TASK                compare all short sheets and all small damages of a few
differential answer TASK                 the oracle's line for a sheet from standard input
differential sample TASK [SEED [COUNT]]  sheets with their answers, some of every number
differential case TASK SEED INDEX        one random case with its answer
differential rows                        P1 to P12 with their answers
TASK is verify, lower, analyze (the body check), or check: what lowering asks of a sheet before its walk";

/// What is compared with the oracle.
const SUBJECT: Archive = Archive;

const SEED: u64 = 1;
const CASES: u64 = 200_000;
const SAMPLES: u64 = 200;

fn main() -> ExitCode {
    let arguments: Vec<String> = std::env::args().skip(1).collect();
    let words: Vec<&str> = arguments.iter().map(String::as_str).collect();
    match command(&words) {
        Some(code) => code,
        None => {
            eprintln!("{USAGE}");
            ExitCode::from(2)
        }
    }
}

/// Carries out a command; nothing if it is not one.
fn command(words: &[&str]) -> Option<ExitCode> {
    let (first, rest) = words.split_first()?;
    if let Some(task) = task(first) {
        let [seed, count] = numbers(rest, [SEED, CASES])?;
        return Some(finish(Run::new(&SUBJECT, task), |run| {
            run.random(seed, count) && run.all_numbers()
        }));
    }
    if *first == "rows" {
        proof_sheets::rows().iter().for_each(|row| print_line(row));
        return Some(ExitCode::SUCCESS);
    }
    let (second, rest) = rest.split_first()?;
    let task = task(second)?;
    match *first {
        "exhaust" => return Some(finish(Run::new(&SUBJECT, task), |run| run.exhaust())),
        "answer" => answer(task),
        "sample" => {
            let [seed, count] = numbers(rest, [SEED, SAMPLES])?;
            for (sheet, answer) in sample(task, seed, count as usize) {
                print_line(&format!("{} -> {answer}", proof_sheets::hex(&sheet)));
            }
        }
        "case" => {
            let [seed, index] = numbers(rest, [SEED, 0])?;
            print_line(&describe(task, seed, index));
        }
        _ => return None,
    }
    Some(ExitCode::SUCCESS)
}

fn task(word: &str) -> Option<Task> {
    match word {
        "verify" => Some(Task::Verify),
        "check" => Some(Task::Check),
        "lower" => Some(Task::Lower),
        "analyze" => Some(Task::Analyze),
        _ => None,
    }
}

/// Up to two numbers, with defaults.
fn numbers(words: &[&str], mut numbers: [u64; 2]) -> Option<[u64; 2]> {
    if words.len() > 2 {
        return None;
    }
    for (number, word) in numbers.iter_mut().zip(words) {
        *number = word.parse().ok()?;
    }
    Some(numbers)
}

/// Runs and prints the histogram; the exit code tells of a difference.
fn finish(mut run: Run, cases: impl FnOnce(&mut Run) -> bool) -> ExitCode {
    let equal = cases(&mut run);
    run.print_histogram();
    match equal {
        true => ExitCode::SUCCESS,
        false => ExitCode::FAILURE,
    }
}

fn answer(task: Task) {
    let mut sheet = Vec::new();
    std::io::stdin()
        .read_to_end(&mut sheet)
        .expect("standard input can be read");
    print_line(&task.expected(&Case::of(sheet)).to_string());
}

/// Prints a line; a reader that has gone away is no error.
fn print_line(line: &str) {
    let _ = writeln!(std::io::stdout(), "{line}");
}
