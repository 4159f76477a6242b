//! The driver finds and shrinks the differences of faulty subjects.

use crate::analysis::analyze;
use crate::driver::{compare, numbers, sample, Run, Task};
use crate::generate::Case;
use crate::oracle::{lower_answer, verify_answer, Answer};
use crate::shrink::shrink;
use crate::subject::{SelfSubject, Subject};

/// Verifies every program that it would refuse with 46.
struct Lenient;

impl Subject for Lenient {
    fn verify(&self, sheet: &[u8]) -> Answer {
        match verify_answer(sheet) {
            Answer::Refused { number: 46, .. } => Answer::Accepted(vec![]),
            answer => answer,
        }
    }

    fn check(&self, sheet: &[u8]) -> Answer {
        SelfSubject.check(sheet)
    }

    fn lower(&self, sheet: &[u8], out: &mut [u8]) -> Answer {
        SelfSubject.lower(sheet, out)
    }
}

/// Leaves a byte of the output when it refuses with 11.
struct Leaving;

impl Subject for Leaving {
    fn verify(&self, sheet: &[u8]) -> Answer {
        verify_answer(sheet)
    }

    fn check(&self, sheet: &[u8]) -> Answer {
        SelfSubject.check(sheet)
    }

    fn lower(&self, sheet: &[u8], out: &mut [u8]) -> Answer {
        let answer = SelfSubject.lower(sheet, out);
        if answer.number() == 11 {
            if let Some(last) = out.last_mut() {
                *last = 1;
            }
        }
        answer
    }
}

/// Gives the place of a literal's field, 8 bytes behind, instead of its own.
struct Misplacing;

impl Subject for Misplacing {
    fn verify(&self, sheet: &[u8]) -> Answer {
        SelfSubject.verify(sheet)
    }

    fn check(&self, sheet: &[u8]) -> Answer {
        SelfSubject.check(sheet)
    }

    fn lower(&self, sheet: &[u8], out: &mut [u8]) -> Answer {
        SelfSubject.lower(sheet, out)
    }

    fn analyze(&self, sheet: &[u8]) -> Option<Answer> {
        let mut answer = analyze(sheet);
        if let Answer::Refused { details, .. } = &mut answer {
            if let [place, 8] = &mut details[..] {
                *place += 8;
            }
        }
        Some(answer)
    }
}

/// The first random case that differs, shrunk.
fn first_difference(subject: &dyn Subject, task: Task) -> Case {
    let differs = |case: &Case| compare(subject, task, case).is_err();
    let mut cases = (0..).map(|index| task.case(3, index));
    let found = cases.find(|case| differs(case)).unwrap();
    shrink(found, task.root(), &mut |case| differs(case))
}

#[test]
fn a_wrong_answer_is_found_and_shrunk() {
    let small = first_difference(&Lenient, Task::Verify);
    assert_eq!(verify_answer(&small.sheet).number(), 46);
    assert!(small.sheet.len() <= 80, "{} bytes", small.sheet.len());
}

#[test]
fn a_wrong_output_is_found_and_shrunk() {
    let small = first_difference(&Leaving, Task::Lower);
    assert_eq!(lower_answer(&small.sheet, small.room).number(), 11);
    assert!(small.sheet.len() <= 60, "{} bytes", small.sheet.len());
}

#[test]
fn a_wrong_verifying_of_what_was_lowered_is_found_and_shrunk() {
    let small = first_difference(&Lenient, Task::Lower);
    let Answer::Accepted(program) = lower_answer(&small.sheet, small.room) else {
        panic!("not lowered");
    };
    assert_eq!(verify_answer(&program).number(), 46);
    assert!(small.sheet.len() <= 60, "{} bytes", small.sheet.len());
}

#[test]
fn a_wrong_place_is_found_and_shrunk() {
    let small = first_difference(&Misplacing, Task::Analyze);
    assert!(analyze(&small.sheet).to_string().ends_with(" 8"));
    assert!(small.sheet.len() <= 80, "{} bytes", small.sheet.len());
}

#[test]
fn every_number_occurs() {
    for (task, count) in [(Task::Lower, 3_000), (Task::Verify, 3_000)] {
        let mut run = Run::new(&SelfSubject, task);
        assert!(run.random(1, count));
        assert!(run.all_numbers());
        let numbers: Vec<u16> = run.histogram.keys().copied().collect();
        assert_eq!(numbers, task.numbers());
    }
}

#[test]
fn a_sample_has_every_number() {
    for (task, count) in [(Task::Lower, 17), (Task::Verify, 13), (Task::Analyze, 17)] {
        let mut seen: Vec<(u16, u32)> = sample(task, 1, 60)
            .iter()
            .map(|(_, answer)| numbers(answer))
            .collect();
        seen.dedup();
        assert_eq!(seen.len(), count);
    }
}
