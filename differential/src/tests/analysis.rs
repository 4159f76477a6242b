//! The numbers of the error texts, the fixed cases of the body check and its
//! random contracts.

use crate::analysis::{analyze, number_of, pushed, BEGINNINGS, TEXTS};
use crate::driver::{Run, Task};
use crate::generate::analysis::{around, mistakes};
use crate::generate::rng::Rng;
use crate::generate::{typed, typed_contract_of_all_kinds};
use crate::oracle::check_answer;
use crate::sheet::{contract_write, kind, parse};
use crate::subject::SelfSubject;

#[test]
fn the_texts_stand_in_this_order() {
    let mut source = include_str!("../budzkvm/sema.rs");
    assert_eq!(source.matches("errors.push(").count(), BEGINNINGS.len());
    for beginning in BEGINNINGS {
        let text = format!("\"{beginning}");
        let place = source.find(&text).expect("a text in this order");
        source = &source[place + text.len()..];
    }
}

#[test]
fn the_sixth_text_is_not_taken_for_the_seventh() {
    assert_eq!(number_of("Field access on non-struct"), 6);
    assert_eq!(number_of("Field n20 type mismatch"), 7);
    assert_eq!(number_of("Field  type mismatch"), 7);
}

#[test]
#[should_panic(expected = "an unknown error of the Rust: Void")]
fn an_unknown_text_is_reported() {
    number_of("Void");
}

#[test]
fn each_error_is_the_first_before_each_other() {
    let numbers = 1..=TEXTS;
    for (first, one) in numbers.clone().zip(mistakes()) {
        for (second, other) in numbers.clone().zip(mistakes()) {
            let sheet = contract_write::contract(&around(vec![one.clone(), other]));
            assert_eq!(pushed(&sheet), [first, second]);
            assert!(analyze(&sheet).to_string().ends_with(&format!(" {first}")));
        }
    }
}

#[test]
fn contracts_without_mistakes_are_accepted() {
    for index in 0..2_000 {
        let rng = &mut Rng::of_case(5, index);
        let sheet = contract_write::contract(&typed::contract(rng, 0));
        assert_eq!(analyze(&sheet), check_answer(&sheet), "case {index}");
    }
}

#[test]
fn the_typed_contract_of_all_kinds_is_accepted() {
    let sheet = contract_write::contract(&typed_contract_of_all_kinds());
    assert_eq!(analyze(&sheet).to_string(), "OK");
    let tree = parse::parse(&sheet, kind::CONTRACT);
    for wanted in (1..=6).chain(10..=20).chain(30..=37) {
        let has = tree.nodes.iter().any(|node| node.kind == wanted);
        assert!(has, "kind {wanted}");
    }
}

#[test]
fn the_second_walk_agrees_with_the_rust() {
    let mut run = Run::new(&SelfSubject, Task::Analyze);
    assert!(run.random(1, 5_000));
    assert!(run.all_numbers());
    let numbers: Vec<u16> = run.histogram.keys().copied().collect();
    assert_eq!(numbers, Task::Analyze.numbers());
    assert!(run.texts.values().all(|times| times[1] > 0));
}
