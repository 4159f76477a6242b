//! All errors that the Rust pushes. Its file is taken in whole and unchanged,
//! so that what it keeps to itself can be called here: `analyze` gives the
//! first error alone.
#![allow(warnings, clippy::all)]

include!("../budzkvm/sema.rs");

/// The errors of all functions, in order.
pub fn errors(contract: &Contract) -> Vec<CompileError> {
    let mut analyzer = SemanticAnalyzer::new();
    let first = analyzer.analyze(contract).err();
    let mut errors = Vec::new();
    for function in &contract.functions {
        analyzer.analyze_function(function, &mut errors);
    }
    assert_eq!(first, errors.first().cloned(), "the first error");
    errors
}
