//! The operations: their inputs, drawn, written and read, and the Rust's answers.

pub mod dapc;
pub mod exhaustive;
pub mod gram_matrix;
pub mod hash_pca;
pub mod jacobi_eigen;
pub mod ordination;
pub mod pcoa;
pub mod test;
pub mod top_eigs;

use crate::splitmix::SplitMix;
use crate::words::Reader;
use std::panic::{catch_unwind, set_hook, take_hook, AssertUnwindSafe};
use std::process::exit;

pub trait Operation {
    const NAME: &'static str;
    const NUMBER: u64;
    type Input;

    /// The input of the record at this place, and the number of its kind.
    fn draw(at: usize, draw: &mut SplitMix) -> (usize, Self::Input);
    fn write(input: &Self::Input, words: &mut Vec<u64>);
    fn read(from: &mut Reader) -> Self::Input;
    /// The Rust's answer field by field, or None where the Rust gives None.
    fn answer(input: &Self::Input) -> Option<Vec<u64>>;
    /// The refusal of documents 01 and 02 that stands for the Rust's None on this input.
    fn refusal(input: &Self::Input) -> u64;
    /// The refusal, beyond those of document 01, that is due on this input, whatever the Rust says of it; the Rust is then not asked.
    fn owed(_: &Self::Input) -> Option<u64> {
        None
    }
}

/// Whether this turn has a sample of more than 128 sets or items. The Rust takes seconds for one, so after twenty turns one in ten has it.
pub fn large(turn: usize) -> bool {
    turn < 20 || turn % 10 == 0
}

/// Document 01's refusal where the Rust panics on a NaN among values to be ordered.
const NAN_AMONG_VALUES: u64 = 11;

/// What OP may be.
pub const OPERATIONS: &str = "OP: test, exhaustive, pcoa, hash_pca, dapc, jacobi_eigen, top_eigs or gram_matrix";

/// The state of an input that the Rust is not asked about.
pub const OWED: u64 = 3;

/// The state (0 answered, 1 None, 2 panic, 3 not asked), then the answer or the refusal that stands for it.
pub fn outcome<O: Operation>(input: &O::Input) -> Vec<u64> {
    if let Some(refusal) = O::owed(input) {
        return vec![OWED, refusal];
    }
    match catch_unwind(AssertUnwindSafe(|| O::answer(input))) {
        Ok(Some(answer)) => [vec![0], answer].concat(),
        Ok(None) => vec![1, O::refusal(input)],
        Err(_) => vec![2, NAN_AMONG_VALUES],
    }
}

/// From here on a panic of the Rust is an answer, and any other ends the program.
pub fn expect_panics() {
    let usual = take_hook();
    set_hook(Box::new(move |panic| {
        let of_the_rust = panic.location().is_some_and(|place| place.file().starts_with(env!("POPSKETCH_DIR")));
        if !of_the_rust {
            usual(panic);
            exit(1);
        }
    }));
}
