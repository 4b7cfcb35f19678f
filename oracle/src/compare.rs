//! The port against the Rust on drawn inputs, and against document 01's table on damaged ones.

use crate::ops::{
    dapc, exhaustive, gram_matrix, hash_pca, jacobi_eigen, outcome, pcoa, test, top_eigs, OPERATIONS, OWED,
};
use crate::port::answers::{left, Ported};
use crate::port::library::Library;
use crate::port::Asked;
use crate::replay::{drawn, place};

/// The lines of documents 01 and 02 in the order in which they are looked at.
const ORDER: [u64; 13] = [1, 2, 3, 14, 4, 5, 6, 13, 7, 8, 9, 10, 11];

/// Apart from the numbers of the operations, for the draws of what is damaged.
const DAMAGE: u64 = 11;

#[derive(Default)]
struct Count {
    answers: usize,
    refusals: usize,
    owed: usize,
    damaged: usize,
    different: usize,
}

/// So many inputs of one of the eight functions, or of each; every one is also handed in damaged.
pub fn print(op: Option<&str>, seed: u64, count: usize) -> Result<(), String> {
    let asks: [(&str, fn(u64, usize) -> usize); 8] = [
        ("test", ask::<test::Test>),
        ("exhaustive", ask::<exhaustive::Exhaustive>),
        ("pcoa", ask::<pcoa::Pcoa>),
        ("hash_pca", ask::<hash_pca::HashPca>),
        ("dapc", ask::<dapc::Dapc>),
        ("jacobi_eigen", ask::<jacobi_eigen::JacobiEigen>),
        ("top_eigs", ask::<top_eigs::TopEigs>),
        ("gram_matrix", ask::<gram_matrix::GramMatrix>),
    ];
    let wanted = asks.iter().filter(|(name, _)| op.is_none_or(|o| o == *name));
    let different: Vec<usize> = wanted.map(|(_, ask)| ask(seed, count)).collect();
    match different.iter().sum::<usize>() {
        _ if different.is_empty() => Err(OPERATIONS.to_string()),
        0 => Ok(()),
        some => Err(format!("{some} differences")),
    }
}

fn ask<O: Ported>(seed: u64, count: usize) -> usize {
    let mut sum = Count::default();
    for at in 0..count {
        let (kind, input) = drawn::<O>(seed, at);
        if !alike::<O>(&input, &mut sum) {
            println!("{} record {at}, kind {kind}: another answer", O::NAME);
            sum.different += 1;
        }
        if !refuses::<O>(&input, place(DAMAGE, seed, at).word() as usize, &mut sum) {
            println!("{} record {at}, kind {kind}, damaged: another refusal", O::NAME);
            sum.different += 1;
        }
    }
    println!(
        "{}: {} answers and {} refusals alike, {} refused as owed, {} damaged inputs refused, {} different",
        O::NAME,
        sum.answers,
        sum.refusals,
        sum.owed,
        sum.damaged,
        sum.different
    );
    sum.different
}

fn alike<O: Ported>(input: &O::Input, sum: &mut Count) -> bool {
    let rust = outcome::<O>(input);
    let mut call = O::Call::new(input);
    let number = call.ask(&Library::linked()) as u64;
    let (same, counted) = match rust[0] {
        0 => (number == 0 && O::told(&call) == O::of_the_rust(&rust[1..]) && O::more(&call), &mut sum.answers),
        OWED => (number == rust[1], &mut sum.owed),
        _ => (number == rust[1], &mut sum.refusals),
    };
    let same = same && left(&mut call, number);
    *counted += same as usize;
    same
}

fn refuses<O: Ported>(input: &O::Input, way: usize, sum: &mut Count) -> bool {
    let mut call = O::Call::new(input);
    let Some(due) = call.damage(way) else { return true };
    let due = [Some(due as u64), O::owed(input)];
    let first = ORDER.into_iter().find(|&line| due.contains(&Some(line)));
    let number = call.ask(&Library::linked()) as u64;
    let same = Some(number) == first && left(&mut call, number);
    sum.damaged += same as usize;
    same
}
