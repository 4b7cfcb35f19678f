//! Two builds of the port on the same inputs, whole and damaged: the number returned and everything lent, bit for bit.

use crate::ops::{dapc, exhaustive, gram_matrix, hash_pca, jacobi_eigen, pcoa, test, top_eigs, Operation, OPERATIONS};
use crate::port::dapc::DapcCall;
use crate::port::library::Library;
use crate::port::lots::{ExhaustiveCall, TestCall};
use crate::port::matrices::{GramCall, JacobiCall, TopEigsCall};
use crate::port::ordinations::{HashPcaCall, PcoaCall};
use crate::port::Asked;
use crate::replay::{drawn, place};
use crate::splitmix::SplitMix;

/// Apart from the numbers of the operations, for the draws of what is lent.
const LENT: u64 = 9;

/// All that a u8 may be, though the port returns few of them.
const NUMBERS: usize = 256;

struct Run {
    libraries: [Library; 2],
    seed: u64,
    count: usize,
}

/// So many inputs of one operation, or of each of the eight.
pub fn print(libraries: [Library; 2], op: Option<&str>, seed: u64, count: usize) -> Result<(), String> {
    let run = Run { libraries, seed, count };
    let asks: [(&str, fn(&Run) -> Option<usize>); 8] = [
        (test::Test::NAME, Run::of::<test::Test, TestCall>),
        (exhaustive::Exhaustive::NAME, Run::of::<exhaustive::Exhaustive, ExhaustiveCall>),
        (pcoa::Pcoa::NAME, Run::of::<pcoa::Pcoa, PcoaCall>),
        (hash_pca::HashPca::NAME, Run::of::<hash_pca::HashPca, HashPcaCall>),
        (dapc::Dapc::NAME, Run::of::<dapc::Dapc, DapcCall>),
        (jacobi_eigen::JacobiEigen::NAME, Run::of::<jacobi_eigen::JacobiEigen, JacobiCall>),
        (top_eigs::TopEigs::NAME, Run::of::<top_eigs::TopEigs, TopEigsCall>),
        (gram_matrix::GramMatrix::NAME, Run::of::<gram_matrix::GramMatrix, GramCall>),
    ];
    let wanted = asks.iter().filter(|(name, _)| op.is_none_or(|o| o == *name));
    let asked: Vec<Option<usize>> = wanted.map(|(_, ask)| ask(&run)).collect();
    match asked.iter().flatten().sum::<usize>() {
        _ if asked.is_empty() => Err(OPERATIONS.to_string()),
        _ if asked.iter().all(Option::is_none) => Err("nothing was asked".to_string()),
        0 => Ok(()),
        some => Err(format!("{some} calls differ")),
    }
}

impl Run {
    /// The number of calls that differ; None where a library lacks the function.
    fn of<O: Operation, C: Asked<O::Input>>(&self) -> Option<usize> {
        let name = O::NAME;
        if !self.libraries.iter().all(|library| library.has(C::FUNCTION)) {
            println!("{name}: not asked, since not both libraries have {}", C::FUNCTION);
            return None;
        }
        let (mut whole, mut damaged, mut different) = ([0; NUMBERS], [0; NUMBERS], 0);
        for at in 0..self.count {
            let (kind, input) = drawn::<O>(self.seed, at);
            for (damage, returned) in [(false, &mut whole), (true, &mut damaged)] {
                let Some(mut calls) = self.lent::<_, C>(&input, at, damage) else { continue };
                let (number, found) = asked(&self.libraries, &mut calls);
                returned[number as usize] += 1;
                different += !found.is_empty() as usize;
                let damaged = if damage { ", damaged" } else { "" };
                found.iter().for_each(|what| println!("{name} record {at}, kind {kind}{damaged}: {what}"));
            }
        }
        println!("{name}: {}; damaged: {}; {different} different", counted(&whole), counted(&damaged));
        Some(different)
    }

    /// The input for both, with equal slices: on half of the inputs littered, and longer unless it is damaged. None where there
    /// is no place for the damage.
    fn lent<Input, C: Asked<Input>>(&self, input: &Input, at: usize, damage: bool) -> Option<[C; 2]> {
        let one = || {
            let mut draw = place(LENT + damage as u64, self.seed, at);
            let mut call = C::new(input);
            let way = draw.below(1 << 16);
            if draw.chance(50) {
                litter(&mut call, if damage { 0 } else { 40 }, &mut draw);
            }
            (!damage || call.damage(way).is_some()).then_some(call)
        };
        Some([one()?, one()?])
    }
}

/// Each slice longer by `most` or less, and anything in it.
fn litter<Input>(call: &mut impl Asked<Input>, most: usize, draw: &mut SplitMix) {
    for (_, mut lent) in call.lent() {
        let more = draw.within(0, most);
        lent.litter(more, draw);
    }
}

/// The number that the first returns, and what differs.
fn asked<Input, C: Asked<Input>>(libraries: &[Library; 2], calls: &mut [C; 2]) -> (u8, Vec<String>) {
    let [a, b] = calls;
    let (old, new) = (a.ask(&libraries[0]), b.ask(&libraries[1]));
    let mut found = Vec::new();
    if old != new {
        found.push(format!("returned {old} and {new}"));
    }
    for ((name, was), (_, is)) in a.lent().iter().zip(b.lent()) {
        let (was, is) = (was.words(), is.words());
        let places: Vec<usize> = (0..was.len()).filter(|&i| was[i] != is[i]).collect();
        if let Some(&i) = places.first() {
            found.push(format!(
                "{name}[{i}] {:016x} and {:016x}, {} of {} differ",
                was[i],
                is[i],
                places.len(),
                was.len()
            ));
        }
    }
    (old, found)
}

/// The numbers returned that were, with their counts.
fn counted(returned: &[usize; NUMBERS]) -> String {
    let told = |(number, &count): (usize, &usize)| (count > 0).then(|| format!("{number} {count} times"));
    let parts: Vec<String> = returned.iter().enumerate().filter_map(told).collect();
    if parts.is_empty() {
        "none".to_string()
    } else {
        parts.join(", ")
    }
}
