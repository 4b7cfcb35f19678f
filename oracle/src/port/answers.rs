//! The port's answers in the words of a replay file, to be held against the Rust's.

use super::dapc::DapcCall;
use super::lots::{ExhaustiveCall, Lot, TestCall};
use super::matrices::{GramCall, JacobiCall, TopEigsCall};
use super::ordinations::{HashPcaCall, PcoaCall, Room};
use super::Asked;
use crate::ops::{dapc, exhaustive, gram_matrix, hash_pca, jacobi_eigen, pcoa, test, top_eigs, Operation};
use crate::words::{bits, push_floats, push_numbers};

/// An operation of the port that the Rust has too, or has the parts of.
pub trait Ported: Operation {
    type Call: Asked<Self::Input>;
    /// The answer, as far as the port tells it.
    fn told(call: &Self::Call) -> Vec<u64>;
    /// The same part of the Rust's answer.
    fn of_the_rust(answer: &[u64]) -> Vec<u64> {
        answer.to_vec()
    }
    /// Whether what the port tells and the Rust does not is right.
    fn more(_: &Self::Call) -> bool {
        true
    }
}

/// Work: all of it is 0 after an answer.
const WORK: [&str; 10] = [
    "pair_terms",
    "weighted_squares",
    "coords",
    "eigenpairs",
    "vectors",
    "label_counts",
    "centred",
    "gram",
    "rotated",
    "words",
];

/// Outputs that only an answer is written to.
const FIGURES: [&str; 4] = ["values", "numbers", "selected", "sweeps"];

/// Whether all that is lent is as document 01 has it where this number is returned: after an answer work is 0; after 10 and 11 work and
/// the first part of each list are 0, and the rest is untouched; after any other refusal all of it is untouched.
pub fn left<Input>(call: &mut impl Asked<Input>, number: u64) -> bool {
    call.lent().iter().all(|(name, lent)| match number {
        0 | 10 | 11 if WORK.contains(name) => lent.zeros() == lent.words().len(),
        0 => true,
        10 | 11 if !FIGURES.contains(name) => lent.zeros() > 0 && lent.untouched(lent.zeros()),
        _ => lent.untouched(0),
    })
}

impl Ported for test::Test {
    type Call = TestCall;

    fn told(call: &TestCall) -> Vec<u64> {
        let [f, r2, p, disp_f, disp_p, fraction] = call.values[..] else { panic!("six values") };
        let [m, g, p_given, disp_p_given, warnings] = call.numbers[..] else { panic!("five numbers") };
        let mut words = vec![m, g, bits(f), bits(r2), p_given, bits(p), bits(disp_f), disp_p_given];
        words.extend([bits(disp_p), bits(fraction), warnings]);
        push_groups(&mut words, &call.lot, g as usize);
        words
    }

    /// An F that is not finite has no p, and warning bits 5 and 6 need both.
    fn of_the_rust(answer: &[u64]) -> Vec<u64> {
        let mut words = answer.to_vec();
        for at in [2, 6] {
            let given = if at == 2 { 4 } else { 7 };
            if !f64::from_bits(words[at]).is_finite() {
                words[given] = 0;
                words[given + 1] = 0;
                words[10] &= 31;
            }
        }
        words
    }
}

impl Ported for exhaustive::Exhaustive {
    type Call = ExhaustiveCall;

    fn told(call: &ExhaustiveCall) -> Vec<u64> {
        let [f, r2, disp_f, fraction] = call.values[..] else { panic!("four values") };
        let [m, g, ways, finite, hits, disp_finite, disp_hits, given, right, right_hits, warnings] = call.numbers[..]
        else {
            panic!("eleven numbers")
        };
        let mut words =
            vec![m, g, ways, finite, bits(f), hits, disp_finite, bits(disp_f), disp_hits, given, right, right_hits];
        words.extend([bits(r2), bits(fraction), warnings]);
        push_groups(&mut words, &call.lot, g as usize);
        words
    }
}

fn push_groups(words: &mut Vec<u64>, lot: &Lot, groups: usize) {
    for k in 0..groups {
        words.extend([lot.group_labels[k] as u64, lot.counts[k] as u64, bits(lot.means[k])]);
    }
}

impl Ported for pcoa::Pcoa {
    type Call = PcoaCall;

    fn told(call: &PcoaCall) -> Vec<u64> {
        ordination(call.n as u64, call.n, call.components, &call.room)
    }
}

impl Ported for hash_pca::HashPca {
    type Call = HashPcaCall;

    fn told(call: &HashPcaCall) -> Vec<u64> {
        ordination(call.selected[0], call.n, call.components, &call.room)
    }
}

fn ordination(first: u64, n: usize, components: usize, room: &Room) -> Vec<u64> {
    let k = components.min(n);
    let mut words = vec![first, k as u64];
    push_floats(&mut words, &room.out[..2 * k + n * k]);
    words
}

impl Ported for dapc::Dapc {
    type Call = DapcCall;

    fn told(call: &DapcCall) -> Vec<u64> {
        let axes = call.numbers[1] as usize;
        let mut words = call.numbers.clone();
        push_floats(&mut words, &call.out[..axes + call.n * axes]);
        push_numbers(&mut words, &call.assigned);
        words
    }

    /// Without the kept samples, the groups and their labels.
    fn of_the_rust(answer: &[u64]) -> Vec<u64> {
        let groups = answer[1] as usize;
        [&answer[2..5], &answer[5 + groups..]].concat()
    }
}

impl Ported for jacobi_eigen::JacobiEigen {
    type Call = JacobiCall;

    fn told(call: &JacobiCall) -> Vec<u64> {
        let mut words = Vec::new();
        push_floats(&mut words, &call.out);
        words
    }

    /// The sweeps, by a count of the oracle's own.
    fn more(call: &JacobiCall) -> bool {
        call.sweeps[0] == jacobi_eigen::sweeps(&call.a, &call.out[..call.n])
    }
}

impl Ported for top_eigs::TopEigs {
    type Call = TopEigsCall;

    fn told(call: &TopEigsCall) -> Vec<u64> {
        let mut words = vec![call.components.min(call.n) as u64];
        push_floats(&mut words, &call.out);
        words
    }
}

impl Ported for gram_matrix::GramMatrix {
    type Call = GramCall;

    /// The Rust's matrix mirrors itself; its lower half is not in the answer.
    fn told(call: &GramCall) -> Vec<u64> {
        let n = call.n;
        let mut words = call.selected.clone();
        for i in 0..n {
            push_floats(&mut words, &call.out[i * n + i..(i + 1) * n]);
        }
        words
    }

    fn more(call: &GramCall) -> bool {
        let n = call.n;
        (0..n * n).all(|at| bits(call.out[at]) == bits(call.out[at % n * n + at / n]))
    }
}
