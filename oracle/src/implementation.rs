//! What is timed, and the calls that do it: the Rust's and those of a build of the port.

use crate::ops::{dapc, gram_matrix, hash_pca, jacobi_eigen, pcoa, test, top_eigs};
use crate::port;
use crate::port::dapc::DapcCall;
use crate::port::library::Library;
use crate::port::lots::{ExhaustiveCall, TestCall};
use crate::port::matrices::{GramCall, JacobiCall, TopEigsCall};
use crate::port::ordinations::{HashPcaCall, PcoaCall};
use popsketch::ordination;

/// One call, ready to be made again and again. It returns the bits of a result, the same for every implementation.
pub type Call = Box<dyn FnMut() -> u64>;

/// An operation and its input.
pub enum Work {
    Test(test::Input),
    Exhaustive(test::Input),
    Pcoa(pcoa::Input),
    HashPca(hash_pca::Input),
    Dapc(dapc::Input),
    JacobiEigen(jacobi_eigen::Input),
    TopEigs(top_eigs::Input),
    GramMatrix(gram_matrix::Input),
    Sqrt(Vec<f64>),
}

/// A call of each build of the port, and a checksum of all that it answers; none where one has no such call. The input is
/// brought into the form that they take here, outside the time measured.
pub fn of_the_port(libraries: &[Library], work: &Work) -> Vec<(Call, u64)> {
    match work {
        Work::Test(input) => port::calls::<_, TestCall>(libraries, input),
        Work::Exhaustive(input) => port::calls::<_, ExhaustiveCall>(libraries, input),
        Work::Pcoa(input) => port::calls::<_, PcoaCall>(libraries, input),
        Work::HashPca(input) => port::calls::<_, HashPcaCall>(libraries, input),
        Work::Dapc(input) => port::calls::<_, DapcCall>(libraries, input),
        Work::JacobiEigen(input) => port::calls::<_, JacobiCall>(libraries, input),
        Work::TopEigs(input) => port::calls::<_, TopEigsCall>(libraries, input),
        Work::GramMatrix(input) => port::calls::<_, GramCall>(libraries, input),
        Work::Sqrt(values) => {
            let call = |library: &Library| {
                let root = library.lotjudge_sqrt;
                let mut call = roots(values, move |x| unsafe { root(x) });
                let sum = call();
                (call, sum)
            };
            libraries.iter().map(call).collect()
        }
    }
}

/// The Rust's call, where it has one.
pub fn of_the_rust(work: &Work) -> Option<Call> {
    Some(match work {
        Work::Test(input) => {
            let input = input.prepared();
            Box::new(move || input.call().map_or(0, |found| found.f.to_bits()))
        }
        Work::Exhaustive(_) => return None,
        Work::Pcoa(input) => {
            let (entries, n, components) = (input.distances.entries(), input.distances.n, input.components);
            Box::new(move || {
                ordination::pcoa(&entries, n, components).map_or(0, |found| found.eigenvalues[0].to_bits())
            })
        }
        Work::HashPca(input) => {
            let (sets, components) = (input.sets.clone(), input.components);
            Box::new(move || ordination::hash_pca(&sets, components).map_or(0, |found| found.eigenvalues[0].to_bits()))
        }
        Work::Dapc(input) => {
            let input = input.prepared();
            Box::new(move || input.call().map_or(0, |found| found.eigenvalues[0].to_bits()))
        }
        Work::JacobiEigen(input) => {
            let (entries, n) = (input.matrix.entries(), input.matrix.n);
            Box::new(move || ordination::jacobi_eigen(&entries, n).0[0].to_bits())
        }
        Work::TopEigs(input) => {
            let (entries, n, components) = (input.matrix.entries(), input.matrix.n, input.components);
            Box::new(move || ordination::top_eigs(&entries, n, components).0[0].to_bits())
        }
        Work::GramMatrix(input) => {
            let sets = input.sets.clone();
            Box::new(move || ordination::gram_matrix(&sets).map_or(0, |found| found.0[0].to_bits()))
        }
        Work::Sqrt(values) => roots(values, machine_sqrt),
    })
}

/// A call for each root: the sum of their bits.
fn roots(values: &[f64], root: impl Fn(f64) -> f64 + 'static) -> Call {
    let values = values.to_vec();
    Box::new(move || values.iter().fold(0, |sum: u64, &x| sum.wrapping_add(root(x).to_bits())))
}

#[inline(never)]
fn machine_sqrt(x: f64) -> f64 {
    x.sqrt()
}
