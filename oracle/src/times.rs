//! Times of one call: the Rust and every build of the port in turn, on the same inputs, by the processor time of the thread.

use crate::implementation::{of_the_port, of_the_rust, Call, Work};
use crate::inputs::{coordinates, distances, matrices, sets};
use crate::matrix::Matrix;
use crate::ops::{dapc, gram_matrix, hash_pca, jacobi_eigen, pcoa, test, top_eigs};
use crate::port::library::Library;
use crate::splitmix::SplitMix;
use std::ffi::c_int;
use std::hint::black_box;
use std::time::{Duration, Instant};

const SEED: u64 = 2006;

/// In a round each has a block of calls of about so many nanoseconds.
const BLOCK: u64 = 300_000;

/// The rounds of a line end after this long for each that is timed, but not before FEWEST.
const LONG: Duration = Duration::from_secs(1);
const FEWEST: usize = 3;

/// A line for each input that all have a call for, or all libraries; the names of the libraries head their columns.
pub fn print(names: &[String], libraries: &[Library]) -> Result<(), String> {
    head(names);
    let mut different = 0;
    for (name, work) in lines() {
        let ported = of_the_port(libraries, &work);
        let rust = of_the_rust(&work);
        if ported.len() < libraries.len() || ported.is_empty() && rust.is_none() {
            continue;
        }
        let (calls, sums): (Vec<Call>, Vec<u64>) = ported.into_iter().unzip();
        let mut calls: Vec<Option<Call>> = [rust].into_iter().chain(calls.into_iter().map(Some)).collect();
        let signs: Vec<u64> = calls.iter_mut().flatten().map(|call| call()).collect();
        let times = measure(&mut calls);
        let alike = sums.iter().all(|s| *s == sums[0]) && signs.iter().all(|s| *s == signs[0]);
        different += !alike as usize;
        let rounds = times.iter().map(Vec::len).max().unwrap();
        println!("{name:<44}{} {rounds:>6}{}", columns(&times), if alike { "" } else { " different results" });
    }
    match different {
        0 => Ok(()),
        some => Err(format!("{some} lines have different results")),
    }
}

/// The least nanoseconds of a call.
#[cfg(feature = "port")]
pub fn least(call: Call) -> u64 {
    measure(&mut [Some(call)])[0].iter().copied().min().unwrap()
}

fn head(names: &[String]) {
    print!("{:<44} {:>12}", "least µs of a call", "rust");
    for (k, name) in names.iter().enumerate() {
        print!(" {name:>12} {:>6} {:>6}", "/rust", "median");
        if k > 0 {
            print!(" {:>6} {:>6}", "/first", "median");
        }
    }
    println!(" {:>6}", "rounds");
}

/// The least times, the Rust's first, each with its ratios to the Rust's and to that of the first library.
fn columns(times: &[Vec<u64>]) -> String {
    let least = |of: &[u64]| of.iter().min().map_or("-".to_string(), |&t| format!("{:.2}", t as f64 / 1e3));
    let mut text = format!(" {:>12}", least(&times[0]));
    for k in 1..times.len() {
        text += &format!(" {:>12} {}", least(&times[k]), ratios(&times[k], &times[0]));
        if k > 1 {
            text += &format!(" {}", ratios(&times[k], &times[1]));
        }
    }
    text
}

/// The ratio of the least times, and the median of the ratios within a round.
fn ratios(times: &[u64], to: &[u64]) -> String {
    let (Some(&least), Some(&least_to)) = (times.iter().min(), to.iter().min()) else {
        return format!("{:>6} {:>6}", "-", "-");
    };
    let mut each: Vec<f64> = times.iter().zip(to).map(|(&a, &b)| a as f64 / b as f64).collect();
    each.sort_unstable_by(f64::total_cmp);
    format!("{:>6.3} {:>6.3}", least as f64 / least_to as f64, each[each.len() / 2])
}

/// Nanoseconds of each call in every round; none where there is no call.
fn measure(calls: &mut [Option<Call>]) -> Vec<Vec<u64>> {
    let once: Vec<u64> = calls.iter_mut().map(|call| call.as_mut().map_or(0, |call| block(call, 1))).collect();
    let mut times = vec![Vec::new(); calls.len()];
    let long = LONG * calls.iter().flatten().count() as u32;
    let start = Instant::now();
    let mut rounds = 0;
    while rounds < FEWEST || start.elapsed() < long {
        for (k, call) in calls.iter_mut().enumerate() {
            let Some(call) = call else { continue };
            times[k].push(block(call, (BLOCK / once[k].max(1)).max(1)));
        }
        rounds += 1;
    }
    times
}

/// Nanoseconds of a call, of so many made one after the other.
fn block(call: &mut Call, count: u64) -> u64 {
    let from = processor_time();
    for _ in 0..count {
        black_box(call());
    }
    (processor_time() - from) / count
}

extern "C" {
    fn clock_gettime(clock: c_int, to: *mut [i64; 2]) -> c_int;
}

/// CLOCK_THREAD_CPUTIME_ID of Linux.
const THREAD: c_int = 3;

fn processor_time() -> u64 {
    let mut time = [0; 2];
    assert_eq!(unsafe { clock_gettime(THREAD, &mut time) }, 0);
    time[0] as u64 * 1_000_000_000 + time[1] as u64
}

fn lines() -> Vec<(&'static str, Work)> {
    vec![
        ("test n=256 groups=4 shuffles=999", Work::Test(lot(256, 4))),
        ("test n=64 groups=4 shuffles=999", Work::Test(lot(64, 4))),
        ("test n=16 groups=4 shuffles=999", Work::Test(lot(16, 4))),
        ("test n=64 groups=2 shuffles=999", Work::Test(lot(64, 2))),
        ("test n=64 groups=4 strata of 4 shuffles=999", Work::Test(within(lot(64, 4), |i| i / 4))),
        ("exhaustive n=16 groups=2 M=12870", Work::Exhaustive(lot(16, 2))),
        ("exhaustive n=16 groups=2 strata of 4 M=1296", Work::Exhaustive(within(lot(16, 2), |i| i / 4))),
        ("exhaustive n=64 groups=2 12 together M=924", Work::Exhaustive(within(lot(64, 2), |i| i.max(11)))),
        ("exhaustive n=256 groups=2 12 together M=924", Work::Exhaustive(within(lot(256, 2), |i| i.max(11)))),
        ("pcoa n=3 components=8", Work::Pcoa(spread(3))),
        ("pcoa n=8 components=8", Work::Pcoa(spread(8))),
        ("pcoa n=16 components=8", Work::Pcoa(spread(16))),
        ("pcoa n=32 components=8", Work::Pcoa(spread(32))),
        ("pcoa n=64 components=8", Work::Pcoa(spread(64))),
        ("pcoa n=256 components=8", Work::Pcoa(spread(256))),
        ("hash_pca n=64 hashes=900 components=8", Work::HashPca(hashed(64, 900))),
        ("hash_pca n=64 4096 given, 1024 selected", Work::HashPca(given(64, 4096, 1024))),
        ("hash_pca n=64 64512 given, 1024 selected", Work::HashPca(given(64, 64512, 1024))),
        ("dapc n=256 columns=8 groups=4 in turn", Work::Dapc(scored(8, &turns(256, 4)))),
        ("dapc n=256 columns=8 groups=4 in blocks", Work::Dapc(scored(8, &blocks(256, 4)))),
        ("dapc n=64 columns=8 groups=4 in turn", Work::Dapc(scored(8, &turns(64, 4)))),
        ("dapc n=64 columns=8 groups=4 in blocks", Work::Dapc(scored(8, &blocks(64, 4)))),
        ("jacobi_eigen n=4", Work::JacobiEigen(square(4))),
        ("jacobi_eigen n=16", Work::JacobiEigen(square(16))),
        ("jacobi_eigen n=64", Work::JacobiEigen(square(64))),
        ("top_eigs n=64 components=8", Work::TopEigs(leading(64))),
        ("top_eigs n=65 components=8", Work::TopEigs(leading(65))),
        ("top_eigs n=256 components=8", Work::TopEigs(leading(256))),
        ("gram_matrix n=4 hashes=9", Work::GramMatrix(caught(4, 9))),
        ("gram_matrix n=64 hashes=900", Work::GramMatrix(caught(64, 900))),
        ("gram_matrix n=256 hashes=400", Work::GramMatrix(caught(256, 400))),
        ("sqrt of 4096 values", Work::Sqrt(positive(4096))),
    ]
}

/// Samples in turn in so many groups.
pub fn turns(n: usize, groups: usize) -> Vec<usize> {
    (0..n).map(|i| i % groups).collect()
}

/// Samples group by group.
fn blocks(n: usize, groups: usize) -> Vec<usize> {
    (0..n).map(|i| i * groups / n).collect()
}

fn labels(clusters: &[usize]) -> Vec<u16> {
    clusters.iter().map(|&c| c as u16).collect()
}

pub fn lot(n: usize, groups: usize) -> test::Input {
    let clusters = turns(n, groups);
    let distances = Matrix::full(n, &distances::distances(1, &clusters, &mut SplitMix::new(SEED)));
    test::Input { distances, labels: labels(&clusters), strata: None, weights: None, n_perm: 999, seed: SEED }
}

/// The same in strata.
pub fn within(mut lot: test::Input, stratum: fn(usize) -> usize) -> test::Input {
    lot.strata = Some((0..lot.labels.len()).map(|i| stratum(i) as u16).collect());
    lot
}

/// Distances that are not Euclidean, as those of sketches are not: all values differ from zero.
fn spread(n: usize) -> pcoa::Input {
    let entries = distances::distances(7, &turns(n, 4), &mut SplitMix::new(SEED));
    pcoa::Input { distances: Matrix::full(n, &entries), components: 8 }
}

fn hashed(n: usize, width: usize) -> hash_pca::Input {
    hash_pca::Input { sets: caught(n, width).sets, components: 8 }
}

/// So many hashes in sets of one size, so many different ones, in turn.
fn given(n: usize, many: usize, different: u64) -> hash_pca::Input {
    let hash = |at: usize| (at as u64 % different).wrapping_mul(0x9E37_79B9_7F4A_7C15);
    let sets = (0..n).map(|i| (i * many / n..(i + 1) * many / n).map(hash).collect()).collect();
    hash_pca::Input { sets, components: 8 }
}

fn caught(n: usize, width: usize) -> gram_matrix::Input {
    gram_matrix::Input { sets: sets::sets(2, n, width, &mut SplitMix::new(SEED)) }
}

pub fn scored(columns: usize, clusters: &[usize]) -> dapc::Input {
    let coordinates = coordinates::coordinates(0, clusters, columns, &mut SplitMix::new(SEED));
    dapc::Input { coordinates, columns, labels: labels(clusters) }
}

fn square(n: usize) -> jacobi_eigen::Input {
    jacobi_eigen::Input { matrix: Matrix::full(n, &matrices::matrix(0, n, &mut SplitMix::new(SEED))) }
}

fn leading(n: usize) -> top_eigs::Input {
    top_eigs::Input { matrix: square(n).matrix, components: 8 }
}

/// Positive finite values of every exponent.
fn positive(count: usize) -> Vec<f64> {
    let mut draw = SplitMix::new(SEED);
    (0..count).map(|_| f64::from_bits(1 + draw.word() % (f64::INFINITY.to_bits() - 1))).collect()
}
