//! `ordination::jacobi_eigen`. The Rust does not tell how many sweeps it made; they are counted here.

use super::Operation;
use crate::inputs::matrices;
use crate::matrix::Matrix;
use crate::splitmix::SplitMix;
use crate::words::{push_floats, Reader};
use popsketch::ordination::jacobi_eigen;

pub struct JacobiEigen;

pub struct Input {
    pub matrix: Matrix,
}

fn size(at: usize, draw: &mut SplitMix) -> usize {
    match at {
        0..=2 => at,
        9 => 2,
        52 => 256,
        79 => 128,
        _ if at % 400 == 393 => draw.within(91, 256),
        _ if at % 100 == 80 && at > 200 => at / 100 % 3,
        _ if at % 20 == 4 => draw.within(65, 90),
        _ if at % 20 == 14 => 64,
        _ if at % 5 == 3 => draw.within(17, 40),
        _ => draw.within(2, 16),
    }
}

impl Operation for JacobiEigen {
    const NAME: &'static str = "jacobi_eigen";
    const NUMBER: u64 = 5;
    type Input = Input;

    fn draw(at: usize, draw: &mut SplitMix) -> (usize, Input) {
        let kind = at % matrices::KINDS;
        let n = size(at, draw);
        let entries = if at == 9 { overflow() } else { matrices::matrix(kind, n, draw) };
        let matrix = if n <= 40 { Matrix::full(n, &entries) } else { Matrix::packed(n, &entries) };
        (kind, Input { matrix })
    }

    fn write(input: &Input, words: &mut Vec<u64>) {
        input.matrix.write(words);
    }

    fn read(from: &mut Reader) -> Input {
        Input { matrix: Matrix::read(from) }
    }

    /// n values, then n rows of n.
    fn answer(input: &Input) -> Option<Vec<u64>> {
        let (values, vectors) = jacobi_eigen(&input.matrix.entries(), input.matrix.n);
        let mut words = Vec::new();
        push_floats(&mut words, &values);
        push_floats(&mut words, vectors.iter().flatten());
        Some(words)
    }

    fn refusal(_: &Input) -> u64 {
        unreachable!("the Rust always answers")
    }
}

/// Document 01's case of refusal 11.
fn overflow() -> Vec<f64> {
    vec![-1.7e308, 1e308, 1e308, 1.7e308]
}

/// The sweeps made: those of section 4 of document 01 on the matrix, stepped here without the vectors. They must leave these values.
#[cfg(feature = "port")]
pub fn sweeps(matrix: &[f64], values: &[f64]) -> u64 {
    let n = values.len();
    let mut m = matrix.to_vec();
    let made = (0..100).find(|_| {
        let done = off_diagonal(&m, n) < 1e-22;
        if !done {
            sweep(&mut m, n);
        }
        done
    });
    let mut left: Vec<f64> = (0..n).map(|i| m[i * n + i]).collect();
    left.sort_by(|x, y| y.partial_cmp(x).unwrap());
    assert!(left.iter().zip(values).all(|(x, y)| x.to_bits() == y.to_bits()), "other values than the sweeps leave");
    made.unwrap_or(100)
}

/// The sum of squares beside the diagonal, row by row.
#[cfg(feature = "port")]
fn off_diagonal(m: &[f64], n: usize) -> f64 {
    (0..n * n).filter(|at| at / n != at % n).fold(-0.0, |sum, at| sum + m[at] * m[at])
}

/// One rotation for each pair, of columns and then of rows.
#[cfg(feature = "port")]
fn sweep(m: &mut [f64], n: usize) {
    for (p, q) in (0..n).flat_map(|p| (p + 1..n).map(move |q| (p, q))) {
        let x = m[p * n + q];
        if x.abs() < 1e-300 {
            continue;
        }
        let (c, s) = angle((m[q * n + q] - m[p * n + p]) / (2.0 * x));
        (0..n).for_each(|k| turn(m, k * n + p, k * n + q, c, s));
        (0..n).for_each(|k| turn(m, p * n + k, q * n + k, c, s));
    }
}

/// Cosine and sine by theta.
#[cfg(feature = "port")]
fn angle(theta: f64) -> (f64, f64) {
    let t = if theta == 0.0 { 1.0 } else { theta.signum() / (theta.abs() + (theta * theta + 1.0).sqrt()) };
    let c = 1.0 / (t * t + 1.0).sqrt();
    (c, t * c)
}

#[cfg(feature = "port")]
fn turn(m: &mut [f64], at: usize, to: usize, c: f64, s: f64) {
    let (x, y) = (m[at], m[to]);
    m[at] = c * x - s * y;
    m[to] = s * x + c * y;
}
