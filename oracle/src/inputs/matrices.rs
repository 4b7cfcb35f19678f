//! Matrices for the eigenpairs: any finite entries.

use crate::splitmix::{two_to, SplitMix};

pub const KINDS: usize = 13;

/// A matrix of the kind, n by n, row by row.
pub fn matrix(kind: usize, n: usize, draw: &mut SplitMix) -> Vec<f64> {
    match kind {
        0 => symmetric(n, |_, _| draw.signed()),
        // whole numbers: equal diagonal entries, so theta is zero
        1 => symmetric(n, |_, _| draw.below(7) as f64 - 3.0),
        // diagonal, with values that stand several times
        2 => symmetric(n, |i, j| if i == j { draw.below(5) as f64 - 2.0 } else { 0.0 }),
        // zero of either sign
        3 => symmetric(n, |_, _| if draw.chance(30) { -0.0 } else { 0.0 }),
        // rank one
        4 => products(&rows(n, 1, draw), 1.0),
        // a few large values, the others about zero
        5 => {
            let dims = draw.within(2, 6);
            products(&rows(n, dims, draw), 1.0)
        }
        // one value many times
        6 => {
            let more = draw.pick(&[0.0, 1.0, 0.3]);
            symmetric(n, |i, j| if i == j { 1.0 + more } else { 1.0 })
        }
        // not symmetric
        7 => (0..n * n).map(|_| draw.signed()).collect(),
        // squares below the stop, or entries about the 1e-300 of a skipped pair
        8 => {
            let scale = draw.pick(&[two_to(-40), two_to(-540), two_to(-996)]);
            symmetric(n, |i, j| if i == j { draw.signed() } else { draw.signed() * scale })
        }
        // squares that overflow
        9 => {
            let scale = two_to(draw.pick(&[400, 520, 700, 1023]));
            symmetric(n, |_, _| draw.signed() * scale)
        }
        // of any size
        10 => symmetric(n, |_, _| draw.signed() * two_to(draw.exponent(-60, 60))),
        // neighbours on a path
        11 => symmetric(n, |i, j| if j == i + 1 { 1.0 } else { 0.0 }),
        // large values below zero
        _ => products(&rows(n, 4, draw), -1.0),
    }
}

fn rows(n: usize, dims: usize, draw: &mut SplitMix) -> Vec<Vec<f64>> {
    (0..n).map(|_| (0..dims).map(|_| draw.bell()).collect()).collect()
}

fn products(rows: &[Vec<f64>], scale: f64) -> Vec<f64> {
    symmetric(rows.len(), |i, j| {
        let product: f64 = rows[i].iter().zip(&rows[j]).map(|(x, y)| x * y).sum();
        product * scale
    })
}

/// The entries i <= j by `entry`, mirrored.
fn symmetric(n: usize, mut entry: impl FnMut(usize, usize) -> f64) -> Vec<f64> {
    let mut all = vec![0.0; n * n];
    for i in 0..n {
        for j in i..n {
            let x = entry(i, j);
            all[i * n + j] = x;
            all[j * n + i] = x;
        }
    }
    all
}
