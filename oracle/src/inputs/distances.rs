//! Distance matrices, all within what document 01 accepts: no NaN, from 0 (or -0.0) to 2^20. All mirror themselves as numbers, with
//! zeros of both signs among them, but those of one kind: the judge owes 14 for these (document 02, Q-4).

use crate::matrix::Matrix;
use crate::splitmix::{two_to, SplitMix};

pub const KINDS: usize = 14;

/// The kind that does not mirror itself.
pub const UNLIKE: usize = 8;

/// A matrix of the kind, n by n, row by row; `clusters` has a number for each sample.
pub fn distances(kind: usize, clusters: &[usize], draw: &mut SplitMix) -> Vec<f64> {
    let n = clusters.len();
    match kind {
        // Euclidean, the clusters apart
        0 => {
            let apart = draw.pick(&[0.0, 0.5, 1.0, 3.0]);
            let dims = draw.within(2, 6);
            between(&points(clusters, dims, apart, 0.0, draw), scale(draw))
        }
        // Euclidean, the clusters of unequal spread
        1 => {
            let dims = draw.within(2, 4);
            let apart = draw.pick(&[0.0, 1.0]);
            between(&points(clusters, dims, apart, 1.5, draw), 1.0)
        }
        // on a line: rank one
        2 => between(&points(clusters, 1, 0.5, 0.0, draw), scale(draw)),
        // ties
        3 => symmetric(n, |_, _| draw.below(4) as f64),
        4 => symmetric(n, |_, _| draw.below(1001) as f64),
        // mostly zero, of either sign
        5 => {
            let all = symmetric(n, |_, _| if draw.chance(75) { 0.0 } else { draw.unit() });
            signed(n, all, draw)
        }
        // all zero, some of them -0.0
        6 => {
            let minus = draw.pick(&[0, 50]);
            let all = symmetric(n, |_, _| if draw.chance(minus) { -0.0 } else { 0.0 });
            signed(n, all, draw)
        }
        // not Euclidean
        7 => symmetric(n, |_, _| draw.unit()),
        UNLIKE => unlike(clusters, draw),
        // subnormal, or with a square that is subnormal or zero
        9 => symmetric(n, |_, _| match draw.below(4) {
            0 => f64::from_bits(draw.word() >> 12),
            1 => f64::from_bits(draw.word() % 8),
            2 => (1.0 + draw.unit()) * two_to(draw.exponent(-545, -505)),
            _ => (1.0 + draw.unit()) * two_to(draw.exponent(-1000, -490)),
        }),
        // of any size up to 2^20
        10 => symmetric(n, |_, _| match draw.below(8) {
            0 => two_to(20),
            _ => (1.0 + draw.unit()) * two_to(draw.exponent(-30, 19)),
        }),
        // nothing, or next to nothing, within a part, which may be the cluster
        11 => {
            let close = draw.pick(&[0.0, 0.0, two_to(-12)]);
            let mut parts = clusters.to_vec();
            if draw.chance(40) {
                draw.shuffle(&mut parts);
            }
            symmetric(n, |i, j| if parts[i] == parts[j] { close } else { 1.0 })
        }
        // Euclidean, the clusters far apart and of somewhat unequal spread
        12 => {
            let widens = draw.pick(&[0.35, 0.35, 1.0]);
            between(&points(clusters, 3, 2.5, widens, draw), 1.0)
        }
        // samples that stand several times
        _ => {
            let found = points(clusters, 3, 1.0, 0.0, draw);
            let stand = (n / 3).max(1);
            let again: Vec<Vec<f64>> = (0..n).map(|_| found[draw.below(stand)].clone()).collect();
            between(&again, scale(draw))
        }
    }
}

/// Zeros of another sign: half of those beside the diagonal or none, so that 0.0 may mirror -0.0, and half of those on it or none.
fn signed(n: usize, mut all: Vec<f64>, draw: &mut SplitMix) -> Vec<f64> {
    let (beside, on) = (draw.pick(&[0, 50]), draw.pick(&[0, 50]));
    for (at, x) in all.iter_mut().enumerate() {
        if *x == 0.0 && draw.chance(if at / n == at % n { on } else { beside }) {
            *x = -*x;
        }
    }
    all
}

/// Does not mirror itself, in one of five ways, where it is large enough for that.
fn unlike(clusters: &[usize], draw: &mut SplitMix) -> Vec<f64> {
    let n = clusters.len();
    let mut all = between(&points(clusters, 3, 1.0, 0.0, draw), 1.0);
    let (way, either) = (draw.below(5), draw.chance(50));
    match way {
        // neither symmetric nor zero on the diagonal
        0 => all.fill_with(|| draw.unit() * 4.0),
        // one entry, by a unit in the last place or to 0
        1 => {
            if let Some(at) = beside(n, draw.below(1 << 16)) {
                all[at] = if draw.chance(30) { 0.0 } else { next_to(all[at], either) };
            }
        }
        // one entry of the diagonal
        2 if n > 0 => all[draw.below(n) * (n + 1)] = if either { 1.0 } else { f64::from_bits(1) },
        // one half filled
        3 => (0..n * n).filter(|at| (at / n > at % n) == either).for_each(|at| all[at] = 0.0),
        // another last row, or another last column
        _ => (1..n).for_each(|k| all[if either { n * n - 1 - k } else { n * (n - k) - 1 }] = draw.unit() * 4.0),
    }
    all
}

/// Where an entry beside the diagonal stands, by its place among them; the entries of the diagonal are n + 1 apart.
pub fn beside(n: usize, place: usize) -> Option<usize> {
    let at = place.checked_rem(n * n - n)?;
    Some(at + at / n + 1)
}

/// The f64 after a distance or the one before, from 0 to 2^20.
pub fn next_to(x: f64, after: bool) -> f64 {
    if x == 0.0 || after && x < two_to(20) {
        x.next_up()
    } else {
        x.next_down()
    }
}

/// Whether every entry equals its mirror as a number and the diagonal is zero: -0.0 is 0.0.
pub fn mirrors(n: usize, all: &[f64]) -> bool {
    (0..n).all(|i| all[i * n + i] == 0.0 && (0..i).all(|j| all[i * n + j] == all[j * n + i]))
}

/// 14 where the matrix does not mirror itself, which the Rust does not look at.
pub fn owed(distances: &Matrix) -> Option<u64> {
    (!mirrors(distances.n, &distances.entries())).then_some(14)
}

/// In full, or packed where that is allowed and there is no -0.0 and nothing without its mirror to lose.
pub fn kept(n: usize, all: &[f64], exact: bool) -> Matrix {
    let minus_zero = all.iter().any(|x| x.to_bits() == (-0.0f64).to_bits());
    if exact || minus_zero || !mirrors(n, all) {
        Matrix::full(n, all)
    } else {
        Matrix::packed(n, all)
    }
}

/// A factor for Euclidean distances; the largest of them stay below 2^20.
fn scale(draw: &mut SplitMix) -> f64 {
    draw.pick(&[1.0, 1.0, 1.0, two_to(-30), two_to(-300), two_to(14)])
}

/// Points about centres that lie `apart`, each cluster's spread larger than the one before by the factor 1 + widens.
pub fn points(clusters: &[usize], dims: usize, apart: f64, widens: f64, draw: &mut SplitMix) -> Vec<Vec<f64>> {
    clusters
        .iter()
        .map(|&c| {
            let spread = 1.0 + widens * (c % 4) as f64;
            (0..dims).map(|d| spread * draw.bell() + apart * ((c + d) % 3) as f64).collect()
        })
        .collect()
}

pub fn between(points: &[Vec<f64>], scale: f64) -> Vec<f64> {
    symmetric(points.len(), |i, j| {
        let squares: f64 = points[i].iter().zip(&points[j]).map(|(x, y)| (x - y) * (x - y)).sum();
        squares.sqrt() * scale
    })
}

/// The entries i < j by `entry`, mirrored; the diagonal 0.
fn symmetric(n: usize, mut entry: impl FnMut(usize, usize) -> f64) -> Vec<f64> {
    let mut all = vec![0.0; n * n];
    for i in 0..n {
        for j in i + 1..n {
            let x = entry(i, j);
            all[i * n + j] = x;
            all[j * n + i] = x;
        }
    }
    all
}
