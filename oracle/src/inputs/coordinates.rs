//! Coordinates for the discriminant scores, within 2^40 in magnitude.

use crate::splitmix::{two_to, SplitMix};

pub const KINDS: usize = 12;

/// A row of `columns` for each sample; `clusters` has a number for each sample.
pub fn coordinates(kind: usize, clusters: &[usize], columns: usize, draw: &mut SplitMix) -> Vec<Vec<f64>> {
    let at = |c: usize, j: usize| ((c * (j + 2)) % 5) as f64;
    let scales: Vec<f64> = (0..columns).map(|_| two_to(draw.exponent(-40, 36))).collect();
    let apart = draw.pick(&[0.5, 2.0, 8.0]);
    let mut rows: Vec<Vec<f64>> =
        clusters.iter().map(|&c| (0..columns).map(|j| draw.bell() + apart * at(c, j)).collect()).collect();
    for (row, &c) in rows.iter_mut().zip(clusters) {
        let first = row.first().copied().unwrap_or(0.0);
        for (j, x) in row.iter_mut().enumerate() {
            *x = match kind {
                0 => *x,
                // no difference of the groups
                1 => draw.bell(),
                // whole numbers, with ties of the nearest centroid
                2 => draw.below(3) as f64 - 1.0,
                // columns that are multiples of the first
                3 => first * (j as f64 + 1.0),
                // some columns constant
                4 => {
                    if j % 2 == 1 {
                        3.7
                    } else {
                        *x
                    }
                }
                // nothing within the groups
                5 => at(c, j),
                6 => *x * scales[j] / 4.0,
                // the largest accepted
                7 => {
                    if draw.chance(20) {
                        draw.pick(&[two_to(40), -two_to(40)])
                    } else {
                        draw.signed() * two_to(40)
                    }
                }
                8 => *x * two_to(-40),
                // zero of either sign
                9 => {
                    if draw.chance(50) {
                        -0.0
                    } else {
                        0.0
                    }
                }
                // corners of a cube
                10 => draw.pick(&[-1.0, 1.0]),
                // next to a multiple of the first
                _ => first * (j as f64 + 1.0) + draw.signed() * two_to(-30),
            };
        }
    }
    rows
}
