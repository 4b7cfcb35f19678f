//! Labels, strata and weights of a lot, and what the Rust takes in their place.

use crate::splitmix::{two_to, SplitMix};

/// A sample without label or stratum.
pub const NONE: u16 = 65535;

/// Labels of n samples, and for each sample the cluster that its position in space may follow.
pub fn labels(n: usize, groups: usize, draw: &mut SplitMix) -> (Vec<u16>, Vec<usize>) {
    let mut clusters: Vec<usize> = match draw.below(4) {
        0 => (0..n).map(|i| i % groups).collect(),
        1 => (0..n).map(|i| i * groups / n).collect(),
        2 => (0..n).map(|_| draw.below(groups)).collect(),
        _ => (0..n).map(|i| if i < 2 * groups { i / 2 } else { groups - 1 }).collect(),
    };
    if draw.chance(70) {
        draw.shuffle(&mut clusters);
    }
    let names = names(groups, draw);
    let mut labels: Vec<u16> = clusters.iter().map(|&c| names[c]).collect();
    if draw.chance(30) {
        for label in &mut labels {
            if draw.chance(15) {
                *label = NONE;
            }
        }
    }
    if n > 6 && draw.chance(25) {
        for _ in 0..draw.within(1, 3) {
            labels[draw.below(n)] = (0..NONE).rev().find(|x| !labels.contains(x)).unwrap();
        }
    }
    if n >= 4 && usable(&labels) < 2 {
        labels[..4].copy_from_slice(&[names[0], names[0], names[1], names[1]]);
    }
    (labels, clusters)
}

/// Two groups, one three times the other or more; as `labels`.
pub fn unequal(n: usize, draw: &mut SplitMix) -> (Vec<u16>, Vec<usize>) {
    let small = n / draw.within(4, 6);
    let mut clusters: Vec<usize> = (0..n).map(|i| (i < small) as usize).collect();
    draw.shuffle(&mut clusters);
    (clusters.iter().map(|&c| 40 + c as u16).collect(), clusters)
}

/// Labels of which fewer than two are held by two samples.
pub fn too_few(n: usize, draw: &mut SplitMix) -> Vec<u16> {
    match draw.below(4) {
        0 => vec![NONE; n],
        1 => vec![7; n],
        2 => (0..n as u16).collect(),
        _ => (0..n as u16).map(|i| if i > 2 { NONE } else { i / 2 }).collect(),
    }
}

/// The number of labels held by two samples or more.
pub fn usable(labels: &[u16]) -> usize {
    distinct(labels).iter().filter(|&&l| held(labels, l) > 1).count()
}

/// The number of samples whose label is held by two or more.
pub fn kept(labels: &[u16]) -> usize {
    (0..labels.len()).filter(|&i| is_kept(labels, i)).count()
}

pub fn is_kept(labels: &[u16], i: usize) -> bool {
    labels[i] != NONE && held(labels, labels[i]) > 1
}

/// The labels in use, upward.
pub fn distinct(labels: &[u16]) -> Vec<u16> {
    let mut all: Vec<u16> = labels.iter().copied().filter(|&l| l != NONE).collect();
    all.sort_unstable();
    all.dedup();
    all
}

fn held(labels: &[u16], label: u16) -> usize {
    labels.iter().filter(|&&l| l == label).count()
}

/// Label numbers of the groups: small ones, any, or the two ends of the range.
fn names(groups: usize, draw: &mut SplitMix) -> Vec<u16> {
    let mut names: Vec<u16> = match draw.below(3) {
        0 => (0..groups as u16).collect(),
        1 => (0..groups as u16).map(|i| i * 257 + draw.below(257) as u16).collect(),
        _ => (0..groups as u16).map(|i| if i % 2 == 0 { i } else { NONE - i }).collect(),
    };
    draw.shuffle(&mut names);
    names
}

/// Strata: not given, or one of the ways in which they may lie to the labels.
pub fn strata(labels: &[u16], draw: &mut SplitMix) -> Option<Vec<u16>> {
    let n = labels.len();
    if draw.chance(45) {
        return None;
    }
    let few = draw.within(2, 5);
    Some(match draw.pick(&[0, 1, 2, 3, 4, 4, 5, 5, 6, 6, 7, 7]) {
        0 => vec![NONE; n],
        1 => labels.to_vec(),
        2 => vec![draw.pick(&[0, 9, 65534]); n],
        3 => (0..n as u16).rev().collect(),
        4 => (0..n).map(|_| if draw.chance(40) { NONE } else { draw.below(few) as u16 }).collect(),
        5 => labels.iter().map(|&l| if draw.chance(25) { 65534 } else { l }).collect(),
        6 => labels.iter().map(|&l| if draw.chance(6) { 3 } else { l }).collect(),
        _ => (0..n).map(|_| draw.below(few) as u16 * 13001).collect(),
    })
}

/// Weights: not given, or within 2^-20 to 2^20.
pub fn weights(n: usize, draw: &mut SplitMix) -> Option<Vec<f64>> {
    if draw.chance(50) {
        return None;
    }
    let sort = draw.below(5);
    let one = |draw: &mut SplitMix| match sort {
        0 => 1.0,
        1 => 0.5 + 3.5 * draw.unit(),
        2 => draw.pick(&[two_to(-20), two_to(20)]),
        3 => draw.within(1, 20) as f64,
        _ => (1.0 + draw.unit()) * two_to(draw.exponent(-20, 19)),
    };
    Some((0..n).map(|_| one(draw)).collect())
}

/// A label or stratum as a name whose order is the order of the numbers.
pub fn name(number: u16) -> String {
    format!("{number:05}")
}

pub fn named(numbers: &[u16]) -> Vec<Option<String>> {
    numbers.iter().map(|&x| (x != NONE).then(|| name(x))).collect()
}
