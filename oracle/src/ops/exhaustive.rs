//! The exhaustive test, which the Rust does not have: every way is listed, and the Rust's `test` without shuffles and its `dapc` on
//! its `pcoa` are asked for each. The inputs are lots of `test`, the same with few ways, and small lots.

use super::dapc::{self, Dapc};
use super::test::{self, Input, Test};
use super::{outcome, Operation};
use crate::inputs::distances;
use crate::inputs::lots::{self, NONE};
use crate::matrix::Matrix;
use crate::splitmix::{two_to, SplitMix};
use crate::words::{bits, Reader};
use popsketch::ordination::pcoa;
use std::collections::BTreeMap;

pub struct Exhaustive;

/// Document 01's limits: the ways of an accepted lot, and a coordinate's magnitude.
const MOST_WAYS: u64 = 20_000;
const FARTHEST: i32 = 40;

/// The components of `pcoa` that the assignment reads.
const COMPONENTS: usize = 8;

/// A way's location F, dispersion F (None where unbounded), and the samples assigned to their own group (None where `dapc` refuses).
type Statistics = [Option<f64>; 3];

impl Operation for Exhaustive {
    const NAME: &'static str = "exhaustive";
    const NUMBER: u64 = 8;
    type Input = Input;

    fn draw(at: usize, draw: &mut SplitMix) -> (usize, Input) {
        match at % 3 {
            0 => Test::draw(at / 3, draw),
            1 => {
                let kind = at / 3 % distances::KINDS;
                (kind, small(at / 3, kind, draw))
            }
            _ => {
                let (kind, mut input) = Test::draw(at / 3, draw);
                input.strata = Some(sessions(input.labels.len(), draw));
                (kind, input)
            }
        }
    }

    /// As for `test`; the shuffles and the seed are not looked at.
    fn write(input: &Input, words: &mut Vec<u64>) {
        Test::write(input, words);
    }

    fn read(from: &mut Reader) -> Input {
        Test::read(from)
    }

    /// Kept samples, groups g, ways, for either F whether it is finite, its value (0 if not) and its hits, whether there is an
    /// assignment, its right count and its hits, r2, informative fraction, warnings, then the groups.
    fn answer(lot: &Input) -> Option<Vec<u64>> {
        if Self::refusal(lot) != 0 {
            return None;
        }
        let n = lot.labels.len();
        let mut asked = lot.prepared();
        asked.options.n_perm = 0;
        let found = asked.call()?;
        let coordinates = pcoa(&lot.distances.entries(), n, COMPONENTS)?.coords;
        let mut scored = dapc::Input { coordinates, columns: COMPONENTS.min(n), labels: lot.labels.clone() };
        let mut statistics = |way: &Vec<u16>| {
            asked.labels = lots::named(way);
            scored.labels.copy_from_slice(way);
            statistics(&asked, &scored)
        };
        let seen = statistics(&lot.labels);
        let all: Vec<Statistics> = ways(lot).iter().map(statistics).collect();
        let mut words = vec![found.n as u64, found.n_groups as u64, all.len() as u64];
        for (k, hit) in [as_far, as_far, as_right].iter().enumerate() {
            let hits = all.iter().filter(|way| hit(seen[k], way[k])).count();
            let value = seen[k].map_or(0, |x| if k < 2 { bits(x) } else { x as u64 });
            words.extend([seen[k].is_some() as u64, value, hits as u64]);
        }
        words.extend([bits(found.r2), bits(found.informative_fraction), test::warnings(&found)]);
        test::push_groups(&mut words, &found);
        Some(words)
    }

    /// Too few groups, else too many ways; 0 where neither is.
    fn refusal(lot: &Input) -> u64 {
        match lots::usable(&lot.labels) {
            0 | 1 => 5,
            _ if number_of_ways(lot) > MOST_WAYS => 8,
            _ => 0,
        }
    }

    fn owed(lot: &Input) -> Option<u64> {
        Test::owed(lot)
    }
}

fn statistics(asked: &test::Prepared, scored: &dapc::Input) -> Statistics {
    let found = asked.call().expect("the groups of the lot");
    let finite = |f: f64| f.is_finite().then_some(f);
    [finite(found.f), finite(found.disp_f), right(scored)]
}

/// None where `dapc` refuses, a coordinate that document 01 refuses and that the Rust takes among the reasons.
fn right(scored: &dapc::Input) -> Option<f64> {
    if !scored.coordinates.iter().flatten().all(|x| x.abs() <= two_to(FARTHEST)) {
        return None;
    }
    let found = outcome::<Dapc>(scored);
    (found[0] == 0).then(|| found[5] as f64)
}

/// Whether a way is a hit of what is seen of an F.
pub fn as_far(seen: Option<f64>, way: Option<f64>) -> bool {
    match (seen, way) {
        (_, None) => true,
        (None, Some(_)) => false,
        (Some(f), Some(x)) => x >= f - 1e-12 * f.abs(),
    }
}

/// Whether a way is a hit of what is seen of an assignment.
pub fn as_right(seen: Option<f64>, way: Option<f64>) -> bool {
    matches!((seen, way), (Some(r), Some(x)) if x >= r)
}

/// The kept samples stratum by stratum; one without a stratum stands alone.
fn together(lot: &Input) -> Vec<Vec<usize>> {
    let mut strata: BTreeMap<usize, Vec<usize>> = BTreeMap::new();
    for i in (0..lot.labels.len()).filter(|&i| lots::is_kept(&lot.labels, i)) {
        let stratum = match &lot.strata {
            None => 0,
            Some(s) if s[i] == NONE => 70_000 + i,
            Some(s) => s[i] as usize,
        };
        strata.entry(stratum).or_default().push(i);
    }
    strata.into_values().collect()
}

/// The labels of these samples, upward.
fn labels_of(lot: &Input, samples: &[usize]) -> Vec<u16> {
    let mut labels: Vec<u16> = samples.iter().map(|&i| lot.labels[i]).collect();
    labels.sort_unstable();
    labels
}

/// M, or a number above the limit where M is: size!/(product of label counts!) for each stratum, label by label.
fn number_of_ways(lot: &Input) -> u64 {
    let mut ways = 1;
    for samples in together(lot) {
        let labels = labels_of(lot, &samples);
        for (at, label) in labels.iter().enumerate() {
            let of_it = labels[..=at].iter().filter(|l| *l == label).count() as u64;
            ways = ways * (at as u64 + 1) / of_it;
            if ways > MOST_WAYS {
                return ways;
            }
        }
    }
    ways
}

/// Every way to give the kept samples labels so that each stratum keeps its count of each, as labels of all samples.
pub fn ways(lot: &Input) -> Vec<Vec<u16>> {
    let mut ways = vec![lot.labels.clone()];
    for samples in together(lot) {
        let orders = arrangements(&labels_of(lot, &samples));
        ways = ways
            .iter()
            .flat_map(|way| {
                orders.iter().map(|order| {
                    let mut next = way.clone();
                    samples.iter().zip(order).for_each(|(&i, &l)| next[i] = l);
                    next
                })
            })
            .collect();
    }
    ways
}

/// The distinct orders of a sorted list.
fn arrangements(labels: &[u16]) -> Vec<Vec<u16>> {
    if labels.is_empty() {
        return vec![vec![]];
    }
    let mut all = Vec::new();
    for at in 0..labels.len() {
        if at > 0 && labels[at] == labels[at - 1] {
            continue;
        }
        let rest = [&labels[..at], &labels[at + 1..]].concat();
        all.extend(arrangements(&rest).into_iter().map(|tail| [vec![labels[at]], tail].concat()));
    }
    all
}

/// Some samples two or three to a stratum, in any order; the others stand alone.
fn sessions(n: usize, draw: &mut SplitMix) -> Vec<u16> {
    let (size, samples) = (draw.within(2, 3), draw.within(2, 18));
    let mut strata: Vec<u16> = (0..n).map(|i| if i < samples { (i / size) as u16 } else { NONE }).collect();
    draw.shuffle(&mut strata);
    strata
}

/// Of 4 to 12 samples: with and without strata and weights, with ties, zero distances, unlabelled samples and single labels.
pub fn small(at: usize, kind: usize, draw: &mut SplitMix) -> Input {
    let n = draw.within(4, if at % 3 == 0 { 12 } else { 9 });
    let groups = draw.within(2, 3);
    let mut labels: Vec<u16> = (0..n).map(|_| draw.below(groups) as u16).collect();
    if draw.chance(30) {
        labels[draw.below(n)] = NONE;
    }
    if draw.chance(30) {
        labels[draw.below(n)] = 40;
    }
    let clusters: Vec<usize> = labels.iter().map(|&l| l as usize % 3).collect();
    let strata =
        (at % 2 == 1).then(|| (0..n).map(|_| if draw.chance(10) { NONE } else { draw.below(3) as u16 }).collect());
    let weights = draw.chance(30).then(|| (0..n).map(|_| 0.5 + draw.unit()).collect());
    let distances = Matrix::full(n, &distances::distances(kind, &clusters, draw));
    Input { distances, labels, strata, weights, n_perm: 0, seed: 0 }
}
