//! `dapc::dapc`.

use super::Operation;
use crate::inputs::{coordinates, lots};
use crate::splitmix::SplitMix;
use crate::words::{push_floats, push_numbers, Reader};
use popsketch::dapc::{self, dapc};

pub struct Dapc;

pub struct Input {
    /// One row for each sample.
    pub coordinates: Vec<Vec<f64>>,
    pub columns: usize,
    pub labels: Vec<u16>,
}

/// An input as the Rust takes it.
pub struct Prepared {
    coordinates: Vec<Vec<f64>>,
    group: Vec<Option<usize>>,
    names: Vec<String>,
}

impl Input {
    pub fn prepared(&self) -> Prepared {
        let names = lots::distinct(&self.labels);
        Prepared {
            coordinates: self.coordinates.clone(),
            group: self.labels.iter().map(|l| names.iter().position(|x| x == l)).collect(),
            names: names.iter().map(|&x| lots::name(x)).collect(),
        }
    }
}

impl Prepared {
    pub fn call(&self) -> Option<dapc::Dapc> {
        dapc(&self.coordinates, &self.group, &self.names)
    }
}

fn size(at: usize, draw: &mut SplitMix) -> usize {
    match at % 60 {
        0 => at / 60 % 4,
        29 => 256,
        x if x % 10 == 4 => draw.within(64, 255),
        x if x % 10 == 7 => draw.within(41, 64),
        x if x % 10 == 2 => draw.within(4, 9),
        _ => draw.within(10, 40),
    }
}

impl Operation for Dapc {
    const NAME: &'static str = "dapc";
    const NUMBER: u64 = 4;
    type Input = Input;

    fn draw(at: usize, draw: &mut SplitMix) -> (usize, Input) {
        let kind = (at + at / 60) % coordinates::KINDS;
        let n = size(at, draw);
        let columns = if at % 50 == 9 { draw.within(0, 1) } else { draw.within(2, 16) };
        let groups = draw.within(2, 6).min(n / 2).max(2);
        let (mut labels, clusters) = lots::labels(n, groups, draw);
        if at % 40 == 3 {
            labels = lots::too_few(n, draw);
        }
        let coordinates = coordinates::coordinates(kind, &clusters, columns, draw);
        (kind, Input { coordinates, columns, labels })
    }

    fn write(input: &Input, words: &mut Vec<u64>) {
        words.extend([input.labels.len() as u64, input.columns as u64]);
        push_floats(words, input.coordinates.iter().flatten());
        push_numbers(words, &input.labels);
    }

    fn read(from: &mut Reader) -> Input {
        let n = from.number();
        let columns = from.number();
        let coordinates = (0..n).map(|_| from.floats(columns)).collect();
        Input { coordinates, columns, labels: from.numbers(n) }
    }

    /// Kept samples, groups g, columns used p, axes, right count, g labels, a value per axis, scores n by axes row by row,
    /// n group numbers.
    fn answer(input: &Input) -> Option<Vec<u64>> {
        let found = input.prepared().call()?;
        let groups: Vec<u16> = found.groups.iter().map(|name| name.parse().unwrap()).collect();
        let assigned: Vec<u16> = found.assigned.iter().map(|a| a.map_or(lots::NONE, |g| g as u16)).collect();
        let kept = assigned.iter().filter(|&&a| a != lots::NONE).count();
        let own = |(a, l): (&u16, &u16)| *a != lots::NONE && groups[*a as usize] == *l;
        let right = assigned.iter().zip(&input.labels).filter(|&pair| own(pair)).count();
        assert_eq!(right as f64 / kept as f64, found.accuracy);
        let axes = found.eigenvalues.len();
        let mut words: Vec<u64> = [kept, groups.len(), found.n_pcs, axes, right].map(|x| x as u64).to_vec();
        push_numbers(&mut words, &groups);
        push_floats(&mut words, &found.eigenvalues);
        push_floats(&mut words, found.scores.iter().flatten());
        push_numbers(&mut words, &assigned);
        Some(words)
    }

    /// Too few groups, else too few columns, else a pivot.
    fn refusal(input: &Input) -> u64 {
        let groups = lots::usable(&input.labels);
        let used = input.columns.min(lots::kept(&input.labels).saturating_sub(groups + 1));
        match (groups, used) {
            (0 | 1, _) => 5,
            (_, 0 | 1) => 9,
            _ => 10,
        }
    }
}
