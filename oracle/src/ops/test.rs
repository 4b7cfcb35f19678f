//! `permanova::test`: location, dispersion and their shuffles.

use super::Operation;
use crate::inputs::{distances, lots};
use crate::matrix::Matrix;
use crate::splitmix::SplitMix;
use crate::words::{bits, push_floats, push_numbers, Reader};
use popsketch::permanova::{self, Options, TestResult};

pub struct Test;

pub struct Input {
    pub distances: Matrix,
    pub labels: Vec<u16>,
    pub strata: Option<Vec<u16>>,
    pub weights: Option<Vec<f64>>,
    pub n_perm: u64,
    pub seed: u64,
}

/// An input as the Rust takes it.
pub struct Prepared {
    distances: Vec<f64>,
    pub labels: Vec<Option<String>>,
    strata: Option<Vec<Option<String>>>,
    weights: Option<Vec<f64>>,
    pub options: Options,
}

impl Input {
    pub fn prepared(&self) -> Prepared {
        Prepared {
            distances: self.distances.entries(),
            labels: lots::named(&self.labels),
            strata: self.strata.as_deref().map(lots::named),
            weights: self.weights.clone(),
            options: Options { n_perm: self.n_perm as usize, seed: self.seed },
        }
    }
}

impl Prepared {
    pub fn call(&self) -> Option<TestResult> {
        let n = self.labels.len();
        permanova::test(
            &self.distances,
            n,
            &self.labels,
            self.strata.as_deref(),
            self.weights.as_deref(),
            &self.options,
        )
    }
}

/// A warning's bit in document 01's number.
fn warning_bit(text: &str) -> u64 {
    const SAYS: [&str; 7] = [
        "group(s) with one sample were left out",
        "the label never varies inside a stratum",
        "the label varies inside a stratum for only",
        "smallest group has",
        "sample(s) have a negative squared distance",
        "PERMANOVA and PERMDISP are both significant",
        "group sizes are unequal",
    ];
    // a count stands before the text of bits 0 and 4
    let text = text.trim_start_matches(|c: char| c.is_ascii_digit() || c == ' ');
    1 << SAYS.iter().position(|says| text.starts_with(says)).expect("a warning of the Rust")
}

/// The warnings as document 01's number.
pub fn warnings(result: &TestResult) -> u64 {
    result.warnings.iter().map(|w| warning_bit(w)).sum()
}

/// For each group its label, its count and its mean z.
pub fn push_groups(words: &mut Vec<u64>, result: &TestResult) {
    for group in &result.groups {
        words.extend([group.label.parse().unwrap(), group.n as u64, bits(group.mean_dispersion)]);
    }
}

fn size(at: usize, draw: &mut SplitMix) -> usize {
    match at % 60 {
        0 => at / 60 % 4,
        19 => 256,
        39 => draw.within(129, 255),
        9 | 49 => draw.within(65, 128),
        x if x % 10 == 4 => 64,
        _ => draw.within(4, 40),
    }
}

fn shuffles(at: usize, draw: &mut SplitMix) -> u64 {
    if at % 120 == 61 {
        return 99_999;
    }
    let any = draw.within(0, 999) as u64;
    draw.pick(&[0, 1, 19, 39, 99, 199, 499, 999, any, any])
}

impl Operation for Test {
    const NAME: &'static str = "test";
    const NUMBER: u64 = 1;
    type Input = Input;

    fn draw(at: usize, draw: &mut SplitMix) -> (usize, Input) {
        let kind = (at + at / 60) % distances::KINDS;
        // large and small groups that lie apart, as bits 5 and 6 ask for
        let clear = kind == 12;
        let n = size(at, draw);
        let groups = if draw.chance(70) { draw.within(2, 5) } else { draw.within(2, (n / 2).max(2)) };
        let (mut labels, clusters) =
            if clear { lots::unequal(n, draw) } else { lots::labels(n, groups.min(n / 2).max(2), draw) };
        if at % 40 == 3 {
            labels = lots::too_few(n, draw);
        }
        let entries = distances::distances(kind, &clusters, draw);
        let exact = n < 64 || at % 240 == 19 || at % 120 == 49 || at % 20 == 4;
        let input = Input {
            distances: distances::kept(n, &entries, exact),
            strata: if clear { None } else { lots::strata(&labels, draw) },
            weights: lots::weights(n, draw),
            labels,
            n_perm: if clear { draw.within(99, 999) as u64 } else { shuffles(at, draw) },
            seed: draw.word(),
        };
        (kind, input)
    }

    fn write(input: &Input, words: &mut Vec<u64>) {
        input.distances.write(words);
        push_numbers(words, &input.labels);
        words.push(input.strata.is_some() as u64);
        push_numbers(words, input.strata.as_deref().unwrap_or(&[]));
        words.push(input.weights.is_some() as u64);
        push_floats(words, input.weights.as_deref().unwrap_or(&[]));
        words.extend([input.n_perm, input.seed]);
    }

    fn read(from: &mut Reader) -> Input {
        let distances = Matrix::read(from);
        let n = distances.n;
        Input {
            distances,
            labels: from.numbers(n),
            strata: from.flag().then(|| from.numbers(n)),
            weights: from.flag().then(|| from.floats(n)),
            n_perm: from.word(),
            seed: from.word(),
        }
    }

    fn answer(input: &Input) -> Option<Vec<u64>> {
        let result = input.prepared().call()?;
        let given = |p: Option<f64>| [p.is_some() as u64, p.map_or(0, bits)];
        let mut words = vec![result.n as u64, result.n_groups as u64, bits(result.f), bits(result.r2)];
        words.extend(given(result.p));
        words.push(bits(result.disp_f));
        words.extend(given(result.disp_p));
        words.push(bits(result.informative_fraction));
        words.push(warnings(&result));
        push_groups(&mut words, &result);
        Some(words)
    }

    fn refusal(_: &Input) -> u64 {
        5
    }

    fn owed(input: &Input) -> Option<u64> {
        distances::owed(&input.distances)
    }
}
