//! `test` and `exhaustive`.

use super::library::Library;
use super::{unlike, Asked, Lent, BEFORE, BEFORE_NUMBER, BEFORE_WORD};
use crate::ops::test;

/// What both take, and what both are lent.
pub struct Lot {
    pub n: usize,
    pub distances: Vec<f64>,
    pub labels: Vec<u16>,
    pub strata: Option<Vec<u16>>,
    pub weights: Option<Vec<f64>>,
    pub group_labels: Vec<u16>,
    pub counts: Vec<u16>,
    pub means: Vec<f64>,
    pub pair_terms: Vec<f64>,
    pub weighted_squares: Vec<f64>,
}

impl Lot {
    fn new(input: &test::Input) -> Self {
        let n = input.distances.n;
        Lot {
            n,
            distances: input.distances.entries(),
            labels: input.labels.clone(),
            strata: input.strata.clone(),
            weights: input.weights.clone(),
            group_labels: vec![BEFORE_NUMBER; n],
            counts: vec![BEFORE_NUMBER; n],
            means: vec![BEFORE; n],
            pair_terms: vec![BEFORE; n * n],
            weighted_squares: vec![BEFORE; n * n],
        }
    }

    fn lent(&mut self) -> Vec<(&'static str, Lent<'_>)> {
        vec![
            ("group_labels", Lent::Numbers(&mut self.group_labels)),
            ("counts", Lent::Numbers(&mut self.counts)),
            ("means", Lent::Floats(&mut self.means)),
            ("pair_terms", Lent::Floats(&mut self.pair_terms)),
            ("weighted_squares", Lent::Floats(&mut self.weighted_squares)),
        ]
    }

    /// In one of fourteen ways, for a lot of one sample or more. The place is that of an entry without its mirror.
    fn damage(&mut self, way: usize, place: usize) -> Option<u8> {
        let last = self.distances.len() - 1;
        match way {
            0 => self.distances[last / 2] = f64::NAN,
            1 => self.distances[last] = -f64::MIN_POSITIVE,
            2 => self.distances[last / 3] = f64::from_bits(1048576f64.to_bits() + 1),
            3 => self.distances[0] = f64::INFINITY,
            4 => *self.weights.as_mut()?.last_mut()? = 0.0,
            5 => self.weights.as_mut()?[0] = f64::from_bits(1048576f64.to_bits() + 1),
            6 => self.distances.push(0.0),
            7 => drop(self.labels.pop()),
            8 => drop(self.weighted_squares.pop()),
            9 => drop(self.means.pop()),
            10 => self.n = 1 << 63,
            _ => return unlike(self.n, &mut self.distances, way - 11, place),
        }
        Some([3, 3, 3, 3, 4, 4, 1, 1, 1, 1, 1][way])
    }
}

pub struct TestCall {
    pub lot: Lot,
    seed: u64,
    n_perm: u64,
    pub values: Vec<f64>,
    pub numbers: Vec<u64>,
}

impl Asked<test::Input> for TestCall {
    const FUNCTION: &'static str = "lotjudge_test";

    fn new(input: &test::Input) -> Self {
        let (values, numbers) = (vec![BEFORE; 6], vec![BEFORE_WORD; 5]);
        TestCall { lot: Lot::new(input), seed: input.seed, n_perm: input.n_perm, values, numbers }
    }

    #[rustfmt::skip]
    fn ask(&mut self, library: &Library) -> u8 {
        let l = &mut self.lot;
        let strata = l.strata.as_deref().unwrap_or(&[]);
        let weights = l.weights.as_deref().unwrap_or(&[]);
        unsafe {
            (library.lotjudge_test)(
                l.n, l.distances.as_ptr(), l.distances.len(), l.labels.as_ptr(), l.labels.len(),
                l.strata.is_some(), strata.as_ptr(), strata.len(), l.weights.is_some(), weights.as_ptr(), weights.len(),
                self.seed, self.n_perm, l.group_labels.as_mut_ptr(), l.group_labels.len(), l.counts.as_mut_ptr(), l.counts.len(),
                l.means.as_mut_ptr(), l.means.len(), l.pair_terms.as_mut_ptr(), l.pair_terms.len(),
                l.weighted_squares.as_mut_ptr(), l.weighted_squares.len(),
                self.values.as_mut_ptr(), self.numbers.as_mut_ptr(),
            )
        }
    }

    fn lent(&mut self) -> Vec<(&'static str, Lent<'_>)> {
        let mut all = self.lot.lent();
        all.push(("values", Lent::Floats(&mut self.values)));
        all.push(("numbers", Lent::Words(&mut self.numbers)));
        all
    }

    fn sign(&self) -> u64 {
        self.values[0].to_bits()
    }

    fn damage(&mut self, way: usize) -> Option<u8> {
        let place = way / 15;
        match way % 15 {
            _ if self.lot.distances.is_empty() => None,
            6 => {
                self.n_perm = 1_000_000;
                Some(2)
            }
            way if way > 6 => self.lot.damage(way - 1, place),
            way => self.lot.damage(way, place),
        }
    }
}

pub struct ExhaustiveCall {
    pub lot: Lot,
    coords: Vec<f64>,
    eigenpairs: Vec<f64>,
    vectors: Vec<f64>,
    label_counts: Vec<u16>,
    pub values: Vec<f64>,
    pub numbers: Vec<u64>,
}

impl Asked<test::Input> for ExhaustiveCall {
    const FUNCTION: &'static str = "lotjudge_exhaustive";

    fn new(input: &test::Input) -> Self {
        let n = input.distances.n;
        ExhaustiveCall {
            lot: Lot::new(input),
            coords: vec![BEFORE; 16 + 8 * n],
            eigenpairs: vec![BEFORE; n + n * n],
            vectors: vec![BEFORE; n * n],
            label_counts: vec![BEFORE_NUMBER; n * n],
            values: vec![BEFORE; 4],
            numbers: vec![BEFORE_WORD; 11],
        }
    }

    #[rustfmt::skip]
    fn ask(&mut self, library: &Library) -> u8 {
        let l = &mut self.lot;
        let strata = l.strata.as_deref().unwrap_or(&[]);
        let weights = l.weights.as_deref().unwrap_or(&[]);
        unsafe {
            (library.lotjudge_exhaustive)(
                l.n, l.distances.as_ptr(), l.distances.len(), l.labels.as_ptr(), l.labels.len(),
                l.strata.is_some(), strata.as_ptr(), strata.len(), l.weights.is_some(), weights.as_ptr(), weights.len(),
                l.group_labels.as_mut_ptr(), l.group_labels.len(), l.counts.as_mut_ptr(), l.counts.len(),
                l.means.as_mut_ptr(), l.means.len(), l.pair_terms.as_mut_ptr(), l.pair_terms.len(),
                l.weighted_squares.as_mut_ptr(), l.weighted_squares.len(),
                self.coords.as_mut_ptr(), self.coords.len(), self.eigenpairs.as_mut_ptr(), self.eigenpairs.len(),
                self.vectors.as_mut_ptr(), self.vectors.len(), self.label_counts.as_mut_ptr(), self.label_counts.len(),
                self.values.as_mut_ptr(), self.numbers.as_mut_ptr(),
            )
        }
    }

    fn lent(&mut self) -> Vec<(&'static str, Lent<'_>)> {
        let mut all = self.lot.lent();
        all.push(("coords", Lent::Floats(&mut self.coords)));
        all.push(("eigenpairs", Lent::Floats(&mut self.eigenpairs)));
        all.push(("vectors", Lent::Floats(&mut self.vectors)));
        all.push(("label_counts", Lent::Numbers(&mut self.label_counts)));
        all.push(("values", Lent::Floats(&mut self.values)));
        all.push(("numbers", Lent::Words(&mut self.numbers)));
        all
    }

    fn sign(&self) -> u64 {
        self.values[0].to_bits()
    }

    fn damage(&mut self, way: usize) -> Option<u8> {
        let place = way / 18;
        match way % 18 {
            _ if self.lot.distances.is_empty() => return None,
            way if way < 14 => return self.lot.damage(way, place),
            14 => drop(self.coords.pop()),
            15 => drop(self.eigenpairs.pop()),
            16 => drop(self.vectors.pop()),
            _ => drop(self.label_counts.pop()),
        }
        Some(1)
    }
}
