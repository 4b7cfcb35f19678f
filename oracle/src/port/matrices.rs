//! `jacobi_eigen`, `top_eigs` and `gram_matrix`.

use super::library::Library;
use super::{Asked, Lent, BEFORE, BEFORE_WORD};
use crate::inputs::sets::{MOST_SELECTED, SELECTED_WORDS};
use crate::ops::{gram_matrix, jacobi_eigen, top_eigs};

/// The most samples that document 01 accepts.
const MOST: usize = 256;

fn room(entries: usize) -> Vec<f64> {
    vec![BEFORE; entries]
}

/// An entry that is not finite, in one of three ways, for a matrix of one entry or more.
fn not_finite(a: &mut [f64], way: usize) {
    let last = a.len() - 1;
    match way {
        0 => a[last / 2] = f64::NAN,
        1 => a[last] = f64::INFINITY,
        _ => a[0] = f64::NEG_INFINITY,
    }
}

pub struct JacobiCall {
    pub n: usize,
    pub a: Vec<f64>,
    pub out: Vec<f64>,
    rotated: Vec<f64>,
    vectors: Vec<f64>,
    /// One number.
    pub sweeps: Vec<u64>,
}

impl JacobiCall {
    fn of(n: usize, a: Vec<f64>) -> Self {
        let (rotated, vectors) = (room(n * n), room(n * n));
        JacobiCall { n, a, out: room(n + n * n), rotated, vectors, sweeps: vec![BEFORE_WORD] }
    }
}

impl Asked<jacobi_eigen::Input> for JacobiCall {
    const FUNCTION: &'static str = "lotjudge_jacobi_eigen";

    fn new(input: &jacobi_eigen::Input) -> Self {
        JacobiCall::of(input.matrix.n, input.matrix.entries())
    }

    #[rustfmt::skip]
    fn ask(&mut self, library: &Library) -> u8 {
        unsafe {
            (library.lotjudge_jacobi_eigen)(
                self.a.as_ptr(), self.a.len(), self.n, self.out.as_mut_ptr(), self.out.len(), self.rotated.as_mut_ptr(), self.rotated.len(),
                self.vectors.as_mut_ptr(), self.vectors.len(), self.sweeps.as_mut_ptr().cast(),
            )
        }
    }

    fn lent(&mut self) -> Vec<(&'static str, Lent<'_>)> {
        vec![
            ("out", Lent::Floats(&mut self.out)),
            ("rotated", Lent::Floats(&mut self.rotated)),
            ("vectors", Lent::Floats(&mut self.vectors)),
            ("sweeps", Lent::Words(&mut self.sweeps)),
        ]
    }

    fn sign(&self) -> u64 {
        self.out[0].to_bits()
    }

    fn damage(&mut self, way: usize) -> Option<u8> {
        let way = way % 10;
        match way {
            _ if self.a.is_empty() => return None,
            0..=2 => not_finite(&mut self.a, way),
            3 => *self = JacobiCall::of(MOST + 1, room((MOST + 1) * (MOST + 1))),
            4 => drop(self.a.pop()),
            5 => self.a.push(0.0),
            6 => drop(self.out.pop()),
            7 => drop(self.rotated.pop()),
            8 => drop(self.vectors.pop()),
            _ => self.n = 1 << 63,
        }
        Some([3, 3, 3, 2, 1, 1, 1, 1, 1, 1][way])
    }
}

pub struct TopEigsCall {
    pub n: usize,
    a: Vec<f64>,
    pub components: usize,
    pub out: Vec<f64>,
    eigenpairs: Vec<f64>,
    rotated: Vec<f64>,
    vectors: Vec<f64>,
}

impl TopEigsCall {
    fn of(n: usize, a: Vec<f64>, components: usize) -> Self {
        let k = components.min(n);
        let (eigenpairs, rotated, vectors) = (room(n + n * n), room(n * n), room(n * n));
        TopEigsCall { n, a, components, out: room(k + k * n), eigenpairs, rotated, vectors }
    }
}

impl Asked<top_eigs::Input> for TopEigsCall {
    const FUNCTION: &'static str = "lotjudge_top_eigs";

    fn new(input: &top_eigs::Input) -> Self {
        TopEigsCall::of(input.matrix.n, input.matrix.entries(), input.components)
    }

    #[rustfmt::skip]
    fn ask(&mut self, library: &Library) -> u8 {
        unsafe {
            (library.lotjudge_top_eigs)(
                self.a.as_ptr(), self.a.len(), self.n, self.components, self.out.as_mut_ptr(), self.out.len(),
                self.eigenpairs.as_mut_ptr(), self.eigenpairs.len(), self.rotated.as_mut_ptr(), self.rotated.len(), self.vectors.as_mut_ptr(), self.vectors.len(),
            )
        }
    }

    fn lent(&mut self) -> Vec<(&'static str, Lent<'_>)> {
        vec![
            ("out", Lent::Floats(&mut self.out)),
            ("eigenpairs", Lent::Floats(&mut self.eigenpairs)),
            ("rotated", Lent::Floats(&mut self.rotated)),
            ("vectors", Lent::Floats(&mut self.vectors)),
        ]
    }

    fn sign(&self) -> u64 {
        self.out[0].to_bits()
    }

    fn damage(&mut self, way: usize) -> Option<u8> {
        let way = way % 12;
        match way {
            _ if self.a.is_empty() => return None,
            0..=2 => not_finite(&mut self.a, way),
            3 => *self = TopEigsCall::of(MOST + 1, room((MOST + 1) * (MOST + 1)), self.components),
            4 => self.components = 0,
            5 => *self = TopEigsCall::of(self.n, self.a.clone(), 17),
            6 => drop(self.a.pop()),
            7 => drop(self.out.pop()),
            8 => drop(self.eigenpairs.pop()),
            9 => drop(self.rotated.pop()),
            10 => drop(self.vectors.pop()),
            _ => self.n = 1 << 63,
        }
        Some([3, 3, 3, 2, 2, 2, 1, 1, 1, 1, 1, 1][way])
    }
}

pub struct GramCall {
    pub n: usize,
    hashes: Vec<u64>,
    offsets: Vec<usize>,
    pub out: Vec<f64>,
    words: Vec<u64>,
    /// One number.
    pub selected: Vec<u64>,
}

impl GramCall {
    fn of(sets: &[Vec<u64>]) -> Self {
        let n = sets.len();
        let mut offsets = vec![0];
        for set in sets {
            offsets.push(offsets[offsets.len() - 1] + set.len());
        }
        let (words, selected) = (vec![BEFORE_WORD; SELECTED_WORDS * n], vec![BEFORE_WORD]);
        GramCall { n, hashes: sets.concat(), offsets, out: room(n * n), words, selected }
    }
}

impl Asked<gram_matrix::Input> for GramCall {
    const FUNCTION: &'static str = "lotjudge_gram_matrix";

    fn new(input: &gram_matrix::Input) -> Self {
        GramCall::of(&input.sets)
    }

    #[rustfmt::skip]
    fn ask(&mut self, library: &Library) -> u8 {
        unsafe {
            (library.lotjudge_gram_matrix)(
                self.hashes.as_ptr(), self.hashes.len(), self.offsets.as_ptr(), self.offsets.len(), self.n,
                self.out.as_mut_ptr(), self.out.len(), self.words.as_mut_ptr(), self.words.len(), self.selected.as_mut_ptr().cast(),
            )
        }
    }

    fn lent(&mut self) -> Vec<(&'static str, Lent<'_>)> {
        vec![
            ("out", Lent::Floats(&mut self.out)),
            ("words", Lent::Words(&mut self.words)),
            ("selected", Lent::Words(&mut self.selected)),
        ]
    }

    fn sign(&self) -> u64 {
        self.out[0].to_bits()
    }

    fn damage(&mut self, way: usize) -> Option<u8> {
        let way = way % 12;
        match way {
            0 => self.offsets.push(0),
            1 => *self.offsets.last_mut()? += 1,
            2 => self.offsets[0] = 1,
            3 if self.n > 1 => self.offsets[1] = self.hashes.len() + 1,
            4 => drop(self.hashes.pop()?),
            5 => drop(self.out.pop()?),
            6 => drop(self.words.pop()?),
            7 => self.n = 1 << 63,
            8 => *self = GramCall::of(&vec![vec![]; MOST + 1]),
            9 if self.n > 0 => {
                self.hashes.resize(65_537, 0);
                *self.offsets.last_mut()? = 65_537;
            }
            10 if self.n > 2 => *self = GramCall::of(&wide(self.n, MOST_SELECTED as u64 + 1)),
            11 => *self = GramCall::of(&wide(2, 3)),
            _ => return None,
        }
        Some([1, 1, 1, 1, 1, 1, 1, 1, 2, 2, 7, 6][way])
    }
}

/// So many hashes in each of the first two of n sets.
fn wide(n: usize, hashes: u64) -> Vec<Vec<u64>> {
    (0..n).map(|i| if i < 2 { (0..hashes).collect() } else { vec![] }).collect()
}
