//! `ordination::top_eigs`.

use super::Operation;
use crate::inputs::matrices;
use crate::matrix::Matrix;
use crate::splitmix::SplitMix;
use crate::words::{push_floats, Reader};
use popsketch::ordination::top_eigs;

pub struct TopEigs;

pub struct Input {
    pub matrix: Matrix,
    pub components: usize,
}

fn size(at: usize, draw: &mut SplitMix) -> usize {
    match at {
        0..=2 => at,
        39 => 256,
        _ if at % 100 == 80 && at > 200 => at / 100 % 3,
        _ if at % 90 == 12 => draw.within(129, 255),
        _ if at % 10 == 4 => draw.pick(&[64, 65]),
        _ if at % 4 == 1 => draw.within(65, 90),
        _ => draw.within(2, 40),
    }
}

impl Operation for TopEigs {
    const NAME: &'static str = "top_eigs";
    const NUMBER: u64 = 6;
    type Input = Input;

    fn draw(at: usize, draw: &mut SplitMix) -> (usize, Input) {
        let kind = at % matrices::KINDS;
        let n = size(at, draw);
        let entries = matrices::matrix(kind, n, draw);
        let exact = n <= 40 || at % 20 == 4;
        let input = Input {
            matrix: if exact { Matrix::full(n, &entries) } else { Matrix::packed(n, &entries) },
            components: draw.within(1, 16),
        };
        (kind, input)
    }

    fn write(input: &Input, words: &mut Vec<u64>) {
        input.matrix.write(words);
        words.push(input.components as u64);
    }

    fn read(from: &mut Reader) -> Input {
        Input { matrix: Matrix::read(from), components: from.number() }
    }

    /// Components k, k values, then k rows of n.
    fn answer(input: &Input) -> Option<Vec<u64>> {
        let (values, vectors) = top_eigs(&input.matrix.entries(), input.matrix.n, input.components);
        let mut words = vec![values.len() as u64];
        push_floats(&mut words, &values);
        push_floats(&mut words, vectors.iter().flatten());
        Some(words)
    }

    fn refusal(_: &Input) -> u64 {
        unreachable!("the Rust always answers")
    }
}
