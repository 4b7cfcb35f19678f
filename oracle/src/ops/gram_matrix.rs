//! `ordination::gram_matrix`.

use super::Operation;
use crate::inputs::sets;
use crate::splitmix::SplitMix;
use crate::words::{push_floats, Reader};
use popsketch::ordination::gram_matrix;

pub struct GramMatrix;

pub struct Input {
    pub sets: Vec<Vec<u64>>,
}

/// The samples, and how many hashes there are.
fn size(at: usize, draw: &mut SplitMix) -> (usize, usize) {
    match at % 50 {
        0 => (at / 50 % 3, 8),
        24 if at < 50 => (256, 24),
        24 => (draw.within(129, 255), draw.within(16, 40)),
        11 if at < 50 => (64, 900),
        11 if at > 200 => (draw.within(20, 64), draw.within(200, 900)),
        36 if at > 200 => (draw.within(20, 60), draw.within(1000, 1060)),
        x if x % 10 == 7 => (draw.within(65, 90), draw.within(16, 60)),
        x if x % 10 == 3 => (64, draw.within(30, 70)),
        x if x % 3 == 1 => (draw.within(21, 63), draw.within(10, 60)),
        _ => (draw.within(3, 20), draw.within(2, 140)),
    }
}

impl Operation for GramMatrix {
    const NAME: &'static str = "gram_matrix";
    const NUMBER: u64 = 7;
    type Input = Input;

    fn draw(at: usize, draw: &mut SplitMix) -> (usize, Input) {
        let kind = (at + at / 50) % sets::KINDS;
        let (n, width) = size(at, draw);
        let sets = sets::at(at).unwrap_or_else(|| sets::sets(kind, n, width, draw));
        (kind, Input { sets })
    }

    fn write(input: &Input, words: &mut Vec<u64>) {
        sets::write(&input.sets, words);
    }

    fn read(from: &mut Reader) -> Input {
        Input { sets: sets::read(from) }
    }

    /// The hashes selected, then the entries i <= j row by row; the others mirror them.
    fn answer(input: &Input) -> Option<Vec<u64>> {
        let n = input.sets.len();
        let (matrix, selected) = gram_matrix(&input.sets)?;
        let mut words = vec![selected as u64];
        for i in 0..n {
            push_floats(&mut words, &matrix[i * n + i..(i + 1) * n]);
            assert!((0..i).all(|j| matrix[i * n + j].to_bits() == matrix[j * n + i].to_bits()));
        }
        Some(words)
    }

    fn refusal(input: &Input) -> u64 {
        sets::refusal(&input.sets)
    }

    fn owed(input: &Input) -> Option<u64> {
        sets::owed(&input.sets)
    }
}
