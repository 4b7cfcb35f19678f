//! `ordination::hash_pca`.

use super::{large, ordination, Operation};
use crate::inputs::sets;
use crate::splitmix::SplitMix;
use crate::words::Reader;
use popsketch::ordination::hash_pca;

pub struct HashPca;

pub struct Input {
    pub sets: Vec<Vec<u64>>,
    pub components: usize,
}

/// The samples, and how many hashes there are.
fn size(at: usize, draw: &mut SplitMix) -> (usize, usize) {
    match at % 40 {
        0 => (at / 40 % 3, 8),
        13 if large(at / 40) => (draw.within(129, 256), draw.within(16, 40)),
        22 if at < 40 => (64, 900),
        38 if at > 200 => (draw.within(20, 60), draw.within(1000, 1060)),
        x if x % 10 == 4 => (64, draw.within(30, 90)),
        x if x % 4 == 3 => (draw.within(65, 90), draw.within(16, 50)),
        x if x % 4 == 1 => (draw.within(21, 63), draw.within(10, 60)),
        _ => (draw.within(3, 20), draw.within(2, 70)),
    }
}

impl Operation for HashPca {
    const NAME: &'static str = "hash_pca";
    const NUMBER: u64 = 3;
    type Input = Input;

    fn draw(at: usize, draw: &mut SplitMix) -> (usize, Input) {
        let kind = (at + at / 40) % sets::KINDS;
        let (n, width) = size(at, draw);
        let sets = sets::at(at).unwrap_or_else(|| sets::sets(kind, n, width, draw));
        let input = Input { sets, components: draw.within(1, 16) };
        (kind, input)
    }

    fn write(input: &Input, words: &mut Vec<u64>) {
        sets::write(&input.sets, words);
        words.push(input.components as u64);
    }

    fn read(from: &mut Reader) -> Input {
        Input { sets: sets::read(from), components: from.number() }
    }

    fn answer(input: &Input) -> Option<Vec<u64>> {
        hash_pca(&input.sets, input.components).map(|found| ordination::answer(&found))
    }

    fn refusal(input: &Input) -> u64 {
        sets::refusal(&input.sets)
    }

    fn owed(input: &Input) -> Option<u64> {
        sets::owed(&input.sets)
    }
}
