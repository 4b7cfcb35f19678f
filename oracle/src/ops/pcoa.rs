//! `ordination::pcoa`.

use super::{large, ordination, Operation};
use crate::inputs::distances;
use crate::matrix::Matrix;
use crate::splitmix::SplitMix;
use crate::words::Reader;
use popsketch::ordination::pcoa;

pub struct Pcoa;

pub struct Input {
    pub distances: Matrix,
    pub components: usize,
}

fn size(at: usize, draw: &mut SplitMix) -> usize {
    match at % 50 {
        0 => at / 50 % 3,
        24 if large(at / 50) => draw.within(129, 255),
        25 if at < 50 => 256,
        x if x % 10 == 4 => 64,
        x if x % 4 == 3 => draw.within(65, 90),
        x if x % 4 == 1 => draw.within(21, 63),
        _ => draw.within(3, 20),
    }
}

impl Operation for Pcoa {
    const NAME: &'static str = "pcoa";
    const NUMBER: u64 = 2;
    type Input = Input;

    fn draw(at: usize, draw: &mut SplitMix) -> (usize, Input) {
        let kind = (at + at / 50) % distances::KINDS;
        let n = size(at, draw);
        let parts = draw.within(1, 4);
        let clusters: Vec<usize> = (0..n).map(|_| draw.below(parts)).collect();
        let entries = distances::distances(kind, &clusters, draw);
        let exact = n <= 40 || at % 20 == 7;
        let input = Input { distances: distances::kept(n, &entries, exact), components: draw.within(1, 16) };
        (kind, input)
    }

    fn write(input: &Input, words: &mut Vec<u64>) {
        input.distances.write(words);
        words.push(input.components as u64);
    }

    fn read(from: &mut Reader) -> Input {
        Input { distances: Matrix::read(from), components: from.number() }
    }

    fn answer(input: &Input) -> Option<Vec<u64>> {
        pcoa(&input.distances.entries(), input.distances.n, input.components).map(|found| ordination::answer(&found))
    }

    fn refusal(_: &Input) -> u64 {
        6
    }

    fn owed(input: &Input) -> Option<u64> {
        distances::owed(&input.distances)
    }
}
