//! Replay files: a head, then one record after the other. README.md has the layout.

use crate::ops::{outcome, Operation, OWED};
use crate::splitmix::SplitMix;
use crate::words::{Reader, NAN};

/// The first word of every file: the bytes `replay01`.
const MAGIC: u64 = u64::from_le_bytes(*b"replay01");

/// Draws of the record at this place, for the operation of this number.
pub fn place(number: u64, seed: u64, at: usize) -> SplitMix {
    SplitMix::new(SplitMix::new(seed.wrapping_add(number << 32).wrapping_add(at as u64)).word())
}

/// The kind and the input of the record at this place.
pub fn drawn<O: Operation>(seed: u64, at: usize) -> (usize, O::Input) {
    O::draw(at, &mut place(O::NUMBER, seed, at))
}

/// The words of a file. A record depends on seed, operation and place alone, so a larger count only adds records.
pub fn words<O: Operation>(seed: u64, count: usize) -> Vec<u64> {
    let mut file = vec![MAGIC, O::NUMBER, count as u64, seed];
    for at in 0..count {
        let (kind, input) = drawn::<O>(seed, at);
        let mut record = vec![kind as u64];
        O::write(&input, &mut record);
        record.extend(outcome::<O>(&input));
        file.push(record.len() as u64);
        file.extend(record);
    }
    file
}

/// What a file holds.
#[derive(Default)]
pub struct Summary {
    pub records: usize,
    pub answered: usize,
    pub none: usize,
    pub panics: usize,
    pub owed: usize,
    pub above_64: usize,
    pub nans: usize,
    pub minus_zeros: usize,
}

/// Reads a file back, asks the Rust again on the inputs read, and compares.
pub fn reread<O: Operation>(file: &[u64]) -> Result<Summary, String> {
    let mut from = Reader::new(file);
    if from.word() != MAGIC || from.word() != O::NUMBER {
        return Err(format!("no replay file of {}", O::NAME));
    }
    let count = from.number();
    let mut sum = Summary { records: count, ..Summary::default() };
    from.word();
    for at in 0..count {
        let length = from.number();
        let start = from.at();
        from.word();
        let input = O::read(&mut from);
        let rest = from.words(length - (from.at() - start));
        if outcome::<O>(&input) != rest {
            return Err(format!("{} record {at}: another answer", O::NAME));
        }
        match rest[0] {
            0 => sum.answered += 1,
            1 => sum.none += 1,
            OWED => sum.owed += 1,
            _ => sum.panics += 1,
        }
        sum.above_64 += (file[start + 1] > 64) as usize;
        sum.nans += rest.iter().filter(|&&w| w == NAN).count();
        sum.minus_zeros += rest.iter().filter(|&&w| w == (-0.0f64).to_bits()).count();
    }
    if from.ended() {
        Ok(sum)
    } else {
        Err(format!("{}: words after the last record", O::NAME))
    }
}
