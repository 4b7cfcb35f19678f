//! Sets of hashes, one for each sample, in any order and with repeats.

use crate::splitmix::SplitMix;
use crate::words::Reader;

pub const KINDS: usize = 10;

/// The hashes that the judge selects at most (document 02, Q-7).
pub const MOST_SELECTED: usize = 1024;

/// Words of 64 bits that it asks for each set, a bit for each of these.
pub const SELECTED_WORDS: usize = MOST_SELECTED / 64;

/// Sets of n samples over `width` hashes.
pub fn sets(kind: usize, n: usize, width: usize, draw: &mut SplitMix) -> Vec<Vec<u64>> {
    let hashes = universe(width, draw);
    let few = draw.within(2, 4);
    let has = |i: usize, c: usize, draw: &mut SplitMix| match kind {
        1 => draw.chance(12),
        // clusters of samples that share most hashes
        2 => draw.chance(if c % few == i % few { 80 } else { 10 }),
        // found in all, or in one only, beside others
        5 => match c % 4 {
            0 => true,
            1 => c / 4 % n == i,
            _ => draw.chance(40),
        },
        // nothing to select
        7 => c.is_multiple_of(2) || c / 2 % n == i,
        // each hash in two neighbours
        8 => c % n == i || (c + 1) % n == i,
        // all alike but the first
        9 => i > 0 || draw.chance(50),
        _ => draw.chance(50),
    };
    let mut sets: Vec<Vec<u64>> =
        (0..n).map(|i| (0..width).filter(|&c| has(i, c, draw)).map(|c| hashes[c]).collect()).collect();
    for i in 0..n {
        match kind {
            // samples that stand several times
            3 if i > n / 2 => sets[i] = sets[draw.below(n / 2 + 1)].clone(),
            // hashes that stand several times in a set
            4 => {
                for _ in 0..sets[i].len() / 3 {
                    let again = draw.pick(&sets[i]);
                    sets[i].push(again);
                }
            }
            6 if draw.chance(30) => sets[i].clear(),
            _ => {}
        }
        draw.shuffle(&mut sets[i]);
    }
    sets
}

/// Hashes: any words, or small ones and large ones up to both ends of the range.
fn universe(width: usize, draw: &mut SplitMix) -> Vec<u64> {
    let mut hashes: Vec<u64> = if draw.chance(50) {
        (0..width).map(|_| draw.word()).collect()
    } else {
        (0..width as u64).map(|c| if c % 3 == 2 { u64::MAX - c + 2 } else { c }).collect()
    };
    draw.shuffle(&mut hashes);
    hashes
}

/// The sets of two records at the limit: the most hashes that are selected, and one more.
pub fn at(record: usize) -> Option<Vec<Vec<u64>>> {
    match record {
        99 => Some(selecting(MOST_SELECTED)),
        149 => Some(selecting(MOST_SELECTED + 1)),
        _ => None,
    }
}

/// Four sets with so many hashes to select.
fn selecting(hashes: usize) -> Vec<Vec<u64>> {
    let squares: Vec<u64> = (0..hashes as u64).map(|c| c * c).collect();
    vec![squares.clone(), vec![], squares, vec![2]]
}

/// How many hashes have a frequency of 2 to n - 1.
fn selected(sets: &[Vec<u64>]) -> usize {
    let mut hashes = sets.concat();
    hashes.sort_unstable();
    hashes.chunk_by(|a, b| a == b).filter(|same| (2..sets.len()).contains(&same.len())).count()
}

/// The refusal of sets that the Rust gives None for: 6 for fewer than three, 13 where there is no hash to select.
pub fn refusal(sets: &[Vec<u64>]) -> u64 {
    if sets.len() < 3 {
        return 6;
    }
    assert_eq!(selected(sets), 0, "None of the Rust for sets with a hash to select");
    13
}

/// 7 where there are more hashes to select than the judge takes; the Rust has no such limit.
pub fn owed(sets: &[Vec<u64>]) -> Option<u64> {
    (selected(sets) > MOST_SELECTED).then_some(7)
}

/// n, the n + 1 offsets of the sets in the list of hashes, and the list.
pub fn write(sets: &[Vec<u64>], words: &mut Vec<u64>) {
    words.push(sets.len() as u64);
    let mut offset = 0;
    words.push(offset);
    for set in sets {
        offset += set.len() as u64;
        words.push(offset);
    }
    words.extend(sets.iter().flatten());
}

pub fn read(from: &mut Reader) -> Vec<Vec<u64>> {
    let n = from.number();
    let offsets = from.words(n + 1);
    offsets.windows(2).map(|w| from.words((w[1] - w[0]) as usize).to_vec()).collect()
}
