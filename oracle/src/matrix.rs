//! A square matrix in the form in which a replay file holds it: whole or its upper half, in full or packed.

use crate::words::{push_floats, Reader};

pub struct Matrix {
    pub n: usize,
    /// Only the entries i <= j, row by row; the others mirror them.
    upper: bool,
    cells: Cells,
}

enum Cells {
    Full(Vec<f64>),
    /// An entry is (number - offset) * scale, each step rounded once.
    Packed {
        scale: f64,
        offset: f64,
        numbers: Vec<u16>,
    },
}

impl Matrix {
    /// The entries as they are.
    pub fn full(n: usize, entries: &[f64]) -> Self {
        let (upper, cells) = half(n, entries);
        Matrix { n, upper, cells: Cells::Full(cells) }
    }

    /// The entries as sixteen bits each: whole numbers as they are where they fit, else the nearest multiples. A zero has no sign.
    pub fn packed(n: usize, entries: &[f64]) -> Self {
        let (upper, cells) = half(n, entries);
        let largest = cells.iter().fold(0.0f64, |m, x| if x.abs() > m { x.abs() } else { m });
        let (offset, room) = if cells.iter().any(|&x| x < 0.0) { (32768.0, 32767.0) } else { (0.0, 65535.0) };
        let whole = largest <= room && cells.iter().all(|&x| x == x.trunc());
        let step = largest / room;
        let scale = if whole || step == 0.0 { 1.0 } else { step };
        let numbers = cells.iter().map(|&x| (x / scale + offset).round() as u16).collect();
        Matrix { n, upper, cells: Cells::Packed { scale, offset, numbers } }
    }

    /// All n by n entries, row by row.
    pub fn entries(&self) -> Vec<f64> {
        let cells: Vec<f64> = match &self.cells {
            Cells::Full(cells) => cells.clone(),
            Cells::Packed { scale, offset, numbers } => numbers.iter().map(|&x| (x as f64 - offset) * scale).collect(),
        };
        if !self.upper {
            return cells;
        }
        let n = self.n;
        let mut all = vec![0.0; n * n];
        let mut next = cells.iter();
        for i in 0..n {
            for j in i..n {
                let x = *next.next().unwrap();
                all[i * n + j] = x;
                all[j * n + i] = x;
            }
        }
        all
    }

    pub fn write(&self, words: &mut Vec<u64>) {
        words.push(self.n as u64);
        match &self.cells {
            Cells::Full(cells) => {
                words.push(self.upper as u64);
                push_floats(words, cells);
            }
            Cells::Packed { scale, offset, numbers } => {
                words.push(2 + self.upper as u64);
                push_floats(words, [scale, offset]);
                words.extend(numbers.chunks(4).map(pack));
            }
        }
    }

    pub fn read(from: &mut Reader) -> Self {
        let n = from.number();
        let form = from.word();
        let upper = form % 2 == 1;
        let count = if upper { n * (n + 1) / 2 } else { n * n };
        let cells = match form {
            0 | 1 => Cells::Full(from.floats(count)),
            2 | 3 => {
                let head = from.floats(2);
                let numbers = from.words(count.div_ceil(4)).iter().flat_map(|&w| unpack(w)).take(count).collect();
                Cells::Packed { scale: head[0], offset: head[1], numbers }
            }
            other => panic!("a matrix of form {other}"),
        };
        Matrix { n, upper, cells }
    }
}

/// The upper half where the matrix mirrors itself to the bit, else all of it.
fn half(n: usize, entries: &[f64]) -> (bool, Vec<f64>) {
    assert_eq!(entries.len(), n * n);
    let mirrors = (0..n).all(|i| (0..i).all(|j| entries[i * n + j].to_bits() == entries[j * n + i].to_bits()));
    if mirrors {
        (true, (0..n).flat_map(|i| entries[i * n + i..(i + 1) * n].to_vec()).collect())
    } else {
        (false, entries.to_vec())
    }
}

/// Up to four numbers in a word, the first in its lowest bits.
fn pack(numbers: &[u16]) -> u64 {
    numbers.iter().rev().fold(0, |w, &x| w << 16 | x as u64)
}

fn unpack(word: u64) -> [u16; 4] {
    [word as u16, (word >> 16) as u16, (word >> 32) as u16, (word >> 48) as u16]
}
