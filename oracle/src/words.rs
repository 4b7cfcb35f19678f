//! A replay file as a list of u64 words: writing and reading them.

/// Every NaN is written as this one.
pub const NAN: u64 = 0x7ff8_0000_0000_0000;

/// A float as a word.
pub fn bits(x: f64) -> u64 {
    if x.is_nan() {
        NAN
    } else {
        x.to_bits()
    }
}

pub fn push_floats<'a>(words: &mut Vec<u64>, floats: impl IntoIterator<Item = &'a f64>) {
    words.extend(floats.into_iter().map(|&x| bits(x)));
}

pub fn push_numbers(words: &mut Vec<u64>, numbers: &[u16]) {
    words.extend(numbers.iter().map(|&x| x as u64));
}

/// Takes words one after the other.
pub struct Reader<'a> {
    words: &'a [u64],
    at: usize,
}

impl<'a> Reader<'a> {
    pub fn new(words: &'a [u64]) -> Self {
        Reader { words, at: 0 }
    }

    pub fn word(&mut self) -> u64 {
        self.at += 1;
        self.words[self.at - 1]
    }

    pub fn number(&mut self) -> usize {
        self.word() as usize
    }

    pub fn flag(&mut self) -> bool {
        match self.word() {
            0 => false,
            1 => true,
            other => panic!("a flag of {other}"),
        }
    }

    pub fn words(&mut self, count: usize) -> &'a [u64] {
        self.at += count;
        &self.words[self.at - count..self.at]
    }

    pub fn floats(&mut self, count: usize) -> Vec<f64> {
        self.words(count).iter().map(|&w| f64::from_bits(w)).collect()
    }

    pub fn numbers(&mut self, count: usize) -> Vec<u16> {
        self.words(count).iter().map(|&w| w as u16).collect()
    }

    pub fn at(&self) -> usize {
        self.at
    }

    pub fn ended(&self) -> bool {
        self.at == self.words.len()
    }
}
