//! Calls of the port, each with all that is lent to it, for any build of it.

#[cfg(feature = "port")]
pub mod answers;
pub mod dapc;
pub mod library;
pub mod lots;
pub mod matrices;
pub mod ordinations;

use crate::implementation::Call;
use crate::inputs::distances;
use crate::splitmix::SplitMix;
use crate::words::bits;
use library::Library;
use std::cell::RefCell;
use std::rc::Rc;

/// What a slice of an output or of work holds before a call, to see whether it is untouched.
const BEFORE: f64 = 7.25;
const BEFORE_NUMBER: u16 = 7;
const BEFORE_WORD: u64 = 7;

/// One call, with all that is lent.
pub trait Asked<Input> {
    /// Its name in include/lotjudge.h.
    const FUNCTION: &'static str;
    fn new(input: &Input) -> Self;
    /// 0, or the number of the refusal.
    fn ask(&mut self, library: &Library) -> u8;
    /// All that a call may write, by the names of include/lotjudge.h.
    fn lent(&mut self) -> Vec<(&'static str, Lent<'_>)>;
    /// Bits of the result, the same that the Rust's call returns.
    fn sign(&self) -> u64;
    /// Damages the call in one of several ways; the refusal that is due, or None where the input has no place for it.
    fn damage(&mut self, way: usize) -> Option<u8>;
}

/// Damages only the mirror of a matrix, in one of three ways: an entry beside the diagonal is moved to the next f64 or to the one before,
/// or one on the diagonal is the least above 0. 14 is due, or None where there is no such entry or the matrix mirrors itself now.
fn unlike(n: usize, all: &mut [f64], way: usize, place: usize) -> Option<u8> {
    if way < 2 {
        let at = distances::beside(n, place)?;
        all[at] = distances::next_to(all[at], way == 0);
    } else {
        all[place % n * (n + 1)] = f64::from_bits(1);
    }
    (!distances::mirrors(n, all)).then_some(14)
}

pub enum Lent<'a> {
    Floats(&'a mut Vec<f64>),
    Numbers(&'a mut Vec<u16>),
    Words(&'a mut Vec<u64>),
}

impl Lent<'_> {
    /// A word for each element, the same for every NaN.
    pub fn words(&self) -> Vec<u64> {
        match self {
            Lent::Floats(list) => list.iter().map(|&x| bits(x)).collect(),
            Lent::Numbers(list) => list.iter().map(|&x| x as u64).collect(),
            Lent::Words(list) => list.to_vec(),
        }
    }

    /// Longer by so many, and anything in all of it.
    pub fn litter(&mut self, more: usize, draw: &mut SplitMix) {
        match self {
            Lent::Floats(list) => {
                list.resize(list.len() + more, 0.0);
                list.fill_with(|| if draw.chance(5) { f64::NAN } else { f64::from_bits(draw.word()) });
            }
            Lent::Numbers(list) => {
                list.resize(list.len() + more, 0);
                list.fill_with(|| draw.word() as u16);
            }
            Lent::Words(list) => {
                list.resize(list.len() + more, 0);
                list.fill_with(|| draw.word());
            }
        }
    }

    #[cfg(feature = "port")]
    fn untouched(&self, from: usize) -> bool {
        let before = match self {
            Lent::Floats(_) => BEFORE.to_bits(),
            Lent::Numbers(_) => BEFORE_NUMBER as u64,
            Lent::Words(_) => BEFORE_WORD,
        };
        self.words()[from..].iter().all(|&w| w == before)
    }

    /// How many zeros it begins with.
    #[cfg(feature = "port")]
    fn zeros(&self) -> usize {
        self.words().iter().take_while(|&&w| w == 0).count()
    }
}

/// A call of each library to be timed, all in the same room, and a checksum of the number that it returns and of everything that
/// is lent to it; none where one of them lacks the function.
pub fn calls<Input, C: Asked<Input> + 'static>(libraries: &[Library], input: &Input) -> Vec<(Call, u64)> {
    if !libraries.iter().all(|library| library.has(C::FUNCTION)) {
        return vec![];
    }
    let room = Rc::new(RefCell::new(C::new(input)));
    let call = |&library: &Library| -> (Call, u64) {
        let mut first = C::new(input);
        let number = first.ask(&library) as u64;
        let sum = first.lent().iter().flat_map(|(_, lent)| lent.words()).fold(number, mixed);
        let room = room.clone();
        let again = move || {
            let mut call = room.borrow_mut();
            if call.ask(&library) == 0 {
                call.sign()
            } else {
                0
            }
        };
        (Box::new(again), sum)
    };
    libraries.iter().map(call).collect()
}

fn mixed(sum: u64, word: u64) -> u64 {
    (sum ^ word).wrapping_mul(0x9E37_79B9_7F4A_7C15).rotate_left(29)
}
