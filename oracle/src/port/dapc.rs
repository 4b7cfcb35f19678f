//! `dapc`.

use super::library::Library;
use super::{Asked, Lent, BEFORE, BEFORE_NUMBER, BEFORE_WORD};
use crate::ops::dapc;

pub struct DapcCall {
    pub n: usize,
    columns: usize,
    x: Vec<f64>,
    labels: Vec<u16>,
    pub out: Vec<f64>,
    pub assigned: Vec<u16>,
    pub numbers: Vec<u64>,
}

impl Asked<dapc::Input> for DapcCall {
    const FUNCTION: &'static str = "lotjudge_dapc";

    fn new(input: &dapc::Input) -> Self {
        let (n, columns) = (input.labels.len(), input.columns);
        DapcCall {
            n,
            columns,
            x: input.coordinates.concat(),
            labels: input.labels.clone(),
            out: vec![BEFORE; columns + n * columns],
            assigned: vec![BEFORE_NUMBER; n],
            numbers: vec![BEFORE_WORD; 3],
        }
    }

    #[rustfmt::skip]
    fn ask(&mut self, library: &Library) -> u8 {
        unsafe {
            (library.lotjudge_dapc)(
                self.x.as_ptr(), self.x.len(), self.n, self.columns, self.labels.as_ptr(), self.labels.len(),
                self.out.as_mut_ptr(), self.out.len(), self.assigned.as_mut_ptr(), self.assigned.len(),
                self.numbers.as_mut_ptr().cast(),
            )
        }
    }

    fn lent(&mut self) -> Vec<(&'static str, Lent<'_>)> {
        vec![
            ("out", Lent::Floats(&mut self.out)),
            ("assigned", Lent::Numbers(&mut self.assigned)),
            ("numbers", Lent::Words(&mut self.numbers)),
        ]
    }

    fn sign(&self) -> u64 {
        self.out[0].to_bits()
    }

    fn damage(&mut self, way: usize) -> Option<u8> {
        let last = self.x.len().checked_sub(1)?;
        match way % 7 {
            0 => self.x[last] = f64::NAN,
            1 => self.x[last / 2] = f64::from_bits(1099511627776f64.to_bits() + 1),
            2 => self.x[0] = f64::NEG_INFINITY,
            3 => self.x.push(0.0),
            4 => drop(self.labels.pop()),
            5 => drop(self.out.pop()),
            _ => self.n = 1 << 63,
        }
        Some([3, 3, 3, 1, 1, 1, 1][way % 7])
    }
}
