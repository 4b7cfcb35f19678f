//! `pcoa` and `hash_pca`.

use super::library::Library;
use super::{unlike, Asked, Lent, BEFORE, BEFORE_WORD};
use crate::inputs::sets::SELECTED_WORDS;
use crate::ops::{hash_pca, pcoa};

/// The output and the work of an ordination. The matrix is Gower's or the Gram matrix.
pub struct Room {
    pub out: Vec<f64>,
    matrix: Vec<f64>,
    eigenpairs: Vec<f64>,
    rotated: Vec<f64>,
    vectors: Vec<f64>,
}

impl Room {
    fn new(n: usize, components: usize) -> Self {
        let k = components.min(n);
        let room = |entries| vec![BEFORE; entries];
        let (matrix, eigenpairs, rotated, vectors) = (room(n * n), room(n + n * n), room(n * n), room(n * n));
        Room { out: room(2 * k + n * k), matrix, eigenpairs, rotated, vectors }
    }

    /// With the header's name of the matrix.
    fn lent(&mut self, matrix: &'static str) -> Vec<(&'static str, Lent<'_>)> {
        vec![
            ("out", Lent::Floats(&mut self.out)),
            (matrix, Lent::Floats(&mut self.matrix)),
            ("eigenpairs", Lent::Floats(&mut self.eigenpairs)),
            ("rotated", Lent::Floats(&mut self.rotated)),
            ("vectors", Lent::Floats(&mut self.vectors)),
        ]
    }
}

pub struct PcoaCall {
    pub n: usize,
    distances: Vec<f64>,
    pub components: usize,
    pub room: Room,
}

impl Asked<pcoa::Input> for PcoaCall {
    const FUNCTION: &'static str = "lotjudge_pcoa";

    fn new(input: &pcoa::Input) -> Self {
        let n = input.distances.n;
        let components = input.components;
        PcoaCall { n, distances: input.distances.entries(), components, room: Room::new(n, components) }
    }

    #[rustfmt::skip]
    fn ask(&mut self, library: &Library) -> u8 {
        let r = &mut self.room;
        unsafe {
            (library.lotjudge_pcoa)(
                self.distances.as_ptr(), self.distances.len(), self.n, self.components, r.out.as_mut_ptr(), r.out.len(),
                r.matrix.as_mut_ptr(), r.matrix.len(), r.eigenpairs.as_mut_ptr(), r.eigenpairs.len(),
                r.rotated.as_mut_ptr(), r.rotated.len(), r.vectors.as_mut_ptr(), r.vectors.len(),
            )
        }
    }

    fn lent(&mut self) -> Vec<(&'static str, Lent<'_>)> {
        self.room.lent("centred")
    }

    fn sign(&self) -> u64 {
        self.room.out[0].to_bits()
    }

    fn damage(&mut self, way: usize) -> Option<u8> {
        let last = self.distances.len().checked_sub(1)?;
        match way % 11 {
            0 => self.distances[last / 2] = f64::NAN,
            1 => self.distances[last] = -1.0,
            2 => self.distances[0] = f64::from_bits(1048576f64.to_bits() + 1),
            3 => self.components = 0,
            4 => {
                self.components = 17;
                self.room = Room::new(self.n, 17);
            }
            5 => drop(self.distances.pop()),
            6 => drop(self.room.eigenpairs.pop()),
            7 => self.n = 1 << 63,
            mirror => return unlike(self.n, &mut self.distances, mirror - 8, way / 11),
        }
        Some([3, 3, 3, 2, 2, 1, 1, 1][way % 11])
    }
}

pub struct HashPcaCall {
    pub n: usize,
    hashes: Vec<u64>,
    offsets: Vec<usize>,
    pub components: usize,
    pub room: Room,
    words: Vec<u64>,
    /// One number.
    pub selected: Vec<u64>,
}

impl Asked<hash_pca::Input> for HashPcaCall {
    const FUNCTION: &'static str = "lotjudge_hash_pca";

    fn new(input: &hash_pca::Input) -> Self {
        let n = input.sets.len();
        let mut offsets = vec![0];
        for set in &input.sets {
            offsets.push(offsets[offsets.len() - 1] + set.len());
        }
        let (hashes, components) = (input.sets.concat(), input.components);
        let (words, selected) = (vec![BEFORE_WORD; SELECTED_WORDS * n], vec![BEFORE_WORD]);
        HashPcaCall { n, hashes, offsets, components, room: Room::new(n, components), words, selected }
    }

    #[rustfmt::skip]
    fn ask(&mut self, library: &Library) -> u8 {
        let r = &mut self.room;
        unsafe {
            (library.lotjudge_hash_pca)(
                self.hashes.as_ptr(), self.hashes.len(), self.offsets.as_ptr(), self.offsets.len(), self.n, self.components,
                r.out.as_mut_ptr(), r.out.len(), r.matrix.as_mut_ptr(), r.matrix.len(), r.eigenpairs.as_mut_ptr(), r.eigenpairs.len(),
                r.rotated.as_mut_ptr(), r.rotated.len(), r.vectors.as_mut_ptr(), r.vectors.len(),
                self.words.as_mut_ptr(), self.words.len(), self.selected.as_mut_ptr().cast(),
            )
        }
    }

    fn lent(&mut self) -> Vec<(&'static str, Lent<'_>)> {
        let mut all = self.room.lent("gram");
        all.push(("words", Lent::Words(&mut self.words)));
        all.push(("selected", Lent::Words(&mut self.selected)));
        all
    }

    fn sign(&self) -> u64 {
        self.room.out[0].to_bits()
    }

    fn damage(&mut self, way: usize) -> Option<u8> {
        match way % 7 {
            0 => self.offsets.push(0),
            1 => *self.offsets.last_mut()? += 1,
            2 => self.offsets[0] = 1,
            3 => drop(self.words.pop()?),
            4 => self.components = 0,
            5 => drop(self.hashes.pop()?),
            _ => self.n = 1 << 63,
        }
        Some([1, 1, 1, 1, 2, 1, 1][way % 7])
    }
}
