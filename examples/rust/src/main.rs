//! The example lot of README.md by every way: four samples, labels 0, 0, 1, 1, no strata, no weights.

#[rustfmt::skip]
extern "C" {
    fn lotjudge_exhaustive_lengths(n: usize, lengths: *mut [usize; 9]) -> u8;
    fn lotjudge_exhaustive(
        n: usize, distances: *const f64, distances_len: usize, labels: *const u16, labels_len: usize,
        strata_given: bool, strata: *const u16, strata_len: usize, weights_given: bool, weights: *const f64, weights_len: usize,
        group_labels: *mut u16, group_labels_len: usize, counts: *mut u16, counts_len: usize, means: *mut f64, means_len: usize,
        pair_terms: *mut f64, pair_terms_len: usize, weighted_squares: *mut f64, weighted_squares_len: usize,
        coords: *mut f64, coords_len: usize, eigenpairs: *mut f64, eigenpairs_len: usize,
        vectors: *mut f64, vectors_len: usize, label_counts: *mut u16, label_counts_len: usize,
        values: *mut [f64; 4], numbers: *mut [u64; 11],
    ) -> u8;
}

#[rustfmt::skip]
fn main() {
    let n = 4;
    let distances: [f64; 16] = [0., 2., 8., 10., 2., 0., 6., 8., 8., 6., 0., 2., 10., 8., 2., 0.];
    let labels: [u16; 4] = [0, 0, 1, 1];
    let none: [u16; 0] = [];
    let no_weights: [f64; 0] = [];
    let mut lengths = [0; 9];
    if unsafe { lotjudge_exhaustive_lengths(n, &mut lengths) } != 0 {
        return println!("more than 256 samples");
    }
    let numbers_of = |i: usize| vec![0u16; lengths[i]];
    let floats_of = |i: usize| vec![0f64; lengths[i]];
    let (mut group_labels, mut counts, mut means) = (numbers_of(0), numbers_of(1), floats_of(2));
    let (mut pair_terms, mut weighted_squares, mut coords) = (floats_of(3), floats_of(4), floats_of(5));
    let (mut eigenpairs, mut vectors, mut label_counts) = (floats_of(6), floats_of(7), numbers_of(8));
    let (mut values, mut numbers) = ([0.0; 4], [0; 11]);
    let refused = unsafe {
        lotjudge_exhaustive(
            n, distances.as_ptr(), distances.len(), labels.as_ptr(), labels.len(),
            false, none.as_ptr(), 0, false, no_weights.as_ptr(), 0,
            group_labels.as_mut_ptr(), group_labels.len(), counts.as_mut_ptr(), counts.len(), means.as_mut_ptr(), means.len(),
            pair_terms.as_mut_ptr(), pair_terms.len(), weighted_squares.as_mut_ptr(), weighted_squares.len(),
            coords.as_mut_ptr(), coords.len(), eigenpairs.as_mut_ptr(), eigenpairs.len(),
            vectors.as_mut_ptr(), vectors.len(), label_counts.as_mut_ptr(), label_counts.len(),
            &mut values, &mut numbers,
        )
    };
    match refused {
        0 => println!("exhaustive: F {}, {} of {} ways are as far apart", values[0], numbers[4], numbers[2]),
        number => println!("refusal {number}"),
    }
}
