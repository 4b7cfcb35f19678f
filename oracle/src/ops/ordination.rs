//! What `pcoa` and `hash_pca` share: the answer's layout.

use crate::words::push_floats;
use popsketch::ordination::Ordination;

/// Features, components k, k values, k variance shares, coordinates n by k row by row.
pub fn answer(found: &Ordination) -> Vec<u64> {
    let mut words = vec![found.n_features as u64, found.eigenvalues.len() as u64];
    push_floats(&mut words, &found.eigenvalues);
    push_floats(&mut words, &found.var_frac);
    push_floats(&mut words, found.coords.iter().flatten());
    words
}
