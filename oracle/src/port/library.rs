//! One build of the port: its functions (include/lotjudge.h), linked or taken from a shared library.

use std::ffi::{c_char, c_int, c_void, CString};
use std::mem::transmute;
use std::path::Path;
use std::process::exit;

macro_rules! library {
    ($(fn $name:ident($($argument:ident: $type:ty),* $(,)?) -> $result:ty;)*) => {
        #[derive(Clone, Copy)]
        pub struct Library {
            $(pub $name: unsafe extern "C" fn($($type),*) -> $result,)*
        }

        impl Library {
            /// The archive that LOTJUDGE_LIB named.
            #[cfg(feature = "port")]
            pub fn linked() -> Self {
                extern "C" {
                    $(fn $name($($argument: $type),*) -> $result;)*
                }
                Library { $($name,)* }
            }

            /// A build from before a function was exported lacks it.
            pub fn loaded(path: &str) -> Result<Self, String> {
                let file = opened(path)?;
                $(let $name = found(file, stringify!($name));)*
                if [$($name),*].iter().all(Option::is_none) {
                    return Err(format!("{path}: none of the port's functions"));
                }
                unsafe {
                    Ok(Library {
                        $($name: transmute::<*mut c_void, unsafe extern "C" fn($($type),*) -> $result>(
                            $name.unwrap_or(lacking as *mut c_void),
                        ),)*
                    })
                }
            }

            /// Whether it has the function of this name.
            pub fn has(&self, name: &str) -> bool {
                match name {
                    $(stringify!($name) => self.$name as *const c_void != lacking as *const c_void,)*
                    _ => false,
                }
            }
        }
    };
}

library! {
    fn lotjudge_sqrt(x: f64) -> f64;
    fn lotjudge_judge(text: *const u8, text_len: usize, out: *mut u8) -> usize;
    fn lotjudge_test(
        n: usize, distances: *const f64, distances_len: usize, labels: *const u16, labels_len: usize,
        strata_given: bool, strata: *const u16, strata_len: usize, weights_given: bool, weights: *const f64, weights_len: usize,
        seed: u64, n_perm: u64, group_labels: *mut u16, group_labels_len: usize, counts: *mut u16, counts_len: usize,
        means: *mut f64, means_len: usize, pair_terms: *mut f64, pair_terms_len: usize,
        weighted_squares: *mut f64, weighted_squares_len: usize,
        values: *mut f64, numbers: *mut u64,
    ) -> u8;
    fn lotjudge_exhaustive(
        n: usize, distances: *const f64, distances_len: usize, labels: *const u16, labels_len: usize,
        strata_given: bool, strata: *const u16, strata_len: usize, weights_given: bool, weights: *const f64, weights_len: usize,
        group_labels: *mut u16, group_labels_len: usize, counts: *mut u16, counts_len: usize, means: *mut f64, means_len: usize,
        pair_terms: *mut f64, pair_terms_len: usize, weighted_squares: *mut f64, weighted_squares_len: usize,
        coords: *mut f64, coords_len: usize, eigenpairs: *mut f64, eigenpairs_len: usize,
        vectors: *mut f64, vectors_len: usize, label_counts: *mut u16, label_counts_len: usize,
        values: *mut f64, numbers: *mut u64,
    ) -> u8;
    fn lotjudge_pcoa(
        distances: *const f64, distances_len: usize, n: usize, components: usize, out: *mut f64, out_len: usize,
        centred: *mut f64, centred_len: usize, eigenpairs: *mut f64, eigenpairs_len: usize,
        rotated: *mut f64, rotated_len: usize, vectors: *mut f64, vectors_len: usize,
    ) -> u8;
    fn lotjudge_hash_pca(
        hashes: *const u64, hashes_len: usize, offsets: *const usize, offsets_len: usize, n: usize, components: usize,
        out: *mut f64, out_len: usize, gram: *mut f64, gram_len: usize, eigenpairs: *mut f64, eigenpairs_len: usize,
        rotated: *mut f64, rotated_len: usize, vectors: *mut f64, vectors_len: usize,
        words: *mut u64, words_len: usize, selected: *mut usize,
    ) -> u8;
    fn lotjudge_dapc(
        x: *const f64, x_len: usize, n: usize, columns: usize, labels: *const u16, labels_len: usize,
        out: *mut f64, out_len: usize, assigned: *mut u16, assigned_len: usize, numbers: *mut usize,
    ) -> u8;
    fn lotjudge_jacobi_eigen(
        a: *const f64, a_len: usize, n: usize, out: *mut f64, out_len: usize, rotated: *mut f64, rotated_len: usize,
        vectors: *mut f64, vectors_len: usize, sweeps: *mut usize,
    ) -> u8;
    fn lotjudge_top_eigs(
        a: *const f64, a_len: usize, n: usize, components: usize, out: *mut f64, out_len: usize,
        eigenpairs: *mut f64, eigenpairs_len: usize, rotated: *mut f64, rotated_len: usize, vectors: *mut f64, vectors_len: usize,
    ) -> u8;
    fn lotjudge_gram_matrix(
        hashes: *const u64, hashes_len: usize, offsets: *const usize, offsets_len: usize, n: usize,
        out: *mut f64, out_len: usize, words: *mut u64, words_len: usize, selected: *mut usize,
    ) -> u8;
}

/// In the place of a function that a library lacks.
extern "C" fn lacking() {
    eprintln!("a function was called that the library does not have");
    exit(1)
}

extern "C" {
    fn dlopen(path: *const c_char, flags: c_int) -> *mut c_void;
    fn dlsym(file: *mut c_void, name: *const c_char) -> *mut c_void;
}

/// All names bound at once.
const NOW: c_int = 2;

/// The file stays open. By its whole path: a name without a directory would be looked for elsewhere.
fn opened(path: &str) -> Result<*mut c_void, String> {
    let whole = Path::new(path).canonicalize().map_err(|e| format!("{path}: {e}"))?;
    let whole = CString::new(whole.into_os_string().into_encoded_bytes()).unwrap();
    let file = unsafe { dlopen(whole.as_ptr(), NOW) };
    if file.is_null() {
        return Err(format!("{path}: no shared library"));
    }
    Ok(file)
}

fn found(file: *mut c_void, name: &str) -> Option<*mut c_void> {
    let name = CString::new(name).unwrap();
    let at = unsafe { dlsym(file, name.as_ptr()) };
    (!at.is_null()).then_some(at)
}
