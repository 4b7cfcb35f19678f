//! Lots as text for other packages, with the port's answers and times on them: what peers/run.sh holds against each other.

use crate::implementation::{of_the_port, Work};
use crate::inputs::distances;
use crate::matrix::Matrix;
use crate::ops::{pcoa, test};
use crate::port::library::Library;
use crate::port::lots::TestCall;
use crate::port::ordinations::PcoaCall;
use crate::port::Asked;
use crate::splitmix::SplitMix;
use crate::times;
use std::fmt::Display;
use std::fs;
use std::path::Path;

const KINDS: [&str; 2] = ["Euclidean", "other"];
const SIZES: [usize; 3] = [16, 64, 256];
/// How many lots there are of each kind and size.
const LOTS: u64 = 3;

const GROUPS: usize = 4;
const SHUFFLES: u64 = 999;
const COMPONENTS: usize = 8;

/// A folder for each lot, with its distances row by row and its labels; and the list of the port's answers.
pub fn write(to: &str) -> Result<(), String> {
    let mut answers = String::new();
    for kind in KINDS {
        for (n, at) in SIZES.iter().flat_map(|&n| (0..LOTS).map(move |at| (n, at))) {
            let lot = lot(kind, n, at);
            let name = format!("{kind}-{n}-{at}");
            let folder = Path::new(to).join(&name);
            fs::create_dir_all(&folder).map_err(|e| format!("{}: {e}", folder.display()))?;
            put(&folder.join("distances"), &rows(&lot.distances.entries(), n))?;
            put(&folder.join("labels"), &rows(&lot.labels, 1))?;
            answers += &answered(&name, lot)?;
        }
    }
    put(&Path::new(to).join("ours"), &answers)
}

/// Samples in turn in their groups: points of twelve dimensions, the groups apart and of unequal spread, or any distances from 0 to 1.
fn lot(kind: &str, n: usize, at: u64) -> test::Input {
    let draw = &mut SplitMix::new(at);
    let clusters: Vec<usize> = (0..n).map(|i| i % GROUPS).collect();
    let entries = match kind {
        "Euclidean" => distances::between(&distances::points(&clusters, 12, 0.5, 0.1, draw), 1.0),
        _ => distances::distances(7, &clusters, draw),
    };
    let labels = clusters.iter().map(|&c| c as u16).collect();
    test::Input {
        distances: Matrix::full(n, &entries),
        labels,
        strata: None,
        weights: None,
        n_perm: SHUFFLES,
        seed: at,
    }
}

/// A line for each result: the lot, what it is, seconds, and values. One call of `test` has both F.
fn answered(name: &str, lot: test::Input) -> Result<String, String> {
    let library = Library::linked();
    let mut tested = TestCall::new(&lot);
    let input =
        pcoa::Input { distances: Matrix::full(lot.labels.len(), &lot.distances.entries()), components: COMPONENTS };
    let mut ordinated = PcoaCall::new(&input);
    match [tested.ask(&library), ordinated.ask(&library)] {
        [0, 0] => {}
        refusals => return Err(format!("{name}: refused by {refusals:?}")),
    }
    let seconds = |work: &Work| {
        let (call, _) = of_the_port(&[library], work).pop().unwrap();
        times::least(call) as f64 * 1e-9
    };
    let values: Vec<String> = ordinated.room.out[..COMPONENTS].iter().map(f64::to_string).collect();
    Ok(format!(
        "{name} location {} {}\n{name} dispersion - {}\n{name} values {} {}\n",
        seconds(&Work::Test(lot)),
        tested.values[0],
        tested.values[3],
        seconds(&Work::Pcoa(input)),
        values.join(" ")
    ))
}

/// So many to a line, each by the shortest decimal that stands for it alone.
fn rows<T: Display>(all: &[T], width: usize) -> String {
    let row = |row: &[T]| row.iter().map(T::to_string).collect::<Vec<_>>().join(" ") + "\n";
    all.chunks(width).map(row).collect()
}

fn put(file: &Path, text: &str) -> Result<(), String> {
    fs::write(file, text).map_err(|e| format!("{}: {e}", file.display()))
}
