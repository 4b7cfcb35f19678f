//! How much stack each function of the port needs, on the inputs that need the most: measured in a thread whose stack is painted, or tried
//! in a thread of a given size.

use crate::implementation::{of_the_port, Call, Work};
use crate::inputs::distances;
use crate::matrix::Matrix;
use crate::ops::{gram_matrix, hash_pca, jacobi_eigen, pcoa, test, top_eigs};
use crate::port::library::Library;
use crate::splitmix::SplitMix;
use crate::times::{lot, scored, turns, within};
use std::ffi::{c_int, c_void};
use std::hint::black_box;
use std::process::{Command, Stdio};
use std::thread;

/// The painted stack, and what it is painted with.
const WORDS: usize = 1 << 18;
const PAINT: u64 = 0x5AA5_C33C_9669_0FF0;

/// A line for each function: the most bytes that a call of it took, and the input that it was.
pub fn print() -> Result<(), String> {
    let mut most: Vec<(&str, usize, String)> = Vec::new();
    for (function, input, mut call) in calls() {
        let used = painted(&mut call);
        match most.iter_mut().find(|line| line.0 == function) {
            Some(line) if line.1 >= used => {}
            Some(line) => *line = (function, used, input),
            None => most.push((function, used, input)),
        }
    }
    println!("{:<20} {:>8}  at", "function", "bytes");
    for (function, used, input) in most {
        println!("{function:<20} {used:>8}  {input}");
    }
    Ok(())
}

/// Each call in a thread of so many KB, in a process of its own. Fails if one of them dies.
pub fn print_in(kilobytes: usize) -> Result<(), String> {
    let me = std::env::current_exe().map_err(|e| e.to_string())?;
    let mut dead = 0;
    for (place, (function, input, _)) in calls().iter().enumerate() {
        let words = ["stack".to_string(), kilobytes.to_string(), place.to_string()];
        let ended = Command::new(&me).args(words).stderr(Stdio::null()).status().map_err(|e| e.to_string())?;
        dead += !ended.success() as usize;
        println!("{function:<20} {}  {input}", if ended.success() { "returns" } else { "DIES   " });
    }
    match dead {
        0 => Ok(()),
        some => Err(format!("{some} calls die in a thread of {kilobytes} KB")),
    }
}

/// The call at one place of the list, in a thread of so many KB.
pub fn call_in(kilobytes: usize, place: usize) -> Result<(), String> {
    let (_, _, call) = calls().into_iter().nth(place).ok_or("no such call")?;
    let mut moved = Moved(call);
    let body = move || moved.run();
    let small = thread::Builder::new().stack_size(1024 * kilobytes).spawn(body).map_err(|e| e.to_string())?;
    small.join().map_err(|_| "the thread panicked".to_string())
}

/// A call that another thread makes, while this one waits.
struct Moved(Call);

unsafe impl Send for Moved {}

impl Moved {
    fn run(&mut self) {
        black_box((self.0)());
    }
}

// ---- the painted stack

extern "C" {
    fn pthread_attr_init(attributes: *mut [u64; 8]) -> c_int;
    fn pthread_attr_setstack(attributes: *mut [u64; 8], lowest: *mut c_void, bytes: usize) -> c_int;
    fn pthread_create(
        thread: *mut usize,
        attributes: *const [u64; 8],
        body: extern "C" fn(*mut c_void) -> *mut c_void,
        argument: *mut c_void,
    ) -> c_int;
    fn pthread_join(thread: usize, result: *mut *mut c_void) -> c_int;
}

struct Painted<'a> {
    call: &'a mut Call,
    /// Where the stack stood when the call was made.
    from: usize,
}

/// Bytes of stack below the frame that makes the call, down to the last that was written.
fn painted(call: &mut Call) -> usize {
    let mut stack = vec![PAINT; WORDS];
    let lowest = stack.as_mut_ptr();
    let mut painted = Painted { call, from: 0 };
    let (mut attributes, mut thread) = ([0; 8], 0);
    unsafe {
        assert_eq!(pthread_attr_init(&mut attributes), 0);
        assert_eq!(pthread_attr_setstack(&mut attributes, lowest.cast(), 8 * WORDS), 0);
        assert_eq!(pthread_create(&mut thread, &attributes, body, (&raw mut painted).cast()), 0);
        assert_eq!(pthread_join(thread, std::ptr::null_mut()), 0);
    }
    let left = stack.iter().take_while(|&&word| word == PAINT).count();
    assert!(left > 0, "the painted stack is too small");
    painted.from - (lowest as usize + 8 * left)
}

extern "C" fn body(painted: *mut c_void) -> *mut c_void {
    let painted = unsafe { &mut *painted.cast::<Painted>() };
    painted.from = black_box(&painted as *const _ as usize);
    black_box((painted.call)());
    std::ptr::null_mut()
}

// ---- the calls

/// For each function inputs that lead to its deepest calls: all limits reached, few and many groups, answers and late refusals.
fn calls() -> Vec<(&'static str, String, Call)> {
    let library = Library::linked();
    let mut all: Vec<(&'static str, String, Call)> = Vec::new();
    for (function, input, work) in inputs() {
        let (call, _) = of_the_port(&[library], &work).pop().expect("the port has this call");
        all.push((function, input, call));
    }
    for groups in [2, 4] {
        let (text, mut out) = (frames(groups), [0; 93]);
        let call = move || unsafe { (library.lotjudge_judge)(text.as_ptr(), text.len(), out.as_mut_ptr()) as u64 };
        all.push(("judge", format!("32 samples in {groups} groups, sessions"), Box::new(call)));
    }
    all
}

fn inputs() -> Vec<(&'static str, String, Work)> {
    let mut all = Vec::new();
    for groups in [2, 8, 128] {
        let open = format!("256 samples in {groups} groups");
        all.push(("test", open.clone(), Work::Test(weighted(lot(256, groups)))));
        let strata = within(weighted(lot(256, groups)), |i| i / 4);
        all.push(("test", format!("{open}, strata of 4"), Work::Test(strata)));
    }
    for groups in [2, 8] {
        // a few samples share a stratum, the others stand alone: few ways of 256 samples
        let few = within(weighted(lot(256, groups)), |i| i.max(5));
        all.push(("exhaustive", format!("256 samples in {groups} groups, strata"), Work::Exhaustive(few)));
    }
    for n in [64, 256] {
        let entries = distances::distances(7, &turns(n, 4), &mut SplitMix::new(1));
        let distances = Matrix::full(n, &entries);
        let matrix = || Matrix::full(n, &entries);
        all.push(("jacobi_eigen", format!("{n} by {n}"), Work::JacobiEigen(jacobi_eigen::Input { matrix: matrix() })));
        all.push((
            "top_eigs",
            format!("{n} by {n}, 16 components"),
            Work::TopEigs(top_eigs::Input { matrix: matrix(), components: 16 }),
        ));
        all.push((
            "pcoa",
            format!("{n} samples, 16 components"),
            Work::Pcoa(pcoa::Input { distances, components: 16 }),
        ));
    }
    for (kind, given, every) in [("1,024 selected", 64512, 1024), ("all different", 65536, u64::MAX)] {
        for n in [64, 256] {
            let hash = |at: usize| (at as u64 % every).wrapping_mul(0x9E37_79B9_7F4A_7C15);
            let each = given / n;
            let sets: Vec<Vec<u64>> = (0..n).map(|i| (i * each..i * each + each).map(hash).collect()).collect();
            let input = format!("{n} samples, {given} hashes, {kind}");
            all.push(("gram_matrix", input.clone(), Work::GramMatrix(gram_matrix::Input { sets: sets.clone() })));
            all.push(("hash_pca", input, Work::HashPca(hash_pca::Input { sets, components: 16 })));
        }
    }
    for groups in [2, 8, 17, 128] {
        let input = format!("256 samples in {groups} groups, 16 columns");
        all.push(("dapc", input, Work::Dapc(scored(16, &turns(256, groups)))));
    }
    all.push(("sqrt", "any".to_string(), Work::Sqrt(vec![2.0, 5e-324, f64::MAX])));
    all
}

fn weighted(mut lot: test::Input) -> test::Input {
    lot.weights = Some((0..lot.labels.len()).map(|i| 1.0 + i as f64 / 64.0).collect());
    lot.n_perm = 19;
    lot
}

/// A lot of 32 samples as text, with 9 of them in one session and the others alone.
fn frames(groups: usize) -> Vec<u8> {
    let entries = distances::distances(1, &turns(32, groups), &mut SplitMix::new(1));
    let mut text = "a12001\n".to_string();
    for i in 0..32 {
        text += &format!("a2{i:02x}{:04x}{:04x}\n", i % groups, i.max(8));
    }
    for (i, j) in (0..32).flat_map(|i| (i + 1..32).map(move |j| (i, j))) {
        text += &format!("a3{i:02x}{j:02x}{:016x}\n", entries[32 * i + j].to_bits());
    }
    (text + "af\n").into_bytes()
}
