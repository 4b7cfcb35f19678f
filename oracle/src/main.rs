//! The oracle: the Rust's answers on drawn inputs, as replay files, and its times. README.md says how to use it.

#[cfg(feature = "port")]
mod compare;
mod implementation;
mod inputs;
#[cfg(feature = "port")]
mod level;
mod matrix;
mod ops;
#[cfg(feature = "port")]
mod peers;
mod port;
mod replay;
mod same;
mod splitmix;
#[cfg(feature = "port")]
mod stack;
mod times;
mod words;

use ops::Operation;
use port::library::Library;
use std::io::{Read, Write};
use std::path::Path;
use std::process::ExitCode;

const USAGE: &str = "usage:
  oracle answers OP SEED COUNT   write a replay file to standard output
  oracle check OP                read a replay file from standard input, ask the Rust again, compare
  oracle twice OP SEED COUNT     make a replay file twice and compare
  oracle time                    time the Rust's calls, and those of the linked library in turn (feature `port`)
  oracle bench LIB.so [LIB.so ..] time the Rust and shared libraries of the port in turn
  oracle same OLD.so NEW.so [OP] SEED COUNT  two shared libraries on COUNT inputs of OP or of each of eight functions, bit for bit
  oracle level SEED COUNT        every way of COUNT small lots handed in, and demand 3 counted (feature `port`)
  oracle stack [KB]              the stack that each function takes, or each in a thread of so many KB (feature `port`)
  oracle peers DIR               lots as text, with the port's answers and times on them, for peers/run.sh (feature `port`)
  oracle compare [OP] SEED COUNT the port against the Rust, COUNT inputs of OP or of each of eight functions (feature `port`)
OP: test, exhaustive, pcoa, hash_pca, dapc, jacobi_eigen, top_eigs or gram_matrix";

fn main() -> ExitCode {
    let words: Vec<String> = std::env::args().skip(1).collect();
    let words: Vec<&str> = words.iter().map(String::as_str).collect();
    let done = match words[..] {
        // unoptimised, (-0.0).max(0.0) is -0.0
        _ if cfg!(debug_assertions) => Err("the answers are those of a release build".to_string()),
        ["time"] => time(),
        ["bench", ref paths @ ..] if !paths.is_empty() => bench(paths),
        ["same", old, new, seed, count] => same([old, new], None, seed, count),
        ["same", old, new, op, seed, count] => same([old, new], Some(op), seed, count),
        #[cfg(feature = "port")]
        ["compare", seed, count] => compare(None, seed, count),
        #[cfg(feature = "port")]
        ["compare", op, seed, count] => compare(Some(op), seed, count),
        #[cfg(feature = "port")]
        ["level", seed, count] => level(seed, count),
        #[cfg(feature = "port")]
        ["stack"] => stack::print(),
        #[cfg(feature = "port")]
        ["stack", kilobytes] => number(kilobytes).and_then(|k| stack::print_in(k as usize)),
        #[cfg(feature = "port")]
        ["stack", kilobytes, place] => {
            number(kilobytes).and_then(|k| stack::call_in(k as usize, number(place)? as usize))
        }
        #[cfg(feature = "port")]
        ["peers", to] => peers::write(to),
        [command, op, ref rest @ ..] => match op {
            "test" => run::<ops::test::Test>(command, rest),
            "exhaustive" => run::<ops::exhaustive::Exhaustive>(command, rest),
            "pcoa" => run::<ops::pcoa::Pcoa>(command, rest),
            "hash_pca" => run::<ops::hash_pca::HashPca>(command, rest),
            "dapc" => run::<ops::dapc::Dapc>(command, rest),
            "jacobi_eigen" => run::<ops::jacobi_eigen::JacobiEigen>(command, rest),
            "top_eigs" => run::<ops::top_eigs::TopEigs>(command, rest),
            "gram_matrix" => run::<ops::gram_matrix::GramMatrix>(command, rest),
            _ => Err(USAGE.to_string()),
        },
        _ => Err(USAGE.to_string()),
    };
    match done {
        Ok(()) => ExitCode::SUCCESS,
        Err(why) => {
            eprintln!("{why}");
            ExitCode::FAILURE
        }
    }
}

fn run<O: Operation>(command: &str, rest: &[&str]) -> Result<(), String> {
    ops::expect_panics();
    match (command, rest) {
        ("answers", [seed, count]) => put(&replay::words::<O>(number(seed)?, number(count)? as usize)),
        ("check", []) => check::<O>(&get()?),
        ("twice", [seed, count]) => {
            let (seed, count) = (number(seed)?, number(count)? as usize);
            let once = replay::words::<O>(seed, count);
            if once != replay::words::<O>(seed, count) {
                return Err(format!("{}: two runs differ", O::NAME));
            }
            check::<O>(&once)
        }
        _ => Err(USAGE.to_string()),
    }
}

fn check<O: Operation>(file: &[u64]) -> Result<(), String> {
    let sum = replay::reread::<O>(file)?;
    println!(
        "{}: {} records ({} answered, {} None, {} panics, {} not asked; n above 64: {}), {} bytes; among the answers {} NaN, {} -0.0",
        O::NAME,
        sum.records,
        sum.answered,
        sum.none,
        sum.panics,
        sum.owed,
        sum.above_64,
        8 * file.len(),
        sum.nans,
        sum.minus_zeros
    );
    Ok(())
}

fn time() -> Result<(), String> {
    #[cfg(feature = "port")]
    return times::print(&["port".to_string()], &[Library::linked()]);
    #[cfg(not(feature = "port"))]
    times::print(&[], &[])
}

fn bench(paths: &[&str]) -> Result<(), String> {
    let name = |path: &&str| Path::new(path).file_stem().map_or(path.to_string(), |s| s.to_string_lossy().into_owned());
    let names: Vec<String> = paths.iter().map(name).collect();
    let libraries = paths.iter().map(|path| Library::loaded(path)).collect::<Result<Vec<_>, String>>()?;
    times::print(&names, &libraries)
}

fn same([old, new]: [&str; 2], op: Option<&str>, seed: &str, count: &str) -> Result<(), String> {
    let libraries = [Library::loaded(old)?, Library::loaded(new)?];
    same::print(libraries, op, number(seed)?, number(count)? as usize)
}

#[cfg(feature = "port")]
fn compare(op: Option<&str>, seed: &str, count: &str) -> Result<(), String> {
    ops::expect_panics();
    compare::print(op, number(seed)?, number(count)? as usize)
}

#[cfg(feature = "port")]
fn level(seed: &str, count: &str) -> Result<(), String> {
    level::print(number(seed)?, number(count)? as usize)
}

fn number(text: &str) -> Result<u64, String> {
    text.parse().map_err(|_| format!("no number: {text}\n{USAGE}"))
}

fn put(file: &[u64]) -> Result<(), String> {
    let bytes: Vec<u8> = file.iter().flat_map(|w| w.to_le_bytes()).collect();
    std::io::stdout().write_all(&bytes).map_err(|e| e.to_string())
}

fn get() -> Result<Vec<u64>, String> {
    let mut bytes = Vec::new();
    std::io::stdin().read_to_end(&mut bytes).map_err(|e| e.to_string())?;
    if bytes.len() % 8 != 0 {
        return Err("not a whole number of words".to_string());
    }
    Ok(bytes.chunks(8).map(|b| u64::from_le_bytes(b.try_into().unwrap())).collect())
}
