//! Demand 3 on runs: every way of small lots is handed in as the observed one, and the three properties are counted.

use crate::inputs::distances::{KINDS, UNLIKE};
use crate::ops::exhaustive;
use crate::ops::test::Input;
use crate::port::library::Library;
use crate::port::lots::ExhaustiveCall;
use crate::port::Asked;
use crate::splitmix::SplitMix;

/// What a call answers of one statistic: its value (None where F is unbounded or `dapc` refuses), and its hits.
#[derive(Clone, Copy)]
struct Told {
    value: Option<f64>,
    hits: u64,
}

struct Answer {
    ways: u64,
    location: Told,
    dispersion: Told,
    assigned: Told,
}

/// The kind in the place of the one that does not mirror itself, whose lots would all be refused.
const LIKE: usize = 7;

/// So many lots of 4 to 12 samples.
pub fn print(seed: u64, count: usize) -> Result<(), String> {
    let (mut accepted, mut refused, mut calls) = (0, 0, 0);
    for at in 0..count {
        let kind = if at % KINDS == UNLIKE { LIKE } else { at % KINDS };
        let lot = exhaustive::small(at, kind, &mut SplitMix::new(seed.wrapping_add(at as u64)));
        match judged(&lot) {
            Ok(0) => refused += 1,
            Ok(made) => {
                accepted += 1;
                calls += made;
            }
            Err(why) => return Err(format!("lot {at}: {why}")),
        }
    }
    println!("{accepted} lots accepted, {refused} refused; {calls} calls, one for each way: every property holds");
    Ok(())
}

/// The number of calls, or 0 where the lot is refused.
fn judged(lot: &Input) -> Result<usize, String> {
    let Ok(first) = ask(lot, &lot.labels) else { return Ok(0) };
    let ways = exhaustive::ways(lot);
    if first.ways != ways.len() as u64 {
        return Err(format!("M is {}, and there are {} ways", first.ways, ways.len()));
    }
    let mut answers = Vec::new();
    for way in &ways {
        answers.push(ask(lot, way).map_err(|number| format!("a way is refused by {number}"))?);
    }
    for told in [|a: &Answer| a.location, |a: &Answer| a.dispersion] {
        let all: Vec<Told> = answers.iter().map(told).collect();
        exact(&all, exhaustive::as_far)?;
        level(&all)?;
    }
    let all: Vec<Told> = answers.iter().map(|a| a.assigned).collect();
    exact(&all, exhaustive::as_right)?;
    level(&all.into_iter().filter(|told| told.value.is_some()).collect::<Vec<_>>())?;
    Ok(ways.len())
}

/// Each call's hits are the ways that section 6 counts.
fn exact(all: &[Told], hit: fn(Option<f64>, Option<f64>) -> bool) -> Result<(), String> {
    for seen in all {
        let hits = all.iter().filter(|way| hit(seen.value, way.value)).count() as u64;
        if hits != seen.hits {
            return Err(format!("{} hits are told, and there are {hits}", seen.hits));
        }
    }
    Ok(())
}

/// For every k at most k calls have k hits or fewer.
fn level(all: &[Told]) -> Result<(), String> {
    for k in 0..=all.len() as u64 {
        let few = all.iter().filter(|told| told.hits <= k).count() as u64;
        if few > k {
            return Err(format!("{few} calls have {k} hits or fewer"));
        }
    }
    Ok(())
}

fn ask(lot: &Input, labels: &[u16]) -> Result<Answer, u8> {
    let mut call = ExhaustiveCall::new(lot);
    call.lot.labels.copy_from_slice(labels);
    match call.ask(&Library::linked()) {
        0 => {}
        number => return Err(number),
    }
    let (values, numbers) = (&call.values, &call.numbers);
    let told = |given: u64, value: f64, hits: u64| Told { value: (given == 1).then_some(value), hits };
    Ok(Answer {
        ways: numbers[2],
        location: told(numbers[3], values[0], numbers[4]),
        dispersion: told(numbers[5], values[2], numbers[6]),
        assigned: told(numbers[7], numbers[8] as f64, numbers[9]),
    })
}
