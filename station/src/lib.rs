//! The library for stations against the original Rust, in one process.
//!
//!     station compare [MESHES [SEED]]    generated meshes, after building and after one and two steps; with 0 meshes, or
//!                                        20,000 and more, also the largest mesh, up to the ceilings
//!     station fuzz [CASES [SEED]]        random and damaged lists, texts and tables
//!     station mend [CASES [SEED]]        texts with faces turned, damaged texts and any bytes through the mender
//!     station bench [FACES]              times; the Rust is run on meshes of up to so many faces
//!     station obj [FACES]                a shuffled mesh of about so many faces as an OBJ, for other libraries
//!     station profile [STEPS]            steps of the torus of 64 by 64, for a profiler
//!     station stack                      the stack that each function takes
//!     station tampered                   the same with a bit changed in what the library leaves: it must be found

mod agreement;
mod bench;
mod compare;
mod depths;
mod fuzz;
mod grounds;
#[path = "../lavyngo.rs"]
mod lavyngo;
mod library;
mod listings;
mod lists;
mod memory;
mod mend;
mod mender;
mod names;
mod numbers;
mod random;
mod rust;
mod shapes;
mod shrink;
mod spoil;
mod stack;

use compare::{Case, How, Tally, Tamper};
use std::process::ExitCode;
use std::sync::Mutex;

#[global_allocator]
static MEMORY: memory::Counting = memory::Counting;

/// What is wrong with a case, where something is.
fn fault(case: &Case, tamper: Option<Tamper>) -> Option<String> {
    compare::check(case, &mut Tally::default(), tamper).err()
}

/// The first case that fails, made as small as it gets, or what was compared.
fn run(meshes: u64, seed: u64) -> Result<Tally, (u64, Case, String)> {
    let mut tally = Tally::default();
    for number in 0..meshes {
        let case = Case::random(seed, number);
        if let Err(what) = compare::check(&case, &mut tally, None) {
            let (case, what) = shrink::shrink(case, what, |case: &Case| fault(case, None));
            return Err((number, case, what));
        }
    }
    Ok(tally)
}

/// Of the cases that fail when a bit is changed the one with the fewest listed points, made as small as it gets.
fn least_found(meshes: u64, seed: u64, tamper: Tamper) -> Option<(Case, String)> {
    let fails = |case: &Case| fault(case, Some(tamper));
    let failing = |number| {
        let case = Case::random(seed, number);
        fails(&case).map(|what| (case, what))
    };
    let (case, what) = (0..meshes).filter_map(failing).min_by_key(|(case, _)| case.lists.listed.len())?;
    Some(shrink::shrink(case, what, fails))
}

fn show(number: u64, seed: u64, case: &Case, what: &str) {
    println!("DIFFERENCE in mesh {number} of seed {seed}: {what}");
    let order = |how: &How| if how.numbered { "numbered order" } else { "another order" };
    let steps: Vec<String> = case.steps.iter().map(|how| format!("{:?} edition in {}", how.edition, order(how))).collect();
    println!("steps: {}; scrambled: {}; two runs: {}", steps.join(", "), case.scrambled, case.two_runs);
    println!("steps of two runs that must agree in full: {}", case.agreeing);
    println!("elements to spare in each table: {}; too few in a table: {:?}", case.spare, case.short);
    match case.lists.text() {
        Some(text) => print!("the smallest text that was found to show it:\n{text}"),
        None => println!("lists whose lengths disagree: {:?} {:?}", case.lists.sides, case.lists.listed),
    }
}

fn listed(counts: &std::collections::BTreeMap<u32, u64>) -> String {
    let parts: Vec<String> = counts.iter().map(|(ground, n)| format!("{ground}: {n}")).collect();
    if parts.is_empty() { String::from("none") } else { parts.join(", ") }
}

fn compare(meshes: u64, seed: u64) -> ExitCode {
    match run(meshes, seed) {
        Ok(mut t) => {
            if (meshes == 0 || meshes >= 20_000) && let Err(what) = compare::largest(&mut t) {
                println!("DIFFERENCE in the torus of 64 by 64: {what}");
                return ExitCode::FAILURE;
            }
            println!(
                "seed {seed}: {} meshes, {} of them of version 2, {} also as texts; {} accepted, faces of up to {} sides",
                t.meshes, t.version_2, t.texts, t.accepted, t.largest_face
            );
            println!("building refused, by ground: {}", listed(&t.refused));
            println!("of these also refused by the Rust, with its own error: {}", listed(&t.refused_by_both));
            println!(
                "{} steps, {} of them of the second edition, {} in other orders than the numbered one; refused, by ground: {}",
                t.steps, t.steps_published, t.steps_in_other_orders, listed(&t.refused_steps)
            );
            println!("{} records compared with the Rust's, every word and bit", t.records);
            println!(
                "{} second runs in other orders and editions, {} records compared under the names",
                t.runs_under_names, t.records_under_names
            );
            println!(
                "{} pairs of runs of the second edition agreed in full, {} records, after {} steps with their rows numbered \
                 differently; both answered: {}",
                t.agreed.runs, t.agreed.records, t.agreed.renumbered, listed(&t.agreed.answers)
            );
            println!("the depth finder answered: {}", listed(&t.depths));
            println!("listings written and read were answered: {}", listed(&t.listings));
            println!("the mender answered: {}", listed(&t.mended));
            println!("none differed");
            ExitCode::SUCCESS
        }
        Err((number, case, what)) => {
            show(number, seed, &case, &what);
            ExitCode::FAILURE
        }
    }
}

/// Three changes of one bit, in a position, in a link and in a corner. Each must be found.
fn tampered() -> ExitCode {
    let tampers: [(&str, Tamper); 3] = [
        ("the last bit of the last coordinate but 40", |t| {
            let at = t.positions.len().saturating_sub(41);
            if let Some(number) = t.positions.get_mut(at) {
                *number = f64::from_bits(number.to_bits() ^ 1);
            }
        }),
        ("a link of edge 17", |t| {
            if let Some(word) = t.edges.get_mut(8 * 17 + 6) {
                *word ^= 1;
            }
        }),
        ("a corner of face 5", |t| {
            if let Some(word) = t.faces.get_mut(5 * 5 + 2) {
                *word ^= 1;
            }
        }),
    ];
    for (what, tamper) in tampers {
        let Some((case, said)) = least_found(200, 1, tamper) else {
            println!("NOT FOUND: {what}");
            return ExitCode::FAILURE;
        };
        let lines = case.lists.text().map_or(0, |text| text.lines().count());
        println!("found: {what}; a text of {lines} lines; {said}");
    }
    ExitCode::SUCCESS
}

fn fuzz(cases: u64, seed: u64) -> ExitCode {
    match fuzz::run(cases, seed) {
        Ok(f) => {
            println!("seed {seed}: {} lists, {} texts, {} tables", f.lists, f.texts, f.tables);
            println!("building from lists answered, 0 for accepted: {}", listed(&f.building));
            println!("building from texts answered: {}", listed(&f.reading));
            println!("{} audits: {} closed, {} not", f.audits[0] + f.audits[1], f.audits[1], f.audits[0]);
            println!("{} steps answered: {}", f.steps, listed(&f.answers));
            println!("the depth finder answered: {}", listed(&f.depths));
            println!("listings written and read were answered: {}", listed(&f.listings));
            println!("the mender answered: {}", listed(&f.mended));
            println!("every answer is document 01's or 02's, every row as its ground promises");
            ExitCode::SUCCESS
        }
        Err((number, what)) => {
            println!("WRONG in case {number} of seed {seed}: {what}");
            ExitCode::FAILURE
        }
    }
}

fn mend(cases: u64, seed: u64) -> ExitCode {
    match mend::run(cases, seed) {
        Ok(m) => {
            println!("seed {seed}: {} texts mended or refused; of {} meshes all choices of faces were tried", m.texts, m.tried);
            println!("the mender answered: {}; {} faces turned", listed(&m.answers), m.faces);
            println!(
                "{} mended texts built, {} accepted, {} records compared with the Rust's; refused, by ground: {}",
                m.tally.texts, m.tally.accepted, m.tally.records, listed(&m.tally.refused)
            );
            println!("every answer and every byte is document 02's");
            ExitCode::SUCCESS
        }
        Err((place, what)) => {
            println!("WRONG in {place}: {what}");
            ExitCode::FAILURE
        }
    }
}

/// Panics of the Rust become lines of the oracle; what was said last is kept, for a panic that is our own.
static LAST_PANIC: Mutex<String> = Mutex::new(String::new());

pub fn main() -> ExitCode {
    std::panic::set_hook(Box::new(|info| *LAST_PANIC.lock().expect("one thread") = info.to_string()));
    std::panic::catch_unwind(command).unwrap_or_else(|_| {
        let said = LAST_PANIC.lock().expect("one thread").clone();
        println!("{said}");
        ExitCode::FAILURE
    })
}

fn command() -> ExitCode {
    let words: Vec<String> = std::env::args().skip(1).collect();
    let number = |at: usize, otherwise: u64| words.get(at).and_then(|word| word.parse().ok()).unwrap_or(otherwise);
    match words.first().map(String::as_str) {
        Some("compare") => compare(number(1, 20_000), number(2, 1)),
        Some("fuzz") => fuzz(number(1, 50_000), number(2, 1)),
        Some("mend") => mend(number(1, 20_000), number(2, 1)),
        Some("tampered") => tampered(),
        Some("stack") => {
            stack::run();
            ExitCode::SUCCESS
        }
        Some("stack-call") => {
            stack::call(&words[1], number(2, 0) as usize);
            ExitCode::SUCCESS
        }
        Some("obj") => {
            bench::obj(number(1, 3000) as usize);
            ExitCode::SUCCESS
        }
        Some("profile") => {
            bench::profile(number(1, 1) as usize);
            ExitCode::SUCCESS
        }
        Some("bench") => {
            bench::listing();
            bench::run(number(1, 100_000) as usize);
            ExitCode::SUCCESS
        }
        _ => {
            eprintln!("usage: station compare [MESHES [SEED]] | fuzz [CASES [SEED]] | mend [CASES [SEED]] | bench [FACES] | profile [STEPS] | stack | tampered");
            ExitCode::from(2)
        }
    }
}
