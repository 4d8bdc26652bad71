//! How much stack a call takes: the least stack, in steps of 4 KiB, of a thread in which it comes back. The system gives no
//! thread less than 16 KiB, so that a lesser figure says no more than that.

use crate::library::{self, Counts, Edition, Tables};
use crate::lists::Lists;
use crate::{listings, shapes};
use std::process::{Command, Stdio};

const CALLS: [&str; 11] = [
    "build", "build_2", "build_text", "mend_text", "explain_text", "audit", "step", "step_published", "find_depth", "write_listing", "read_listing",
];

/// The cube, so that the stack does not depend on what is worked on.
fn cube() -> Lists {
    let shape = shapes::cube();
    Lists {
        coordinates: (0..3 * shape.points).map(|k| k as f64).collect(),
        sides: vec![1; 24],
        firsts: None,
        listed: shape.borders.concat().into_iter().map(|p| p as u32).collect(),
        intervals: vec![1.0; 24],
    }
}

/// Makes one call in a thread of so much stack. If it is not enough, the system ends this process.
pub fn call(name: &str, bytes: usize) {
    let lists = cube();
    let version_2 = Lists { firsts: Some(Vec::new()), ..lists.clone() }.fitted();
    let text = lists.text().expect("the cube has a text");
    let mut scanned = version_2.text().expect("so has the cube of version 2").into_bytes();
    let room = Counts { points: 8, edges: 24, faces: 6 };
    let (mut tables, mut counts) = (Tables::with_rows(room), [0; 3]);
    assert_eq!(library::build(&lists, &mut tables, &mut counts), 0, "the cube is built");
    let after = Counts::of(counts).refined();
    let mut refined = Tables::with_rows(after).over(&tables.first(Counts::of(counts)));
    let mut scratch = Tables::with_rows(after);
    let listing = listings::text(&refined, Counts::of(counts)).into_bytes();
    let mut output = listing.clone();
    let name = name.to_string();
    let work = move || match name.as_str() {
        "build" => library::build(&lists, &mut tables, &mut counts),
        "build_2" => library::build(&version_2, &mut tables, &mut counts),
        "build_text" => library::build_text(text.as_bytes(), &mut tables, &mut counts),
        "mend_text" => library::mend_text(&mut scanned),
        "explain_text" => library::explain_text(text.as_bytes()).0,
        "audit" => library::audit(&refined, counts),
        "step" => library::step(Edition::First, &mut refined, &mut counts, &[0, 1, 2, 3, 4, 5], &mut scratch),
        "step_published" => library::step(Edition::Second, &mut refined, &mut counts, &[0, 1, 2, 3, 4, 5], &mut scratch),
        "find_depth" => library::find_depth(&refined, counts, 2.0, &mut 0),
        "write_listing" => library::write_listing(&refined, counts, &mut output, &mut 0),
        "read_listing" => library::read_listing(&listing, &mut scratch, &mut counts),
        _ => unreachable!("no such function"),
    };
    let thread = std::thread::Builder::new().stack_size(bytes).spawn(work);
    assert_eq!(thread.expect("a thread").join().expect("an answer"), 0, "the call is accepted");
}

/// The table of all calls.
pub fn run() {
    let program = std::env::current_exe().expect("this program");
    let enough = |name: &str, kib: usize| {
        let mut command = Command::new(&program);
        command.args(["stack-call", name, &(1024 * kib).to_string()]).stdout(Stdio::null()).stderr(Stdio::null());
        command.status().expect("this program runs").success()
    };
    let least = |name: &str| {
        let (mut low, mut high) = (0, 4096);
        while high - low > 4 {
            let middle = (low + high) / 8 * 4;
            if enough(name, middle) { high = middle } else { low = middle }
        }
        high
    };
    for name in CALLS {
        println!("a thread that calls lavyngo_{name} and nothing else comes back with {} KiB of stack", least(name));
    }
}
