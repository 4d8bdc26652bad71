//! Times: building and refining by the library and by the original Rust, in one run.

use crate::library::{self, Counts, Edition, Tables};
use crate::lists::Lists;
use crate::listings;
use crate::memory;
use crate::mender;
use crate::random::Random;
use crate::rust::Mesh;
use crate::shapes::{self, Shape};
use std::hint::black_box;
use std::time::Instant;

/// A mesh to measure with.
struct Sample {
    name: String,
    lists: Lists,
}

/// Quadrilaterals with intervals 1 and 2 by direction, other faces with ones; points of a torus, or any points.
fn lists_of(shape: &Shape, random: &mut Random) -> Lists {
    let mut lists = Lists::default();
    lists.coordinates.extend((0..3 * shape.points).map(|_| (random.word() >> 11) as f64 / 9007199254740992.0));
    for border in &shape.borders {
        let n = border.len();
        let first = n - n / 2;
        lists.sides.extend([first as u32, 0, (n - first) as u32, 0]);
        lists.listed.extend(border.iter().map(|&p| p as u32));
        let interval = |k: usize| match n {
            4 => [1.0, 2.0, 1.0, 2.0][k],
            _ if n % 2 == 1 && k == n - 1 => 2.0,
            _ => 1.0,
        };
        lists.intervals.extend((0..n).map(interval));
    }
    lists
}

fn torus(n: usize) -> Sample {
    Sample { name: format!("torus {n} x {n}"), lists: lists_of(&shapes::torus(n, n), &mut Random::new(n as u64)) }
}

/// Faces of 3 to 8 sides and points of many valences, all numbered at random.
fn shuffled(faces: usize) -> Sample {
    let mut random = Random::new(faces as u64);
    let shape = shapes::extraordinary(&mut random, faces);
    Sample { name: format!("shuffled, {} faces", shape.borders.len()), lists: lists_of(&shape, &mut random) }
}

/// The least time of some runs, in nanoseconds. What is worked on is made anew for each run, outside the time.
fn least<T>(runs: usize, mut make: impl FnMut() -> T, mut work: impl FnMut(&mut T)) -> f64 {
    let mut least = f64::MAX;
    for _ in 0..runs {
        let mut thing = make();
        let start = Instant::now();
        work(&mut thing);
        least = least.min(start.elapsed().as_nanos() as f64);
        black_box(&thing);
    }
    least
}

fn built(lists: &Lists) -> (Tables, Counts) {
    let room = Counts { points: lists.points(), edges: lists.listed.len(), faces: lists.faces() };
    let mut tables = Tables::with_rows(room);
    let mut counts = [0; 3];
    let answer = library::build(lists, &mut tables, &mut counts);
    assert_eq!(answer, 0, "the sample is built");
    let counts = Counts::of(counts);
    (tables.first(counts), counts)
}

/// Rows of the refined mesh written one by one to scratch and copied to the tables.
fn write_and_copy(tables: &mut Tables, scratch: &mut Tables, after: Counts) {
    for p in 0..3 * after.points {
        scratch.positions[p] = p as f64;
        scratch.points[p] = p as u32;
    }
    for e in 0..after.edges {
        for k in 0..8 {
            scratch.edges[8 * e + k] = (e + k) as u32;
        }
        scratch.intervals[e] = e as f64;
    }
    for f in 0..5 * after.faces {
        scratch.faces[f] = f as u32;
    }
    black_box(&mut *scratch);
    tables.positions.copy_from_slice(&scratch.positions);
    tables.points.copy_from_slice(&scratch.points);
    tables.edges.copy_from_slice(&scratch.edges);
    tables.intervals.copy_from_slice(&scratch.intervals);
    tables.faces.copy_from_slice(&scratch.faces);
}

fn building(samples: &[Sample], rust_most: usize) {
    println!("## Building\n");
    println!("| Mesh | Faces | Library, µs | ns a face | Version 2, µs | Times version 1 | Rust, µs | ns a face | Times as fast |");
    println!("|---|---|---|---|---|---|---|---|---|");
    for sample in samples {
        let lists = &sample.lists;
        let faces = lists.faces();
        let room = Counts { points: lists.points(), edges: lists.listed.len(), faces };
        let version_2 = Lists { firsts: Some(Vec::new()), ..lists.clone() }.fitted();
        let runs = (2_000_000 / lists.listed.len()).clamp(20, 2000);
        let time = |lists: &Lists| {
            least(runs, || Tables::patterned(room, 0), |tables| {
                assert_eq!(library::build(lists, tables, &mut [0; 3]), 0, "the sample is built");
            })
        };
        let (ours, two) = (time(lists), time(&version_2));
        let theirs = (faces <= rust_most).then(|| {
            let runs = (400_000_000 / faces.pow(2).max(1)).clamp(3, 50);
            least(runs, || None, |mesh| *mesh = Mesh::build(lists).ok())
        });
        let per = |time: f64| time / faces as f64;
        match theirs {
            Some(rust) => println!(
                "| {} | {faces} | {:.1} | {:.0} | {:.1} | {:.2} | {:.0} | {:.0} | {:.0} |",
                sample.name, ours / 1e3, per(ours), two / 1e3, two / ours, rust / 1e3, per(rust), rust / ours
            ),
            None => println!(
                "| {} | {faces} | {:.1} | {:.0} | {:.1} | {:.2} | not run | | |",
                sample.name, ours / 1e3, per(ours), two / 1e3, two / ours
            ),
        }
    }
    println!();
}

/// Texts with half of their faces turned: mended by the library, beside building from the mended text.
fn mending(samples: &[Sample]) {
    println!("## Mending\n");
    println!("| Mesh | Faces | Bytes | Mended, µs | ns a face | Built from the text, µs | Times building |");
    println!("|---|---|---|---|---|---|---|");
    for Sample { name, lists } in samples {
        let faces = lists.faces();
        let mut random = Random::new(faces as u64);
        let version_2 = Lists { firsts: Some(Vec::new()), ..lists.clone() }.fitted();
        let choice: Vec<bool> = (0..faces).map(|f| f > 0 && random.once_in(2)).collect();
        let text = mender::reversed(&version_2, &choice).text().expect("the sample has a text").into_bytes();
        let wanted = version_2.text().expect("the sample has a text").into_bytes();
        let runs = (200_000 / faces).clamp(9, 500);
        let mended = least(runs, || text.clone(), |text| assert_eq!(library::mend_text(text), 0, "the sample is mended"));
        let room = Counts { points: lists.points(), edges: lists.listed.len(), faces };
        let built = least(runs, || Tables::patterned(room, 0), |tables| {
            assert_eq!(library::build_text(&wanted, tables, &mut [0; 3]), 0, "the mended sample is built");
        });
        println!(
            "| {name} | {faces} | {} | {:.0} | {:.0} | {:.0} | {:.2} |",
            text.len(), mended / 1e3, mended / faces as f64, built / 1e3, mended / built
        );
    }
    println!();
}

/// One line of the table of steps.
fn step(name: &str, mesh: &Tables, counts: Counts, rust_most: usize) {
    let after = counts.refined();
    let order: Vec<u32> = (0..counts.faces as u32).collect();
    let runs = (20_000_000 / after.faces).clamp(20, 2000);
    let lent = || (Tables::patterned(after, 0).over(mesh), Tables::patterned(after, 0));
    let time = |edition: Edition| {
        least(runs, lent, |(tables, scratch)| {
            assert_eq!(library::step(edition, tables, &mut counts.array(), &order, scratch), 0, "the sample is refined");
        })
    };
    let (ours, second) = (time(Edition::First), time(Edition::Second));
    let audit = least(runs, || (), |()| assert_eq!(library::audit(mesh, counts.array()), 0, "the sample is closed"));
    let plain = least(runs, lent, |(tables, scratch)| write_and_copy(tables, scratch, after));
    let per = |time: f64| time / after.faces as f64;
    let bytes = 2 * Tables::with_rows(after).bytes();
    print!(
        "| {name} | {} | {:.0} | {:.1} | {:.0} | {:.2} | {:.0} % | {:.1} | {:.2} | {:.2} |",
        after.faces, ours / 1e3, per(ours), second / 1e3, second / ours, 100.0 * audit / ours, per(plain), ours / plain,
        bytes as f64 / 1e6
    );
    if counts.faces > rust_most {
        return println!(" not run | | | |");
    }
    let runs = (200_000 / after.faces).clamp(3, 50);
    let rust = least(runs, || Mesh::of_tables(mesh, counts), |rust| rust.step(Edition::First, None).expect("the Rust refines"));
    let before = memory::in_use();
    let mut rust_mesh = Mesh::of_tables(mesh, counts);
    memory::reset_most();
    rust_mesh.step(Edition::First, None).expect("the Rust refines");
    let most = memory::most() - before;
    println!(" {:.0} | {:.0} | {:.0} | {:.2} |", rust / 1e3, per(rust), rust / ours, most as f64 / 1e6);
}

pub fn run(rust_most: usize) {
    let sizes = [8, 16, 32, 64];
    let mut samples: Vec<Sample> = sizes.into_iter().map(torus).collect();
    samples.extend([64, 256, 1024, 3000].map(shuffled));
    building(&samples, rust_most);
    mending(&samples);
    println!("## One step\n");
    println!(
        "| Mesh | Faces after | Library, µs | ns a face | Second edition, µs | Times the first | Audit's share | Write and copy, ns a face | Times that | \
         Tables and scratch, MB | Rust, µs | ns a face | Times as fast | Rust's memory, MB |"
    );
    println!("|---|---|---|---|---|---|---|---|---|---|---|---|---|---|");
    for sample in &samples {
        let (mesh, counts) = built(&sample.lists);
        step(&sample.name, &mesh, counts, rust_most);
    }
    // Building takes no more than 4,096 faces: the largest torus is the refined one of 64 by 64.
    let (mesh, counts) = built(&samples[3].lists);
    let after = counts.refined();
    let mut tables = Tables::with_rows(after).over(&mesh);
    let order: Vec<u32> = (0..counts.faces as u32).collect();
    assert_eq!(library::step(Edition::First, &mut tables, &mut counts.array(), &order, &mut Tables::with_rows(after)), 0);
    step("torus 128 x 128", &tables, after, rust_most);
}

/// The listing of the largest mesh, the torus of 64 by 64 refined twice: written and read back by the library, the audit included,
/// and by plain Rust, which audits nothing; and its bytes copied.
pub fn listing() {
    let (mut mesh, mut counts) = built(&torus(64).lists);
    for _ in 0..2 {
        let after = counts.refined();
        let order: Vec<u32> = (0..counts.faces as u32).collect();
        let mut tables = Tables::with_rows(after).over(&mesh);
        assert_eq!(library::step(Edition::First, &mut tables, &mut counts.array(), &order, &mut Tables::with_rows(after)), 0);
        (mesh, counts) = (tables, after);
    }
    let text = listings::text(&mesh, counts).into_bytes();
    let output = || vec![0u8; text.len()];
    let rate = |time: f64| text.len() as f64 * 1e3 / time;
    let copied = least(9, output, |to| to.copy_from_slice(&text));
    let written = least(9, output, |to| {
        assert_eq!(library::write_listing(&mesh, counts.array(), to, &mut 0), 0, "the listing is written");
    });
    let read = least(9, || Tables::with_rows(counts), |tables| {
        assert_eq!(library::read_listing(&text, tables, &mut [0; 3]), 0, "the listing is read");
    });
    let rust_written = least(3, String::new, |to| *to = listings::text(&mesh, counts));
    let rust_read = least(3, || None, |rows| *rows = listings::rows(&text));
    println!("## The handover listing\n\n{} bytes, of {counts:?}, in MB/s:\n", text.len());
    println!("| | Written | Read |\n|---|---|---|");
    println!("| Library, audit included | {:.0} | {:.0} |", rate(written), rate(read));
    println!("| Rust, `write!` and `parse` | {:.0} | {:.0} |", rate(rust_written), rate(rust_read));
    println!("| The bytes copied | {:.0} | |\n", rate(copied));
}

/// Some steps of the torus of 64 by 64 and nothing else, to be watched by a profiler.
pub fn profile(steps: usize) {
    let (mesh, counts) = built(&torus(64).lists);
    let order: Vec<u32> = (0..counts.faces as u32).collect();
    let mut scratch = Tables::with_rows(counts.refined());
    for _ in 0..steps {
        let mut tables = Tables::with_rows(counts.refined()).over(&mesh);
        assert_eq!(library::step(Edition::First, &mut tables, &mut counts.array(), &order, &mut scratch), 0);
    }
}

/// A shuffled mesh as an OBJ: its points and its faces.
pub fn obj(faces: usize) {
    let lists = shuffled(faces).lists;
    for point in lists.coordinates.chunks(3) {
        println!("v {:?} {:?} {:?}", point[0], point[1], point[2]);
    }
    let mut rest = &lists.listed[..];
    for sides in lists.sides.chunks(4) {
        let (face, more) = rest.split_at(sides.iter().sum::<u32>() as usize);
        println!("f {}", face.iter().map(|p| (p + 1).to_string()).collect::<Vec<_>>().join(" "));
        rest = more;
    }
}
