//! Builds document 01's cube from lists, refines it twice and prints it before and after each step.

mod lavyngo;

use lavyngo::{Counts, EDGE, FACE, Ground, Lists, POINT, POSITION, Place, Tables, explain_text, mend_text};

fn print(tables: &Tables, counts: Counts) {
    let bits = |x: &f64| format!("{:016x}", x.to_bits());
    let numbers = |xs: &[f64]| xs.iter().map(bits).collect::<Vec<_>>().join(" ");
    let words = |row: &[u32]| row.iter().map(u32::to_string).collect::<Vec<_>>().join(" ");
    println!("[mesh 3]");
    for (place, row) in tables.positions.chunks(POSITION).zip(tables.points.chunks(POINT)).take(counts.points) {
        println!("[point {} {}]", numbers(place), words(row));
    }
    for (row, interval) in tables.edges.chunks(EDGE).zip(&tables.intervals).take(counts.edges) {
        println!("[edge {} {}]", words(row), bits(interval));
    }
    for row in tables.faces.chunks(FACE).take(counts.faces) {
        println!("[face {}]", words(row));
    }
    println!("[end]");
}

/// The counts of the cube in the tables, or the ground of the refusal.
fn build_cube(tables: &mut Tables) -> Result<Counts, Ground> {
    let coordinate = |k: usize, axis: usize| if k >> axis & 1 == 1 { 1.0 } else { -1.0 };
    let coordinates: Vec<f64> = (0..8).flat_map(|k| (0..3).map(move |axis| coordinate(k, axis))).collect();
    let listed = [2, 3, 1, 0, 5, 7, 6, 4, 1, 5, 4, 0, 6, 7, 3, 2, 4, 6, 2, 0, 3, 7, 5, 1];
    tables.build(Lists { coordinates: &coordinates, sides: &[1; 24], listed: &listed, beside: &[1.0; 24] })
}

fn example() -> Result<(), Ground> {
    // Room for the cube after two steps.
    let room = Counts { points: 98, edges: 192, faces: 96 };
    let mut tables = Tables::with_rows(room);
    let mut scratch = Tables::with_rows(room);
    let mut counts = build_cube(&mut tables)?;
    for stage in 0..3 {
        tables.audit(counts)?;
        // An edge crosses the middle of the cube, and none its far side.
        tables.find_depth(counts, 0.0)?;
        assert_eq!(tables.find_depth(counts, 2.0), Err(Ground(41)));
        println!("[stage {stage}]");
        print(&tables, counts);
        if stage < 2 {
            let order: Vec<u32> = (0..counts.faces as u32).collect();
            counts = tables.step(counts, &order, &mut scratch)?;
        }
    }
    Ok(())
}

/// Two triangles back to back, both listed the same way round: the second face is refused, mended and then accepted.
fn mend_triangles() {
    let point = "[point 0000000000000000 0000000000000000 0000000000000000]\n";
    let one = "3ff0000000000000";
    let face = format!("[face [2 [0 {one}]] [0] [0 [1 {one}]] [1 [2 0000000000000000]]]\n");
    let mut text = format!("[mesh 2]\n{point}{point}{point}{face}{face}[end]\n").into_bytes();
    let place = Place { line: Some(6), face: Some(1), edge: Some(0) };
    assert_eq!(explain_text(&text), Err((Ground(15), place)));
    assert_eq!(mend_text(&mut text), Ok(()));
    assert_eq!(explain_text(&text), Ok(()));
    assert_eq!(mend_text(&mut text[..20]), Err(Ground(1)));
}

fn main() {
    assert_eq!(lavyngo::version(), lavyngo::VERSION);
    mend_triangles();
    if let Err(Ground(number)) = example() {
        println!("[refused {number}]");
        std::process::exit(1);
    }
}
