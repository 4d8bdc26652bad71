//! Document 02, section 7: two runs of the second edition from one mesh, in any orders, with equal lengths of tables and scratch
//! at each step, agree in everything but row numbers, and one run's step is refused exactly if the other's is.

use crate::library::{self, Counts, Edition, Tables};
use crate::names::{self, Names, Register, Share};
use crate::random::Random;
use std::collections::BTreeMap;

/// What was compared.
#[derive(Default)]
pub struct Agreed {
    pub runs: u64,
    /// How often both runs gave each answer.
    pub answers: BTreeMap<u32, u64>,
    /// Meshes after an accepted step whose rows are numbered differently.
    pub renumbered: u64,
    pub records: u64,
}

/// One of the two runs: its mesh, and the names of its rows.
struct Run {
    mesh: Tables,
    names: Names,
}

/// The lengths that are lent at a step: rows enough and some elements more, or a table that runs short.
struct Room {
    spare: usize,
    short: Option<(usize, usize)>,
}

impl Room {
    fn any(random: &mut Random) -> Self {
        let short = random.once_in(5).then(|| (random.below(10), random.between(1, 8)));
        Room { spare: if short.is_some() { 0 } else { random.of(&[0, 1, 9]) }, short }
    }

    /// The tables and the scratch of a step.
    fn lent(&self, mesh: &Tables, after: Counts) -> (Tables, Tables) {
        let mut lent = (Tables::patterned(after, self.spare).over(mesh), Tables::patterned(after, self.spare));
        if let Some((table, lacks)) = self.short {
            let cut = if table < 5 { &mut lent.0 } else { &mut lent.1 };
            match table % 5 {
                0 => cut.positions.truncate(cut.positions.len().saturating_sub(lacks)),
                1 => cut.points.truncate(cut.points.len().saturating_sub(lacks)),
                2 => cut.edges.truncate(cut.edges.len().saturating_sub(lacks)),
                3 => cut.intervals.truncate(cut.intervals.len().saturating_sub(lacks)),
                _ => cut.faces.truncate(cut.faces.len().saturating_sub(lacks)),
            }
        }
        lent
    }
}

/// One step of a run in an order of its own. The answer, and the refined mesh if it is accepted.
fn step(random: &mut Random, run: &Run, counts: Counts, room: &Room) -> (u32, Tables) {
    let after = counts.refined();
    let (mut tables, mut scratch) = room.lent(&run.mesh, after);
    let answer = library::step(Edition::Second, &mut tables, &mut counts.array(), &random.order(counts.faces), &mut scratch);
    (answer, if answer == 0 { tables.first(after) } else { Tables::default() })
}

/// Two runs of so many steps from a mesh. The error says where they part.
pub fn check(random: &mut Random, mesh: &Tables, counts: Counts, steps: usize, agreed: &mut Agreed) -> Result<(), String> {
    let mut register = Register::default();
    let mut run = || Run { mesh: mesh.first(counts), names: Names::first(&mut register, counts) };
    let (mut one, mut two, mut counts, mut accepted) = (run(), run(), counts, 0);
    for k in 1..=steps {
        let room = Room::any(random);
        let (answer, after_one) = step(random, &one, counts, &room);
        let (other, after_two) = step(random, &two, counts, &room);
        if answer != other {
            return Err(format!("full agreement, step {k}: one run's is answered {answer}, the other's {other}"));
        }
        *agreed.answers.entry(answer).or_default() += 1;
        if answer != 0 {
            continue;
        }
        accepted += 1;
        let after = counts.refined();
        let mut named = |run: &Run, refined: &Tables| {
            let names = run.names.after(&mut register, accepted, &run.mesh, counts, refined);
            names.ok_or_else(|| format!("full agreement, step {k}: a row has no name"))
        };
        let names = (named(&one, &after_one)?, named(&two, &after_two)?);
        names::shared(after, (&after_one, &names.0), (&after_two, &names.1), Share::Everything)
            .map_err(|what| format!("full agreement, step {k}: {what}"))?;
        agreed.renumbered += u64::from(!after_one.same(&after_two));
        agreed.records += after.records();
        (one, two) = (Run { mesh: after_one, names: names.0 }, Run { mesh: after_two, names: names.1 });
        counts = after;
    }
    agreed.runs += 1;
    Ok(())
}
