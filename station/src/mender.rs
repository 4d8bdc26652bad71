//! The mender of texts (document 02, section 8) once more in plain Rust that follows the document's words, and texts through the
//! library's mender.

use crate::lists::Lists;
use crate::random::Random;
use crate::{grounds, library, numbers, shapes};
use oracle::text::{Side, Version};
use std::collections::{BTreeMap, HashMap};

/// How often the mender gave each answer.
pub type Answers = BTreeMap<u32, u64>;

/// A side backwards, from its last point to its first one. Each interval stays on its pair of points.
fn backwards((first, entries): &Side) -> Side {
    let mut points = vec![*first];
    points.extend(entries.iter().map(|entry| entry.0));
    let pairs = (0..entries.len()).rev().map(|k| (points[k], entries[k].1)).collect();
    (points[entries.len()], pairs)
}

/// The lists with these faces reversed: the sides in opposite order, each side backwards.
pub fn reversed(lists: &Lists, choice: &[bool]) -> Lists {
    let mut mesh = lists.mesh().expect("lists whose lengths agree");
    for (face, _) in mesh.faces.iter_mut().zip(choice).filter(|(_, turned)| **turned) {
        *face = [3, 2, 1, 0].map(|k: usize| backwards(&face[k]));
    }
    Lists::of_mesh(&mesh)
}

/// The two faces of an edge, and whether they run along it the same way.
pub struct Shared {
    pub faces: [usize; 2],
    pub same_way: bool,
}

/// The edges of lists of which each edge has two faces.
pub fn edges(lists: &Lists) -> Vec<Shared> {
    let mut met: HashMap<(u32, u32), Vec<(usize, u32)>> = HashMap::new();
    for (face, (begin, n)) in lists.places().into_iter().enumerate() {
        let border = &lists.listed[begin..begin + n];
        for i in 0..n {
            let (p, q) = (border[i], border[(i + 1) % n]);
            met.entry((p.min(q), p.max(q))).or_default().push((face, p));
        }
    }
    met.into_values()
        .map(|two| Shared { faces: [two[0].0, two[1].0], same_way: two[0].1 == two[1].1 })
        .collect()
}

/// Whether all neighbours run opposite ways once the faces of a choice are reversed.
pub fn works(edges: &[Shared], choice: &[bool]) -> bool {
    edges.iter().all(|edge| edge.same_way == (choice[edge.faces[0]] != choice[edge.faces[1]]))
}

/// The choice, found by going from face to face: each neighbour is turned as the edge demands.
pub fn by_walking(edges: &[Shared], faces: usize) -> Option<Vec<bool>> {
    let mut beside: Vec<Vec<(usize, bool)>> = vec![Vec::new(); faces];
    for Shared { faces: [f, g], same_way } in edges {
        beside[*f].push((*g, *same_way));
        beside[*g].push((*f, *same_way));
    }
    let mut choice: Vec<Option<bool>> = vec![None; faces];
    for first in 0..faces {
        if choice[first].is_some() {
            continue;
        }
        choice[first] = Some(false);
        let mut waiting = vec![first];
        while let Some(face) = waiting.pop() {
            for &(next, same_way) in &beside[face] {
                if choice[next].is_none() {
                    choice[next] = choice[face].map(|turned| turned != same_way);
                    waiting.push(next);
                }
            }
        }
    }
    let choice: Vec<bool> = choice.into_iter().map(|turned| turned == Some(true)).collect();
    works(edges, &choice).then_some(choice)
}

/// What the mender is to answer to lists: the faces to turn, or its ground.
fn turns(lists: &Lists) -> Result<Vec<bool>, u32> {
    match grounds::mending(lists) {
        0 => by_walking(&edges(lists), lists.faces()).ok_or(44),
        ground => Err(ground),
    }
}

/// The beginning of a text, for a message.
pub fn shown(text: &[u8]) -> String {
    String::from_utf8_lossy(&text[..text.len().min(4000)]).into_owned()
}

fn demand(holds: bool, what: impl FnOnce() -> String) -> Result<(), String> {
    if holds { Ok(()) } else { Err(what()) }
}

/// A mended text: its lists, and how many faces were turned.
pub struct Mended {
    pub lists: Lists,
    pub turned: usize,
}

/// A text of any bytes through the library's mender: the answer, and every byte of the text. The lists are what it says, if it is
/// of the form.
pub fn through(text: &[u8], lists: Option<&Lists>, answers: &mut Answers) -> Result<Option<Mended>, String> {
    let expected = lists.map_or(Err(1), turns);
    let mut left = text.to_vec();
    let answer = library::mend_text(&mut left);
    let number = expected.as_ref().err().copied().unwrap_or(0);
    demand(answer == number, || format!("the mender answers {answer}, document 02 says {number}, to the text\n{}", shown(text)))?;
    *answers.entry(answer).or_default() += 1;
    let (Ok(choice), Some(lists)) = (expected, lists) else {
        demand(left == text, || format!("the mender answers {answer} and changes the text\n{}", shown(text)))?;
        return Ok(None);
    };
    let lists = reversed(lists, &choice);
    let wanted = lists.text().unwrap_or_default().into_bytes();
    demand(left == wanted, || format!("mended:\n{}\nexpected:\n{}", shown(&left), shown(&wanted)))?;
    demand(choice.contains(&true) || left == text, || format!("a text that needs nothing is changed\n{}", shown(text)))?;
    let mut twice = left.clone();
    let again = library::mend_text(&mut twice);
    demand(again == 0 && twice == left, || format!("a mended text is answered {again}, or changed\n{}", shown(text)))?;
    Ok(Some(Mended { lists, turned: choice.iter().filter(|turned| **turned).count() }))
}

/// Faces turned at random: as a rule about half of them, now and then none, one or all.
pub fn turned(random: &mut Random, lists: &Lists) -> Lists {
    let one = random.below(lists.faces().max(1));
    let how = random.below(8);
    let choice: Vec<bool> = (0..lists.faces())
        .map(|f| match how {
            0 => false,
            1 => true,
            2 => f == one,
            _ => random.once_in(2),
        })
        .collect();
    reversed(lists, &choice)
}

/// The text of lists, or now and then of a surface with one side, some faces turned round, through the library's mender.
pub fn check(random: &mut Random, lists: &Lists, answers: &mut Answers) -> Result<(), String> {
    if !lists.agree() {
        return Ok(());
    }
    let lists = if random.once_in(20) {
        let shape = shapes::one_sided(random);
        numbers::numbered_in(random, &shape, Version::Two)
    } else {
        lists.clone()
    };
    let lists = turned(random, &lists);
    let text = lists.text().expect("lists that agree have a text");
    through(text.as_bytes(), Some(&lists), answers).map(drop)
}
