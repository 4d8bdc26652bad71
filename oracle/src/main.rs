//! The oracle: the six Rust files of T-NURCC, compiled unchanged, run on mesh texts 1 and 2.
//!
//!     oracle K < TEXTS
//!
//! TEXTS are texts one after the other, each up to its line `[end]`. Each is built and refined K times, the faces
//! visited in numbered order. Lines `[order N N ..]` right after a text are its steps instead: each visits the faces in
//! the order that it lists. `[published N N ..]` is such a step in document 02's second edition, by the Rust altered. The
//! answers, as `answers` gives them, stand one after the other; each begins `[stage 0]`.

use oracle::answers::{self, Edition, Visit};
use oracle::text;
use std::io::{Read, Write};

/// One text of the input and the steps to take with it.
struct Task<'a> {
    text: &'a [u8],
    steps: Vec<(Edition, Visit)>,
}

/// The step that a line says, if it says one.
fn step(line: &[u8]) -> Option<(Edition, Visit)> {
    let listed = |word: &str| text::read_order(word, line).map(Visit::Listed);
    listed("[order").map(|visit| (Edition::First, visit)).or_else(|| Some((Edition::Second, listed("[published")?)))
}

/// The input cut into tasks.
fn tasks(input: &[u8]) -> Vec<Task<'_>> {
    let mut tasks = Vec::new();
    let mut begin = 0;
    let mut at = 0;
    for line in input.split_inclusive(|&byte| byte == b'\n') {
        let step = if at == begin { step(line) } else { None };
        at += line.len();
        match (step, tasks.last_mut()) {
            (Some(step), Some(Task { steps, .. })) => {
                steps.push(step);
                begin = at;
            }
            _ if line == b"[end]\n" || at == input.len() => {
                tasks.push(Task { text: &input[begin..at], steps: Vec::new() });
                begin = at;
            }
            _ => {}
        }
    }
    tasks
}

fn main() -> std::io::Result<()> {
    let Some(steps) = std::env::args().nth(1).and_then(|word| word.parse().ok()) else {
        eprintln!("usage: oracle K < TEXTS");
        std::process::exit(2);
    };
    let numbered = vec![(Edition::First, Visit::Numbered); steps];

    let mut input = Vec::new();
    std::io::stdin().read_to_end(&mut input)?;
    answers::silence_panics();

    let mut output = std::io::BufWriter::new(std::io::stdout());
    for Task { text, steps } in tasks(&input) {
        let steps = if steps.is_empty() { &numbered } else { &steps };
        output.write_all(answers::answers(text, steps).as_bytes())?;
    }
    output.flush()
}
