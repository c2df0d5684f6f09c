//! The program `settle` against the model, on random rings and on inputs spoiled in one place.

use flnet_conformance::random::Random;
use flnet_conformance::settling::{answer, Run};
use std::io::Write;
use std::path::PathBuf;
use std::process::{Command, Stdio};

fn settle(input: &[u8]) -> String {
    let program = PathBuf::from(env!("CARGO_MANIFEST_DIR")).join("../crates/settle/out/settle");
    let mut child = Command::new(&program)
        .stdin(Stdio::piped())
        .stdout(Stdio::piped())
        .spawn()
        .unwrap_or_else(|error| {
            panic!(
                "{}: {error}; run `rt run` in crates/settle first",
                program.display()
            )
        });
    child.stdin.take().unwrap().write_all(input).unwrap();
    String::from_utf8(child.wait_with_output().unwrap().stdout).unwrap()
}

/// The lines of a ring of so many stations: any numbers, and views among them that are equal, near by, or any.
fn ring(random: &mut Random, count: usize) -> Vec<u8> {
    let mut numbers: Vec<usize> = (1..=254).collect();
    while count < numbers.len() {
        numbers.remove(random.below(numbers.len()));
    }
    let kind = random.below(4);
    let shift = random.below(count);
    let mut lines = Vec::new();
    for (place, number) in numbers.iter().enumerate() {
        let view = match kind {
            0 => shift,
            1 => (place + shift) % count,
            2 => (place + random.below(3)) % count,
            _ => random.below(count),
        };
        writeln!(lines, "{number},{}", numbers[view]).unwrap();
    }
    lines
}

fn same(input: &[u8]) -> Run {
    let wanted = answer(input);
    let printed = settle(input);
    assert!(
        printed == wanted.text,
        "input:\n{}\nprinted:\n{printed}",
        String::from_utf8_lossy(input)
    );
    wanted
}

#[test]
fn settle_prints_what_the_model_prints() {
    let mut random = Random::new(3);
    let runs: Vec<Run> = (0..600)
        .map(|turn| {
            let count = [1, 2, 3, 254, random.between(1, 12), random.between(1, 254)][turn % 6];
            same(&ring(&mut random, count))
        })
        .collect();
    let covers =
        |what: &str, test: fn(&Run) -> bool| assert!(runs.iter().any(test), "no run with {what}");
    covers("no step", |run| run.passes == 0 && run.silences == 0);
    covers("passes alone", |run| 1 < run.passes && run.silences == 0);
    covers("silences before the first pass", |run| {
        run.text.starts_with("what,from,to,views\nS")
    });
    covers("hundreds of passes", |run| 300 < run.passes);
    covers("a hundred silences", |run| 100 <= run.silences);
    covers("a pass to the smallest station", |run| run.wrapped);
    covers("fewer views, but not yet one", |run| run.fell);
}

#[test]
fn settle_names_the_bad_line_that_the_model_names() {
    let mut random = Random::new(4);
    let mut bad = 0;
    for _ in 0..600 {
        let count = random.between(1, 20);
        let mut lines = ring(&mut random, count);
        let place = random.below(lines.len());
        match random.below(4) {
            0 => lines[place] = random.octet(),
            1 => lines.truncate(place),
            2 => lines.insert(place, b"0129,\n"[random.below(6)]),
            _ => drop(lines.remove(place)),
        }
        bad += same(&lines).text.starts_with("bad,") as usize;
    }
    assert!((300..600).contains(&bad), "{bad} bad inputs of 600");
}
