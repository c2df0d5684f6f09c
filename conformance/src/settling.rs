//! A plain model of the program `settle`, written from paper 01: the views are counted anew after each step.

use std::collections::BTreeSet;
use std::fmt::Write;

/// A station's number and its view.
pub type Pair = (usize, usize);

/// The ring that an input gives, or the number of its first bad line.
pub fn read(input: &[u8]) -> Result<Vec<Pair>, usize> {
    let mut ring: Vec<Pair> = Vec::new();
    for (index, line) in input.split_inclusive(|octet| *octet == b'\n').enumerate() {
        match pair(line) {
            Some(pair) if ring.last().map_or(true, |last| last.0 < pair.0) => ring.push(pair),
            _ => return Err(index + 1),
        }
    }
    let stations: BTreeSet<usize> = ring.iter().map(|pair| pair.0).collect();
    match ring.iter().position(|pair| !stations.contains(&pair.1)) {
        Some(index) => Err(index + 1),
        None if ring.is_empty() => Err(0),
        None => Ok(ring),
    }
}

fn pair(line: &[u8]) -> Option<Pair> {
    let text = std::str::from_utf8(line.strip_suffix(b"\n")?).ok()?;
    let (station, view) = text.split_once(',')?;
    Some((number(station)?, number(view)?))
}

fn number(digits: &str) -> Option<usize> {
    let plain = digits.len() <= 3 && digits.bytes().all(|digit| digit.is_ascii_digit());
    let value = plain.then(|| digits.parse().ok()).flatten()?;
    (!digits.starts_with('0') && (1..=254).contains(&value)).then_some(value)
}

/// What the run of a ring has in it.
#[derive(Default)]
pub struct Run {
    pub text: String,
    pub passes: usize,
    pub silences: usize,
    /// The largest station passed the token to the smallest.
    pub wrapped: bool,
    /// A step left more different views than one, and fewer than it found.
    pub fell: bool,
}

/// The output for an input, and the run that it has.
pub fn answer(input: &[u8]) -> Run {
    match read(input) {
        Ok(ring) => run(ring),
        Err(line) => Run {
            text: format!("bad,{line}\n"),
            ..Run::default()
        },
    }
}

fn different(ring: &[Pair]) -> usize {
    ring.iter()
        .map(|pair| pair.1)
        .collect::<BTreeSet<_>>()
        .len()
}

fn next(ring: &[Pair], number: usize) -> usize {
    let larger = ring.iter().map(|pair| pair.0).find(|other| number < *other);
    larger.unwrap_or(ring[0].0)
}

fn run(mut ring: Vec<Pair>) -> Run {
    let mut made = Run {
        text: String::from("what,from,to,views\n"),
        ..Run::default()
    };
    while 1 < different(&ring) {
        let found = different(&ring);
        let still = ring.clone();
        let mut said = (0, 0);
        if let Some(&(from, _)) = still.iter().find(|pair| pair.0 == pair.1) {
            let to = next(&still, from);
            for (_, view) in &mut ring {
                *view = if *view == from { to } else { to.min(*view) };
            }
            said = (from, to);
            made.passes += 1;
            made.wrapped |= to <= from;
        } else {
            for (_, view) in &mut ring {
                *view = next(&still, *view);
            }
            made.silences += 1;
        }
        let views = different(&ring);
        made.fell |= 1 < views && views < found;
        let kind = if said == (0, 0) { 'S' } else { 'P' };
        writeln!(made.text, "{kind},{},{},{views}", said.0, said.1).unwrap();
    }
    let (passes, silences) = (made.passes, made.silences);
    writeln!(made.text, "E,{passes},{silences},{}", different(&ring)).unwrap();
    made
}
