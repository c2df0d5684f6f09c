//! All tests are one program, so that they are linked once and run side by side.
//!
//! `cargo test --release -- --nocapture` prints seeds and counts. FLNET_SEED=number repeats the
//! random calls, or the rings, of another seed.

mod any_state;
mod calls;
mod case;
mod example;
mod paper;
mod repeats;
mod rings;
mod rules;
mod settle;
mod ticks;
mod uncovered;
mod watch;

fn given_seed() -> Option<u64> {
    let text = std::env::var("FLNET_SEED").ok()?;
    Some(text.parse().expect("FLNET_SEED is a number"))
}
