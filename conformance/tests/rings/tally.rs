//! What came up in the rings of one size.

use flnet_conformance::ring::{Faults, Ring};

#[derive(Default)]
pub struct Tally {
    attempts: u32,
    ticks: u64,
    faults: Faults,
    runs: usize,
    agreed_at_once: usize,
    struck: usize,
    most_passes: usize,
    most_silences: usize,
    pub events: usize,
    pub figures: usize,
    longest_gap: u64,
    pub memories: usize,
}

/// What it took to agree, or what came before a station was missed three times running.
#[derive(Default)]
pub struct Settled {
    pub passes: usize,
    pub silences: usize,
    pub events: usize,
    pub struck: bool,
}

impl Tally {
    pub fn add_ring(&mut self, ring: &Ring, attempts: u32) {
        self.attempts += attempts;
        self.ticks += ring.now;
        self.faults.lost += ring.faults.lost;
        self.faults.repeated += ring.faults.repeated;
        self.faults.late += ring.faults.late;
    }

    pub fn add_settled(&mut self, settled: &Settled) {
        self.runs += 1;
        self.agreed_at_once += (settled.events == 0) as usize;
        self.struck += settled.struck as usize;
        self.most_passes = self.most_passes.max(settled.passes);
        self.most_silences = self.most_silences.max(settled.silences);
        self.events += settled.events;
    }

    pub fn add_gap(&mut self, gap: u64) {
        self.figures += 1;
        self.longest_gap = self.longest_gap.max(gap);
    }

    pub fn print(&self, stations: usize) {
        println!(
            "    up in {} attempts and {} ticks, {:?}",
            self.attempts, self.ticks, self.faults
        );
        println!(
            "    {} runs, {} agreed at once, {} struck first",
            self.runs, self.agreed_at_once, self.struck
        );
        println!(
            "    most passes {} of {}, most silences {} of {}",
            self.most_passes,
            stations.pow(3),
            self.most_silences,
            (stations - 1).pow(2)
        );
        println!(
            "    {} events, {} whole memories equal",
            self.events, self.memories
        );
        println!(
            "    {} figures equal to the measured gap, the longest {} ticks",
            self.figures, self.longest_gap
        );
    }
}
